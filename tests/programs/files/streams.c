/* The calls of <stdio.h> on files: modes, offsets, buffers, ends and errors. */
#include "telling.h"
#include <fcntl.h>
#include <stdlib.h>
#include <unistd.h>

/* What a file has, on one line. */
static void show(const char *name) {
    FILE *file = fopen(name, "rb");
    int byte;
    printf("%s:", name);
    if (!file) {
        printf(" %s\n", error_name(errno));
        return;
    }
    while ((byte = getc(file)) != EOF) printf(byte < 32 ? " \\%d" : " %c", byte);
    printf(" (%d %d)\n", feof(file) != 0, ferror(file));
    fclose(file);
}

static void fill(const char *name, const char *text) {
    FILE *file = fopen(name, "w");
    fputs(text, file);
    TELL(fclose(file));
}

static void modes(void) {
    static const char *const all[] = {"r", "w", "a", "r+", "w+", "a+", "rb", "wb+", "a+b", "wx", "q", ""};
    for (size_t i = 0; i < sizeof all / sizeof *all; i++) {
        char text[8] = "";
        fill("modes", "abcdef");
        errno = 0;
        FILE *file = fopen("modes", all[i]);
        if (!file) {
            printf("mode %s: %s\n", all[i], error_name(errno));
            continue;
        }
        errno = 0;
        size_t taken = fread(text, 1, 3, file);
        printf("mode %s: read %d %s %s", all[i], (int)taken, text, taken ? "" : errno ? error_name(errno) : "end");
        rewind(file);
        errno = 0;
        int put = fputs("XY", file);
        printf(", put %d %s, at %ld", put < 0 ? -1 : 0, put < 0 ? error_name(errno) : "", ftell(file));
        printf(", close %d\n", fclose(file));
        show("modes");
    }
    TELL_NULL(fopen("missing", "r"));
    TELL_NULL(fopen("missing", "r+"));
    TELL_NULL(fopen("missing/file", "w"));
    TELL_NULL(fopen("modes/file", "w"));
    TELL_NULL(fopen("", "w"));
    TELL_NULL(fopen(".", "w"));
    TELL_NULL(fopen("new/", "w"));
}

static void offsets(void) {
    char line[32];
    fpos_t place;
    FILE *file = fopen("offsets", "w+");
    TELL(fprintf(file, "one\ntwo %d\nthree\n", 22));
    TELL(ftell(file));
    TELL(fseek(file, 4, SEEK_SET));
    TELL_NULL(fgets(line, sizeof line, file));
    printf("%s", line);
    TELL(ftell(file));
    TELL(fgetpos(file, &place));
    TELL(getc(file));
    TELL(ungetc('T', file));
    TELL(ftell(file));
    TELL(getc(file));
    TELL(fsetpos(file, &place));
    TELL(fscanf(file, "%31s", line));
    puts(line);
    TELL(fseek(file, -3, SEEK_END));
    TELL(fputs("EE\nmore", file) < 0);
    TELL(fseek(file, -2, SEEK_CUR));
    TELL(getc(file));
    TELL(fseek(file, 30, SEEK_SET));
    TELL(putc('!', file));
    TELL(fseek(file, -1, SEEK_SET));
    TELL(fseek(file, 0, 9));
    TELL(fflush(file));
    TELL(fclose(file));
    show("offsets");
}

static void ends(void) {
    FILE *file;
    fill("ends", "ab");
    file = fopen("ends", "r");
    TELL(getc(file) + getc(file));
    TELL(feof(file) != 0);
    errno = 0;
    TELL(getc(file) == EOF);
    TELL(feof(file) != 0);
    TELL(ungetc('c', file));
    TELL(feof(file) != 0);
    TELL(getc(file));
    TELL(getc(file) == EOF);
    clearerr(file);
    TELL(feof(file) != 0);
    errno = 0;
    TELL(fputs("no", file) < 0);
    TELL(ferror(file) != 0);
    TELL(fclose(file));
}

static void buffers(void) {
    static char own[16], large[1024];
    FILE *file = fopen("buffers", "w"), *reader = fopen("buffers", "r");
    TELL(setvbuf(file, own, _IOFBF, sizeof own));
    TELL(fputs("0123456789", file) < 0);
    TELL(fflush(file));
    TELL(getc(reader));
    TELL(fclose(file));
    file = fopen("buffers", "a");
    TELL(setvbuf(file, NULL, _IONBF, 0));
    TELL(fputs("now", file) < 0);
    TELL(fseek(reader, -3, SEEK_END));
    TELL(getc(reader));
    TELL(fclose(file));
    file = fopen("buffers", "a");
    TELL(setvbuf(file, large, _IOLBF, sizeof large));
    TELL(fputs("line", file) < 0);
    TELL(fseek(reader, 0, SEEK_END) || ftell(reader) != 13);
    TELL(putc('\n', file));
    TELL(fseek(reader, 0, SEEK_END) || ftell(reader) != 18);
    TELL(fclose(file));
    TELL(fclose(reader));
    show("buffers");
}

static void blocks(void) {
    static int numbers[3000], read[3000];
    FILE *file = fopen("blocks", "w+b");
    for (int i = 0; i < 3000; i++) numbers[i] = i * i;
    TELL(fwrite(numbers, sizeof *numbers, 3000, file));
    rewind(file);
    TELL(fread(read, sizeof *read, 7, file));
    TELL(fread(read + 7, 1, 5, file));
    TELL(fread((char *)(read + 7) + 5, 1, sizeof read, file));
    TELL(memcmp(numbers, read, sizeof read));
    TELL(fread(read, 4, 1, file));
    TELL(fread(read, 0, 1, file));
    TELL(fclose(file));
}

static void others(void) {
    FILE *file = tmpfile();
    char text[8] = "";
    TELL(fputs("temporary", file) < 0);
    rewind(file);
    TELL(fread(text, 1, 4, file));
    puts(text);
    TELL(fclose(file));

    int number = open("described", O_RDWR | O_CREAT, 0666);
    TELL_NULL(file = fdopen(number, "w"));
    TELL(fileno(file) == number);
    TELL(fprintf(file, "by %s\n", "fdopen"));
    TELL(fclose(file));
    TELL(close(number));
    TELL_NULL(fdopen(number, "r"));
    TELL_NULL(fdopen(0, "nonsense"));
    show("described");

    file = fopen("first", "w");
    fputs("in the first\n", file);
    TELL_NULL(freopen("second", "w", file));
    fputs("in the second\n", file);
    TELL(fclose(file));
    show("first");
    show("second");
    TELL(rename("second", "third"));
    TELL(rename("second", "third"));
    TELL(remove("first"));
    TELL(remove("first"));
}

/* The last one: stdout goes into a file of another name. */
static void redirect(void) {
    printf("before\n");
    TELL_NULL(freopen("printed", "w", stdout));
    printf("behind\n");
    fprintf(stderr, "an error %d\n", 1);
    fprintf(stderr, "and half of one");
}

int main(void) {
    modes();
    offsets();
    ends();
    buffers();
    blocks();
    others();
    redirect();
    return 7;
}
