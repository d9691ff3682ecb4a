/* Reads a text line by line, has its words entered by workers, and prints an index of them. */
#include "ring.h"
#include "table.h"
#include "words.h"
#include <stdio.h>
#include <stdlib.h>
#include <string.h>
#include <sys/types.h>
#include <unistd.h>

#define WORKERS 3

static struct ring ring;
static struct table table;
static size_t least_letters = 3;

static void enter(struct line line) {
    size_t length;
    for (char *rest = line.text, *word; (word = next_word(&rest, &length));) {
        if (length < least_letters) continue;
        if (table_add(&table, word, length, line.number) != 0) {
            fprintf(stderr, "index: no memory at line %d\n", line.number);
            exit(1);
        }
    }
}

static void *work(void *unused) {
    (void)unused;
    for (struct line line; (line = ring_take(&ring)).text; free(line.text)) enter(line);
    return NULL;
}

/* Hands each line of the input to the workers, and answers how many there were. */
static int read_lines(void) {
    char *text = NULL;
    size_t room = 0;
    int number = 0;
    while (getline(&text, &room, stdin) != -1) {
        struct line line = {strdup(text), ++number};
        if (!line.text) break;
        ring_put(&ring, line);
    }
    free(text);
    return number;
}

static void print_word(const struct word *word) {
    printf("%-16s", word->text);
    for (size_t i = 0; i < word->count; i++) printf("%s%d", i ? ", " : "", word->lines[i]);
    putchar('\n');
}

static int print_index(int lines) {
    size_t count;
    struct word **words = table_sorted(&table, &count);
    if (!words) return 1;
    for (size_t i = 0; i < count; i++) print_word(words[i]);
    printf("%d lines, %zu words\n", lines, count);
    free(words);
    return 0;
}

int main(int count, char **arguments) {
    pthread_t workers[WORKERS];
    for (int option; (option = getopt(count, arguments, "m:")) != -1;) {
        if (option != 'm') {
            fprintf(stderr, "usage: index [-m LETTERS] < TEXT\n");
            return 2;
        }
        least_letters = (size_t)atoi(optarg);
    }
    ring_init(&ring);
    table_init(&table);
    for (int i = 0; i < WORKERS; i++) {
        if (pthread_create(&workers[i], NULL, work, NULL) != 0) return 1;
    }
    int lines = read_lines();
    for (int i = 0; i < WORKERS; i++) ring_put(&ring, (struct line){NULL, 0});
    for (int i = 0; i < WORKERS; i++) pthread_join(workers[i], NULL);
    int status = print_index(lines);
    table_destroy(&table);
    ring_destroy(&ring);
    return status;
}
