#include "table.h"
#include <stdlib.h>
#include <string.h>

static unsigned hash(const char *text, size_t length) {
    unsigned sum = 2166136261u;
    for (size_t i = 0; i < length; i++) sum = (sum ^ (unsigned char)text[i]) * 16777619u;
    return sum;
}

void table_init(struct table *table) {
    memset(table, 0, sizeof *table);
    for (int i = 0; i < TABLE_PARTS; i++) pthread_rwlock_init(&table->parts[i].lock, NULL);
}

static void free_word(struct word *word) {
    free(word->text);
    free(word->lines);
    free(word);
}

void table_destroy(struct table *table) {
    for (int i = 0; i < TABLE_PARTS; i++) {
        struct part *part = &table->parts[i];
        for (int slot = 0; slot < TABLE_SLOTS; slot++) {
            struct word *word = part->slots[slot];
            while (word) {
                struct word *next = word->next;
                free_word(word);
                word = next;
            }
        }
        pthread_rwlock_destroy(&part->lock);
    }
}

static struct word *find(const struct part *part, unsigned slot, const char *text, size_t length) {
    struct word *word = part->slots[slot];
    while (word && (strncmp(word->text, text, length) != 0 || word->text[length])) word = word->next;
    return word;
}

static struct word *insert(struct part *part, unsigned slot, const char *text, size_t length) {
    struct word *word = calloc(1, sizeof *word);
    if (word && !(word->text = strndup(text, length))) {
        free(word);
        word = NULL;
    }
    if (!word) return NULL;
    word->next = part->slots[slot];
    part->slots[slot] = word;
    part->count++;
    return word;
}

static int stand_in(struct word *word, int line) {
    if (word->count == word->room) {
        size_t room = word->room ? 2 * word->room : 2;
        int *lines = realloc(word->lines, room * sizeof *lines);
        if (!lines) return -1;
        word->lines = lines;
        word->room = room;
    }
    word->lines[word->count++] = line;
    return 0;
}

int table_add(struct table *table, const char *text, size_t length, int line) {
    unsigned sum = hash(text, length), slot = sum / TABLE_PARTS % TABLE_SLOTS;
    struct part *part = &table->parts[sum % TABLE_PARTS];
    pthread_rwlock_wrlock(&part->lock);
    struct word *word = find(part, slot, text, length);
    if (!word) word = insert(part, slot, text, length);
    int result = word ? stand_in(word, line) : -1;
    pthread_rwlock_unlock(&part->lock);
    return result;
}

static int by_number(const void *first, const void *second) {
    int one = *(const int *)first, other = *(const int *)second;
    return (one > other) - (one < other);
}

static int by_text(const void *first, const void *second) {
    return strcmp((*(struct word *const *)first)->text, (*(struct word *const *)second)->text);
}

/* A line that has a word twice is named once. */
static void sort_lines(struct word *word) {
    size_t kept = 0;
    qsort(word->lines, word->count, sizeof *word->lines, by_number);
    for (size_t i = 0; i < word->count; i++) {
        if (i == 0 || word->lines[i] != word->lines[i - 1]) word->lines[kept++] = word->lines[i];
    }
    word->count = kept;
}

static struct word **copy_part(struct part *part, struct word **to) {
    pthread_rwlock_rdlock(&part->lock);
    for (int slot = 0; slot < TABLE_SLOTS; slot++) {
        for (struct word *word = part->slots[slot]; word; word = word->next) *to++ = word;
    }
    pthread_rwlock_unlock(&part->lock);
    return to;
}

struct word **table_sorted(struct table *table, size_t *count) {
    *count = 0;
    for (int i = 0; i < TABLE_PARTS; i++) *count += table->parts[i].count;
    struct word **words = malloc((*count + 1) * sizeof *words), **end = words;
    if (!words) return NULL;
    for (int i = 0; i < TABLE_PARTS; i++) end = copy_part(&table->parts[i], end);
    for (size_t i = 0; i < *count; i++) sort_lines(words[i]);
    qsort(words, *count, sizeof *words, by_text);
    return words;
}
