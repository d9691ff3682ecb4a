/* What a file holds, in blocks of the heap, or as it lies in the image. */
#include "node.h"
#include <errno.h>
#include <stdlib.h>
#include <string.h>

static uint32_t least(uint32_t one, uint32_t other) { return one < other ? one : other; }

/* Bytes beyond the size are zeros in every block. */
static const char *block_of(const struct content *content, uint32_t number) {
    return number < content->places ? content->blocks[number] : NULL;
}

const char *__guest_content_at(const struct content *content, uint32_t offset, uint32_t *count) {
    if (content->given) return content->given + offset;
    const char *block = block_of(content, offset / BLOCK_BYTES);
    *count = least(*count, BLOCK_BYTES - offset % BLOCK_BYTES);
    return block ? block + offset % BLOCK_BYTES : NULL;
}

int __guest_content_read(const struct content *content, uint32_t offset, void *to, uint32_t count) {
    char *at = to, *end;
    if (content->is_lost) return -EIO;
    if (offset >= content->size) return 0;
    end = at + least(count, content->size - offset);
    while (at < end) {
        uint32_t part = (uint32_t)(end - at);
        const char *from = __guest_content_at(content, offset, &part);
        if (from) memcpy(at, from, part);
        else memset(at, 0, part);
        at += part;
        offset += part;
    }
    return (int)(at - (char *)to);
}

/* Room for the places of this many blocks. False: the heap has none, or the file has given up its bytes for it. */
static bool make_places(struct content *content, uint32_t count) {
    if (count <= content->places) return true;
    uint32_t places = content->places < 4 ? 4 : content->places;
    while (places < count) places *= 2;
    char **grown = calloc(places, sizeof *grown);
    if (!grown || content->is_lost) {
        free(grown);
        return false;
    }
    if (content->places) memcpy(grown, content->blocks, content->places * sizeof *grown);
    free(content->blocks);
    content->blocks = grown;
    content->places = places;
    return true;
}

/* The block of an offset; NULL: the heap has no room for it, or the file has given up its bytes. */
static char *make_block(struct content *content, uint32_t number) {
    if (content->is_lost || !make_places(content, number + 1)) return NULL;
    if (content->blocks[number]) return content->blocks[number];
    char *block = calloc(1, BLOCK_BYTES);
    if (!block || content->is_lost) {
        free(block);
        return NULL;
    }
    content->kept++;
    return content->blocks[number] = block;
}

/* Answers how many bytes it has taken. */
static uint32_t store(struct content *content, uint32_t offset, const char *from, uint32_t count) {
    uint32_t stored = 0;
    while (stored < count) {
        uint32_t at = offset + stored, part = least(count - stored, BLOCK_BYTES - at % BLOCK_BYTES);
        char *block = make_block(content, at / BLOCK_BYTES);
        if (!block) break;
        memcpy(block + at % BLOCK_BYTES, from + stored, part);
        stored += part;
    }
    return content->is_lost ? count : stored;
}

int __guest_content_write(struct content *content, uint32_t offset, const void *from, uint32_t count) {
    if (count == 0) return 0;
    if (offset >= MOST_SIZE) return -EFBIG;
    int error = __guest_content_own(content);
    if (error) return error;
    uint32_t stored = store(content, offset, from, least(count, MOST_SIZE - offset));
    if (stored == 0) return -ENOSPC;
    if (offset + stored > content->size) content->size = offset + stored;
    return (int)stored;
}

/* Frees the blocks behind a size, and makes the bytes behind it zeros. */
static void cut(struct content *content, uint32_t size) {
    uint32_t first = size / BLOCK_BYTES, rest = size % BLOCK_BYTES;
    if (rest && block_of(content, first)) memset(content->blocks[first] + rest, 0, BLOCK_BYTES - rest);
    for (uint32_t i = first + (rest > 0); i < content->places; i++) {
        content->kept -= content->blocks[i] != NULL;
        free(content->blocks[i]);
        content->blocks[i] = NULL;
    }
}

int __guest_content_resize(struct content *content, uint32_t size) {
    if (size > MOST_SIZE) return -EFBIG;
    if (size == 0) {
        __guest_content_free(content);
        content->is_lost = false;
        return 0;
    }
    int error = __guest_content_own(content);
    if (error) return error;
    if (size < content->size) cut(content, size);
    content->size = size;
    return 0;
}

int __guest_content_own(struct content *content) {
    struct content own = {.was_open_to_read = true};
    if (!content->given) return 0;
    if (store(&own, 0, content->given, content->size) < content->size) {
        __guest_content_free(&own);
        return -ENOSPC;
    }
    own.size = content->size;
    own.was_open_to_read = content->was_open_to_read;
    __guest_content_free(content);
    *content = own;
    return 0;
}

void __guest_content_free(struct content *content) {
    for (uint32_t i = 0; i < content->places; i++) free(content->blocks[i]);
    free(content->blocks);
    if (content->frees_given) free((char *)content->given);
    *content = (struct content){.was_open_to_read = content->was_open_to_read, .is_lost = content->is_lost};
}
