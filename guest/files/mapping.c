/*
 * mmap of files, private and to be read alone. guest/image lets the files of a program with mmap begin at a page and end with
 * zeros up to the next one: there such a file is mapped where it lies. What lies in the heap is copied: POSIX leaves open
 * whether a private mapping shows what is written later.
 */
#include "../source/clock.h"
#include "descriptors.h"
#include <errno.h>
#include <malloc.h>
#include <stdlib.h>
#include <string.h>
#include <sys/mman.h>

enum { PAGE = BLOCK_BYTES };

/* A copy of a file's pages, which is freed once none of them is mapped any more. */
struct copy {
    struct copy *next;
    char *first;
    uint32_t pages, mapped;
    bool is_gone[]; /* of each page */
};

static struct copy *copies;

static uint32_t pages_of(size_t bytes) { return (uint32_t)(bytes / PAGE + (bytes % PAGE > 0)); }

/* The words of a call alone. */
static int check_words(size_t length, int flags, off_t offset) {
    int sharing = flags & (MAP_PRIVATE | MAP_SHARED);
    if (length == 0 || (sharing != MAP_PRIVATE && sharing != MAP_SHARED)) return -EINVAL;
    if (flags & ~(MAP_PRIVATE | MAP_SHARED | MAP_FIXED)) return -EINVAL;
    return offset < 0 || offset % PAGE ? -EINVAL : 0;
}

/* Bytes behind the page of a file's end can't be mapped: in a guest nothing would come of a use of them, where POSIX has SIGBUS. */
static int check_file(const struct open_file *file, size_t length, int protection, int flags, off_t offset) {
    if (!file) return -EBADF;
    if (!reads(file) || ((flags & MAP_SHARED) && (protection & PROT_WRITE) && !writes(file))) return -EACCES;
    if (file->node->kind != PLAIN) return -ENODEV;
    if (flags != MAP_PRIVATE || protection != PROT_READ) return -ENOTSUP;
    if (length > MOST_SIZE - (size_t)offset) return -EOVERFLOW;
    return (uint32_t)offset / PAGE + pages_of(length) > pages_of(file->node->content.size) ? -ENXIO : 0;
}

/* NULL: the heap has no room. */
static char *make_copy(const struct content *content, size_t length, uint32_t offset) {
    uint32_t pages = pages_of(length), bytes = pages * PAGE;
    struct copy *copy = calloc(1, sizeof *copy + pages);
    char *first = copy ? memalign(PAGE, bytes) : NULL;
    if (!first) {
        free(copy);
        return NULL;
    }
    memset(first, 0, bytes);
    __guest_content_read(content, offset, first, bytes);
    *copy = (struct copy){.next = copies, .first = first, .pages = pages, .mapped = pages};
    copies = copy;
    return first;
}

static int map(struct node *node, size_t length, uint32_t offset, void **to) {
    const struct content *content = &node->content;
    bool lies_in_pages = content->given && !content->frees_given && (uintptr_t)content->given % PAGE == 0;
    *to = lies_in_pages ? (char *)content->given + offset : make_copy(content, length, offset);
    if (!*to) return -ENOMEM;
    node->accessed = __guest_now();
    return 0;
}

void *mmap(void *address, size_t length, int protection, int flags, int number, off_t offset) {
    void *mapped = MAP_FAILED;
    int state = __guest_files_lock(), error = check_words(length, flags, offset);
    struct open_file *file = __guest_open_file(number);
    (void)address; /* but a wish */
    if (!error) error = check_file(file, length, protection, flags, offset);
    if (!error) error = map(file->node, length, (uint32_t)offset, &mapped);
    __guest_files_unlock(state);
    return __guest_answer(error) < 0 ? MAP_FAILED : mapped;
}

/* Unmaps the pages of a copy between two addresses. */
static void unmap(struct copy *copy, uint64_t begin, uint64_t end) {
    for (uint32_t page = 0; page < copy->pages; page++) {
        uint64_t at = (uintptr_t)copy->first + (uint64_t)page * PAGE;
        if (at < begin || at >= end || copy->is_gone[page]) continue;
        copy->is_gone[page] = true;
        copy->mapped--;
    }
}

/* What is mapped where it lies takes no memory, so nothing has to be done for it. */
int munmap(void *address, size_t length) {
    uint64_t begin = (uintptr_t)address, end = begin + length;
    if (length == 0 || begin % PAGE || end > (uint64_t)UINT32_MAX + 1) return __guest_answer(-EINVAL);
    int state = __guest_files_lock();
    for (struct copy **at = &copies, *copy; (copy = *at);) {
        unmap(copy, begin, end);
        if (copy->mapped) {
            at = &copy->next;
            continue;
        }
        *at = copy->next;
        free(copy->first);
        free(copy);
    }
    __guest_files_unlock(state);
    return 0;
}
