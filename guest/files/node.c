/* The tree of files. */
#include "node.h"
#include "../source/clock.h"
#include "../source/locks.h"
#include "frames.h"
#include <errno.h>
#include <stdlib.h>
#include <string.h>
#include <sys/stat.h>

static struct __lock files_lock;
static struct node root, scratch, devices, nothing;
struct node *__guest_working = &__guest_folder;

static struct node *plain_files;
static uint16_t last_number = 8; /* those of the tree and of the console come before */

/* /guest is the working folder; what is in /tmp doesn't go out; /dev has null. */
#define FIXED(number_, name_, kind_, mode_, ...) \
    {.name = name_, .kind = kind_, .mode = mode_, .number = number_, .uses = 1, .is_fixed = true, __VA_ARGS__}

static struct node root = FIXED(1, "", FOLDER, 0755, .folder = &root, .first = &__guest_folder);
struct node __guest_folder = FIXED(2, "guest", FOLDER, 0755, .folder = &root, .next = &scratch, .is_out = true);
static struct node scratch = FIXED(3, "tmp", FOLDER, 01777, .folder = &root, .next = &devices);
static struct node devices = FIXED(4, "dev", FOLDER, 0755, .folder = &root, .first = &nothing);
static struct node nothing = FIXED(5, "null", NOTHING, 0666, .folder = &devices);

/* --- The lock ----------------------------------------------------------------------------------------------------- */

/* Before all other constructors, which may open files. */
__attribute__((constructor(101))) static void begin(void) {
    pthread_mutexattr_t attributes = {.type = PTHREAD_MUTEX_RECURSIVE};
    pthread_mutex_init(&files_lock.mutex, &attributes);
    __guest_begin_frames();
    __guest_take_given_files();
}

int __guest_files_lock(void) {
    int state;
    pthread_setcancelstate(PTHREAD_CANCEL_DISABLE, &state);
    pthread_mutex_lock(&files_lock.mutex);
    return state;
}

void __guest_files_unlock(int state) {
    pthread_mutex_unlock(&files_lock.mutex);
    pthread_setcancelstate(state, NULL);
}

int __guest_answer(int result) {
    if (result >= 0) return result;
    errno = -result;
    return -1;
}

/* --- Names -------------------------------------------------------------------------------------------------------- */

static struct node *child_of(const struct node *folder, const char *name, size_t length) {
    for (struct node *child = folder->first; child; child = child->next) {
        if (strncmp(child->name, name, length) == 0 && child->name[length] == 0) return child;
    }
    return NULL;
}

static bool is_name(const char *name, size_t length, const char *wanted) {
    return length == strlen(wanted) && strncmp(name, wanted, length) == 0;
}

bool __guest_is_reserved(const struct place *place) {
    static const char *const reserved[] = {"stdout", "stderr", ".ckrt-files", ".ckrt-files.new"};
    for (size_t i = 0; place->folder == &__guest_folder && i < sizeof reserved / sizeof *reserved; i++) {
        if (is_name(place->name, place->length, reserved[i])) return true;
    }
    return false;
}

/* Goes on by one part of a name, in the folder where the place is. */
static void step(struct place *place, const char *name, size_t length) {
    struct node *folder = place->node;
    *place = (struct place){.node = folder};
    if (is_name(name, length, ".")) return;
    if (is_name(name, length, "..")) {
        if (folder->folder) place->node = folder->folder;
        return;
    }
    *place = (struct place){.folder = folder, .name = name, .length = length, .node = child_of(folder, name, length)};
}

int __guest_find(struct node *begin, const char *path, struct place *place) {
    if (!*path) return -ENOENT;
    if (strlen(path) > MOST_PATH) return -ENAMETOOLONG;
    *place = (struct place){.node = *path == '/' ? &root : begin};
    while (path += strspn(path, "/"), *path) {
        size_t length = strcspn(path, "/");
        if (!place->node) return -ENOENT;
        if (place->node->kind != FOLDER) return -ENOTDIR;
        if (length > MOST_NAME) return -ENAMETOOLONG;
        step(place, path, length);
        path += length;
    }
    if (place->folder && !place->folder->folder) return -ENOENT; /* it was removed */
    place->needs_folder = path[-1] == '/';
    return place->needs_folder && place->node && place->node->kind != FOLDER ? -ENOTDIR : 0;
}

int __guest_find_node(struct node *begin, const char *path, struct node **node) {
    struct place place;
    int error = __guest_find(begin, path, &place);
    *node = error ? NULL : place.node;
    return error ? error : place.node ? 0 : -ENOENT;
}

static size_t part_bytes(const struct node *node) { return strlen(node->name) + 1; }

/* The most bytes that names from a node on have, without its own. Without a call of itself, since a thread's stack is short. */
static size_t longest_below(const struct node *top) {
    size_t bytes = 0, most = 0;
    for (const struct node *node = top->first; node;) {
        bytes += part_bytes(node);
        if (bytes > most) most = bytes;
        if (node->first) {
            node = node->first;
            continue;
        }
        bytes -= part_bytes(node);
        while (!node->next && node->folder != top) {
            node = node->folder;
            bytes -= part_bytes(node);
        }
        node = node->next;
    }
    return most;
}

bool __guest_has_room_for_name(const struct place *place, const struct node *node) {
    size_t bytes = place->length + 1;
    for (const struct node *folder = place->folder; folder != &root; folder = folder->folder) bytes += part_bytes(folder);
    return bytes + (node ? longest_below(node) : 0) <= MOST_PATH;
}

/* --- Nodes -------------------------------------------------------------------------------------------------------- */

static void hang(struct node *node, struct node *folder) {
    struct node **last = &folder->first;
    while (*last) last = &(*last)->next;
    *last = node;
    node->folder = folder;
    node->next = NULL;
    folder->changed = __guest_now();
}

static void take_down(struct node *node) {
    struct node **at = &node->folder->first;
    while (*at != node) at = &(*at)->next;
    *at = node->next;
    node->folder->changed = __guest_now();
    node->folder = node->next = NULL;
}

struct node *__guest_make_node(const struct place *place, enum kind kind, mode_t mode) {
    struct node *node = calloc(1, sizeof *node);
    char *name = node && place->folder ? strndup(place->name, place->length) : NULL;
    if (!node || (place->folder && !name)) {
        free(node);
        return NULL;
    }
    *node = (struct node){.name = name, .kind = kind, .mode = mode, .number = ++last_number};
    node->accessed = node->changed = __guest_now();
    if (kind == PLAIN) {
        node->next_plain = plain_files;
        plain_files = node;
    }
    if (place->folder) hang(node, place->folder);
    return node;
}

void __guest_move_node(struct node *node, const struct place *place, char *name) {
    take_down(node);
    free(node->name);
    node->name = name;
    hang(node, place->folder);
}

static void free_node(struct node *node) {
    struct node **at = &plain_files;
    while (*at && *at != node) at = &(*at)->next_plain;
    if (*at) *at = node->next_plain;
    __guest_content_free(&node->content);
    free(node->name);
    free(node);
}

void __guest_remove_node(struct node *node) {
    take_down(node);
    if (node->uses == 0) free_node(node);
}

void __guest_end_use(struct node *node) {
    if (--node->uses == 0 && !node->folder) free_node(node);
}

/* --- What goes out ------------------------------------------------------------------------------------------------ */

bool __guest_goes_out(const struct node *node) {
    while (node && node != &__guest_folder && node != &root) node = node->folder;
    return node == &__guest_folder;
}

/* Puts what a file holds. */
static void put_content(const struct node *node) {
    uint32_t size = node->content.size, part;
    __guest_put_size(node, size);
    for (uint32_t at = 0; at < size; at += part) {
        part = size - at;
        const char *from = __guest_content_at(&node->content, at, &part);
        if (from) __guest_put_write(node, at, from, part);
    }
}

void __guest_put_out(struct node *node) {
    if (node->is_out || !__guest_goes_out(node)) return;
    /* The outermost folder that isn't out first. */
    while (!node->is_out) {
        struct node *outermost = node;
        while (!outermost->folder->is_out) outermost = outermost->folder;
        outermost->is_out = true;
        if (outermost->kind == FOLDER) __guest_put_folder(outermost);
        else put_content(outermost);
    }
}

/* Goes over all below a folder without a call of itself, since a thread's stack is short. */
void __guest_put_out_all(struct node *top) {
    struct node *node = top;
    if (!__guest_goes_out(top)) return;
    do {
        __guest_put_out(node);
        if (node->first) node = node->first;
        else {
            while (node != top && !node->next) node = node->folder;
            if (node != top) node = node->next;
        }
    } while (node != top);
}

struct node *__guest_make_given(const char *path, enum kind kind) {
    struct node *folder = *path == '/' ? &root : &__guest_folder;
    while (path += strspn(path, "/"), *path) {
        size_t length = strcspn(path, "/");
        bool is_last = !path[length + strspn(path + length, "/")];
        struct place place = {.folder = folder, .name = path, .length = length};
        struct node *node = child_of(folder, path, length);
        if (length > MOST_NAME || is_name(path, length, "..") || __guest_is_reserved(&place)) return NULL;
        if (!is_name(path, length, ".")) {
            enum kind wanted = is_last ? kind : FOLDER;
            if (!node && __guest_has_room_for_name(&place, NULL)) node = __guest_make_node(&place, wanted, wanted == FOLDER ? 0755 : 0644);
            if (!node || node->kind != wanted) return NULL;
            folder = node;
        }
        path += length;
    }
    return folder;
}

/* --- Room for others ---------------------------------------------------------------------------------------------- */

static bool may_give_up(const struct node *node) {
    return node->content.kept > 0 && !node->content.was_open_to_read && node->is_out;
}

size_t __guest_bytes_to_give_up(void) {
    size_t bytes = 0;
    for (struct node *node = plain_files; node; node = node->next_plain) {
        if (may_give_up(node)) bytes += node->content.kept * BLOCK_BYTES;
    }
    return bytes;
}

bool __guest_give_up(void) {
    struct node *most = NULL;
    for (struct node *node = plain_files; node; node = node->next_plain) {
        if (may_give_up(node) && (!most || node->content.kept > most->content.kept)) most = node;
    }
    if (!most) return false;
    uint32_t size = most->content.size;
    __guest_content_free(&most->content);
    most->content.size = size;
    most->content.is_lost = true;
    return true;
}
