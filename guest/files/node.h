/*
 * The files of a guest: a tree in memory. What is done to a file below the working folder goes out as a frame (frames.h),
 * of which ckrt-files makes it outside.
 *
 * One lock guards the tree and the table of descriptors. No call waits for input while it has it, and no thread is
 * cancelled then. Calls that may fail answer 0 or more, or an error number of <errno.h> with a minus.
 */
#ifndef GUEST_FILES_NODE_H
#define GUEST_FILES_NODE_H

#include <stdbool.h>
#include <stddef.h>
#include <stdint.h>
#include <sys/types.h>

enum { MOST_NAME = 255, MOST_PATH = 1023, BLOCK_BYTES = 4096, MOST_SIZE = 0x7FFFFFFF };

/* --- The lock ----------------------------------------------------------------------------------------------------- */

/* Answers the state of cancellation, for `__guest_files_unlock`. The lock may be taken by its owner again. */
int __guest_files_lock(void);
void __guest_files_unlock(int state);

/* What a call answers to the program: -1 with `errno` for an error. */
int __guest_answer(int result);

/* --- What a file holds -------------------------------------------------------------------------------------------- */

struct content {
    const char *given;     /* where the bytes lie in one piece, as in the image; NULL: in blocks */
    char **blocks;         /* NULL in the place of one that has nothing but zeros */
    uint32_t places;       /* of `blocks` */
    uint32_t kept;         /* how many blocks there are */
    uint32_t size;
    bool was_open_to_read; /* it never gives up its bytes */
    bool is_lost;          /* it has given them up, and can't be read */
    bool frees_given;      /* they lie in the heap */
};

/* The bytes at an offset, and how many of `count` lie there together. NULL: they are zeros. */
const char *__guest_content_at(const struct content *content, uint32_t offset, uint32_t *count);

int __guest_content_read(const struct content *content, uint32_t offset, void *to, uint32_t count);

/* Answers how many bytes were taken, of more than none. */
int __guest_content_write(struct content *content, uint32_t offset, const void *from, uint32_t count);
int __guest_content_resize(struct content *content, uint32_t size);

/* Makes a file of the image one of the heap. */
int __guest_content_own(struct content *content);
void __guest_content_free(struct content *content);

/* --- The tree ----------------------------------------------------------------------------------------------------- */

enum kind { FOLDER, PLAIN, NOTHING, INPUT, OUTPUT, ERRORS };

struct node {
    struct node *folder; /* NULL: it has no name, since it was removed, or never had one */
    struct node *first;  /* of a folder: what is in it, by age */
    struct node *next;
    struct node *next_plain; /* of all plain files */
    char *name;
    enum kind kind;
    mode_t mode;
    uint16_t number;
    uint32_t uses;     /* by descriptors and working folders */
    uint64_t accessed, changed; /* moments of the clock */
    bool is_out;       /* its making went out */
    bool is_fixed;     /* it can't be removed or renamed */
    struct content content;
};

/* The folder whose files go out, and where names without a slash at their begin are looked up. */
extern struct node __guest_folder;
extern struct node *__guest_working;

/* The bits of a mode that a new file doesn't get. */
extern mode_t __guest_umask;

/* What a name leads to. */
struct place {
    struct node *folder; /* in which it is, or may be made */
    const char *name;    /* NULL: of `.`, `..` and `/` */
    size_t length;
    struct node *node;   /* NULL: there is none */
    bool needs_folder;   /* a slash stands behind the name */
};

int __guest_find(struct node *begin, const char *path, struct place *place);

/* A name that has to lead to something. */
int __guest_find_node(struct node *begin, const char *path, struct node **node);

/* Whether ckrt-files has a file of its own of this name. */
bool __guest_is_reserved(const struct place *place);

/* Whether a node may have a place's name, or a new one where it is NULL: whole names, from the root on, have an end, those of all
   that is below it too. */
bool __guest_has_room_for_name(const struct place *place, const struct node *node);

/* Makes a node under a place's name; NULL: the heap has no room. Without a folder it has no name. */
struct node *__guest_make_node(const struct place *place, enum kind kind, mode_t mode);
void __guest_move_node(struct node *node, const struct place *place, char *name);
void __guest_remove_node(struct node *node);

/* Gives up one use; the last one of a node without a name frees it. */
void __guest_end_use(struct node *node);

/* Whether what is done to it goes out. */
bool __guest_goes_out(const struct node *node);

/* Puts out that a node was made, with what it holds, where that didn't go out yet. */
void __guest_put_out(struct node *node);
void __guest_put_out_all(struct node *node);

/* Makes a file that is given to the program, with the folders that lead there. NULL: there is no room, another kind of file
   has such a name, or it leads out of its folder. */
struct node *__guest_make_given(const char *path, enum kind kind);

/* Takes what guest/image has put into the image, and the archive of the input. */
void __guest_take_given_files(void);

/* Room for others: the file that nobody has read, and keeps most, gives up its bytes, which went out. */
bool __guest_give_up(void);

/* How many bytes files could give up. */
size_t __guest_bytes_to_give_up(void);

#endif
