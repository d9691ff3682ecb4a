/*
 * What goes out of a guest with files: frames, which docs/FILES.md shows. Each has a line with its kind, how long a name
 * is, an offset, and how many bytes there are; then the name, the bytes, and the end of a line.
 */
#ifndef GUEST_FILES_FRAMES_H
#define GUEST_FILES_FRAMES_H

#include "node.h"

/* The most bytes of one frame: more of them are put by several. */
enum { FRAME_BYTES = 4096 };

/* What a file below the working folder has at an offset. */
void __guest_put_write(const struct node *node, uint32_t offset, const char *from, uint32_t count);

/* A file is there, with a size. */
void __guest_put_size(const struct node *node, uint32_t size);
void __guest_put_folder(const struct node *node);
void __guest_put_removal(const struct node *node);

/* Before a node is moved: it gets the name of a place. */
void __guest_put_renaming(const struct node *node, const struct place *place);

/* What stdout or stderr gets, each behind what it got before. */
void __guest_put_console(enum kind kind, const char *from, uint32_t count);

/* Makes the lock of frames. To be called once, while there is one thread. */
void __guest_begin_frames(void);

#endif
