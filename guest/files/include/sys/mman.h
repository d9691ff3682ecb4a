/* Files of a guest as memory (POSIX, <sys/mman.h>): private, and to be read alone. Everything else has its error. */
#ifndef GUEST_SYS_MMAN_H
#define GUEST_SYS_MMAN_H

#pragma GCC system_header

#include <sys/types.h>

#ifdef __cplusplus
extern "C" {
#endif

#define PROT_NONE 0
#define PROT_READ 1
#define PROT_WRITE 2
#define PROT_EXEC 4

#define MAP_SHARED 1
#define MAP_PRIVATE 2
#define MAP_FIXED 16

#define MAP_FAILED ((void *)-1)

void *mmap(void *address, size_t length, int protection, int flags, int number, off_t offset);
int munmap(void *address, size_t length);

#ifdef __cplusplus
}
#endif

#endif
