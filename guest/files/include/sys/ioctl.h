/* No file of a guest has anything to control: ENOTTY. */
#ifndef GUEST_SYS_IOCTL_H
#define GUEST_SYS_IOCTL_H

#pragma GCC system_header

#ifdef __cplusplus
extern "C" {
#endif

int ioctl(int number, int request, ...);

#ifdef __cplusplus
}
#endif

#endif
