/*
 * Atomic operations of a guest: the compiler's <stdatomic.h>. Each is a call that takes one lock of the kit, but for a
 * load of up to four bytes. Nothing is free of locks, so the macros ATOMIC_.._LOCK_FREE are 1, which says "sometimes".
 */
#ifndef GUEST_STDATOMIC_H
#define GUEST_STDATOMIC_H

#pragma GCC system_header

#include_next <stdatomic.h>

#endif
