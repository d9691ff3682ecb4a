/*
 * Atomic loads and stores of a single step, each beside a fence, by which `ckrt races` knows them. The memory is sequentially
 * consistent and needs none. As the RISC-V psABI maps those of C11, a load that acquires is followed by FENCE R,RW, and a store
 * that releases follows FENCE RW,W. A relaxed one has FENCE R,R behind it, or FENCE W,W before it.
 */
#ifndef GUEST_FENCED_H
#define GUEST_FENCED_H

#include <stdint.h>

#define FENCED_LOAD(name, type, instruction, fence)                                                                \
    static inline type name(const volatile type *place) {                                                          \
        uint32_t value;                                                                                            \
        __asm__ volatile(instruction " %0, 0(%1)\n\tfence " fence : "=r"(value) : "r"(place) : "memory");          \
        return (type)value;                                                                                        \
    }

#define FENCED_STORE(name, type, instruction, fence)                                                               \
    static inline void name(volatile type *place, type value) {                                                    \
        __asm__ volatile("fence " fence "\n\t" instruction " %1, 0(%0)" : : "r"(place), "r"(value) : "memory");    \
    }

/* Those of one size, that order and that are relaxed. */
#define FENCED(name, type, load, store)                                                                            \
    FENCED_LOAD(load_##name, type, load, "r, rw")                                                                  \
    FENCED_LOAD(load_##name##_relaxed, type, load, "r, r")                                                         \
    FENCED_STORE(store_##name, type, store, "rw, w")                                                               \
    FENCED_STORE(store_##name##_relaxed, type, store, "w, w")

FENCED(byte, uint8_t, "lbu", "sb")
FENCED(half, uint16_t, "lhu", "sh")
FENCED(word, uint32_t, "lw", "sw")

#endif
