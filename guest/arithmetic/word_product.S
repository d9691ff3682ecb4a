# Products of words. The runtime knows these loops by their words, and does one at once.
#include "routine.h"

# a0 += a1 * a2, which leaves 0 in a1 and changes a2 and a3.
.macro add_product
1:  andi a3, a1, 1
    beqz a3, 2f
    add  a0, a0, a2
2:  srli a1, a1, 1
    slli a2, a2, 1
    bnez a1, 1b
.endm

# unsigned __mulsi3(unsigned, unsigned)
routine __mulsi3, .text
    addi a2, a0, 0
    addi a0, x0, 0
    add_product
    ret
routine_end __mulsi3

# unsigned long long __muldi3(unsigned long long, unsigned long long): the lower words' product by __umulsidi3, and to its
# upper word each upper word times the other lower one.
routine __muldi3, .text
    addi t6, ra, 0
    .cfi_register ra, t6
    addi a6, a0, 0
    addi a7, a2, 0
    addi t4, a1, 0
    addi t5, a3, 0
    addi a1, a2, 0
    jal  __umulsidi3
    addi t3, a0, 0
    addi a0, a1, 0
    addi a1, t4, 0
    addi a2, a7, 0
    add_product
    addi a1, t5, 0
    addi a2, a6, 0
    add_product
    addi a1, a0, 0
    addi a0, t3, 0
    addi ra, t6, 0
    .cfi_restore ra
    ret
routine_end __muldi3

# unsigned long long __umulsidi3(unsigned, unsigned), by halves of words, which changes no register but a0 to a5 and t0 to t2.
routine __umulsidi3, .text
    lui  t0, 0x10
    addi t0, t0, -1
    and  a4, a0, t0         # the halves of the first factor
    srli a5, a0, 16
    and  t1, a1, t0         # and those of the second one
    srli t2, a1, 16
    addi a0, x0, 0          # lower * lower
    addi a1, a4, 0
    addi a2, t1, 0
    add_product
    and  t0, a0, t0
    srli a0, a0, 16         # upper * lower, with what lower * lower has above 16 bits
    addi a1, a5, 0
    addi a2, t1, 0
    add_product
    srli t1, a0, 16
    slli a0, a0, 16         # lower * upper, with the lower half of that
    srli a0, a0, 16
    addi a1, a4, 0
    addi a2, t2, 0
    add_product
    slli a4, a0, 16
    or   t0, t0, a4
    srli a0, a0, 16         # upper * upper, with both upper halves
    add  a0, a0, t1
    addi a1, a5, 0
    addi a2, t2, 0
    add_product
    addi a1, a0, 0
    addi a0, t0, 0
    ret
routine_end __umulsidi3
