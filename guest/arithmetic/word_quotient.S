# Quotients and rests of words. The runtime knows the words of __udivsi3, and does all of them at once.
#include "routine.h"

# int __divsi3(int, int). The quotient is rounded toward zero.
routine __divsi3, .text
    bltz a0, .Lnegative_dividend
    bltz a1, .Lnegative_divisor
sizes __divsi3

# unsigned __udivsi3(unsigned, unsigned), with the rest in a1. By zero it is the greatest word, and the rest the dividend.
entry __udivsi3
    addi a2, a1, 0
    addi a1, a0, 0
    addi a0, x0, -1
    beqz a2, 5f
    addi a3, x0, 1
    bgeu a2, a1, 2f
1:  bge  x0, a2, 2f
    slli a2, a2, 1
    slli a3, a3, 1
    bltu a2, a1, 1b
2:  addi a0, x0, 0
3:  bltu a1, a2, 4f
    sub  a1, a1, a2
    or   a0, a0, a3
4:  srli a3, a3, 1
    srli a2, a2, 1
    bnez a3, 3b
5:  ret
sizes __udivsi3

# unsigned __umodsi3(unsigned, unsigned)
entry __umodsi3
    addi t0, ra, 0
    .cfi_register ra, t0
    jal  __udivsi3
    addi a0, a1, 0
    jr   t0
    .cfi_restore ra
sizes __umodsi3

.Lnegative_dividend:
    sub  a0, x0, a0
    bgtz a1, .Lone_negative
    sub  a1, x0, a1
    j    __udivsi3
.Lnegative_divisor:
    sub  a1, x0, a1
.Lone_negative:
    addi t0, ra, 0
    .cfi_register ra, t0
    jal  __udivsi3
    sub  a0, x0, a0
    jr   t0
    .cfi_restore ra

# int __modsi3(int, int). The rest has the sign of the dividend.
entry __modsi3
    addi t0, ra, 0
    .cfi_register ra, t0
    bltz a1, 2f
    bltz a0, 3f
1:  jal  __udivsi3
    addi a0, a1, 0
    jr   t0
2:  sub  a1, x0, a1
    bgez a0, 1b
3:  sub  a0, x0, a0
    jal  __udivsi3
    sub  a0, x0, a1
    jr   t0
routine_end __modsi3
