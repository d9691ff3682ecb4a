# Conversions of doubles from and to words and floats.
#include "double.h"

# A double of the word a0, not 0, with its sign in bit 0 of a2.
.macro of_word name
    addi a3, x0, 1053
    bltz a0, 2f
1:  slli a0, a0, 1
    addi a3, a3, -1
    bgez a0, 1b
2:  srli a1, a0, 11
    slli a0, a0, 21
    slli a3, a3, 20
    add  a1, a1, a3
    slli a2, a2, 31
    or   a1, a1, a2
    addi a2, x0, 0
    addi a3, x0, 0
    ret
.L\name\()_zero:
    addi a1, x0, 0
    addi a2, x0, 0
    addi a3, x0, 0
    ret
.endm

# double __floatsidf(int)
routine __floatsidf
    beqz a0, .Lfloatsi_zero
    srai a2, a0, 31
    xor  a0, a0, a2
    sub  a0, a0, a2
    of_word floatsi
routine_end __floatsidf

# double __floatunsidf(unsigned)
routine __floatunsidf
    beqz a0, .Lfloatunsi_zero
    addi a2, x0, 0
    of_word floatunsi
routine_end __floatunsidf

# double __negdf2(double), of which a compiler mostly makes a single instruction.
routine __negdf2
    lui  a2, 0x80000
    xor  a1, a1, a2
    addi a2, x0, 0
    ret
routine_end __negdf2

# The end of a conversion to a word.
.macro word_done
    addi a1, x0, 0
    addi a2, x0, 0
    addi a3, x0, 0
    addi a4, x0, 0
    addi a5, x0, 0
    ret
.endm

# int __fixdfsi(double), toward zero. A number that no word holds becomes the nearest word, and a NaN the greatest one.
routine __fixdfsi
    slli a2, a1, 1
    srli a2, a2, 21
    addi a3, x0, 1054
    sub  a3, a3, a2
    addi a4, a3, -1
    addi a5, x0, 31
    bgeu a4, a5, .Lfix_special
    slli a4, a1, 11
    srli a5, a0, 21
    or   a4, a4, a5
    lui  a5, 0x80000
    or   a4, a4, a5
    srl  a4, a4, a3
    srai a1, a1, 31
    xor  a4, a4, a1
    sub  a0, a4, a1
.Lfix_done:
    word_done
.Lfix_special:
    bgez a4, 1f             # below one
    slli a2, a1, 1
    sltu a3, x0, a0
    or   a2, a2, a3
    lui  a3, 0xffe00
    sltu a2, a3, a2         # a NaN
    srli a1, a1, 31
    xori a2, a2, 1
    and  a1, a1, a2
    lui  a0, 0x80000
    addi a0, a0, -1
    add  a0, a0, a1
    j    .Lfix_done
1:  addi a0, x0, 0
    j    .Lfix_done
routine_end __fixdfsi

# unsigned __fixunsdfsi(double), toward zero. A negative number becomes 0, a number that is too large or a NaN the greatest.
routine __fixunsdfsi
    slli a2, a1, 1
    srli a2, a2, 21
    addi a3, x0, 1054
    sub  a3, a3, a2
    addi a5, x0, 32
    bgeu a3, a5, .Lfixuns_special
    bltz a1, .Lfixuns_special
    slli a4, a1, 11
    srli a5, a0, 21
    or   a4, a4, a5
    lui  a5, 0x80000
    or   a4, a4, a5
    srl  a0, a4, a3
.Lfixuns_done:
    word_done
.Lfixuns_special:
    slli a2, a1, 1
    sltu a4, x0, a0
    or   a2, a2, a4
    lui  a4, 0xffe00
    bltu a4, a2, 2f         # a NaN
    bltz a1, 1f
    bltz a3, 2f
1:  addi a0, x0, 0
    j    .Lfixuns_done
2:  addi a0, x0, -1
    j    .Lfixuns_done
routine_end __fixunsdfsi

# double __extendsfdf2(float)
routine __extendsfdf2
    slli a1, a0, 1
    srli a1, a1, 24
    addi a2, a1, -1
    addi a3, x0, 254
    bgeu a2, a3, .Lextend_special
    addi a1, a1, 896
    slli a1, a1, 20
    slli a2, a0, 9
    srli a2, a2, 12
    or   a1, a1, a2
    srli a2, a0, 31
    slli a2, a2, 31
    or   a1, a1, a2
    slli a0, a0, 29
.Lextend_done:
    addi a2, x0, 0
    addi a3, x0, 0
    ret
.Lextend_special:
    slli a2, a0, 1
    bnez a1, 2f
    beqz a2, 3f
    # Subnormal: it is shifted until bit 23 is set, which is dropped.
    srli a3, a0, 31
    srli a2, a2, 1
    addi a1, x0, 1
1:  slli a2, a2, 1
    addi a1, a1, -1
    srli a0, a2, 23
    beqz a0, 1b
    slli a2, a2, 9
    srli a2, a2, 9
    slli a3, a3, 31
    or   a0, a2, a3
    addi a1, a1, 896
    slli a1, a1, 20
    slli a2, a0, 9
    srli a2, a2, 12
    or   a1, a1, a2
    or   a1, a1, a3
    slli a0, a0, 29
    j    .Lextend_done
2:  slli a2, a2, 8
    lui  a1, 0x7ff00
    beqz a2, 4f
    lui  a1, 0x7ff80
    addi a0, x0, 0
    j    .Lextend_done
3:  addi a1, x0, 0
4:  srli a2, a0, 31
    slli a2, a2, 31
    or   a1, a1, a2
    addi a0, x0, 0
    j    .Lextend_done
routine_end __extendsfdf2

# float __truncdfsf2(double): 29 bits are rounded away. The exponent less 896, from 1 to 254, is that of the float.
routine __truncdfsf2
    slli a2, a1, 1
    srli a2, a2, 21
    addi a2, a2, -897
    addi a3, x0, 254
    bgeu a2, a3, .Ltrunc_special
    # The fraction with 23 bits in a3, and what is below it in a0.
    slli a3, a1, 12
    srli a3, a3, 9
    srli a4, a0, 29
    or   a3, a3, a4
    slli a0, a0, 3
.Ltrunc_round:
    # One more where a0 is above a half, or a half and a3 is odd; the exponent is added above.
    andi a4, a3, 1
    lui  a6, 0x80000
    xor  a5, a0, a6
    sltiu a5, a5, 1
    and  a4, a4, a5
    sltu a5, a6, a0
    or   a4, a4, a5
    addi a2, a2, 1
    slli a2, a2, 23
    add  a0, a3, a2
    add  a0, a0, a4
.Ltrunc_sign:
    srli a1, a1, 31
    slli a1, a1, 31
    or   a0, a0, a1
    addi a1, x0, 0
    addi a2, x0, 0
    addi a3, x0, 0
    addi a4, x0, 0
    addi a5, x0, 0
    addi a6, x0, 0
    ret
.Ltrunc_special:
    bltz a2, 3f
    # Too large: infinite, or a NaN.
    slli a2, a1, 1
    sltu a3, x0, a0
    or   a2, a2, a3
    lui  a3, 0xffe00
    bltu a3, a2, 2f
    lui  a0, 0x7f800
    j    .Ltrunc_sign
2:  lui  a0, 0x7fc00
    addi a1, x0, 0
    j    .Ltrunc_sign
3:  # Subnormal, or 0: it is shifted right, and what is lost kept in bit 0.
    slli a3, a1, 12
    srli a3, a3, 9
    lui  a4, 0x00800
    or   a3, a3, a4
    srli a4, a0, 29
    or   a3, a3, a4
    slli a0, a0, 3
    addi a4, x0, -26
    bge  a2, a4, 5f
    addi a2, a4, 0
5:  andi a4, a0, 1
    srli a0, a0, 1
    or   a0, a0, a4
    slli a4, a3, 31
    or   a0, a0, a4
    srli a3, a3, 1
    addi a2, a2, 1
    bnez a2, 5b
    addi a2, x0, -1
    j    .Ltrunc_round
routine_end __truncdfsf2
