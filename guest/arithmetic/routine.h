# How a routine of the kit's arithmetic begins and ends.
    .option norelax
    .option norvc

# A function in a section of its own, which is linked only where it is called. The routines for doubles come first in the
# image, on pages that no program stores into.
.macro routine name, place=.text.arithmetic
    .section \place\().\name, "ax", @progbits
    .balign 4
    .cfi_startproc
    entry \name
.endm

# Another function that begins here.
.macro entry name
    .globl \name
    .type \name, @function
\name:
.endm

# The end of a function, and of others that end with it.
.macro routine_end name, others:vararg
    .cfi_endproc
    sizes \name, \others
.endm

.macro sizes name, others:vararg
    .size \name, . - \name
    .ifnb \others
    sizes \others
    .endif
.endm
