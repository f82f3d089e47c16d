/* The start of a board with one AArch64 core and nothing before it, and its exception vectors. The floating-point and vector registers stay disabled, as they are
   after a reset, the MMU is off, and an access that is not aligned is made to trap: the archive needs none of these. */
    .globl _start
_start:
    ldr x0, =stack_top
    mov sp, x0
    mrs x0, sctlr_el1
    orr x0, x0, #2 /* A: alignment checking */
    msr sctlr_el1, x0
    ldr x0, =vectors
    msr vbar_el1, x0
    isb
    bl start
1:
    b 1b

/* Sixteen entries of 128 bytes; whatever comes is handed on with its syndrome. */
    .balign 2048
vectors:
    .rept 16
    .balign 128
    mrs x0, esr_el1
    bl on_exception
    .endr
