/* The start at EL3, the exception vectors of EL1, EL2 and EL3, and what runs the instructions of one case at a level and comes back. The MMU is off at EL3. */
#include "levels.h"

    .globl _start
_start:
    ldr x0, =stack_top
    mov sp, x0
    ldr x0, =vectors_el3
    msr vbar_el3, x0
    mov x0, #2 /* SCTLR_EL3.A: the archive makes no unaligned access */
    mrs x1, sctlr_el3
    orr x0, x0, x1
    msr sctlr_el3, x0
    isb
    bl main
    bl go_off

/* A lower level that has taken an exception touches no register and no memory: it hands on to EL3, which reads the syndrome registers of all levels. The immediate
   says which level it was. */
    .macro handing_on level
    .rept 16
    .balign 128
    smc #\level
    .endr
    .endm

    .balign 2048
    .globl vectors_el1
vectors_el1:
    handing_on TAKEN_AT_EL1

    .balign 2048
    .globl vectors_el2
vectors_el2:
    handing_on TAKEN_AT_EL2

    .balign 2048
vectors_el3:
    .rept 16
    .balign 128
    b came_back
    .endr

/* void run(uint64_t at, uint64_t spsr, uint64_t argument): goes to `at` with SPSR_EL3 and x0, and returns once EL3 takes an exception. */
    .globl run
run:
    ldr x9, =kept
    stp x19, x20, [x9]
    stp x21, x22, [x9, #16]
    stp x23, x24, [x9, #32]
    stp x25, x26, [x9, #48]
    stp x27, x28, [x9, #64]
    stp x29, x30, [x9, #80]
    mov x10, sp
    str x10, [x9, #96]
    msr elr_el3, x0
    msr spsr_el3, x1
    mov x0, x2
    isb
    eret

/* A case may have left PSTATE, sp and any register as it likes. */
came_back:
    ldr x9, =kept
    ldr x10, [x9, #96]
    mov sp, x10
    ldp x19, x20, [x9]
    ldp x21, x22, [x9, #16]
    ldp x23, x24, [x9, #32]
    ldp x25, x26, [x9, #48]
    ldp x27, x28, [x9, #64]
    ldp x29, x30, [x9, #80]
    ret

/* Semihosting's SYS_EXIT: the emulator ends. */
    .globl go_off
go_off:
    mov x0, #0x18
    ldr x1, =exit_reason
    hlt #0xf000
    b go_off

    .section .rodata
    .balign 8
exit_reason:
    .quad 0x20026, 0 /* ADP_Stopped_ApplicationExit */

    .bss
    .balign 16
kept:
    .skip 112
