// A signal interrupts code whose registers are known: the handler writes the memory from its stack pointer on to standard
// output, and its stack pointer and the interrupted address to standard error.
// clang --target=aarch64-linux-gnu -c signal.s; ld.lld -z notext signal.o -o signal; qemu-aarch64 signal
    .globl _start
_start:
    mov x0, #4
    adr x1, action
    mov x2, #0
    mov x3, #8
    mov x8, #134
    svc #0
    mov x0, #0xa000
    mov x1, #0xa001
    mov x2, #0xa002
    mov x19, #0xa019
    mov x28, #0xa028
    mov x29, #0xf029
    movz x30, #0x0040, lsl #48
    movk x30, #0x1234
    movk x30, #0x0040, lsl #16
    mov x9, sp
    sub x9, x9, #0x20
    mov sp, x9
here:
    .inst 0
handler:
    mov x0, #1
    mov x1, sp
    mov x2, #576
    mov x8, #64
    svc #0
    mov x0, #2
    adr x1, stack
    mov x9, sp
    str x9, [x1]
    adr x9, here
    str x9, [x1, #8]
    mov x2, #16
    mov x8, #64
    svc #0
    mov x0, #0
    mov x8, #93
    svc #0
    .section .data,"aw"
    .balign 8
action:
    .quad handler, 0, 0, 0
stack:
    .quad 0, 0
