# A program of which half the functions have no call frame information, as hand-written assembly. What calls what is fixed:
# _start calls run, run calls work, aligned and odd, and work and odd call mix. In work the frame pointer is a counter; the
# stack of aligned lies at a multiple of 32, and its caller's stack pointer in r11. The CFA of odd is by r10, which mix changes.
#
# For crates/framehop_stacks_cli/data/srv/uncovered and data/uncovered.perf:
#   as -o uncovered.o uncovered.s && ld --build-id=sha1 -z noseparate-code -o /srv/uncovered uncovered.o
#   perf record -o uncovered.perf -e cpu-clock:u -F 900 --call-graph dwarf,512 env -i /srv/uncovered
        .text
        .globl  _start, run, work, mix, aligned, odd

        .type   _start, @function
_start:
        .cfi_startproc
        .cfi_undefined rip
        xor     %ebp, %ebp
        call    run
        mov     $60, %eax
        xor     %edi, %edi
        syscall
        .cfi_endproc
        .size   _start, . - _start

        .type   run, @function
run:
        .cfi_startproc
        push    %rbx
        .cfi_def_cfa_offset 16
        .cfi_offset rbx, -16
        mov     $60, %ebx
1:      call    work
        call    aligned
        call    odd
        dec     %ebx
        jnz     1b
        pop     %rbx
        .cfi_def_cfa_offset 8
        ret
        .cfi_endproc
        .size   run, . - run

        .type   work, @function
work:
        push    %rbx
        push    %rbp
        sub     $24, %rsp
        mov     $8, %ebp
1:      call    mix
        dec     %ebp
        jnz     1b
        add     $24, %rsp
        pop     %rbp
        pop     %rbx
        ret
        .size   work, . - work

        .type   mix, @function
mix:
        sub     $40, %rsp
        mov     %rdi, 8(%rsp)
        mov     $20000, %ecx
        mov     $1, %eax
1:      imul    $1664525, %rax, %rax
        add     $1013904223, %rax
        mov     %rax, 16(%rsp)
        mov     %rax, %r10
        dec     %ecx
        jnz     1b
        mov     8(%rsp), %rdi
        add     $40, %rsp
        ret
        .size   mix, . - mix

        .type   aligned, @function
aligned:
        mov     %rsp, %r11
        push    %rbp
        mov     %r11, %rbp
        sub     $64, %rsp
        and     $-32, %rsp
        mov     %rbp, (%rsp)
        mov     $100000, %ecx
1:      add     %rcx, 8(%rsp)
        dec     %ecx
        jnz     1b
        mov     (%rsp), %r11
        mov     -8(%r11), %rbp
        mov     %r11, %rsp
        ret
        .size   aligned, . - aligned

        .type   odd, @function
odd:
        .cfi_startproc
        lea     8(%rsp), %r10
        .cfi_def_cfa r10, 0
        push    %rbx
        push    %r12
        mov     %r10, %rbx
        mov     $8, %r12d
        and     $-64, %rsp
        sub     $64, %rsp
1:      call    mix
        dec     %r12d
        jnz     1b
        lea     -24(%rbx), %rsp
        pop     %r12
        pop     %rbx
        ret
        .cfi_endproc
        .size   odd, . - odd
        .section .note.GNU-stack, "", @progbits
