// A program of aarch64 of which half the functions have no call frame information, as hand-written assembly. What calls what
// is fixed: _start calls run, run calls work, linked, vectors and odd, and each of these calls mix. In work the frame pointer
// is a counter; linked keeps its return address in x15, vectors only that and vector registers. The CFA of odd is by x9, which
// only mix is known to keep.
//
// For crates/framehop_stacks_cli/data/srv/uncovered-aarch64 and data/uncovered-aarch64.perf:
//   aarch64-linux-gnu-as -o uncovered.o uncovered_aarch64.s
//   aarch64-linux-gnu-ld --build-id=sha1 -z noseparate-code -o /srv/uncovered-aarch64 uncovered.o
//   env -i PATH="$PATH" checks/stacks/record_steps_aarch64.py /srv/uncovered-aarch64 uncovered-aarch64.perf
        .text
        .globl  _start, run, work, mix, linked, vectors, odd

        .type   _start, @function
_start:
        .cfi_startproc
        .cfi_undefined x30
        mov     x29, #0
        bl      run
        mov     x8, #93
        mov     x0, #0
        svc     #0
        .cfi_endproc
        .size   _start, . - _start

        .type   run, @function
run:
        .cfi_startproc
        stp     x29, x30, [sp, #-32]!
        .cfi_def_cfa_offset 32
        .cfi_offset x29, -32
        .cfi_offset x30, -24
        mov     x29, sp
        str     x19, [sp, #16]
        .cfi_offset x19, -16
        mov     w19, #2
1:      bl      work
        bl      linked
        bl      vectors
        bl      odd
        subs    w19, w19, #1
        b.ne    1b
        ldr     x19, [sp, #16]
        ldp     x29, x30, [sp], #32
        .cfi_restore x19
        .cfi_restore x29
        .cfi_restore x30
        .cfi_def_cfa_offset 0
        ret
        .cfi_endproc
        .size   run, . - run

        .type   work, @function
work:
        stp     x29, x30, [sp, #-48]!
        stp     x19, x20, [sp, #16]
        sub     sp, sp, #64
        mov     x29, #3
        mov     w19, #0
1:      str     x29, [sp, #8]
        mov     x0, x29
        bl      mix
        add     w19, w19, w0
        tbnz    w19, #31, 2f
        subs    x29, x29, #1
        b.ne    1b
2:      add     sp, sp, #64
        ldp     x19, x20, [sp, #16]
        ldp     x29, x30, [sp], #48
        ret
        .size   work, . - work

        .type   mix, @function
mix:
        mul     x10, x0, x0
        eor     x0, x0, x10
        ror     x0, x0, #7
        ret
        .size   mix, . - mix

        .type   linked, @function
linked:
        mov     x15, x30
        mov     x0, #5
        bl      mix
        add     x0, x0, #1
        ret     x15
        .size   linked, . - linked

        .type   vectors, @function
vectors:
        stp     d8, d9, [sp, #-32]!
        str     x30, [sp, #16]
        movi    v8.2d, #0
        bl      mix
        cbz     x0, 1f
        fmov    d9, x0
1:      ldr     x30, [sp, #16]
        ldp     d8, d9, [sp], #32
        ret
        .size   vectors, . - vectors

        .type   odd, @function
odd:
        .cfi_startproc
        mov     x9, sp
        .cfi_def_cfa x9, 0
        str     x30, [sp, #-16]!
        .cfi_offset x30, -16
        mov     x0, #9
        bl      mix
        .cfi_def_cfa sp, 16
        add     x0, x0, #2
        ldr     x30, [sp], #16
        .cfi_def_cfa sp, 0
        .cfi_restore x30
        ret
        .cfi_endproc
        .size   odd, . - odd
