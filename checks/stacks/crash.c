/* A program without libc, of two threads: one waits, and the other writes to the address 0x10 and dies.
   gcc -O1 -nostdlib -static -fcf-protection=none -fno-stack-protector -fasynchronous-unwind-tables
   -Wl,--build-id=sha1 -Wl,-z,norelro -Wl,-z,max-page-size=4096 -Wl,-z,separate-code
   Its core file is Linux's, by bash: (ulimit -c unlimited; ulimit -s 8; echo 0x11 > /proc/self/coredump_filter;
   exec -c /usr/local/bin/crash) */
typedef unsigned long word;
static char stack[1024] __attribute__((aligned(16)));
static word call(word number, word a, word b, word c) {
    word result;
    __asm__ volatile("syscall" : "=a"(result) : "a"(number), "D"(a), "S"(b), "d"(c) : "rcx", "r11", "memory");
    return result;
}
__attribute__((noinline, used)) static void wait_for_ever(void) { for (;;) call(34, 0, 0, 0); }
__asm__("inner:\n.cfi_startproc\n"
    "mov $0xa1,%eax\nmov $0xb2,%ebx\nmov $0xc3,%ecx\nmov $0xd4,%edx\nmov $0xe5,%esi\nmov $0xb6,%ebp\n"
    "mov $0x8081,%r8d\nmov $0x9091,%r9d\nmov $0xa0a1,%r10d\nmov $0xb0b1,%r11d\nmov $0xc0c1,%r12d\n"
    "mov $0xd0d1,%r13d\nmov $0xe0e1,%r14d\nmov $0xf0f1,%r15d\nmovl $3,(%rdi)\nret\n.cfi_endproc\n");
int inner(volatile int *at);
__attribute__((noinline)) static int outer(volatile int *at) { return inner(at) + 1; }
__attribute__((used)) static void run(void) {
    word result;
    register word r10 __asm__("r10") = 0;
    register word r8 __asm__("r8") = 0;
    /* clone: CLONE_VM | CLONE_FS | CLONE_FILES | CLONE_SIGHAND | CLONE_THREAD | CLONE_SYSVSEM */
    __asm__ volatile("syscall\ntest %%eax,%%eax\njnz 1f\nxor %%ebp,%%ebp\ncall wait_for_ever\n1:"
        : "=a"(result) : "a"(56), "D"(0x50f00), "S"(stack + sizeof stack), "d"(0), "r"(r10), "r"(r8) : "rcx", "r11", "memory");
    for (int i = 0; i < 200; i++) call(24, 0, 0, 0);
    call(35, (word)(word[]){0, 50000000}, 0, 0);
    call(231, outer((int *)0x10), 0, 0);
}
__asm__(".globl _start\n_start:\n.cfi_startproc\n.cfi_undefined rip\nxor %ebp,%ebp\nand $-16,%rsp\ncall run\nhlt\n.cfi_endproc\n");
