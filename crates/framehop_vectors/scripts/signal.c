/* A signal interrupts code whose registers are known, and gdb stops in its handler:
   gcc -O1 -fno-omit-frame-pointer signal.c, and in gdb: handle SIGILL nostop noprint pass; break handler; run; frame 1;
   x/22gx $sp; frame 2; info registers */
#include <signal.h>
#include <stdint.h>
#include <ucontext.h>
#include <unistd.h>

void handler(int number, siginfo_t *info, void *context) { _exit(0); }

int main(void) {
    struct sigaction action = {0};
    action.sa_sigaction = handler;
    action.sa_flags = SA_SIGINFO;
    sigaction(SIGILL, &action, 0);
    __asm__ volatile(
        "mov $0xa1a1, %%rax\n mov $0xb1b1, %%rbx\n mov $0xc1c1, %%rcx\n mov $0xd1d1, %%rdx\n"
        "mov $0xe1e1, %%rsi\n mov $0xf1f1, %%rdi\n mov $0xb2b2, %%rbp\n"
        "mov $0x8080, %%r8\n mov $0x9090, %%r9\n mov $0x1010, %%r10\n mov $0x1111, %%r11\n"
        "mov $0x1212, %%r12\n mov $0x1313, %%r13\n mov $0x1414, %%r14\n mov $0x1515, %%r15\n"
        "ud2\n" ::: "memory");
    return 0;
}
