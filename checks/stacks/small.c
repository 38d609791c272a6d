/* A program of three functions, of which `readelf` and `readelf -s` say what checks/cases/elf_files expects. It is without .comment.
   gcc 12.2 and ld 2.40: gcc -O1 -nostdlib -static -fcf-protection=none -fno-stack-protector
   -Wl,--build-id=sha1 -Wl,-z,norelro -Wl,-z,max-page-size=4096 -Wl,-z,noseparate-code */
static __attribute__((noinline)) int inner(int n) { return n * 3; }
int outer(int n) { return inner(n) + 1; }
void _start(void) {
    int code = outer(4);
    __asm__ volatile("syscall" : : "a"(60), "D"(code));
    __builtin_unreachable();
}
