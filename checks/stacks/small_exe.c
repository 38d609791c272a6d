/* A program of Windows, small.exe, of three functions, of which `objdump -p`, `objdump -h` and `llvm-readobj` say what
   checks/cases/pe_files expects. In place of the empty path of its database it has `small.pdb`, and the age 3.
   gcc 12.2 and ld 2.40: x86_64-w64-mingw32-gcc -O1 -nostdlib -fno-ident -s -Wl,-e,start -Wl,--build-id -Wl,--file-alignment=16
   -Wl,--section-alignment=4096 -Wl,--disable-reloc-section -Wl,--disable-dynamicbase */
static __attribute__((noinline)) int inner(int n) { return n * 3; }
__attribute__((noinline)) int outer(int n) { return inner(n) + 1; }
static const char *volatile name = "small";
int start(void) { return outer(4) + name[0]; }
