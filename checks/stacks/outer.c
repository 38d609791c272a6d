/* A library of Windows, outer.dll, that exports two functions, a number and, by a line `beep = KERNEL32.Beep` among its exports,
   a function of another library, as `objdump -p` prints.
   gcc 12.2 and ld 2.40: x86_64-w64-mingw32-gcc -O1 -nostdlib -fno-ident -s -shared -Wl,-e,entry -Wl,--file-alignment=16
   -Wl,--section-alignment=4096 -Wl,--disable-reloc-section -Wl,--disable-dynamicbase */
__attribute__((noinline)) static int inner(int n) { return n * 3; }
__declspec(dllexport) __attribute__((noinline)) int outer(int n) { return inner(n) + 1; }
__declspec(dllexport) __attribute__((noinline)) int leaf(int n) { return n ^ 5; }
__declspec(dllexport) int number = 7;
int entry(void) { return outer(4) + leaf(3) + number; }
