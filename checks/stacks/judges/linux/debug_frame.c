// Functions that only .debug_frame describes, called by a start that only .eh_frame describes. The stored program and its core
// file:
//
// gcc -O2 -g -fno-asynchronous-unwind-tables -fno-unwind-tables -fomit-frame-pointer -fcf-protection=none -fno-stack-protector -fno-pic -c debug_frame.c
// as -o start.o debug_frame_start.s
// gcc -no-pie -nostdlib -static -Wl,--build-id start.o debug_frame.o -o debug_frame
// objcopy -R .comment -R .debug_info -R .debug_abbrev -R .debug_line -R .debug_str -R .debug_line_str -R .debug_aranges -R .debug_loclists -R .debug_rnglists debug_frame
// objcopy --compress-debug-sections=zlib debug_frame
// env -i /usr/local/bin/debug_frame; cut_core.py core debug_frame.core
volatile int sink;
volatile int *volatile nowhere;

__attribute__((noinline)) int deepest(int n) {
    volatile char buffer[200];
    buffer[n] = n;
    sink = buffer[n];
    *nowhere = n;
    return sink + 1;
}

__attribute__((noinline)) int middle(int n) {
    volatile char buffer[100];
    buffer[n] = n;
    return deepest(n + buffer[n]) + sink;
}

__attribute__((noinline)) int outer(int n) {
    volatile char buffer[60];
    buffer[n] = n;
    return middle(n + buffer[n]) * sink;
}
