// Crashes in a leaf function; the handler of SIGSEGV, as those of many programs, tells it and aborts.
#include <signal.h>
#include <stdlib.h>
#include <unistd.h>
#define NOINLINE __attribute__((noinline))
struct node { struct node *next; int value; };
static NOINLINE void report(int number) {
    if (write(2, "crashed\n", 8) == number) return;
    abort();
}
static void handler(int number, siginfo_t *info, void *context) {
    (void)info, (void)context;
    report(number);
    __asm__ volatile("");
}
static NOINLINE int sum(const struct node *node) {
    int total = 0;
    for (; node; node = node->next) total += node->value;
    return total;
}
static NOINLINE int times(const struct node *node, int number) { return sum(node) * number + 1; }
int main(int argc, char **argv) {
    struct sigaction action = {.sa_sigaction = handler, .sa_flags = SA_SIGINFO};
    sigaction(SIGSEGV, &action, 0);
    struct node node = {(struct node *)0x1234, argc};
    return times(&node, argv[0][0]) + 1;
}
