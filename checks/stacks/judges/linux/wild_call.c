// Calls a pointer into data, three calls deep.
#define NOINLINE __attribute__((noinline))
static char data[4096];
static int (*volatile called)(int) = (int (*)(int))(data + 100);
static NOINLINE int calls(int number) { return called(number) + 1; }
static NOINLINE int middle(int number) { return calls(number + 1) * 2; }
int main(int argc, char **argv) { return middle(argc) + argv[0][0]; }
