// C++: stopped in a destructor that the unwinding of an exception has called, five calls below the catch.
#include <stdexcept>
#include <string>
#include "stop.h"
static int alive;
struct Guard {
    std::string text;
    int number;
    NOINLINE ~Guard() {
        alive--;
        if (number == 2) stop();
    }
};
static NOINLINE int throws(int n) {
    Guard guard{"some text that is long enough for the heap", n};
    alive++;
    if (n == 0) throw std::runtime_error("thrown");
    return throws(n - 1) + (int)guard.text.size();
}
static NOINLINE int catches(int n) {
    try {
        return throws(n);
    } catch (const std::exception &error) {
        return error.what()[0];
    }
}
int main() { return catches(4) + 1; }
