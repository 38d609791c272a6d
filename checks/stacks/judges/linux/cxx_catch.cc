// C++: stopped in a virtual call out of a catch, inside a lambda that std::sort calls.
#include <algorithm>
#include <stdexcept>
#include <vector>
#include "stop.h"
struct Report {
    virtual ~Report() = default;
    virtual int print(const char *text) const = 0;
};
struct Stops : Report {
    NOINLINE int print(const char *text) const override {
        stop();
        return text[0];
    }
};
static NOINLINE int compare(const Report &report, int a, int b) {
    try {
        if (a == 3 || b == 3) throw std::runtime_error("thrown");
        return a < b;
    } catch (const std::exception &error) {
        return report.print(error.what());
    }
}
static NOINLINE int sorts(const Report &report) {
    std::vector<int> list{9, 1, 8, 3, 7, 2};
    std::sort(list.begin(), list.end(), [&](int a, int b) { return compare(report, a, b) != 0; });
    return list[0];
}
int main() { return sorts(Stops()) + 1; }
