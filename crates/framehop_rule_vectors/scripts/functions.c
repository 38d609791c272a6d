/* Functions of a DLL, of which scripts/make_table.py makes the table of the tests. */
#include <stddef.h>

__declspec(dllimport) long outside(long a, long b, long c, long d);
__declspec(dllimport) __attribute__((noreturn, cold)) void fails(const char *name, void *place);
__declspec(dllimport) double measured(double a);
__declspec(dllimport) void fills(void *place, size_t size);

#define EXPORT __declspec(dllexport)

EXPORT long leaf(long a, long b) { return a * 3 + b; }

EXPORT long leaf_of_memory(const long *a, size_t n) {
    long sum = 0;
    for (size_t i = 0; i < n; i++)
        sum += a[i];
    return sum;
}

EXPORT long calls(long a) { return outside(a, a, 1, 2) + 1; }

EXPORT long calls_at_the_end(long a) {
    outside(a, 1, 2, 3);
    return outside(a, 4, 5, 6);
}

EXPORT long saves_one(long a) { return outside(a, 1, 2, 3) + a; }

EXPORT long saves_two(long a, long b) { return outside(a, b, 2, 3) + outside(b, a, 1, 2) + a - b; }

EXPORT long saves_many(long a, long b, long c, long d, long e, long f, long g, long h) {
    long sum = 0;
    for (long i = 0; i < a; i++) {
        sum += outside(a + i, b, c, d) * e;
        sum += outside(f, g, h, sum) * (c - d);
    }
    return sum + a + b + c + d + e + f + g + h;
}

EXPORT long keeps_an_array(long a) {
    long places[70];
    fills(places, sizeof places);
    return places[a] + outside(a, 0, 0, 0);
}

EXPORT long keeps_a_large_array(long a) {
    char places[0x90000];
    fills(places, sizeof places);
    return places[a];
}

EXPORT double keeps_floats(double a, double b, double c) {
    double x = measured(a), y = measured(b), z = measured(c);
    return measured(x * y) + x / z + y * a + b * c;
}

EXPORT long has_a_frame_register(size_t n, long a) {
    long *places = __builtin_alloca(n * 8);
    fills(places, n * 8);
    return places[a] + outside(a, n, 0, 0);
}

EXPORT long has_a_frame_register_and_saves(size_t n, long a, long b, long c) {
    long *places = __builtin_alloca(n * 8);
    long sum = 0;
    for (size_t i = 0; i < n; i++) {
        fills(places, i);
        sum += outside(a, b, c, places[i]);
    }
    return sum + a + b + c;
}

EXPORT long fails_in_a_cold_part(size_t n, long a, long b) {
    long *places = __builtin_alloca(n * 8);
    fills(places, n * 8);
    if (__builtin_expect(outside(a, b, n, 0) != 0, 0))
        fails("cold", places);
    return places[a] + outside(b, a, 0, 1) + b;
}

EXPORT long fails_in_another_cold_part(long a, long b) {
    if (__builtin_expect(outside(a, b, 0, 0) != 0, 0))
        fails("other", &a);
    return outside(b, a, 0, 1) + b + a;
}
