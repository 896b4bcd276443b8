// Nanoseconds per step of walk_uses, for houses in which everything is used twice.
#include <stdint.h>
#include <stdio.h>
#include <string.h>
#include <time.h>

uint32_t euler_walk(uint8_t aisles, uint8_t deep, uint8_t *uses, size_t uses_len, uint8_t *steps, size_t steps_len);

enum { USES = 12926, STEPS = 25852 };

static double now(void) {
    struct timespec t;
    clock_gettime(CLOCK_MONOTONIC, &t);
    return t.tv_sec * 1e9 + t.tv_nsec;
}

int main(void) {
    static const uint8_t houses[][2] = {{1, 2}, {1, 50}, {2, 24}, {4, 30}, {4, 120}, {8, 60}, {8, 125}, {16, 125}, {32, 156}, {64, 200}};
    static uint8_t uses[USES], steps[STEPS];
    for (size_t i = 0; i < sizeof houses / sizeof *houses; i++) {
        size_t m = houses[i][0], l = houses[i][1];
        size_t places = m * l + 2 * (m - 1), n = 2 * places;
        size_t runs = 40000000 / (n + 1000);
        double spent = 0;
        uint32_t length = 0;
        for (size_t k = 0; k < runs; k++) {
            memset(uses, 2, places);
            double start = now();
            length = euler_walk(m, l, uses, USES, steps, STEPS);
            spent += now() - start;
        }
        printf("%2zu aisles of %3zu: %5zu steps, length %6u, %9.0f ns, %5.2f ns per step\n", m, l, n, length, spent / runs, spent / runs / n);
    }
    return 0;
}
