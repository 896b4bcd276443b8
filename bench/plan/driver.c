// Nanoseconds per plan of the lists that are named, in one process.
#include <stdint.h>
#include <stdio.h>
#include <time.h>

uint32_t plan_list(const uint8_t *file, size_t file_len, uint32_t *lengths, size_t lengths_len, uint8_t *came, size_t came_len,
                   uint8_t *steps, size_t steps_len, uint8_t *uses, size_t uses_len);

enum { LIST = 3 + 2 * 512, TABLE = 448, STEPS = 25852, USES = 12926, RUNS = 20000 };

static double now(void) {
    struct timespec t;
    clock_gettime(CLOCK_MONOTONIC, &t);
    return t.tv_sec * 1e9 + t.tv_nsec;
}

int main(int argc, char **argv) {
    static uint8_t file[LIST], came[TABLE], steps[STEPS], uses[USES];
    static uint32_t lengths[TABLE];
    for (int i = 1; i < argc; i++) {
        FILE *list = fopen(argv[i], "rb");
        if (!list) {
            perror(argv[i]);
            return 1;
        }
        size_t bytes = fread(file, 1, LIST, list);
        fclose(list);
        uint32_t length = 0;
        double start = now();
        for (int k = 0; k < RUNS; k++)
            length = plan_list(file, bytes, lengths, TABLE, came, TABLE, steps, STEPS, uses, USES);
        printf("%s: length %u, %.0f ns per plan\n", argv[i], length, (now() - start) / RUNS);
    }
    return 0;
}
