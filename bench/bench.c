// The bench: compares our values with peer (a)'s, and only where all are the same prints times, growth and memory.
#include "bench.h"
#include <stdio.h>
#include <stdlib.h>
#include <string.h>

static char *read_file(const char *name, size_t *length) {
    FILE *f = fopen(name, "rb");
    if (!f) {
        printf("bench: cannot read %s\n", name);
        exit(1);
    }
    char *text = malloc(1 << 20);
    *length = fread(text, 1, 1 << 20, f);
    fclose(f);
    return text;
}

// The table: the whole number nearest 2^30 times the nine terms of the series, at i steps of a turn of 788,400,000,000,000 ticks.
static void make_cosines(void) {
    for (int i = 0; i <= STEPS; i++) {
        __float128 angle = 2 * (314159265358979.0Q / 100000000000000.0Q) * ((__float128)i * STEP / 788400000000000.0Q);
        __float128 term = 1, sum = 0;
        for (int n = 0; n <= 16; n += 2) {
            sum += term;
            term = -term * angle * angle / ((n + 1) * (n + 2));
        }
        cosines[i] = i == STEPS ? 0 : (uint32_t)(sum * 1073741824.0Q + 0.5Q);
    }
}

int main(int argc, char **argv) {
    if (argc < 3) {
        printf("bench CARDS DEEPEST_CARDS [--compare]\n");
        return 1;
    }
    size_t length, deepest_length;
    char *file = read_file(argv[1], &length), *deepest = read_file(argv[2], &deepest_length);
    setvbuf(stdout, NULL, _IOLBF, 0);
    make_cosines();
    compare_all(file, length);
    if (argc > 3 && strcmp(argv[3], "--compare") == 0) return 0;
    printf("\nThe clock's state: %zu bytes\n", sizeof(cuvalimodo_clock));
    print_times(file, length);
    print_growth(file, length);
    print_stack(file, length, deepest, deepest_length);
    return 0;
}
