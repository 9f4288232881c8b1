// What the parts of the bench share: the work, given to both sides, and the comparison.
#ifndef BENCH_H
#define BENCH_H

#include "doubles.h"
#include "peer.h"
#include "../bindings/c/cuvalimodo.h"

enum { MONTH = 44640, HOURS = MONTH / 60, MONTHS = 12, YEAR = 366 * 1440 };

// What a year keeps of its months: for each constituent of each V, P and Q.
enum { YEAR_ROWS = MONTHS * RECORDS * (8 + 4 + 4) };

// A card file, a station and a date, as each side takes them.
struct work {
    const char *file;
    size_t length;
    uint32_t year, month;
    cuvalimodo_record records[RECORDS];
    cuvalimodo_clock clock;
    struct table table;
    struct station station;
    struct month prepared;
};

// The months of the work's year, as each side takes them, and the minutes of the year at which they begin; behind these the year's last.
struct year {
    cuvalimodo_clock clocks[MONTHS];
    struct month prepared[MONTHS];
    uint32_t starts[MONTHS + 1];
};

void set_work(struct work *w, const char *file, size_t length, int latitude, int count, uint32_t year, uint32_t month);
void set_year(struct year *y, const struct work *w);
void compare_all(const char *file, size_t length);
void print_times(const char *file, size_t length);
void print_growth(const char *file, size_t length);
void print_stack(const char *file, size_t length, const char *deepest, size_t deepest_length);

#endif
