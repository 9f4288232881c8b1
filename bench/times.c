// Times, ours and the peers', in interleaved rounds of one run. The time of a call is what a longer run takes more than a shorter one.
#include "bench.h"
#include <stdio.h>
#include <stdlib.h>
#include <string.h>
#include <time.h>

enum { ROUNDS = 25, SIDES = 6, LISTS = 100, MOST_BOOKED = 1000 };

static struct work w;
static struct year y;
static struct doubles d;
static int64_t heights[YEAR + 1], turned[MONTH];
static double reals[MONTH + 1];
static uint32_t minutes[MONTH + 1], booked_minutes[LISTS + MOST_BOOKED];
static size_t booked;
static uint8_t cards[CUVALIMODO_HOURLY_SIZE];
static volatile int64_t sink;

static double now(void) {
    struct timespec t;
    clock_gettime(CLOCK_THREAD_CPUTIME_ID, &t);
    return (double)t.tv_sec * 1e9 + (double)t.tv_nsec;
}

// What is timed: a function that does its work so often, after whatever it sets up.
typedef void repeated(uint32_t repeats);

// One round of one side: the setting up alone, and with the work so often.
struct round {
    double brief, extended;
};

static struct round one_round(repeated *f, uint32_t repeats) {
    double t0 = now();
    f(0);
    double t1 = now();
    f(repeats);
    double t2 = now();
    return (struct round){t1 - t0, t2 - t1};
}

static int ascending(const void *a, const void *b) {
    double x = *(const double *)a, y = *(const double *)b;
    return (x > y) - (x < y);
}

static double median(double *xs, int n) {
    qsort(xs, (size_t)n, sizeof *xs, ascending);
    return xs[n / 2];
}

// The time of one repeat by the best of the rounds: what the machine's other work disturbed least.
static double best(const struct round *rounds, int n, uint32_t repeats) {
    double brief = rounds[0].brief, extended = rounds[0].extended;
    for (int i = 1; i < n; i++) {
        if (rounds[i].brief < brief) brief = rounds[i].brief;
        if (rounds[i].extended < extended) extended = rounds[i].extended;
    }
    return (extended - brief) / repeats;
}

// Rounds of each side in turn: the best times, and the medians of the rounds' own ratios, ours to a side's.
static void race(repeated **sides, int n, uint32_t repeats, double *times, double *ratios) {
    static struct round r[SIDES][ROUNDS];
    static double own[ROUNDS];
    for (int i = 0; i < ROUNDS; i++)
        for (int s = 0; s < n; s++) r[s][i] = one_round(sides[s], repeats);
    for (int s = 0; s < n; s++) {
        times[s] = best(r[s], ROUNDS, repeats);
        for (int i = 0; i < ROUNDS; i++) own[i] = (r[0][i].extended - r[0][i].brief) / (r[s][i].extended - r[s][i].brief);
        ratios[s] = median(own, ROUNDS);
    }
}

static void our_cards(uint32_t n) {
    static cuvalimodo_clock clock;
    for (uint32_t i = 0; i < n; i++) sink += cuvalimodo_load_cards(&clock, (const uint8_t *)w.file, w.length).number;
}

static void our_dates(uint32_t n) {
    for (uint32_t i = 0; i < n; i++) sink += cuvalimodo_set_date(&w.clock, w.year, 1 + i % 12).number;
}

static void our_series(uint32_t n) {
    for (uint32_t i = 0; i < n; i++) sink += cuvalimodo_series(&w.clock, i % 2, 1, heights, MONTH).number;
}

static void our_heights(uint32_t n) {
    for (uint32_t i = 0; i < n; i++) {
        cuvalimodo_reading r = cuvalimodo_height(&w.clock, minutes[i]);
        sink += r.number;
        heights[i] = r.height;
    }
}

static void our_bookings(uint32_t n) {
    for (uint32_t i = 0; i < n; i++) sink += cuvalimodo_bookings(&w.clock, booked_minutes + i % LISTS, booked, heights, booked).number;
}

static void single_heights(uint32_t n) {
    for (uint32_t i = 0; i < n; i++) {
        uint32_t refused = 0;
        for (size_t k = 0; k < booked; k++) {
            cuvalimodo_reading r = cuvalimodo_height(&w.clock, booked_minutes[i % LISTS + k]);
            refused |= r.number;
            heights[k] = r.height;
        }
        sink += refused;
    }
}

static void our_hourly(uint32_t n) {
    for (uint32_t i = 0; i < n; i++) sink += cuvalimodo_hourly(&w.clock, 7120 + i % 2, cards, sizeof cards).number;
}

static void series_of_hours(uint32_t n) {
    for (uint32_t i = 0; i < n; i++) sink += cuvalimodo_series(&w.clock, 60, 60, heights, HOURS).number;
}

static void our_turns(uint32_t n) {
    for (uint32_t i = 0; i < n; i++) sink += cuvalimodo_turns(&w.clock, i % 2, MONTH, minutes, MONTH, heights, MONTH).number;
}

static void peer_cards(uint32_t n) {
    static struct table table;
    for (uint32_t i = 0; i < n; i++) sink += peer_read(&table, w.file, w.length).number;
}

static void peer_dates(uint32_t n) {
    static struct month month;
    for (uint32_t i = 0; i < n; i++) sink += peer_prepare(&month, &w.table, &w.station, w.year, 1 + i % 12).number;
}

static void peer_serieses(uint32_t n) {
    for (uint32_t i = 0; i < n; i++) sink += peer_series(&w.prepared, i % 2, 1, heights, MONTH).number;
}

static void peer_heights(uint32_t n) {
    for (uint32_t i = 0; i < n; i++) sink += peer_height(&w.prepared, minutes[i], &heights[i]).number;
}

static void peer_turn_searches(uint32_t n) {
    size_t count;
    bool high;
    for (uint32_t i = 0; i < n; i++)
        sink += peer_turns(&w.prepared, &w.table, &w.station, i % 2, MONTH, minutes, MONTH, heights, MONTH, &count, &high).number;
}

static void peer_hourlies(uint32_t n) {
    size_t bytes;
    for (uint32_t i = 0; i < n; i++) sink += peer_hourly(&w.prepared, w.year, w.month, 7120 + i % 2, cards, sizeof cards, &bytes).number;
}

static void our_year_search(uint32_t n) {
    for (uint32_t i = 0; i < n; i++)
        sink += cuvalimodo_year(&w.clock, w.year, 0, 1, i % 2, y.starts[MONTHS], heights, 0, minutes, MONTH, turned, MONTH).number;
}

static void twelve_searches(uint32_t n) {
    for (uint32_t i = 0; i < n; i++)
        for (int m = 0; m < MONTHS; m++)
            sink += cuvalimodo_turns(&y.clocks[m], i % 2, y.starts[m + 1] - y.starts[m], minutes, MONTH, turned, MONTH).number;
}

static void our_year_series(uint32_t n) {
    for (uint32_t i = 0; i < n; i++)
        sink += cuvalimodo_year(&w.clock, w.year, i % 2, 1, 0, 0, heights, y.starts[MONTHS], minutes, 0, turned, 0).number;
}

static void twelve_serieses(uint32_t n) {
    for (uint32_t i = 0; i < n; i++)
        for (int m = 0; m < MONTHS; m++) sink += cuvalimodo_series(&y.clocks[m], i % 2, 1, heights + y.starts[m], y.starts[m + 1] - y.starts[m]).number;
}

static void libm_series(uint32_t n) {
    for (uint32_t i = 0; i < n; i++) doubles_libm(&d, reals, MONTH);
}

static void two_calls_series(uint32_t n) {
    for (uint32_t i = 0; i < n; i++) doubles_two_calls(&d, reals, MONTH);
}

static void cosine_series(uint32_t n) {
    for (uint32_t i = 0; i < n; i++) doubles_one_cosine(&d, reals, MONTH);
}

static void chebyshev_series(uint32_t n) {
    for (uint32_t i = 0; i < n; i++) doubles_chebyshev(&d, reals, MONTH);
}

static const char *verdict(double ratio, double target) { return ratio <= target ? "met" : "MISSED"; }

// One line: what, the best time of ours and of the peer, their ratio, the median of the rounds' ratios, and the target of the first ratio.
static void line(const char *what, const char *peer, double ours, double theirs, double ratio, double target) {
    printf("| %-36s | %-25s | %10.3f | %10.3f | %5.2f | %5.2f |", what, peer, ours / 1000, theirs / 1000, ours / theirs, ratio);
    if (target > 0)
        printf(" %4.2f %s |\n", target, verdict(ours / theirs, target));
    else
        printf(" |\n");
}

static void time_series(int count) {
    char what[80];
    snprintf(what, sizeof what, "series, a month, %d constituents", count);
    repeated *sides[] = {our_series, peer_serieses, libm_series, two_calls_series, cosine_series, chebyshev_series};
    double t[SIDES], r[SIDES];
    race(sides, SIDES, count > 20 ? 1 : 4, t, r);
    line(what, "(a) whole numbers in C", t[0], t[1], r[1], 1.05);
    line(what, "(b) libm, sincos", t[0], t[2], r[2], 0.25);
    line(what, "(b) libm, cos and sin", t[0], t[3], r[3], 0.25);
    line(what, "(b) libm, one cosine", t[0], t[4], r[4], 0);
    line(what, "(c) Chebyshev recursion", t[0], t[5], r[5], 0);
}

static void time_beside(const char *what, const char *peer, repeated *ours, repeated *theirs, uint32_t repeats, double target) {
    repeated *sides[] = {ours, theirs};
    double t[SIDES], r[SIDES];
    race(sides, 2, repeats, t, r);
    line(what, peer, t[0], t[1], r[1], target);
}

static void time_two(const char *what, repeated *ours, repeated *theirs, uint32_t repeats, double target) {
    time_beside(what, "(a) whole numbers in C", ours, theirs, repeats, target);
}

// So many bookings in one call beside as many single heights of our own, at the same minutes, in any order, of the same clock.
static void time_bookings(int count, size_t minutes_booked) {
    char what[80];
    booked = minutes_booked;
    for (size_t i = 0; i < LISTS + MOST_BOOKED; i++) booked_minutes[i] = (uint32_t)(i * 7919 % (MONTH + 1));
    if (cuvalimodo_bookings(&w.clock, booked_minutes, LISTS + MOST_BOOKED, heights, LISTS + MOST_BOOKED).number) exit(1);
    snprintf(what, sizeof what, "%zu bookings, %d constituents", booked, count);
    time_beside(what, "ours, single heights", our_bookings, single_heights, (uint32_t)(440000 / (booked * (size_t)count) + 1), 1.05);
}

// A month's hourly cards beside our own series of its hours, on the same clock, and beside the peer's cards.
static void time_hourly(int count) {
    char what[80];
    snprintf(what, sizeof what, "hourly cards, a month, %d const.", count);
    repeated *sides[] = {our_hourly, series_of_hours, peer_hourlies};
    double t[SIDES], r[SIDES];
    race(sides, 3, (uint32_t)(4000 / count + 1), t, r);
    line(what, "ours, series of its hours", t[0], t[1], r[1], 0);
    line(what, "(a) whole numbers in C", t[0], t[2], r[2], 0);
}

// A year's sheet beside our own of its months, which are prepared before: the year's turns, and every minute of it.
static void time_year(int count) {
    char what[80];
    set_year(&y, &w);
    snprintf(what, sizeof what, "turns of a year, %d constituents", count);
    time_beside(what, "ours, twelve months", our_year_search, twelve_searches, count > 20 ? 1 : 4, 1.25);
    snprintf(what, sizeof what, "series, a year, %d constituents", count);
    time_beside(what, "ours, twelve months", our_year_series, twelve_serieses, 1, 1.1);
}

static void set(const char *file, size_t length, int count) {
    set_work(&w, file, length, 2905, count, 1976, 7);
    doubles_prepare(&d, &w.prepared);
    for (size_t i = 0; i <= MONTH; i++) minutes[i] = (uint32_t)(i * 7919 % (MONTH + 1));
}

void print_times(const char *file, size_t length) {
    printf("\nTimes in microseconds, the best of %d interleaved rounds; their ratio, ours to the peer's; the median of the rounds' ratios\n\n", ROUNDS);
    printf("| %-36s | %-25s | %10s | %10s | %5s | %5s | target |\n|---|---|---|---|---|---|---|\n", "work", "peer", "ours", "peer", "ratio", "med.");
    static const int sizes[] = {11, 37, 145};
    for (int i = 0; i < 3; i++) {
        set(file, length, sizes[i]);
        time_series(sizes[i]);
        time_bookings(sizes[i], 24);
        time_bookings(sizes[i], MOST_BOOKED);
        time_hourly(sizes[i]);
    }
    set(file, length, 11);
    time_two("a single height, 11 constituents", our_heights, peer_heights, 20000, 1.1);
    time_two("turns of a month, 11 constituents", our_turns, peer_turn_searches, 20, 1.1);
    time_two("preparing a month, 11 constituents", our_dates, peer_dates, 2000, 1.2);
    time_year(11);
    set(file, length, 37);
    time_year(37);
    set(file, length, 145);
    time_two("turns of a month, 145 constituents", our_turns, peer_turn_searches, 2, 1.1);
    time_two("preparing a month, 145 constituents", our_dates, peer_dates, 500, 1.2);
    time_year(145);
    time_two("reading the standard card file", our_cards, peer_cards, 20, 1.5);
}

// ---- how cost grows

static size_t grown;

static void grown_series(uint32_t n) {
    for (uint32_t i = 0; i < n; i++) sink += cuvalimodo_series(&w.clock, 0, 1, heights, grown).number;
}

static const int counts[] = {0, 11, 37, 73, 145};
static const size_t days[] = {1, 7, 31};

static uint32_t growth_repeats(int c, int i) { return (uint32_t)((counts[c] ? 60 : 6000) / (days[i] * (1 + (size_t)counts[c] / 10)) + 1); }

// One round of every number of constituents and days.
static void growth_round(const char *file, size_t length, int at, struct round r[5][3][ROUNDS]) {
    for (int c = 0; c < 5; c++) {
        set(file, length, counts[c]);
        for (int i = 0; i < 3; i++) {
            grown = 1440 * days[i];
            r[c][i][at] = one_round(grown_series, growth_repeats(c, i));
        }
    }
}

void print_growth(const char *file, size_t length) {
    static struct round r[5][3][ROUNDS];
    for (int at = 0; at < ROUNDS; at++) growth_round(file, length, at, r);
    printf("\nHow a series of one-minute steps grows, ours: microseconds, and for a month nanoseconds for each constituent and height\n\n");
    printf("| constituents | a day | a week | a month | ns |\n|---|---|---|---|---|\n");
    for (int c = 0; c < 5; c++) {
        double t = 0;
        printf("| %d |", counts[c]);
        for (int i = 0; i < 3; i++) {
            t = best(r[c][i], ROUNDS, growth_repeats(c, i));
            printf(" %.1f |", t / 1000);
        }
        if (counts[c])
            printf(" %.2f |\n", t / MONTH / counts[c]);
        else
            printf(" - |\n");
    }
}
