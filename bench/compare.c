// Our values and the peer's, one by one: series, single heights, bookings, turns, the bytes of hourly cards, and a year's heights. The first that differs ends the bench.
#include "bench.h"
#include <stdio.h>
#include <stdlib.h>
#include <string.h>

static int64_t ours[MONTH + 1], theirs[MONTH + 1];
static uint32_t our_minutes[MONTH], their_minutes[MONTH];
static int64_t hourly[YEAR / 60 + 1];
static size_t compared;

static void same(int64_t a, int64_t b, const char *what, const struct work *w, size_t at) {
    compared++;
    if (a == b) return;
    printf("DIFFERENT: %s %zu, %d constituents, latitude %d, %u-%02u: ours %lld, peer (a) %lld\n", what, at, w->station.count,
           w->station.latitude, w->year, w->month, (long long)a, (long long)b);
    exit(1);
}

static void compare_series(const struct work *w) {
    size_t places = w->prepared.last;
    memset(ours, 0x55, sizeof ours);
    if (cuvalimodo_series(&w->clock, 1, 1, ours, places).number) exit(1);
    if (peer_series(&w->prepared, 1, 1, theirs, places).number) exit(1);
    for (size_t i = 0; i < places; i++) same(ours[i], theirs[i], "series, place", w, i);
}

// Single heights at minutes in any order, one of them twice; and bookings of the same minutes.
static void compare_heights(const struct work *w) {
    size_t places = 2000;
    for (size_t i = 0; i < places; i++) our_minutes[i] = (uint32_t)(i * 7919 % (w->prepared.last + 1));
    our_minutes[0] = our_minutes[places - 1] = w->prepared.last;
    for (size_t i = 0; i < places; i++) {
        cuvalimodo_reading our = cuvalimodo_height(&w->clock, our_minutes[i]);
        if (our.number || peer_height(&w->prepared, our_minutes[i], &theirs[i]).number) exit(1);
        same(our.height, theirs[i], "height at minute", w, our_minutes[i]);
    }
    memset(ours, 0x55, sizeof ours);
    if (cuvalimodo_bookings(&w->clock, our_minutes, places, ours, places).number) exit(1);
    for (size_t i = 0; i < places; i++) same(ours[i], theirs[i], "booked height at minute", w, our_minutes[i]);
}

static void compare_turns(const struct work *w) {
    size_t count;
    bool high;
    memset(our_minutes, 0x55, sizeof our_minutes);
    memset(ours, 0x55, sizeof ours);
    memset(their_minutes, 0x55, sizeof their_minutes);
    memset(theirs, 0x55, sizeof theirs);
    cuvalimodo_turnings our = cuvalimodo_turns(&w->clock, 0, w->prepared.last, our_minutes, MONTH, ours, MONTH);
    if (our.number) exit(1);
    if (peer_turns(&w->prepared, &w->table, &w->station, 0, w->prepared.last, their_minutes, MONTH, theirs, MONTH, &count, &high).number) exit(1);
    same(our.high, high, "the first is high", w, 0);
    same((int64_t)our.count, (int64_t)count, "how many turns", w, 0);
    for (size_t i = 0; i < MONTH; i++) {
        same(our_minutes[i], their_minutes[i], "turn's minute", w, i);
        same(ours[i], theirs[i], "turn's height", w, i);
    }
}

// A month's hourly cards, byte by byte, and those of the buffer beyond them.
static void compare_hourly(const struct work *w, uint32_t station) {
    static uint8_t our_cards[CUVALIMODO_HOURLY_SIZE + 1], their_cards[CUVALIMODO_HOURLY_SIZE + 1];
    size_t bytes;
    memset(our_cards, 0x55, sizeof our_cards);
    memset(their_cards, 0x55, sizeof their_cards);
    cuvalimodo_cards our = cuvalimodo_hourly(&w->clock, station, our_cards, sizeof our_cards);
    if (our.number || peer_hourly(&w->prepared, w->year, w->month, station, their_cards, sizeof their_cards, &bytes).number) exit(1);
    same((int64_t)our.bytes, (int64_t)bytes, "bytes of hourly cards", w, 0);
    for (size_t i = 0; i < sizeof our_cards; i++) same(our_cards[i], their_cards[i], "byte of hourly cards", w, i);
}

// The twelve months of a year, prepared one after the other: the heights of a day in the last.
static void compare_dates(struct work *w) {
    for (uint32_t months = 1; months <= 12; months++) {
        if (cuvalimodo_set_date(&w->clock, w->year, months).number || cuvalimodo_series(&w->clock, 0, 1, ours, 1440).number) exit(1);
        struct month last;
        if (peer_prepare(&last, &w->table, &w->station, w->year, months).number) exit(1);
        if (peer_series(&last, 0, 1, theirs, 1440).number) exit(1);
        for (size_t i = 0; i < 1440; i++) same(ours[i], theirs[i], "height of a month's first day", w, i);
    }
}

// The year's month that a minute belongs to: midnight at a month's end is of the month that begins, and the year's last instant December's.
static size_t owner(const struct year *y, uint32_t minute) {
    size_t m = 0;
    while (m + 1 < MONTHS && y->starts[m + 1] <= minute) m++;
    return m;
}

static void same_in_year(const struct work *w, const struct year *y, uint32_t minute, int64_t height, const char *what) {
    size_t m = owner(y, minute);
    int64_t theirs;
    if (peer_height(&y->prepared[m], minute - y->starts[m], &theirs).number) exit(1);
    same(height, theirs, what, w, minute);
}

// A year's sheet: every hour, and the height of each turn.
static void compare_year(const struct work *w) {
    static struct year y;
    set_year(&y, w);
    size_t hours = y.starts[MONTHS] / 60 + 1;
    cuvalimodo_turnings our = cuvalimodo_year(&w->clock, w->year, 0, 60, 0, y.starts[MONTHS], hourly, hours, our_minutes, MONTH, ours, MONTH);
    if (our.number) exit(1);
    for (size_t i = 0; i < hours; i++) same_in_year(w, &y, (uint32_t)(60 * i), hourly[i], "year's height at minute");
    for (size_t i = 0; i < our.count; i++) same_in_year(w, &y, our_minutes[i], ours[i], "height of a year's turn at minute");
}

void compare_all(const char *file, size_t length) {
    static const int counts[] = {0, 1, 11, 37, 73, 145}, latitudes[] = {2905, -2000, 100};
    static const uint32_t stations[] = {7120, 5, 99999};
    static struct work w;
    for (int c = 0; c < 6; c++)
        for (int l = 0; l < 3; l++) {
            set_work(&w, file, length, latitudes[l], counts[c], (uint32_t)(1950 + 33 * l + 5 * c), (uint32_t)(1 + (5 * l + 2 * c) % 12));
            if (l == 0) compare_series(&w);
            compare_heights(&w);
            compare_turns(&w);
            compare_hourly(&w, stations[l]);
            compare_dates(&w);
            compare_year(&w);
        }
    printf("%zu values of ours and of peer (a) compared one by one: all the same\n", compared);
}
