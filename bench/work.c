// The work that both sides are given: stations of so many constituents of the standard card file.
#include "bench.h"
#include <stdio.h>
#include <stdlib.h>
#include <string.h>

// The eleven that every station of eleven and more has, with amplitudes in tenths of a millimetre.
static const struct {
    const char *name;
    unsigned amplitude;
} first[11] = {{"Z0   ", 18492}, {"M2   ", 3714}, {"K1   ", 6331}, {"O1   ", 3701}, {"S2   ", 1030}, {"P1   ", 1999},
               {"N2   ", 881},   {"Q1   ", 601},  {"K2   ", 282},  {"J1   ", 331},  {"M4   ", 37}};

static void fail(const char *what) {
    printf("bench: %s\n", what);
    exit(1);
}

static int place_of(const struct table *table, const char *name) {
    for (int i = 0; i < table->frequencies; i++)
        if (memcmp(table->name[i], name, 5) == 0) return i;
    fail("a name is not in the card file");
    return -1;
}

// A number for each seed, spread over 32 bits.
static uint32_t spread(uint32_t seed) {
    seed = (seed ^ seed >> 16) * 0x45d9f3b;
    seed = (seed ^ seed >> 16) * 0x45d9f3b;
    return seed ^ seed >> 16;
}

static void add(struct work *w, int place, unsigned amplitude) {
    struct station *s = &w->station;
    int k = s->count++;
    s->place[k] = (uint8_t)place;
    s->amplitude[k] = (uint16_t)amplitude;
    s->lag[k] = (uint16_t)(spread((uint32_t)place + 1) % 36000);
    w->records[k] = (cuvalimodo_record){s->place[k], s->amplitude[k], s->lag[k]};
}

static bool has(const struct station *s, int place) {
    for (int k = 0; k < s->count; k++)
        if (s->place[k] == place) return true;
    return false;
}

void set_work(struct work *w, const char *file, size_t length, int latitude, int count, uint32_t year, uint32_t month) {
    memset(w, 0, sizeof *w);
    w->file = file;
    w->length = length;
    w->year = year;
    w->month = month;
    w->station.latitude = latitude;
    if (peer_read(&w->table, file, length).number) fail("the peer refuses the card file");
    for (int i = 0; i < 11 && i < count; i++) add(w, place_of(&w->table, first[i].name), first[i].amplitude);
    for (int place = 0; w->station.count < count && place < w->table.frequencies; place++)
        if (!has(&w->station, place)) add(w, place, spread(1000 + (uint32_t)place) % 400);
    if (w->station.count < count) fail("the card file has too few constituents");
    if (peer_prepare(&w->prepared, &w->table, &w->station, year, month).number) fail("the peer refuses the month");
    if (cuvalimodo_load_cards(&w->clock, (const uint8_t *)file, length).number) fail("the clock refuses the card file");
    cuvalimodo_verdict said = cuvalimodo_set_station(&w->clock, latitude, CUVALIMODO_USUAL_STRIDES, w->records, (size_t)w->station.count);
    if (said.number) fail("the clock refuses the station");
    if (cuvalimodo_set_date(&w->clock, year, month).number) fail("the clock refuses the month");
}

void set_year(struct year *y, const struct work *w) {
    y->starts[0] = 0;
    for (uint32_t m = 0; m < MONTHS; m++) {
        y->clocks[m] = w->clock;
        if (cuvalimodo_set_date(&y->clocks[m], w->year, m + 1).number) fail("the clock refuses a month");
        if (peer_prepare(&y->prepared[m], &w->table, &w->station, w->year, m + 1).number) fail("the peer refuses a month");
        y->starts[m + 1] = y->starts[m] + y->prepared[m].last;
    }
}
