/*
 * A clock runs, an update is refused, and the clock goes on: Victoria, the manual's sample station, in July 1976.
 * Usage: incident CARDS, where CARDS is a card file (data/standard-cards.txt).
 */
#include <stdio.h>
#include <stdlib.h>
#include <string.h>

#include "cuvalimodo.h"

enum { CARDS_ROOM = 65536, TURNS_ROOM = 250, CONSTITUENTS = 11, UPDATE = 147, LAST = 31 * 1440, HOURS = 31 * 24 + 1, ASKED = 13 * 1440 + 8 * 60 + 30 };

/* The sample's constituents (001, appendix 7.4). Amplitudes are 10^-4 of the sample's unit, feet by their size, so the heights are too. */
static const struct {
    const char *name;
    uint32_t amplitude;
    uint32_t phase;
} victoria[CONSTITUENTS] = {
    {"Z0", 60670, 0},     {"Q1", 1970, 13030}, {"O1", 12110, 13700}, {"NO1", 1120, 12080}, {"P1", 6740, 14850}, {"S1", 980, 15410},
    {"K1", 20700, 14940}, {"J1", 1170, 16640}, {"N2", 2940, 6340},   {"M2", 12130, 8700},  {"S2", 3320, 9390},
};

static const int32_t latitude = 48 * 60 + 25;

/* The clock, in static memory: all zeros, so it is one without a table. */
static cuvalimodo_clock berth;

static void accepted(const char *what, uint32_t number, size_t place)
{
    if (number != CUVALIMODO_ACCEPTED) {
        fprintf(stderr, "%s: %s (refusal %u at %zu)\n", what, cuvalimodo_refusal_text(number).text, number, place);
        exit(1);
    }
}

static uint8_t place_of(const char *name)
{
    int place = cuvalimodo_place_of(&berth, name);
    if (place < 0) {
        fprintf(stderr, "the card file has no %s\n", name);
        exit(1);
    }
    return (uint8_t)place;
}

static void set_clock(const uint8_t *cards, size_t length)
{
    cuvalimodo_verdict said = cuvalimodo_load_cards(&berth, cards, length);
    accepted("the card file", said.number, said.place);
    cuvalimodo_record records[CONSTITUENTS];
    for (int k = 0; k < CONSTITUENTS; k++)
        records[k] = (cuvalimodo_record){place_of(victoria[k].name), victoria[k].amplitude, victoria[k].phase};
    said = cuvalimodo_set_station(&berth, latitude, CUVALIMODO_USUAL_STRIDES, records, CONSTITUENTS);
    accepted("the station", said.number, said.place);
    said = cuvalimodo_set_date(&berth, 1976, 7);
    accepted("the date", said.number, said.place);
}

/* What the clock says of the month. */
struct month {
    size_t count;
    uint32_t minutes[TURNS_ROOM];
    int64_t turns[TURNS_ROOM];
    int64_t hourly[HOURS];
};

/* Asks for all of it; whether the first turn is high. */
static bool read_month(struct month *m)
{
    cuvalimodo_turnings found = cuvalimodo_turns(&berth, 0, LAST, m->minutes, TURNS_ROOM, m->turns, TURNS_ROOM);
    accepted("turns", found.number, found.place);
    cuvalimodo_verdict said = cuvalimodo_series(&berth, 0, 60, m->hourly, HOURS);
    accepted("hourly heights", said.number, said.place);
    m->count = found.count;
    return found.high;
}

static double water(void)
{
    cuvalimodo_reading said = cuvalimodo_height(&berth, ASKED);
    accepted("a height", said.number, said.place);
    return (double)said.height / 10000;
}

static void print_first_day(const struct month *m, bool high)
{
    printf("Victoria, July 1976: %zu turns, on the first day\n", m->count);
    for (size_t n = 0; n < m->count && m->minutes[n] < 1440; n++, high = !high)
        printf("%02u:%02u  %s  %7.4f\n", m->minutes[n] / 60, m->minutes[n] % 60, high ? "high" : "low ", (double)m->turns[n] / 10000);
}

int main(int argc, char **argv)
{
    static uint8_t cards[CARDS_ROOM];
    static struct month before, after; /* zeroed, so that they can be compared byte by byte */
    FILE *file = argc == 2 ? fopen(argv[1], "rb") : NULL;
    if (!file) {
        fprintf(stderr, "usage: incident CARDS\n");
        return 2;
    }
    size_t length = fread(cards, 1, sizeof cards, file);
    fclose(file);

    cuvalimodo_counts counts = cuvalimodo_check_cards(cards, length);
    accepted("the card file", counts.number, counts.line);
    printf("cards: %zu frequencies, %zu mains, %zu satellites, %zu shallow\n", counts.frequencies, counts.mains, counts.satellites, counts.shallows);
    set_clock(cards, length);
    bool first_high = read_month(&before);
    print_first_day(&before, first_high);
    printf("the water stands at %.4f at 08:30 on the 14th\n", water());

    cuvalimodo_record update[UPDATE];
    for (int k = 0; k < UPDATE; k++)
        update[k] = (cuvalimodo_record){(uint8_t)k, 500, 0};
    cuvalimodo_verdict said = cuvalimodo_set_station(&berth, latitude, CUVALIMODO_USUAL_STRIDES, update, UPDATE);
    printf("an update with %d records: refusal %u at %zu, %s\n", UPDATE, said.number, said.place, cuvalimodo_refusal_text(said.number).text);

    read_month(&after);
    if (memcmp(&before, &after, sizeof before) != 0) {
        printf("the clock is changed\n");
        return 1;
    }
    printf("the clock goes on: the same %zu turns and %d hourly heights, and %.4f at 08:30 on the 14th\n", after.count, HOURS, water());
    return 0;
}
