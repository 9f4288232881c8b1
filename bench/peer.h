// Peer (a): document 01's whole numbers in C, the whole way from the card file to heights, turns and hourly cards.
#ifndef PEER_H
#define PEER_H

#include <stdbool.h>
#include <stddef.h>
#include <stdint.h>

enum { FREQUENCIES = 160, MAINS = 64, SATELLITES = 256, SHALLOWS = 128, RECORDS = 146, LAST_MINUTE = 44640 };

// What a call comes to: number 0 where it is accepted, else 01's number and place.
struct outcome {
    int number;
    int place;
};

struct satellite {
    int8_t difference[3];
    int8_t phase;
    uint8_t mark;
    int32_t ratio;
};

struct main_card {
    uint8_t place;
    uint8_t count;
    uint16_t first;
    int8_t doodson[6];
    int8_t phase;
};

struct shallow_card {
    uint8_t place;
    uint8_t parts;
    uint8_t main[4];
    int8_t coefficient[4];
};

// The table of a card file. `row` says for a place of part 1 which main, or MAINS and more: which shallow constituent; -1: none.
struct table {
    int frequencies, mains, satellites, shallows;
    char name[FREQUENCIES][5];
    uint64_t speed[FREQUENCIES];
    uint64_t longitude[5], increase[5];
    struct main_card main[MAINS];
    struct satellite satellite[SATELLITES];
    struct shallow_card shallow[SHALLOWS];
    int16_t row[FREQUENCIES];
};

struct station {
    int latitude, count;
    uint8_t place[RECORDS];
    uint16_t amplitude[RECORDS];
    uint16_t lag[RECORDS];
};

// A prepared month. `start` is the angle at minute 0 and `rate` what it advances a minute, in ticks; both below a turn.
struct month {
    uint32_t last;
    int count;
    uint64_t start[RECORDS];
    uint64_t rate[RECORDS];
    int64_t speed[RECORDS];
    int32_t p[RECORDS];
    int32_t q[RECORDS];
    uint64_t argument[RECORDS];
};

struct outcome peer_read(struct table *table, const char *file, size_t length);
struct outcome peer_prepare(struct month *month, const struct table *table, const struct station *station, unsigned year, unsigned number);
struct outcome peer_height(const struct month *month, uint32_t minute, int64_t *height);
struct outcome peer_series(const struct month *month, uint32_t start, uint32_t step, int64_t *heights, size_t places);
struct outcome peer_turns(const struct month *month, const struct table *table, const struct station *station, uint32_t first, uint32_t last,
                          uint32_t *minutes, size_t minute_places, int64_t *heights, size_t height_places, size_t *count, bool *high);
struct outcome peer_hourly(const struct month *month, unsigned year, unsigned number, uint32_t station, uint8_t *cards, size_t length, size_t *bytes);

// The lent table of cosines, filled once from the bench: at each of the steps of a quarter turn, and at its end.
#define STEPS 2048
#define STEP 96240234375ull
extern uint32_t cosines[STEPS + 1];

#endif
