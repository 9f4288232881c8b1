// Peer (a), from the table to heights, turns and hourly cards.
#include "peer.h"
#include <string.h>

#define TURN 788400000000000ull
#define CENTICYCLE 7884000000000ll
#define CENTIDEGREE 21900000000ull
#define ARC_MINUTE 36500000000ull

uint32_t cosines[STEPS + 1];

static const struct outcome accepted = {0, 0};

static struct outcome refused(int number, int place) { return (struct outcome){number, place}; }

struct wave {
    int64_t cosine, sine;
};

// The cosine and the sine, by one division into quadrant, entry and remainder.
static inline struct wave wave(uint64_t ticks) {
    uint64_t k = ticks / STEP, r = ticks % STEP;
    unsigned i = k % STEPS, q = k / STEPS & 3;
    uint64_t c = cosines[i], d = cosines[i + 1], e = cosines[STEPS - 1 - i], f = cosines[STEPS - i];
    int64_t near = (int64_t)(c - (c - d) * r / STEP);
    int64_t far = (int64_t)(e - (e - f) * (STEP - r) / STEP);
    int64_t even = q & 1 ? far : near, odd = q & 1 ? near : far;
    return (struct wave){(q + 1) & 2 ? -even : even, q & 2 ? -odd : odd};
}

static uint64_t reduced(int64_t ticks) {
    int64_t rest = ticks % (int64_t)TURN;
    return (uint64_t)(rest < 0 ? rest + (int64_t)TURN : rest);
}

// Division by a positive number, downward.
static inline int64_t floor_div(int64_t a, int64_t b) {
    int64_t quotient = a / b;
    return quotient - (a % b < 0);
}

// ---- preparing a month

static const uint8_t lengths[12] = {31, 28, 31, 30, 31, 30, 31, 31, 30, 31, 30, 31};

static unsigned days_of(unsigned year, unsigned number) { return number == 2 && year % 4 == 0 ? 29 : lengths[number - 1]; }

// The day count of the 16th from 1 January 1976.
static int64_t day_count(unsigned year, unsigned number) {
    int64_t days = 365 * ((int64_t)year - 1976) + ((int64_t)year + 3) / 4 - (1976 + 3) / 4 + 15;
    for (unsigned i = 1; i < number; i++) days += days_of(year, i);
    return days;
}

struct pair {
    int64_t x, y;
};

struct working {
    const struct table *table;
    uint64_t longitude[6];
    int64_t diurnal, semidiurnal;
    // a main's V and pair, worked out once: 0 not yet, 1 done, 2 too large
    uint8_t state[MAINS];
    uint64_t argument[MAINS];
    struct pair pair[MAINS];
};

static void set_longitudes(struct working *w, int64_t days) {
    uint64_t s[5];
    for (int i = 0; i < 5; i++) s[i] = reduced(78840 * (int64_t)w->table->longitude[i] + 216 * days * (int64_t)w->table->increase[i]);
    w->longitude[0] = reduced((int64_t)s[1] - (int64_t)s[0]);
    for (int i = 0; i < 5; i++) w->longitude[i + 1] = s[i];
}

static void set_factors(struct working *w, int latitude) {
    int size = latitude < 0 ? -latitude : latitude;
    if (size < 300) size = 300;
    int64_t s = wave((uint64_t)size * ARC_MINUTE).sine >> 10;
    int64_t diurnal = floor_div(36309 * ((1ll << 40) - 5 * s * s), 100000 * s), semidiurnal = 259808 * s / 100000;
    w->diurnal = latitude < 0 ? -diurnal : diurnal;
    w->semidiurnal = latitude < 0 ? -semidiurnal : semidiurnal;
}

static int64_t marked(const struct working *w, const struct satellite *s, int64_t part) {
    int64_t term = floor_div(s->ratio * part, 10240000);
    if (s->mark == '1') return term * w->diurnal >> 20;
    if (s->mark == '2') return term * w->semidiurnal >> 20;
    return term;
}

static bool too_large(struct pair p) { return p.x > 4194304 || p.x < -4194304 || p.y > 4194304 || p.y < -4194304; }

// V and the pair of a main, kept for the shallow constituents made of it. Whether its size passes.
static bool work_main(struct working *w, int row) {
    if (w->state[row]) return w->state[row] == 1;
    const struct main_card *card = &w->table->main[row];
    int64_t ticks = card->phase * CENTICYCLE;
    for (int i = 0; i < 6; i++) ticks += card->doodson[i] * (int64_t)w->longitude[i];
    struct pair p = {1 << 20, 0};
    for (int i = card->first; i < card->first + card->count; i++) {
        const struct satellite *s = &w->table->satellite[i];
        int64_t angle = s->phase * CENTICYCLE;
        for (int j = 0; j < 3; j++) angle += s->difference[j] * (int64_t)w->longitude[j + 3];
        struct wave v = wave(reduced(angle));
        p.x += marked(w, s, v.cosine);
        p.y += marked(w, s, v.sine);
    }
    w->argument[row] = reduced(ticks);
    w->pair[row] = p;
    w->state[row] = too_large(p) ? 2 : 1;
    return w->state[row] == 1;
}

static bool work_shallow(struct working *w, const struct shallow_card *card, uint64_t *argument, struct pair *out) {
    int64_t ticks = 0;
    struct pair p = {1 << 20, 0};
    for (int i = 0; i < card->parts; i++) {
        int row = card->main[i], coefficient = card->coefficient[i];
        if (!work_main(w, row)) return false;
        ticks += coefficient * (int64_t)w->argument[row];
        int64_t x = w->pair[row].x, y = coefficient < 0 ? -w->pair[row].y : w->pair[row].y;
        for (int n = coefficient < 0 ? -coefficient : coefficient; n > 0; n--) {
            p = (struct pair){(p.x * x - p.y * y) >> 20, (p.x * y + p.y * x) >> 20};
            if (too_large(p)) return false;
        }
    }
    *argument = reduced(ticks);
    *out = p;
    return true;
}

struct outcome peer_prepare(struct month *month, const struct table *table, const struct station *station, unsigned year, unsigned number) {
    if (year < 1950 || year > 2049 || number < 1 || number > 12) return refused(8, 0);
    struct working w = {.table = table};
    set_longitudes(&w, day_count(year, number));
    set_factors(&w, station->latitude);
    for (int k = 0; k < station->count; k++) {
        int place = station->place[k], row = table->row[place];
        uint64_t argument;
        struct pair p;
        if (row < MAINS) {
            if (!work_main(&w, row)) return refused(11, k + 1);
            argument = w.argument[row];
            p = w.pair[row];
        } else if (!work_shallow(&w, &table->shallow[row - MAINS], &argument, &p))
            return refused(11, k + 1);
        uint64_t rate = 1314 * table->speed[place];
        month->argument[k] = argument;
        month->start[k] = (argument + 2 * TURN - station->lag[k] * CENTIDEGREE - rate * 21600 % TURN) % TURN;
        month->rate[k] = rate;
        month->speed[k] = (int64_t)(table->speed[place] / 1000);
        month->p[k] = (int32_t)(station->amplitude[k] * p.x >> 8);
        month->q[k] = (int32_t)(station->amplitude[k] * p.y >> 8);
    }
    month->count = station->count;
    month->last = days_of(year, number) * 1440;
    return accepted;
}

// ---- heights

static inline int64_t share(uint64_t angle, int64_t p, int64_t q) {
    struct wave w = wave(angle);
    return (p * w.cosine - q * w.sine) >> 30;
}

static inline uint64_t angle_at(const struct month *month, int k, uint32_t minute) {
    return (month->start[k] + month->rate[k] * minute) % TURN;
}

static int64_t height_at(const struct month *month, uint32_t minute) {
    int64_t sum = 0;
    for (int k = 0; k < month->count; k++) sum += share(angle_at(month, k, minute), month->p[k], month->q[k]);
    return (sum + 2048) >> 12;
}

__attribute__((noinline)) struct outcome peer_height(const struct month *month, uint32_t minute, int64_t *height) {
    if (minute > month->last) return refused(9, 0);
    *height = height_at(month, minute);
    return accepted;
}

struct outcome peer_series(const struct month *month, uint32_t start, uint32_t step, int64_t *heights, size_t places) {
    if (start > month->last || step < 1 || step > 1440) return refused(9, 0);
    if (places > 0 && (month->last - start) / step < places - 1) return refused(9, 0);
    uint64_t angle[RECORDS], advance[RECORDS];
    const int count = month->count;
    for (int k = 0; k < count; k++) {
        angle[k] = angle_at(month, k, start);
        advance[k] = month->rate[k] * step % TURN;
    }
    for (size_t n = 0; n < places; n++) {
        int64_t sum = 0;
        for (int k = 0; k < count; k++) {
            sum += share(angle[k], month->p[k], month->q[k]);
            uint64_t next = angle[k] + advance[k];
            angle[k] = next < TURN ? next : next - TURN;
        }
        heights[n] = (sum + 2048) >> 12;
    }
    return accepted;
}

// ---- turns

static int64_t slope(const struct month *month, uint32_t minute) {
    int64_t falls = 0;
    for (int k = 0; k < month->count; k++) {
        struct wave w = wave(angle_at(month, k, minute));
        falls += ((month->p[k] * w.sine + month->q[k] * w.cosine) >> 30) * month->speed[k];
    }
    return -falls;
}

static int amplitude_of(const struct table *table, const struct station *station, const char *name) {
    for (int k = 0; k < station->count; k++)
        if (memcmp(table->name[station->place[k]], name, 5) == 0) return station->amplitude[k];
    return 0;
}

static uint32_t stride_of(const struct table *table, const struct station *station) {
    int daily = amplitude_of(table, station, "K1   ") + amplitude_of(table, station, "O1   ");
    int twice = amplitude_of(table, station, "M2   ") + amplitude_of(table, station, "S2   ");
    return 4 * daily <= twice ? 180 : daily > 3 * twice ? 360 : 30;
}

static uint64_t size(int64_t a) { return a < 0 ? -(uint64_t)a : (uint64_t)a; }

// The minutes of the turns, in front of `found`.
static size_t find_turns(const struct month *month, uint32_t stride, uint32_t first, uint32_t last, uint16_t *found, bool *high) {
    size_t count = 0;
    int64_t here = slope(month, first);
    while (first + stride <= last) {
        int64_t ahead = slope(month, first + stride);
        if ((here >= 0) == (ahead >= 0)) {
            first += stride;
            here = ahead;
            continue;
        }
        if (count == 0) *high = here >= 0;
        for (uint32_t length = stride; length > 1;) {
            uint32_t half = length / 2;
            int64_t middle = slope(month, first + half);
            if ((here >= 0) != (middle >= 0)) {
                length = half;
                ahead = middle;
            } else {
                first += half;
                length -= half;
                here = middle;
            }
        }
        found[count++] = (uint16_t)(size(ahead) < size(here) ? first + 1 : first);
        first++;
        here = ahead;
    }
    return count;
}

struct outcome peer_turns(const struct month *month, const struct table *table, const struct station *station, uint32_t first, uint32_t last,
                          uint32_t *minutes, size_t minute_places, int64_t *heights, size_t height_places, size_t *count, bool *high) {
    if (last > month->last || last < first) return refused(9, 0);
    uint16_t found[LAST_MINUTE];
    *high = false;
    *count = find_turns(month, stride_of(table, station), first, last, found, high);
    if (*count > minute_places || *count > height_places) return refused(10, 0);
    for (size_t i = 0; i < *count; i++) {
        minutes[i] = found[i];
        heights[i] = height_at(month, found[i]);
    }
    return accepted;
}

// ---- hourly cards: (I1,1X,I5,7X,3I2,12A4) and an LF

enum { CARD = 69, CARD_HOURS = 12 };

// A number at the right of so many columns, which are blank before.
static void put(uint8_t *columns, int width, int64_t number) {
    uint64_t rest = size(number);
    do columns[--width] = (uint8_t)('0' + rest % 10);
    while (rest /= 10);
    if (number < 0) columns[width - 1] = '-';
}

static void write_card(uint8_t *card, size_t at, uint32_t station, unsigned year, unsigned number, const int64_t *heights) {
    memset(card, ' ', CARD - 1);
    card[CARD - 1] = '\n';
    put(card, 1, (int64_t)(1 + at % 2));
    put(card + 2, 5, station);
    put(card + 14, 2, (int64_t)(1 + at / 2));
    put(card + 16, 2, number);
    put(card + 18, 2, year % 100);
    for (int i = 0; i < CARD_HOURS; i++) put(card + 20 + 4 * i, 4, heights[i]);
}

struct outcome peer_hourly(const struct month *month, unsigned year, unsigned number, uint32_t station, uint8_t *cards, size_t length, size_t *bytes) {
    if (station > 99999) return refused(32, 0);
    int64_t hours[LAST_MINUTE / 60];
    size_t count = month->last / 60;
    peer_series(month, 60, 60, hours, count);
    for (size_t i = 0; i < count; i++) {
        hours[i] = floor_div(hours[i] + 50, 100);
        if (hours[i] < -999 || hours[i] > 9998) return refused(33, (int)(i / CARD_HOURS) + 1);
    }
    *bytes = count / CARD_HOURS * CARD;
    if (length < *bytes) return refused(34, 0);
    for (size_t i = 0; i < count / CARD_HOURS; i++) write_card(cards + i * CARD, i, station, year, number, hours + i * CARD_HOURS);
    return accepted;
}
