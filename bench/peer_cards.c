// Peer (a), the card file: a plain reader with all of 01's refusals, 1 to 7.
#include "peer.h"
#include <string.h>

// A line of the file, padded with blanks to 80 columns.
struct line {
    char column[80];
    bool blank;
};

// The file as it is walked down.
struct deck {
    const char *at, *end;
    int number;
    struct line line;
};

static struct outcome refused(int number, int place) { return (struct outcome){number, place}; }

static const struct outcome accepted = {0, 0};

// Takes the next line: 0, or refusal 7 or 1.
static int next_line(struct deck *deck) {
    deck->number++;
    if (deck->at == deck->end) return 7;
    const char *feed = memchr(deck->at, '\n', (size_t)(deck->end - deck->at));
    const char *stop = feed ? feed : deck->end;
    size_t length = (size_t)(stop - deck->at);
    const char *text = deck->at;
    deck->at = feed ? feed + 1 : deck->end;
    if (length > 80) return 1;
    bool blank = true;
    for (size_t i = 0; i < length; i++) {
        if (text[i] < 32 || text[i] > 126) return 1;
        if (text[i] != ' ') blank = false;
    }
    memcpy(deck->line.column, text, length);
    memset(deck->line.column + length, ' ', 80 - length);
    deck->line.blank = blank;
    return 0;
}

static bool is_digit(char c) { return c >= '0' && c <= '9'; }

// A number field: blanks, perhaps a minus, digits, with a point where decimals is not negative, blanks. 0, or refusal 2 or 3.
static int number_field(const char *field, int width, int decimals, int64_t low, int64_t high, int64_t *value) {
    const char *at = field, *end = field + width;
    while (at < end && *at == ' ') at++;
    bool minus = at < end && *at == '-';
    if (minus) at++;
    int64_t size = 0;
    const char *first = at;
    while (at < end && is_digit(*at)) size = 10 * size + (*at++ - '0');
    long digits = at - first;
    if (decimals >= 0) {
        if (at == end || *at != '.') return 2;
        at++;
        int written = 0;
        while (at < end && is_digit(*at)) {
            size = 10 * size + (*at++ - '0');
            written++;
        }
        if (written > decimals) return 2;
        digits += written;
        for (; written < decimals; written++) size *= 10;
    }
    if (digits == 0) return 2;
    while (at < end && *at == ' ') at++;
    if (at != end) return 2;
    if (minus) size = -size;
    if (size < low || size > high) return 3;
    *value = size;
    return 0;
}

static bool blank_name(const char *name) { return memcmp(name, "     ", 5) == 0; }

// The place of a name in part 1, or -1.
static int place_of(const struct table *table, const char *name) {
    for (int i = 0; i < table->frequencies; i++)
        if (memcmp(table->name[i], name, 5) == 0) return i;
    return -1;
}

static struct outcome read_frequencies(struct table *table, struct deck *deck) {
    for (;;) {
        int fault = next_line(deck);
        if (fault) return refused(fault, deck->number);
        if (deck->line.blank) return accepted;
        if (table->frequencies == FREQUENCIES) return refused(6, deck->number);
        const char *name = deck->line.column + 4;
        if (blank_name(name) || place_of(table, name) >= 0) return refused(4, deck->number);
        int64_t speed;
        fault = number_field(deck->line.column + 12, 13, 10, 0, 4999999999, &speed);
        if (fault) return refused(fault, deck->number);
        memcpy(table->name[table->frequencies], name, 5);
        table->speed[table->frequencies] = (uint64_t)speed;
        table->row[table->frequencies] = -1;
        table->frequencies++;
    }
}

static struct outcome read_five(uint64_t *five, int64_t most, struct deck *deck) {
    int fault = next_line(deck);
    for (int i = 0; i < 5 && !fault; i++) {
        int64_t value = 0;
        fault = number_field(deck->line.column + 13 * i, 13, 10, 0, most, &value);
        five[i] = (uint64_t)value;
    }
    return fault ? refused(fault, deck->number) : accepted;
}

// The place of a constituent's own name: 0, or refusal 4 or 5.
static int own_place(const struct table *table, const char *name, int *place) {
    if (blank_name(name)) return 4;
    *place = place_of(table, name);
    if (*place < 0) return 5;
    return table->row[*place] >= 0 ? 4 : 0;
}

static int main_fields(struct table *table, const char *column, struct main_card *card) {
    int place;
    int fault = own_place(table, column + 6, &place);
    if (fault) return fault;
    int64_t value;
    for (int i = 0; i < 6; i++) {
        if ((fault = number_field(column + 12 + 3 * i, 3, -1, -12, 12, &value))) return fault;
        card->doodson[i] = (int8_t)value;
    }
    if ((fault = number_field(column + 30, 5, 2, -100, 100, &value))) return fault;
    card->phase = (int8_t)value;
    if ((fault = number_field(column + 35, 4, -1, 0, 16, &value))) return fault;
    if (table->satellites + value > SATELLITES) return 6;
    card->place = (uint8_t)place;
    card->first = (uint16_t)table->satellites;
    card->count = (uint8_t)value;
    return 0;
}

static int satellite_fields(const char *column, struct satellite *satellite) {
    int64_t value;
    int fault;
    for (int i = 0; i < 3; i++) {
        if ((fault = number_field(column + 3 * i, 3, -1, -9, 9, &value))) return fault;
        satellite->difference[i] = (int8_t)value;
    }
    if ((fault = number_field(column + 9, 4, 2, -100, 100, &value))) return fault;
    satellite->phase = (int8_t)value;
    if ((fault = number_field(column + 13, 7, 4, 0, 20000, &value))) return fault;
    satellite->ratio = (int32_t)value;
    satellite->mark = (uint8_t)column[21];
    return 0;
}

static struct outcome read_satellites(struct table *table, int count, struct deck *deck) {
    for (int i = 0; i < count; i++) {
        if (i % 3 == 0) {
            int fault = next_line(deck);
            if (fault) return refused(fault, deck->number);
        }
        int fault = satellite_fields(deck->line.column + 11 + 23 * (i % 3), &table->satellite[table->satellites]);
        if (fault) return refused(fault, deck->number);
        table->satellites++;
    }
    return accepted;
}

static struct outcome read_mains(struct table *table, struct deck *deck) {
    for (;;) {
        int fault = next_line(deck);
        if (fault) return refused(fault, deck->number);
        if (deck->line.blank) return accepted;
        if (table->mains == MAINS) return refused(6, deck->number);
        struct main_card *card = &table->main[table->mains];
        fault = main_fields(table, deck->line.column, card);
        if (fault) return refused(fault, deck->number);
        table->row[card->place] = (int16_t)table->mains;
        table->mains++;
        struct outcome outcome = read_satellites(table, card->count, deck);
        if (outcome.number) return outcome;
    }
}

static int shallow_fields(const struct table *table, const char *column, struct shallow_card *card) {
    int place;
    int fault = own_place(table, column + 6, &place);
    if (fault) return fault;
    int64_t parts, value, total = 0;
    if ((fault = number_field(column + 11, 1, -1, 1, 4, &parts))) return fault;
    for (int i = 0; i < parts; i++) {
        const char *part = column + 14 + 15 * i;
        if ((fault = number_field(part, 5, 2, -900, 900, &value))) return fault;
        if (value == 0 || value % 100 != 0) return 3;
        total += value < 0 ? -value : value;
        if (total > 1200) return 3;
        int named = place_of(table, part + 5);
        if (named < 0 || table->row[named] < 0 || table->row[named] >= MAINS) return 5;
        card->main[i] = (uint8_t)table->row[named];
        card->coefficient[i] = (int8_t)(value / 100);
    }
    card->place = (uint8_t)place;
    card->parts = (uint8_t)parts;
    return 0;
}

static struct outcome read_shallows(struct table *table, struct deck *deck) {
    for (;;) {
        int fault = next_line(deck);
        if (fault) return refused(fault, deck->number);
        if (deck->line.blank) return accepted;
        if (table->shallows == SHALLOWS) return refused(6, deck->number);
        struct shallow_card *card = &table->shallow[table->shallows];
        fault = shallow_fields(table, deck->line.column, card);
        if (fault) return refused(fault, deck->number);
        table->row[card->place] = (int16_t)(MAINS + table->shallows);
        table->shallows++;
    }
}

struct outcome peer_read(struct table *table, const char *file, size_t length) {
    struct deck deck = {.at = file, .end = file + length, .number = 0};
    table->frequencies = table->mains = table->satellites = table->shallows = 0;
    struct outcome outcome = read_frequencies(table, &deck);
    if (!outcome.number) outcome = read_five(table->longitude, 9999999999, &deck);
    if (!outcome.number) outcome = read_five(table->increase, 200000000000, &deck);
    if (!outcome.number) outcome = read_mains(table, &deck);
    if (!outcome.number) outcome = read_shallows(table, &deck);
    for (int i = 0; !outcome.number && i < table->frequencies; i++)
        if (table->row[i] < 0) outcome = refused(5, i + 1);
    return outcome;
}
