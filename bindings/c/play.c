/*
 * Plays scripts of replay's format (docs/FORMATS.md) on one clock that this program holds, and writes what replay writes.
 * Usage: play < SCRIPT, or play SCRIPT..., which begins anew with each and writes a blank line behind its answers.
 *
 * The clock and every lent buffer stand between guards. After each call the guards must be as they were, and so must all that the call may not
 * change: after a refused call the clock and the buffers. Otherwise the program says so and ends with status 3.
 */
#include <inttypes.h>
#include <stdio.h>
#include <stdlib.h>
#include <string.h>

#include "cuvalimodo.h"

enum { GUARD = 64, PAINT = 0xa5, LAST_FIELD = 4, MOST_CARDS = 100000 };

static void end(int status, const char *what)
{
    fflush(stdout);
    fprintf(stderr, "play: %s\n", what);
    exit(status);
}

static void *room(size_t size)
{
    void *space = malloc(size);
    if (!space)
        end(2, "no memory");
    return space;
}

/* Memory that calls are lent: guard, the bytes themselves, guard; and a copy of the bytes. */
struct lent {
    unsigned char *at;
    size_t size;
    unsigned char *copy;
};

static struct lent lend(size_t count, size_t each)
{
    size_t size = count * each;
    unsigned char *space = room(GUARD + size + GUARD + size);
    memset(space, PAINT, GUARD + size + GUARD);
    return (struct lent){space + GUARD, size, space + GUARD + size + GUARD};
}

static void copy(struct lent l)
{
    memcpy(l.copy, l.at, l.size);
}

/* The guards stand, and so do the bytes from `from` on. */
static void stands(struct lent l, size_t from, const char *what)
{
    for (size_t i = 1; i <= GUARD; i++)
        if (*(l.at - i) != PAINT || l.at[l.size + i - 1] != PAINT)
            end(3, "a guard is broken");
    if (memcmp(l.at + from, l.copy + from, l.size - from) != 0)
        end(3, what);
}

/* The same of a buffer that is then given back. */
static void back(struct lent l, size_t from)
{
    stands(l, from, "a lent buffer is changed");
    free(l.at - GUARD);
}

/* The clock. */

static struct lent clock;

static cuvalimodo_clock *held(void)
{
    copy(clock);
    return (cuvalimodo_clock *)clock.at;
}

/* After a call that may change the clock where it is accepted, or never. */
static void clock_stands(bool may_change)
{
    stands(clock, may_change ? clock.size : 0, "the clock is changed");
}

/* The table has so many names, and each is found at its place. */
static void names_stand(size_t count)
{
    cuvalimodo_table_names names = cuvalimodo_names(held());
    clock_stands(false);
    bool found = names.count == count && cuvalimodo_place_of(held(), "") == -1 && cuvalimodo_place_of(held(), "longer") == -1;
    for (size_t place = 0; found && place < count; place++) {
        char name[CUVALIMODO_NAME_SIZE + 1] = "";
        memcpy(name, names.bytes + place * CUVALIMODO_NAME_SIZE, CUVALIMODO_NAME_SIZE);
        found = cuvalimodo_place_of(held(), name) == (int)place;
    }
    if (!found)
        end(3, "the names are others");
}

/* A clock without a table: zeroed memory for one script, `new` over the clock that is there for the next. `new` writes the last field too. */
static void begin(int script)
{
    unsigned char *last = clock.at + clock.size - LAST_FIELD;
    if (script % 2 == 0) {
        memset(clock.at, 0, clock.size);
        names_stand(0);
        return;
    }
    memset(last, PAINT, LAST_FIELD);
    cuvalimodo_new(held());
    clock_stands(true);
    if (memcmp(last, (unsigned char[LAST_FIELD]){0}, LAST_FIELD) != 0)
        end(3, "new leaves the clock's last field");
    names_stand(0);
}

/* Whether a call is accepted; a refusal is written. */
static bool accepted(uint32_t number, size_t place)
{
    if (number)
        printf("refused %" PRIu32 " %zu\n", number, place);
    return number == 0;
}

/* What a call that sets the clock says. */
static void set(cuvalimodo_verdict said)
{
    if (accepted(said.number, said.place))
        puts("accepted");
    clock_stands(said.number == 0);
}

/* Scripts: what is left of one, and its line, from 1. The readers below say whether the script has what they read. */

struct script {
    const unsigned char *at, *end;
    unsigned long line;
};

static bool byte(struct script *s, unsigned char wanted)
{
    return s->at < s->end && *s->at++ == wanted;
}

static bool line_end(struct script *s)
{
    if (!byte(s, '\n'))
        return false;
    s->line++;
    return true;
}

/* Digits, behind a minus where `lowest` is below 0, of a number from `lowest` to `highest`. */
static bool number(struct script *s, int64_t lowest, int64_t highest, int64_t *value)
{
    int64_t sign = 1;
    if (lowest < 0 && s->at < s->end && *s->at == '-') {
        sign = -1;
        s->at++;
    }
    const unsigned char *first = s->at;
    for (*value = 0; s->at < s->end && *s->at >= '0' && *s->at <= '9'; s->at++) {
        *value = 10 * *value + (*s->at - '0');
        if (*value > INT64_C(10000000000))
            return false;
    }
    *value *= sign;
    return s->at > first && *value >= lowest && *value <= highest;
}

static bool record(struct script *s, cuvalimodo_record *r)
{
    int64_t place, amplitude, phase;
    if (!(number(s, 0, UINT8_MAX, &place) && byte(s, ' ') && number(s, 0, UINT32_MAX, &amplitude) && byte(s, ' ') && number(s, 0, UINT32_MAX, &phase)))
        return false;
    *r = (cuvalimodo_record){(uint8_t)place, (uint32_t)amplitude, (uint32_t)phase};
    return line_end(s);
}

static bool minute(struct script *s, uint32_t *m)
{
    int64_t value;
    if (!number(s, 0, UINT32_MAX, &value))
        return false;
    *m = (uint32_t)value;
    return line_end(s);
}

/* A card file of so many bytes; `line` counts the lines inside it. */
static bool card_file(struct script *s, size_t size, const unsigned char **file)
{
    bool there = size <= (size_t)(s->end - s->at);
    const unsigned char *end = there ? s->at + size : s->end;
    for (*file = s->at; s->at < end; s->at++)
        s->line += *s->at == '\n';
    return there && line_end(s);
}

/* The calls, with the numbers of their line. */

static bool cards(struct script *s, const int64_t *n)
{
    const unsigned char *text;
    if (!card_file(s, (size_t)n[0], &text))
        return false;
    struct lent file = lend((size_t)n[0], 1);
    memcpy(file.at, text, file.size);
    copy(file);
    cuvalimodo_counts checked = cuvalimodo_check_cards(file.at, file.size);
    cuvalimodo_verdict said = cuvalimodo_load_cards(held(), file.at, file.size);
    set(said);
    if (checked.number != said.number || checked.line != said.place)
        end(3, "check_cards and load_cards differ");
    if (said.number == 0)
        names_stand(checked.frequencies);
    back(file, 0);
    return true;
}

static bool station_of(struct script *s, const int64_t *n, cuvalimodo_strides strides)
{
    size_t count = (size_t)n[1];
    struct script first = *s;
    cuvalimodo_record read;
    for (size_t k = 0; k < count; k++)
        if (!record(s, &read))
            return false;
    struct lent lent = lend(count, sizeof(cuvalimodo_record));
    cuvalimodo_record *records = (cuvalimodo_record *)(void *)lent.at;
    for (size_t k = 0; k < count; k++)
        record(&first, &records[k]);
    copy(lent);
    set(cuvalimodo_set_station(held(), (int32_t)n[0], strides, records, count));
    back(lent, 0);
    return true;
}

static bool usual_station(struct script *s, const int64_t *n)
{
    return station_of(s, n, CUVALIMODO_USUAL_STRIDES);
}

static bool station(struct script *s, const int64_t *n)
{
    return station_of(s, n, (cuvalimodo_strides){.semidiurnal = (uint32_t)n[2], .mixed = (uint32_t)n[3], .diurnal = (uint32_t)n[4]});
}

static bool date(struct script *s, const int64_t *n)
{
    (void)s;
    set(cuvalimodo_set_date(held(), (uint32_t)n[0], (uint32_t)n[1]));
    return true;
}

static bool height(struct script *s, const int64_t *n)
{
    (void)s;
    cuvalimodo_reading said = cuvalimodo_height(held(), (uint32_t)n[0]);
    clock_stands(false);
    if (accepted(said.number, said.place))
        printf("height %" PRId64 "\n", said.height);
    return true;
}

static void write_numbers(const char *word, const int64_t *numbers, size_t count)
{
    fputs(word, stdout);
    for (size_t k = 0; k < count; k++)
        printf(" %" PRId64, numbers[k]);
}

static bool series(struct script *s, const int64_t *n)
{
    (void)s;
    struct lent lent = lend((size_t)n[2], sizeof(int64_t));
    int64_t *heights = (int64_t *)(void *)lent.at;
    copy(lent);
    cuvalimodo_verdict said = cuvalimodo_series(held(), (uint32_t)n[0], (uint32_t)n[1], heights, (size_t)n[2]);
    clock_stands(false);
    if (accepted(said.number, said.place)) {
        write_numbers("heights", heights, (size_t)n[2]);
        puts("");
    }
    back(lent, said.number ? 0 : lent.size);
    return true;
}

static bool bookings(struct script *s, const int64_t *n)
{
    size_t count = (size_t)n[0], places = (size_t)n[1];
    struct script first = *s;
    uint32_t read;
    for (size_t k = 0; k < count; k++)
        if (!minute(s, &read))
            return false;
    struct lent lent_minutes = lend(count, sizeof(uint32_t)), lent_heights = lend(places, sizeof(int64_t));
    uint32_t *minutes = (uint32_t *)(void *)lent_minutes.at;
    int64_t *heights = (int64_t *)(void *)lent_heights.at;
    for (size_t k = 0; k < count; k++)
        minute(&first, &minutes[k]);
    copy(lent_minutes);
    copy(lent_heights);
    cuvalimodo_verdict said = cuvalimodo_bookings(held(), minutes, count, heights, places);
    clock_stands(false);
    if (accepted(said.number, said.place)) {
        write_numbers("heights", heights, places);
        puts("");
    }
    back(lent_minutes, 0);
    back(lent_heights, said.number ? 0 : lent_heights.size);
    return true;
}

static void write_turns(cuvalimodo_turnings found, const uint32_t *minutes, const int64_t *heights)
{
    printf("turns %zu %d", found.count, found.high);
    for (size_t k = 0; k < found.count; k++)
        printf(" %" PRIu32 " %" PRId64, minutes[k], heights[k]);
    puts("");
}

static bool turns(struct script *s, const int64_t *n)
{
    (void)s;
    struct lent lent_minutes = lend((size_t)n[2], sizeof(uint32_t)), lent_heights = lend((size_t)n[3], sizeof(int64_t));
    uint32_t *minutes = (uint32_t *)(void *)lent_minutes.at;
    int64_t *heights = (int64_t *)(void *)lent_heights.at;
    copy(lent_minutes);
    copy(lent_heights);
    cuvalimodo_turnings said = cuvalimodo_turns(held(), (uint32_t)n[0], (uint32_t)n[1], minutes, (size_t)n[2], heights, (size_t)n[3]);
    clock_stands(false);
    if (accepted(said.number, said.place))
        write_turns(said, minutes, heights);
    back(lent_minutes, said.count * sizeof(uint32_t));
    back(lent_heights, said.count * sizeof(int64_t));
    return true;
}

static bool year(struct script *s, const int64_t *n)
{
    (void)s;
    struct lent lent_series = lend((size_t)n[3], sizeof(int64_t)), lent_minutes = lend((size_t)n[6], sizeof(uint32_t)), lent_heights = lend((size_t)n[7], sizeof(int64_t));
    int64_t *series = (int64_t *)(void *)lent_series.at, *heights = (int64_t *)(void *)lent_heights.at;
    uint32_t *minutes = (uint32_t *)(void *)lent_minutes.at;
    copy(lent_series);
    copy(lent_minutes);
    copy(lent_heights);
    cuvalimodo_turnings said = cuvalimodo_year(held(), (uint32_t)n[0], (uint32_t)n[1], (uint32_t)n[2], (uint32_t)n[4], (uint32_t)n[5],
                                               series, (size_t)n[3], minutes, (size_t)n[6], heights, (size_t)n[7]);
    clock_stands(false);
    if (accepted(said.number, said.place)) {
        printf("year %" PRId64, n[3]);
        write_numbers("", series, (size_t)n[3]);
        putchar(' ');
        write_turns(said, minutes, heights);
    }
    back(lent_series, said.number ? 0 : lent_series.size);
    back(lent_minutes, said.count * sizeof(uint32_t));
    back(lent_heights, said.count * sizeof(int64_t));
    return true;
}

/* No cards take MOST_CARDS bytes, so no more are lent. */
static bool hourly(struct script *s, const int64_t *n)
{
    (void)s;
    struct lent lent = lend(n[1] < MOST_CARDS ? (size_t)n[1] : MOST_CARDS, 1);
    copy(lent);
    cuvalimodo_cards said = cuvalimodo_hourly(held(), (uint32_t)n[0], lent.at, lent.size);
    clock_stands(false);
    if (accepted(said.number, said.place)) {
        printf("hourly %zu\n", said.bytes);
        fwrite(lent.at, 1, said.bytes, stdout);
    }
    back(lent, said.bytes);
    return true;
}

/* A call is picked by its word and by how many numbers its line has. */
static const struct {
    const char *word;
    int numbers;
    bool (*play)(struct script *, const int64_t *);
} calls[] = {{"cards", 1, cards},   {"station", 2, usual_station}, {"station", 5, station}, {"date", 2, date}, {"height", 1, height},
             {"series", 3, series}, {"bookings", 2, bookings},     {"turns", 4, turns},     {"year", 8, year}, {"hourly", 2, hourly}};

enum { CALLS = sizeof calls / sizeof *calls, NUMBERS = 8 };

/* How many blanks are left on a line. */
static int blanks(const struct script *s)
{
    int count = 0;
    for (const unsigned char *at = s->at; at < s->end && *at != '\n'; at++)
        count += *at == ' ';
    return count;
}

/* One call of a script. */
static bool play_call(struct script *s)
{
    const unsigned char *word = s->at;
    while (s->at < s->end && *s->at >= 'a' && *s->at <= 'z')
        s->at++;
    size_t length = (size_t)(s->at - word);
    int k = 0, found = blanks(s);
    while (k < CALLS && !(calls[k].numbers == found && strlen(calls[k].word) == length && memcmp(calls[k].word, word, length) == 0))
        k++;
    if (k == CALLS)
        return false;
    int64_t numbers[NUMBERS];
    for (int i = 0; i < calls[k].numbers; i++) {
        bool latitude = strcmp(calls[k].word, "station") == 0 && i == 0;
        if (!(byte(s, ' ') && number(s, latitude ? INT32_MIN : 0, latitude ? INT32_MAX : UINT32_MAX, &numbers[i])))
            return false;
    }
    return line_end(s) && calls[k].play(s, numbers);
}

static void play(struct script s)
{
    while (s.at < s.end)
        if (!play_call(&s)) {
            printf("script %lu\n", s.line);
            return;
        }
}

static void play_file(FILE *file)
{
    size_t length = 0, most = 1 << 16, got;
    unsigned char *text = room(most);
    while ((got = fread(text + length, 1, most - length, file)) > 0) {
        length += got;
        if (length == most && !(text = realloc(text, most *= 2)))
            end(2, "no memory");
    }
    play((struct script){text, text + length, 1});
    free(text);
}

int main(int argc, char **argv)
{
    clock = lend(1, sizeof(cuvalimodo_clock));
    begin(0);
    if (argc == 1)
        play_file(stdin);
    for (int k = 1; k < argc; k++) {
        FILE *file = fopen(argv[k], "rb");
        if (!file)
            end(2, argv[k]);
        begin(k);
        play_file(file);
        fclose(file);
        puts("");
    }
    return 0;
}
