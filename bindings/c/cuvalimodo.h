/*
 * Cuvalimodo from C: a berth clock in your own memory, and a function for each of its calls.
 *
 *     static cuvalimodo_clock berth;                          all zeros: a clock without a table
 *     cuvalimodo_load_cards(&berth, cards, cards_length);     then set_station and set_date, each accepted or refused
 *     cuvalimodo_height(&berth, minute).height
 *
 * The functions are those of crates/cuvalimodo_c, proved for every input: what they return, write and leave in the clock follows document 01.
 * A refused call returns 01's number and place, and leaves the clock and the lent buffers as they were.
 * Link target/staticlib/libcuvalimodo_c.a (`tools/build cuvalimodo_lib`; x86-64 Linux).
 * Nothing checks these declarations against the Rattle source but bindings/test: change both together.
 *
 * What the proofs assume of a caller:
 *   - a clock is CUVALIMODO_CLOCK_SIZE bytes at an address that 8 divides, all zeros or as a call left them. You may copy it, byte by byte, and
 *     use the copy as another clock. Nobody else writes to it, and no buffer that is lent to a call lies in it;
 *   - while a call changes a clock (it takes no `const`), no other call uses that clock;
 *   - an array is a pointer and a length, counted in its elements. The pointer is never NULL and is aligned for its type, also where the length
 *     is 0; so many elements may be read, or for a buffer written, until the call returns;
 *   - the buffers that a call writes overlap neither each other nor anything else that it is lent.
 * The numbers in the arrays, and all other arguments, may be anything: each is checked.
 *
 * A call uses no memory but what it is lent and its stack, and keeps nothing elsewhere. Threads may so use a clock each, or read one together
 * (`const`). `height` and `bookings` read the clock where it lies and take less than 1 KB of stack; every other call less than 1 MiB, since it works
 * on copies of the clock.
 *
 * Units
 *   latitude    minutes of arc, north positive, -5,400 to 5,400
 *   strides     minutes, 1 to 720 each
 *   place       position of a constituent among the card file's frequencies (part 1), from 0: see cuvalimodo_place_of
 *   amplitude   tenths of a millimetre, 0 to 65,535
 *   phase       phase lag in hundredths of a degree, 0 to 35,999
 *   year        1950 to 2049
 *   month       1 to 12
 *   minute      minutes after 00:00 on the 1st of the month, GMT, 0 to days * 1,440 inclusive; for a year, after 00:00 on 1 January, 0 to
 *               525,600 or, in a leap year, 527,040 inclusive
 *   step        minutes, 1 to 1,440
 *   height      tenths of a millimetre; on hourly cards the nearest centimetre, a half going up
 */
#ifndef CUVALIMODO_H
#define CUVALIMODO_H

#include <assert.h>
#include <stdalign.h>
#include <stdbool.h>
#include <stddef.h>
#include <stdint.h>
#include <string.h>

#ifdef __cplusplus
extern "C" {
#endif

/* Why a call was refused: the field `number` of each result. */
enum cuvalimodo_refusal {
    CUVALIMODO_ACCEPTED = 0,
    CUVALIMODO_BAD_LINE = 1,            /* a line over 80 columns, or a byte outside 32 to 126; place: the card's line */
    CUVALIMODO_MALFORMED = 2,           /* a malformed number; place: the card's line */
    CUVALIMODO_OUT_OF_RANGE = 3,        /* a number outside its range; place: the card's line, the station's record, or 0 for the latitude */
    CUVALIMODO_BAD_NAME = 4,            /* a name blank or twice, or a station's place twice; place: line or record */
    CUVALIMODO_MISSING = 5,             /* a definition, main or frequency missing, or a place not in the table; place: line or record */
    CUVALIMODO_TOO_MANY = 6,            /* more entries or records than there may be; place: line, or 147 for records */
    CUVALIMODO_ENDED = 7,               /* the card file ends inside a part; place: the line after the last */
    CUVALIMODO_BAD_DATE = 8,            /* year or month out of range */
    CUVALIMODO_BAD_MINUTES = 9,         /* minutes outside the month, or the year, or reversed; or step out of range; place: the booking, else 0 */
    CUVALIMODO_TOO_MANY_TURNS = 10,     /* more turns than one of the lent buffers holds */
    CUVALIMODO_TOO_LARGE = 11,          /* a nodal correction too large; place: the station's record */
    CUVALIMODO_NO_TABLE = 21,           /* the clock has no table: load_cards comes first */
    CUVALIMODO_NO_STATION = 22,         /* no station: set_station comes before */
    CUVALIMODO_NO_MONTH = 23,           /* no month: set_date comes before */
    CUVALIMODO_UNEQUAL_BUFFERS = 31,    /* the two lent buffers of bookings differ in length */
    CUVALIMODO_BAD_STATION_NUMBER = 32, /* a station number over 99999, for hourly cards */
    CUVALIMODO_BAD_HEIGHT = 33,         /* a height outside -999 to 9998 centimetres; place: the first hourly card with one */
    CUVALIMODO_SHORT_BUFFER = 34,       /* the lent buffer is too short for the month's hourly cards */
    CUVALIMODO_BAD_STRIDE = 35          /* a station's stride outside 1 to 720 minutes */
};

/* A clock: a table of constituents, a station and a month, each there or not. What is inside is the library's own. */
#define CUVALIMODO_CLOCK_SIZE 20936
typedef struct cuvalimodo_clock {
    alignas(8) unsigned char inside[CUVALIMODO_CLOCK_SIZE];
} cuvalimodo_clock;

/* One of a station's constituents. */
typedef struct cuvalimodo_record {
    uint8_t place;
    uint32_t amplitude;
    uint32_t phase;
} cuvalimodo_record;

/* The lengths of the strides by which turns are looked for. Which one is taken, the station's amplitudes say: (K1 + O1) / (M2 + S2). */
typedef struct cuvalimodo_strides {
    uint32_t semidiurnal; /* up to 0.25 */
    uint32_t mixed;       /* between them */
    uint32_t diurnal;     /* over 3 */
} cuvalimodo_strides;

/* The usual lengths, document 01's. An expression: to be passed, or to be put into a variable. */
#ifdef __cplusplus
#define CUVALIMODO_USUAL_STRIDES (cuvalimodo_strides{180, 30, 360})
#else
#define CUVALIMODO_USUAL_STRIDES ((cuvalimodo_strides){180, 30, 360})
#endif

/* What a card file comes to: the counts of an accepted one, or the refusal's number and line (from 1), and counts of 0. */
typedef struct cuvalimodo_counts {
    uint32_t number; /* CUVALIMODO_ACCEPTED, or why not */
    size_t line;
    size_t frequencies;
    size_t mains;
    size_t satellites;
    size_t shallows;
} cuvalimodo_counts;

/* What a call comes to: accepted, or the refusal's number and place (a card's line, a station's record or a booked minute, from 1; else 0). */
typedef struct cuvalimodo_verdict {
    uint32_t number; /* CUVALIMODO_ACCEPTED, or why not */
    size_t place;
} cuvalimodo_verdict;

/* A height; or a refusal, and height 0. */
typedef struct cuvalimodo_reading {
    uint32_t number; /* CUVALIMODO_ACCEPTED, or why not */
    size_t place;
    int64_t height;
} cuvalimodo_reading;

/* What a search for turns comes to: how many were written, and whether the first is a high water (they alternate); or a refusal, and 0 turns. */
typedef struct cuvalimodo_turnings {
    uint32_t number; /* CUVALIMODO_ACCEPTED, or why not */
    size_t place;
    size_t count;
    bool high;
} cuvalimodo_turnings;

/* What hourly cards come to: how many bytes they take; or the refusal's number and place (an hourly card, from 1; else 0), and 0 bytes. */
typedef struct cuvalimodo_cards {
    uint32_t number; /* CUVALIMODO_ACCEPTED, or why not */
    size_t place;
    size_t bytes;
} cuvalimodo_cards;

/* The names of a table's constituents: that of place n is the five bytes from 5 * n on, with blanks behind a shorter one. */
#define CUVALIMODO_NAME_SIZE 5
typedef struct cuvalimodo_table_names {
    size_t count;
    char bytes[160 * CUVALIMODO_NAME_SIZE];
} cuvalimodo_table_names;

/* Words, with a NUL behind them. */
typedef struct cuvalimodo_text {
    char text[64];
} cuvalimodo_text;

static_assert(sizeof(cuvalimodo_clock) == CUVALIMODO_CLOCK_SIZE && alignof(cuvalimodo_clock) == 8, "a clock lies as in the library");
static_assert(sizeof(cuvalimodo_record) == 12 && offsetof(cuvalimodo_record, amplitude) == 4, "a record lies as in the library");
static_assert(sizeof(cuvalimodo_strides) == 12 && offsetof(cuvalimodo_strides, mixed) == 4 && offsetof(cuvalimodo_strides, diurnal) == 8,
              "strides lie as in the library");
static_assert(sizeof(cuvalimodo_counts) == 48 && sizeof(cuvalimodo_verdict) == 16, "results lie as in the library");
static_assert(sizeof(cuvalimodo_reading) == 24 && sizeof(cuvalimodo_turnings) == 32 && sizeof(bool) == 1, "results lie as in the library");
static_assert(sizeof(cuvalimodo_cards) == 24 && offsetof(cuvalimodo_cards, bytes) == 16, "results lie as in the library");
static_assert(sizeof(cuvalimodo_table_names) == 808 && offsetof(cuvalimodo_table_names, bytes) == 8, "names lie as in the library");

/* Checks a card file: frequencies, longitudes, main and shallow-water constituents. No clock is asked for. */
cuvalimodo_counts cuvalimodo_check_cards(const uint8_t *file, size_t file_length);

/* Puts a clock with no table, station or month in the place of whatever clock is there. */
void cuvalimodo_new(cuvalimodo_clock *clock);

/* Takes a card file's table in place of the old one. Station and month go. */
cuvalimodo_verdict cuvalimodo_load_cards(cuvalimodo_clock *clock, const uint8_t *file, size_t file_length);

/* The names of the table's constituents by place; none where the clock has no table. */
cuvalimodo_table_names cuvalimodo_names(const cuvalimodo_clock *clock);

/* The place of the constituent with a name ("M2"), for a station's record; -1 where the table has no such name, as it has none over five bytes. */
static inline int cuvalimodo_place_of(const cuvalimodo_clock *clock, const char *name)
{
    char wanted[CUVALIMODO_NAME_SIZE] = {' ', ' ', ' ', ' ', ' '};
    size_t length = strlen(name);
    if (length > CUVALIMODO_NAME_SIZE)
        return -1;
    memcpy(wanted, name, length);
    cuvalimodo_table_names names = cuvalimodo_names(clock);
    for (size_t place = 0; place < names.count; place++)
        if (memcmp(names.bytes + place * CUVALIMODO_NAME_SIZE, wanted, CUVALIMODO_NAME_SIZE) == 0)
            return (int)place;
    return -1;
}

/*
 * Takes a station, its strides and at most 146 records, in place of the old one. The table stays; the month goes. The usual strides step over a
 * double high water where its parts are near each other; shorter ones find it, and take longer.
 */
cuvalimodo_verdict cuvalimodo_set_station(cuvalimodo_clock *clock, int32_t latitude, cuvalimodo_strides strides,
                                          const cuvalimodo_record *records, size_t records_length);

/* Prepares a month, in place of the old one. Table and station stay. */
cuvalimodo_verdict cuvalimodo_set_date(cuvalimodo_clock *clock, uint32_t year, uint32_t month);

/* The height at a minute of the month. */
cuvalimodo_reading cuvalimodo_height(const cuvalimodo_clock *clock, uint32_t minute);

/* Heights of the month: heights[n] is that at minute start + n * step, for all of heights_length places. */
cuvalimodo_verdict cuvalimodo_series(const cuvalimodo_clock *clock, uint32_t start, uint32_t step, int64_t *heights, size_t heights_length);

/*
 * Bookings: the heights at a list of minutes of the month, in any order and with repeats. heights[n] is what cuvalimodo_height gives for minutes[n].
 * The two lengths must be equal, and may be 0. All minutes are looked at before a height is written: the place of the first one outside the
 * month, from 1, is the refusal's.
 */
cuvalimodo_verdict cuvalimodo_bookings(const cuvalimodo_clock *clock, const uint32_t *minutes, size_t minutes_length,
                                       int64_t *heights, size_t heights_length);

/*
 * The high and low waters from minute `first` to minute `last` of the month. Turn n is minutes[n] with heights[n]; places past the last turn are
 * left as they were. The two buffers may differ in length; each must hold all turns (250 places are plenty for a month).
 */
cuvalimodo_turnings cuvalimodo_turns(const cuvalimodo_clock *clock, uint32_t first, uint32_t last,
                                     uint32_t *minutes, size_t minutes_length,
                                     int64_t *heights, size_t heights_length);

/*
 * A year's sheet: heights at start, start + step and so on into `series`, and the high and low waters from minute `first` to minute `last` into
 * `minutes` and `heights`, each as above with the year in place of the month; both, or a refusal and neither. Each month has its own weights, and
 * midnight at a month's end belongs to the month that begins. No month need be prepared, and one that is stays. (3,000 turns are plenty for a year.)
 */
cuvalimodo_turnings cuvalimodo_year(const cuvalimodo_clock *clock, uint32_t year, uint32_t start, uint32_t step, uint32_t first, uint32_t last,
                                    int64_t *series, size_t series_length,
                                    uint32_t *minutes, size_t minutes_length,
                                    int64_t *heights, size_t heights_length);

/*
 * The month's hourly cards, (I1,1X,I5,7X,3I2,12A4), under a station number of 0 to 99,999, into `cards` from its front: two cards a day, of 01:00 to
 * 12:00 and of 13:00 to 24:00, each 68 columns and an LF. They take 138 bytes for each day of the month; the bytes beyond them are left as they were.
 */
#define CUVALIMODO_HOURLY_SIZE 4278 /* the cards of 31 days */
cuvalimodo_cards cuvalimodo_hourly(const cuvalimodo_clock *clock, uint32_t station, uint8_t *cards, size_t cards_length);

/* The words of a refusal; none for a number that is no refusal's. printf("%s\n", cuvalimodo_refusal_text(6).text) */
cuvalimodo_text cuvalimodo_refusal_text(uint32_t number);

#ifdef __cplusplus
}
#endif

#endif
