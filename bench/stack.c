// The stack in use by a call: it runs on a painted stack of its own, and what is no longer painted afterwards was in use.
#define _GNU_SOURCE
#include "bench.h"
#include <stdio.h>
#include <stdlib.h>
#include <string.h>
#include <sys/mman.h>
#include <ucontext.h>

enum { STACK = 4 << 20, PAINT = 0xa5, BOOKED = 24 };

static struct work w;
static int64_t heights[MONTH + 1];
static int64_t hourly[YEAR / 60 + 1];
static uint32_t minutes[MONTH + 1], booked[BOOKED];
static unsigned char *stack;
static ucontext_t back, away;
static volatile uint32_t number;

// The bytes of stack in use by f, with the bench's own frame around it.
static size_t depth(void (*f)(void)) {
    memset(stack, PAINT, STACK);
    getcontext(&away);
    away.uc_stack.ss_sp = stack;
    away.uc_stack.ss_size = STACK;
    away.uc_link = &back;
    makecontext(&away, f, 0);
    swapcontext(&back, &away);
    size_t untouched = 0;
    while (untouched < STACK && stack[untouched] == PAINT) untouched++;
    return STACK - untouched;
}

static void nothing(void) { number = 0; }
static void cards(void) { number = cuvalimodo_load_cards(&w.clock, (const uint8_t *)w.file, w.length).number; }
static void station(void) { number = cuvalimodo_set_station(&w.clock, w.station.latitude, CUVALIMODO_USUAL_STRIDES, w.records, (size_t)w.station.count).number; }
static void date(void) { number = cuvalimodo_set_date(&w.clock, w.year, w.month).number; }
static void single_height(void) { number = cuvalimodo_height(&w.clock, 1).number; }
static void bookings(void) { number = cuvalimodo_bookings(&w.clock, booked, BOOKED, heights, BOOKED).number; }
static void series(void) { number = cuvalimodo_series(&w.clock, 0, 1, heights, 1440).number; }
static void turns(void) { number = cuvalimodo_turns(&w.clock, 0, MONTH, minutes, MONTH, heights, MONTH).number; }
static void year(void) { number = cuvalimodo_year(&w.clock, w.year, 0, 60, 0, YEAR, hourly, YEAR / 60 + 1, minutes, MONTH, heights, MONTH).number; }
static uint8_t written[CUVALIMODO_HOURLY_SIZE];
static void hourly_cards(void) { number = cuvalimodo_hourly(&w.clock, 7120, written, sizeof written).number; }
static cuvalimodo_table_names names_read;
static void names(void) { names_read = cuvalimodo_names(&w.clock); }

// The most that a call may use is asked in bytes.
static void line(const char *what, void (*f)(void), size_t most) {
    size_t bytes = depth(f);
    if (number || bytes >= most) {
        printf("| %s | %zu: %s |\n", what, bytes, number ? "refused" : "too much");
        exit(1);
    }
    printf("| %s | %zu |\n", what, bytes);
}

void print_stack(const char *file, size_t length, const char *deepest, size_t deepest_length) {
    stack = mmap(NULL, STACK, PROT_READ | PROT_WRITE, MAP_PRIVATE | MAP_ANONYMOUS, -1, 0);
    printf("\nStack in use by a call on a held clock, bytes, with the bench's frame around it (%zu)\n\n| call | bytes |\n|---|---|\n", depth(nothing));
    set_work(&w, file, length, 2905, 145, 1976, 7);
    line("a station", station, 1 << 20);
    line("a date", date, 1 << 20);
    line("a single height", single_height, 1024);
    line("bookings", bookings, 1024);
    line("a series", series, 1 << 20);
    line("turns of a month", turns, 1 << 20);
    line("hourly cards", hourly_cards, 1 << 20);
    line("a year", year, 1 << 20);
    printf("| of it, the arguments and weights of its twelve months | %zu |\n", (size_t)YEAR_ROWS);
    line("the names", names, 1 << 20);
    line("the standard card file", cards, 1 << 20);
    w.file = deepest;
    w.length = deepest_length;
    line("the deepest card file, 64 mains of 4 satellites", cards, 1 << 20);
}
