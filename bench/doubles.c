#include "doubles.h"
#include <math.h>

#define TICK (2 * 3.14159265358979323846 / 788400000000000.0)

void doubles_prepare(struct doubles *d, const struct month *month) {
    d->count = month->count;
    for (int k = 0; k < month->count; k++) {
        d->p[k] = month->p[k] / 4096.0;
        d->q[k] = month->q[k] / 4096.0;
        d->start[k] = (double)month->start[k] * TICK;
        d->rate[k] = (double)month->rate[k] * TICK;
        d->size[k] = hypot(d->p[k], d->q[k]);
    }
}

// (b) P × cosine - Q × sine, from libm at the angle of the minute. (gcc makes one call of the two, to sincos.)
void doubles_libm(const struct doubles *d, double *heights, size_t places) {
    for (size_t n = 0; n < places; n++) {
        double sum = 0;
        for (int k = 0; k < d->count; k++) {
            double angle = d->start[k] + d->rate[k] * (double)n;
            sum += d->p[k] * cos(angle) - d->q[k] * sin(angle);
        }
        heights[n] = sum;
    }
}

// libm's functions, where gcc does not know them
double (*libm_cosine)(double) = cos;
double (*libm_sine)(double) = sin;

// (b) the same, as compilers that know no sincos make it: two calls.
void doubles_two_calls(const struct doubles *d, double *heights, size_t places) {
    for (size_t n = 0; n < places; n++) {
        double sum = 0;
        for (int k = 0; k < d->count; k++) {
            double angle = d->start[k] + d->rate[k] * (double)n;
            sum += d->p[k] * libm_cosine(angle) - d->q[k] * libm_sine(angle);
        }
        heights[n] = sum;
    }
}

// (b) with P and Q brought into one amplitude and phase beforehand: one cosine for each constituent and height.
void doubles_one_cosine(const struct doubles *d, double *heights, size_t places) {
    double phase[RECORDS];
    for (int k = 0; k < d->count; k++) phase[k] = d->start[k] + atan2(d->q[k], d->p[k]);
    for (size_t n = 0; n < places; n++) {
        double sum = 0;
        for (int k = 0; k < d->count; k++) sum += d->size[k] * cos(phase[k] + d->rate[k] * (double)n);
        heights[n] = sum;
    }
}

// (c) each constituent's next value is 2 cos(advance) times the last less the one before.
void doubles_chebyshev(const struct doubles *d, double *heights, size_t places) {
    double last[RECORDS], before[RECORDS], twice[RECORDS];
    for (int k = 0; k < d->count; k++) {
        double phase = d->start[k] + atan2(d->q[k], d->p[k]);
        last[k] = d->size[k] * cos(phase);
        before[k] = d->size[k] * cos(phase - d->rate[k]);
        twice[k] = 2 * cos(d->rate[k]);
    }
    for (size_t n = 0; n < places; n++) {
        double sum = 0;
        for (int k = 0; k < d->count; k++) {
            double value = last[k];
            sum += value;
            last[k] = twice[k] * value - before[k];
            before[k] = value;
        }
        heights[n] = sum;
    }
}
