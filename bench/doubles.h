// Peers (b) and (c): a series in double precision, by libm's cosine and sine and by Foreman's Chebyshev recursion.
#ifndef DOUBLES_H
#define DOUBLES_H

#include "peer.h"

struct doubles {
    int count;
    double p[RECORDS], q[RECORDS], start[RECORDS], rate[RECORDS], size[RECORDS];
};

void doubles_prepare(struct doubles *d, const struct month *month);
void doubles_libm(const struct doubles *d, double *heights, size_t places);
void doubles_two_calls(const struct doubles *d, double *heights, size_t places);
void doubles_one_cosine(const struct doubles *d, double *heights, size_t places);
void doubles_chebyshev(const struct doubles *d, double *heights, size_t places);

#endif
