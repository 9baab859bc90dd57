/* Times of calls on settled and stamped tables, for the benchmarks that compare a call with the opening of a Sweep. */
#ifndef TIMED_H
#define TIMED_H

#include "measure.h"
#include "stamped.h"

enum { SAMPLES = 41, CALLS = 64 };

/* Whether a call that is measured was refused. */
static int refused;

/* Nanoseconds of one Sweep that opens and makes no visit. The state is put back after each. */
static double time_sweep(void) {
    static struct unhide_state before;
    before = tables.state;
    double start = now();
    for (int i = 0; i < CALLS; i++) {
        refused |= unhide_tables_sweep(&tables, 0, &answer) != 0;
        tables.state = before;
    }
    return (now() - start) / CALLS;
}

#endif
