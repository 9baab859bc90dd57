/* A formula in tables, settled and stamped, for the benchmarks that make calls on it. */
#ifndef STAMPED_H
#define STAMPED_H

#include "../../include/unhide.h"

enum { LENGTH = 1 << 20 };

static uint8_t text[LENGTH];
static struct unhide_tables tables;
static struct unhide_answer answer;

/* A whole pass, in as many calls as it takes; whether none was refused. */
static int whole(int64_t (*pass)(struct unhide_tables *, uint16_t, struct unhide_answer *)) {
    do {
        if (pass(&tables, 65535, &answer) != 0)
            return 0;
    } while (answer.open);
    return 1;
}

/* Stamps in the order of a run's first round. */
static int64_t stamp(void) {
    static int32_t order[UNHIDE_SLOTS];
    for (uint32_t v = 1; v <= tables.state.variables; v++) {
        order[2 * v - 2] = (int32_t)v;
        order[2 * v - 1] = -(int32_t)v;
    }
    return unhide_tables_stamp(&tables, order, 2 * tables.state.variables, &answer);
}

/* Loads the first bytes of `text`, settles and stamps; whether no call is refused. */
static int load_stamped(size_t length) {
    int64_t result;
    if (unhide_tables_load(&tables, text, length, &answer) != 0)
        return 0;
    do {
        if (!whole(unhide_tables_propagate) || !whole(unhide_tables_merge))
            return 0;
        result = stamp();
    } while (result == UNHIDE_UNSETTLED || result == UNHIDE_CYCLE);
    return result == 0;
}

#endif
