/* Results of the C call as numbers, and which bytes of the output it writes. The exit status is 1 if one differs. */
#include <stdio.h>
#include <string.h>

#include "unhide.h"

static int differs;

static void compare(const char *name, long long expected, long long found) {
    if (expected == found) {
        printf("ok %s\n", name);
        return;
    }
    printf("differs: %s: expected %lld, found %lld\n", name, expected, found);
    differs = 1;
}

static int64_t call(const char *text, uint16_t rounds, uint8_t *out, size_t length) {
    memset(out, '.', 64);
    return unhide_text((const uint8_t *)text, strlen(text), rounds, out, length);
}

int main(void) {
    const char *sample = "p cnf 4 3\n-1 2 0\n-2 3 0\n1 3 4 0\n";
    uint8_t out[64];

    compare("length", 30, call(sample, 1, out, 64));
    compare("text", 0, memcmp(out, "p cnf 4 3\n-1 2 0\n-2 3 0\n3 4 0\n.", 31));
    compare("exact output", 30, call(sample, 1, out, 30));
    compare("exact bytes", 0, memcmp(out, "p cnf 4 3\n-1 2 0\n-2 3 0\n3 4 0\n.", 31));
    compare("short output", -10, call(sample, 1, out, 29));
    compare("short output stays", 0, memcmp(out, "..............................", 30));
    compare("no output", -10, call(sample, 1, out, 0));
    compare("no round", 32, call(sample, 0, out, 64));
    compare("no round, text", 0, memcmp(out, sample, 32));
    compare("grammar", -2, call("p cnf 1 1\n01 0", 1, out, 64));
    compare("limit", -3, call("p cnf 1 1\n2 0", 1, out, 64));
    compare("refused stays", 0, memcmp(out, "..............................", 30));
    compare("no text", -2, call("", 1, out, 64));
    return differs;
}
