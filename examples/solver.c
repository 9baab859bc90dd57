/* A caller of the simplifier: reads a DIMACS file, or takes a built-in sample, simplifies it in one round, and prints the
 * result, or `refused` and the refusal's number.
 *
 * Build, from the root of the repository:
 *     (cd crates/c_calls && rt lib)
 *     mkdir -p target
 *     gcc -std=c99 -O2 -Iinclude -o target/solver examples/solver.c crates/c_calls/out/libc_calls.a
 * Run:
 *     target/solver [FILE]
 */
#include <errno.h>
#include <stdio.h>
#include <string.h>

#include "unhide.h"

static const char sample[] = "p cnf 4 3\n-1 2 0\n-2 3 0\n1 3 4 0\n";

static uint8_t text[1 << 20];
static uint8_t out[135184];

/* The bytes of a file, or -1, with the reason on standard error. */
static long read_file(const char *name) {
    errno = 0;
    FILE *file = fopen(name, "rb");
    size_t length = file ? fread(text, 1, sizeof text, file) : 0;
    if (!file || ferror(file)) {
        fprintf(stderr, "cannot read %s: %s\n", name, strerror(errno));
        if (file)
            fclose(file);
        return -1;
    }
    int more = fgetc(file) != EOF;
    fclose(file);
    if (more) {
        fprintf(stderr, "cannot read %s: it is longer than %zu bytes\n", name, sizeof text);
        return -1;
    }
    return (long)length;
}

/* Prints the bytes; whether all of them were taken. */
static int print_all(const uint8_t *bytes, size_t length) {
    errno = 0;
    if (fwrite(bytes, 1, length, stdout) == length && fflush(stdout) == 0)
        return 1;
    fprintf(stderr, "cannot write: %s\n", strerror(errno));
    return 0;
}

int main(int argc, char **argv) {
    long length = sizeof sample - 1;
    if (argc > 1) {
        length = read_file(argv[1]);
        if (length < 0)
            return 2;
    } else {
        memcpy(text, sample, sizeof sample - 1);
    }
    int64_t result = unhide_text(text, (size_t)length, 1, out, sizeof out);
    if (result < 0) {
        printf("refused %lld\n", (long long)-result);
        return 1;
    }
    return print_all(out, (size_t)result) ? 0 : 2;
}
