/* `calls text FILE` simplifies the formula in FILE by unhide_text, in one round; `calls tables FILE` makes the same round by calls on tables,
 * with one call of Sweep. Both print what stands then. */
#include <stdio.h>
#include <string.h>

#include "../stamped.h"

static uint8_t out[LENGTH];

/* The length written, or -1 where a call is refused. */
static int64_t simplify_tables(size_t length) {
    if (!load_stamped(length) || unhide_tables_failed(&tables, &answer) != 0)
        return -1;
    if (unhide_tables_sweep(&tables, 65535, &answer) != 0)
        return -1;
    if (unhide_tables_write(&tables, out, LENGTH, &answer) != 0)
        return -1;
    return (int64_t)answer.value;
}

int main(int argc, char **argv) {
    FILE *file = argc == 3 ? fopen(argv[2], "rb") : NULL;
    if (file == NULL)
        return 2;
    size_t length = fread(text, 1, LENGTH, file);
    fclose(file);
    int64_t written = strcmp(argv[1], "text") == 0 ? unhide_text(text, length, 1, out, LENGTH) : simplify_tables(length);
    if (written < 0)
        return 1;
    return fwrite(out, 1, (size_t)written, stdout) == (size_t)written ? 0 : 2;
}
