/* The tables of a load, and a plain C parser that fills them. */
#ifndef PLAIN_H
#define PLAIN_H

#include <stddef.h>
#include <stdint.h>

enum {
    MAX_VARIABLES = 1024,
    MAX_CLAUSES = 4096,
    MAX_LITERALS = 16384,
    CLAUSE_PLACES = 3 * MAX_CLAUSES,
    VARIABLE_PLACES = 2 * MAX_VARIABLES,
    STAMP_PLACES = 4 * MAX_VARIABLES
};

/* Loads a text, as unhide_load does: V, or the refusal's number, negative, with its place in *place. */
int64_t plain_load(const uint8_t *text, size_t length,
                   uint32_t *clauses, size_t clause_places,
                   int32_t *literals, size_t literal_places,
                   int32_t *variables, size_t variable_places,
                   const uint32_t *times, size_t time_places,
                   const int32_t *links, size_t link_places,
                   size_t *place);

#endif
