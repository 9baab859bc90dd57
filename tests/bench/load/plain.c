/* A plain parser of DIMACS text with the limits and refusals of a load. It reads the text once, into tables of its own, and
   copies them to the caller's at the end, so that a refused text changes nothing. */
#include "plain.h"

#include <string.h>

enum { SHAPE = 1, GRAMMAR = 2, LIMIT = 3 };

static int64_t refuse(int number, size_t at, size_t *place)
{
    *place = at;
    return -number;
}

static int is_digit(uint8_t b)
{
    return b >= '0' && b <= '9';
}

static int is_separator(uint8_t b)
{
    return b == ' ' || b == '\t' || b == '\r' || b == '\n';
}

/* A number of the header: 0, or the refusal's number. */
static int read_number(const uint8_t *text, size_t length, size_t *at, uint32_t limit, uint32_t *value)
{
    size_t i = *at;
    uint32_t n = 0;
    if (i == length || !is_digit(text[i]))
        return GRAMMAR;
    if (text[i] == '0') {
        *value = 0;
        *at = i + 1;
        return 0;
    }
    for (; i < length && is_digit(text[i]); i++)
        if (n <= limit)
            n = n * 10 + (text[i] - '0');
    if (n > limit)
        return LIMIT;
    *value = n;
    *at = i;
    return 0;
}

int64_t plain_load(const uint8_t *text, size_t length,
                   uint32_t *clauses, size_t clause_places,
                   int32_t *literals, size_t literal_places,
                   int32_t *variables, size_t variable_places,
                   const uint32_t *times, size_t time_places,
                   const int32_t *links, size_t link_places,
                   size_t *place)
{
    uint32_t records[CLAUSE_PLACES];
    int32_t kept[MAX_LITERALS];
    uint32_t seen[2 * MAX_VARIABLES] = {0};
    uint32_t v, n;
    uint32_t clause = 0, start = 0, end = 0, read = 0;
    int unfinished = 0, dropped = 0, refusal;
    size_t at = 0;
    (void)times;
    (void)links;

    if (clause_places < CLAUSE_PLACES || literal_places < MAX_LITERALS || variable_places < VARIABLE_PLACES
        || time_places < STAMP_PLACES || link_places < STAMP_PLACES)
        return refuse(SHAPE, 0, place);

    /* comment lines and the header */
    while (at < length && text[at] == 'c') {
        const uint8_t *lf = memchr(text + at, '\n', length - at);
        if (!lf)
            return refuse(GRAMMAR, length, place);
        at = (size_t)(lf - text) + 1;
    }
    for (const char *p = "p cnf "; *p; p++, at++)
        if (at == length || text[at] != (uint8_t)*p)
            return refuse(GRAMMAR, at, place);
    if ((refusal = read_number(text, length, &at, MAX_VARIABLES, &v)))
        return refuse(refusal, at, place);
    if (at == length || text[at] != ' ')
        return refuse(GRAMMAR, at, place);
    at++;
    if ((refusal = read_number(text, length, &at, MAX_CLAUSES, &n)))
        return refuse(refusal, at, place);
    if (at < length) {
        if (text[at] != '\n')
            return refuse(GRAMMAR, at, place);
        at++;
    }

    /* the clauses */
    for (;;) {
        size_t token;
        uint32_t magnitude = 0, slot;
        int negative;
        while (at < length && is_separator(text[at]))
            at++;
        if (at == length)
            break;
        token = at;
        negative = text[at] == '-';
        at += negative;
        if (at == length || !is_digit(text[at]))
            return refuse(GRAMMAR, token, place);
        if (text[at] == '0') {
            at++;
            if (negative || (at < length && !is_separator(text[at])))
                return refuse(GRAMMAR, token, place);
            if (clause == n)
                return refuse(LIMIT, token, place);
            if (dropped)
                end = start;
            records[3 * clause] = start;
            records[3 * clause + 1] = end - start;
            records[3 * clause + 2] = !dropped;
            clause++;
            start = end;
            dropped = unfinished = 0;
            continue;
        }
        for (; at < length && is_digit(text[at]); at++)
            if (magnitude <= MAX_VARIABLES)
                magnitude = magnitude * 10 + (text[at] - '0');
        if (at < length && !is_separator(text[at]))
            return refuse(GRAMMAR, token, place);
        if (clause == n || magnitude > v || read == MAX_LITERALS)
            return refuse(LIMIT, token, place);
        read++;
        unfinished = 1;
        slot = 2 * (magnitude - 1) + negative;
        if (seen[slot] != clause + 1) {
            seen[slot] = clause + 1;
            if (seen[slot ^ 1] == clause + 1)
                dropped = 1;
            kept[end++] = negative ? -(int32_t)magnitude : (int32_t)magnitude;
        }
    }
    if (unfinished)
        return refuse(GRAMMAR, length, place);
    if (clause < n)
        return refuse(LIMIT, length, place);

    /* the tables */
    memcpy(clauses, records, 3 * clause * sizeof *clauses);
    memset(clauses + 3 * clause, 0, (CLAUSE_PLACES - 3 * clause) * sizeof *clauses);
    memcpy(literals, kept, end * sizeof *literals);
    memset(literals + end, 0, (MAX_LITERALS - end) * sizeof *literals);
    memset(variables, 0, VARIABLE_PLACES * sizeof *variables);
    for (uint32_t i = 0; i < v; i++)
        variables[2 * i] = (int32_t)i + 1;
    return v;
}
