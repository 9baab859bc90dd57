/* The stack that `unhide_text` and `unhide_run` take, on the formula with the deepest walk and on one whose propagation goes through the clauses many times,
 * and the stack that `unhide_join` takes, which keeps the numbers of both formulas at once.
 *
 *     stack TEXT RUN    makes the calls in threads with stacks of so many bytes, a join with RUN: a call that needs more ends the program with a signal
 *     stack             prints for each of the three the least size, in steps of a page, with which it returns
 */
#define _XOPEN_SOURCE 700
#include <pthread.h>
#include <stdio.h>
#include <stdlib.h>
#include <string.h>
#include <sys/wait.h>
#include <unistd.h>

#include "unhide.h"

enum { VARIABLES = 1024, PAGE = 4096, LEAST = 16384, MOST = 4 << 20 };

static char deep[65536], far[65536];
static uint8_t out[135184];
static struct unhide_tables tables;

/* 1 -> 2 -> .. -> 1024 -> -1023 -> .. -> -1: a walk from 1 enters 2,047 literals before it leaves one. */
static void write_deep(void) {
    char *at = deep + sprintf(deep, "p cnf %d %d\n", VARIABLES, VARIABLES);
    int v;
    for (v = 1; v < VARIABLES; v++)
        at += sprintf(at, "%d %d 0\n", -v, v + 1);
    sprintf(at, "%d %d 0\n", -VARIABLES, -(VARIABLES - 1));
}

/* A unit at the end of a chain that stands in reverse: each time through the clauses sets one value. */
static void write_far(void) {
    char *at = far + sprintf(far, "p cnf %d %d\n", VARIABLES, VARIABLES);
    int v;
    for (v = VARIABLES; v > 1; v--)
        at += sprintf(at, "%d %d 0\n", -(v - 1), v);
    sprintf(at, "1 0\n");
}

static int text_returns(const char *text) {
    return unhide_text((const uint8_t *)text, strlen(text), 2, out, sizeof out) > 0;
}

static int run_returns(const char *text) {
    struct unhide_answer answer;
    return unhide_tables_load(&tables, (const uint8_t *)text, strlen(text), &answer) == 0 && unhide_tables_run(&tables, 2, &answer) == 0;
}

/* The two formulas, every variable linked to that of its number. */
static int join_returns(void) {
    static struct unhide_pair pairs[VARIABLES];
    struct unhide_answer answer;
    uint32_t v;
    for (v = 1; v <= VARIABLES; v++)
        pairs[v - 1].left = pairs[v - 1].right = v;
    return unhide_tables_join(&tables, (const uint8_t *)deep, strlen(deep), (const uint8_t *)far, strlen(far), pairs, VARIABLES, &answer) == 0;
}

static void *texts(void *result) {
    *(int *)result = text_returns(deep) && text_returns(far);
    return NULL;
}

static void *runs(void *result) {
    *(int *)result = run_returns(deep) && run_returns(far);
    return NULL;
}

static void *joins(void *result) {
    *(int *)result = join_returns();
    return NULL;
}

/* Whether the calls return with a stack of so many bytes. A stack that is too small ends the process. */
static int returns_in(void *(*calls)(void *), size_t size) {
    pthread_attr_t attributes;
    pthread_t thread;
    int result = 0;
    if (pthread_attr_init(&attributes) || pthread_attr_setstacksize(&attributes, size) || pthread_create(&thread, &attributes, calls, &result))
        return 0;
    pthread_join(thread, NULL);
    return result;
}

/* The same in a process of its own, so that it can be tried. */
static int tried(void *(*calls)(void *), size_t size) {
    int status = 1;
    pid_t child = fork();
    if (child == 0)
        _exit(returns_in(calls, size) ? 0 : 1);
    waitpid(child, &status, 0);
    return WIFEXITED(status) && WEXITSTATUS(status) == 0;
}

static size_t least(void *(*calls)(void *)) {
    size_t low = LEAST, high = MOST;
    while (high - low > PAGE) {
        size_t middle = (low + high) / 2 / PAGE * PAGE;
        if (tried(calls, middle))
            high = middle;
        else
            low = middle;
    }
    return high;
}

int main(int argc, char **argv) {
    write_deep();
    write_far();
    if (argc == 3) {
        size_t text = strtoul(argv[1], NULL, 10), run = strtoul(argv[2], NULL, 10);
        return returns_in(texts, text) && returns_in(runs, run) && returns_in(joins, run) ? 0 : 1;
    }
    printf("unhide_text %lu\n", (unsigned long)least(texts));
    printf("unhide_run %lu\n", (unsigned long)least(runs));
    printf("unhide_join %lu\n", (unsigned long)least(joins));
    return 0;
}
