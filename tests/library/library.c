/* What the calls of the C library promise of the caller's memory, and of their own: each plan of the files that are
   named is run and checked with buffers of each size that matters, with each growth refused in turn, and again and
   again.

   Usage: library FILE... Prints each test that fails, and 'N passed, M failed' last. */
#include "../../embed/clusterrun.h"
#include "refusing.h"
#include <malloc.h>
#include <stdio.h>
#include <stdlib.h>
#include <string.h>
#include <sys/mman.h>

enum { BEHIND = 0xA5, GUARD = 64, OFTEN = 10000 };

typedef uint32_t call(const uint8_t *plan, size_t plan_length, uint8_t *out, size_t room, size_t *length);
typedef uint32_t keep_call(const uint8_t *plan, size_t plan_length, struct clusterrun_answer *answer, size_t *length);

struct answer {
    uint32_t status;
    size_t length;
    uint8_t *text;
};

/* One call with so much room, before a guard. Whether the front has the text and nothing else has changed. */
static int fits(call *of, const uint8_t *plan, size_t plan_length, const struct answer *wanted, size_t room, struct answer *got)
{
    uint8_t *out = __real_malloc(room + GUARD);
    size_t front, at;
    int holds = 1;

    memset(out, BEHIND, room + GUARD);
    got->length = 77;
    growths = 0;
    got->status = of(plan, plan_length, out, room, &got->length);
    front = got->length < room ? got->length : room;
    if (wanted != NULL && got->status == wanted->status)
        holds = got->length == wanted->length && memcmp(out, wanted->text, front) == 0;
    for (at = front; at < room + GUARD; at++)
        holds = holds && out[at] == BEHIND;
    got->text = out;
    return holds;
}

static void try_plan(call *of, const char *word, const char *file, const uint8_t *plan, size_t plan_length)
{
    struct answer wanted, got;
    size_t sizes[9], count = 0, at;
    long all, number, without = 0;

    /* with room enough, and so the text */
    expect(fits(of, plan, plan_length, NULL, 1 << 20, &wanted), word, file, 0);
    all = growths;
    expect(wanted.status <= CLUSTERRUN_REFUSED && wanted.length > 0 && wanted.length < 1 << 20, "status", file, wanted.status);
    sizes[count++] = 0;
    sizes[count++] = 1;
    sizes[count++] = wanted.length / 2;
    sizes[count++] = wanted.length - 1;
    sizes[count++] = wanted.length;
    sizes[count++] = wanted.length + 1;
    for (at = 0; at < count; at++) {
        expect(fits(of, plan, plan_length, &wanted, sizes[at], &got) && got.status == wanted.status, "room", file, sizes[at]);
        __real_free(got.text);
    }
    /* each growth refused: no memory and nothing written, or as if it had not been refused */
    for (number = 1; number <= all; number++) {
        refused = number;
        expect(fits(of, plan, plan_length, &wanted, 1 << 16, &got)
                   && (got.status == wanted.status || (got.status == CLUSTERRUN_NO_MEMORY && got.length == 0)),
            "growth", file, (size_t)number);
        without += got.status == wanted.status;
        __real_free(got.text);
        expect(blocks == 0, "blocks left after growth", file, (size_t)number);
    }
    refused = 0;
    expect(all > 5 && without * 4 <= all, "growths that it did without", file, (size_t)without);
    __real_free(wanted.text);
}

/* Whether a part of what is kept is that of the text, and nothing else changes. */
static int has_part(struct clusterrun_answer *answer, const struct answer *wanted, size_t place, size_t room)
{
    uint8_t *out = __real_malloc(room + GUARD);
    size_t from = place < wanted->length ? place : wanted->length, left = wanted->length - from, at;
    int holds;

    memset(out, BEHIND, room + GUARD);
    holds = clusterrun_copy(answer, place, out, room) == left && answer->filled;
    for (at = 0; at < room + GUARD; at++)
        holds = holds && out[at] == (at < left && at < room ? wanted->text[from + at] : BEHIND);
    __real_free(out);
    return holds;
}

static void try_kept(keep_call *of, call *plain, const char *file, const uint8_t *plan, size_t plan_length)
{
    struct answer wanted;
    struct clusterrun_answer answer = {0};
    size_t length = 77, places[7], at, number;
    long all, without = 0;
    uint32_t status;

    fits(plain, plan, plan_length, NULL, 1 << 20, &wanted);
    growths = 0;
    status = of(plan, plan_length, &answer, &length);
    all = growths;
    expect(status == wanted.status && length == wanted.length && answer.filled, "kept", file, length);
    places[0] = 0;
    places[1] = 1;
    places[2] = length / 2;
    places[3] = length - 1;
    places[4] = length;
    places[5] = length + 1;
    places[6] = SIZE_MAX;
    growths = 0;
    for (at = 0; at < 7; at++)
        for (number = 0; number < 6; number++)
            expect(has_part(&answer, &wanted, places[at], places[number]), "a part of what is kept from", file, places[at]);
    expect(growths == 0 && blocks > 0, "growths of copies", file, (size_t)growths);
    clusterrun_release(&answer);
    expect(blocks == 0 && !answer.filled, "blocks left of what was kept", file, (size_t)blocks);
    clusterrun_release(&answer);
    for (number = 1; number <= (size_t)all; number++) {
        growths = 0;
        refused = (long)number;
        length = 77;
        status = of(plan, plan_length, &answer, &length);
        refused = 0;
        expect((status == wanted.status && answer.filled && length == wanted.length && has_part(&answer, &wanted, 0, length))
                   || (status == CLUSTERRUN_NO_MEMORY && !answer.filled && answer.at == NULL && length == 0),
            "kept with growth", file, number);
        without += status == wanted.status;
        clusterrun_release(&answer);
        expect(blocks == 0, "blocks left of what was kept after growth", file, number);
    }
    expect(without * 4 <= all, "kept with growths that it did without", file, (size_t)without);
    __real_free(wanted.text);
}

/* How many pages of memory the process has, once what the C library holds back is given up. */
static long pages(void)
{
    long all = -1, here = -1;
    FILE *file;

    malloc_trim(0);
    file = fopen("/proc/self/statm", "r");
    if (file != NULL) {
        if (fscanf(file, "%ld %ld", &all, &here) != 2)
            here = -1;
        fclose(file);
    }
    return here;
}

/* the traces, as calls of the same form */
static uint32_t trace_some(const uint8_t *plan, size_t plan_length, uint8_t *out, size_t room, size_t *length)
{
    return clusterrun_trace(plan, plan_length, false, out, room, length);
}

static uint32_t trace_all(const uint8_t *plan, size_t plan_length, uint8_t *out, size_t room, size_t *length)
{
    return clusterrun_trace(plan, plan_length, true, out, room, length);
}

static uint32_t keep_trace(const uint8_t *plan, size_t plan_length, struct clusterrun_answer *answer, size_t *length)
{
    return clusterrun_keep_trace(plan, plan_length, false, answer, length);
}

int main(int argc, char **argv)
{
    size_t too_long = ((size_t)1 << 32), length = 77, plan_length;
    uint8_t out[GUARD], behind[GUARD];
    uint8_t *plan;
    struct clusterrun_answer answer = {0};
    struct clusterrun_cluster cluster = {0};
    size_t agents = 77;
    long before, number;
    int at;

    for (at = 1; at < argc; at++) {
        plan = read_file(argv[at], &plan_length);
        try_plan(clusterrun_run, "run", argv[at], plan, plan_length);
        try_plan(clusterrun_check, "check", argv[at], plan, plan_length);
        try_plan(trace_some, "trace", argv[at], plan, plan_length);
        try_plan(trace_all, "trace of all", argv[at], plan, plan_length);
        try_kept(clusterrun_keep_run, clusterrun_run, argv[at], plan, plan_length);
        try_kept(keep_trace, trace_some, argv[at], plan, plan_length);
        try_kept(clusterrun_keep_check, clusterrun_check, argv[at], plan, plan_length);
        __real_free(plan);
    }

    /* no plan at all, and one that is too long; neither has a byte read */
    memset(out, BEHIND, GUARD);
    memset(behind, BEHIND, GUARD);
    plan = mmap(NULL, too_long, PROT_NONE, MAP_PRIVATE | MAP_ANONYMOUS | MAP_NORESERVE, -1, 0);
    expect(plan != MAP_FAILED, "a place of bytes", "4 GB", too_long);
    expect(clusterrun_run(plan, too_long, out, GUARD, &length) == CLUSTERRUN_TOO_LONG && length == 0, "run", "4 GB", length);
    length = 77;
    expect(clusterrun_check(plan, too_long, out, GUARD, &length) == CLUSTERRUN_TOO_LONG && length == 0, "check", "4 GB", length);
    expect(memcmp(out, behind, GUARD) == 0, "what was written", "4 GB", 0);
    length = 77;
    expect(clusterrun_keep_run(plan, too_long, &answer, &length) == CLUSTERRUN_TOO_LONG && length == 0 && !answer.filled, "kept", "4 GB", length);
    length = 77;
    expect(trace_some(plan, too_long, out, GUARD, &length) == CLUSTERRUN_TOO_LONG && length == 0, "trace", "4 GB", length);
    length = 77;
    expect(clusterrun_begin(plan, too_long, &cluster, &agents, out, GUARD, &length) == CLUSTERRUN_TOO_LONG && length == 0
               && agents == 0 && !cluster.filled && cluster.at == NULL,
        "begin", "4 GB", length);
    expect(memcmp(out, behind, GUARD) == 0, "what was written at last", "4 GB", 0);
    expect(clusterrun_run(plan, 0, out, GUARD, &length) == CLUSTERRUN_REFUSED && length == 10
               && memcmp(out, "refused S1", 10) == 0 && memcmp(out + 10, behind, GUARD - 10) == 0,
        "run", "no bytes", length);
    munmap(plan, too_long);

    /* many plans, one after the other: no block is left, and the process does not grow */
    plan = NULL;
    before = 0;
    for (number = 0; number < OFTEN; number++) {
        struct answer got;

        if (number % (OFTEN / 100) == 0) {
            __real_free(plan);
            plan = read_file(argv[1 + number / (OFTEN / 100) % (argc - 1)], &plan_length);
        }
        fits(number % 3 == 2 ? clusterrun_check : clusterrun_run, plan, plan_length, NULL, 1 << 12, &got);
        clusterrun_keep_run(plan, plan_length, &answer, &length);
        clusterrun_release(&answer);
        if (got.status > CLUSTERRUN_REFUSED || blocks != 0)
            expect(0, "status", "of many plans", (size_t)number);
        __real_free(got.text);
        if (number == OFTEN / 10)
            before = pages();
    }
    __real_free(plan);
    expect(before > 0 && pages() <= before + 64, "pages more", "many plans", (size_t)(pages() - before));
    printf("%ld passed, %ld failed\n", passed, failed);
    return failed > 0;
}
