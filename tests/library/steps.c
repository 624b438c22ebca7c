/* What the calls of the C library on clusters promise of memory: the agents of each plan of the files that are named
   take turns, one after the other and around, with what each said and an audit after its turn, and then the cluster ends;
   once without a fault, once with each growth refused, and given up after each number of turns. What was done without a
   fault is what is wanted of the others; that it is right, tests/library/steps.py shows.

   Usage: steps FILE... Prints each test that fails, and 'N passed, M failed' last. */
#include "../../embed/clusterrun.h"
#include "refusing.h"
#include <string.h>

enum { BEHIND = 0xA5, GUARD = 64, ROOM = 1 << 16, MOST_TURNS = 20000 };

/* All that is said in a run: what each turn came to, the lines after it, and the report. */
struct transcript {
    uint8_t bytes[1 << 20];
    size_t length;
};

static struct transcript wanted, got;

static void add(struct transcript *all, const void *bytes, size_t length)
{
    if (length > sizeof all->bytes - all->length)
        length = sizeof all->bytes - all->length;
    memcpy(all->bytes + all->length, bytes, length);
    all->length += length;
}

/* Calls until no growth is refused; a call that is refused answers so, and changes nothing else. */
static uint32_t ask(struct clusterrun_cluster *cluster, size_t agent, size_t from, struct transcript *all, size_t *events,
    const char *file)
{
    static uint8_t out[ROOM], before[ROOM];
    size_t length = 77;
    struct clusterrun_counts counts = {1, 2, 3, 4}, none = {1, 2, 3, 4};
    uint32_t status;

    memset(out, BEHIND, ROOM);
    memset(before, BEHIND, ROOM);
    status = clusterrun_said(cluster, agent, from, out, ROOM, &length, events);
    if (status == CLUSTERRUN_NO_MEMORY) {
        expect(length == 0 && *events == 0 && memcmp(out, before, ROOM) == 0 && cluster->filled, "lines refused", file, from);
        status = clusterrun_said(cluster, agent, from, out, ROOM, &length, events);
    }
    expect(status == CLUSTERRUN_DONE && memcmp(out + length, before, ROOM - length) == 0, "lines", file, length);
    add(all, out, length);
    status = clusterrun_audit(cluster, &counts);
    if (status == CLUSTERRUN_NO_MEMORY) {
        expect(memcmp(&counts, &none, sizeof counts) == 0 && cluster->filled, "an audit refused", file, from);
        status = clusterrun_audit(cluster, &counts);
    }
    expect(status == CLUSTERRUN_DONE && counts.released <= counts.blocks, "an audit", file, from);
    add(all, &counts, sizeof counts);
    return status;
}

/* After want of memory no agent moves any more; the cluster is asked and ends without a report. */
static void try_stopped(struct clusterrun_cluster *cluster, size_t agents, const char *file)
{
    struct clusterrun_answer answer = {0};
    static struct transcript last;
    size_t agent, events = 0, length = 77;

    last.length = 0;
    for (agent = 0; agent < agents; agent++) {
        expect(clusterrun_step(cluster, agent) == CLUSTERRUN_NO_MEMORY, "a turn after want of memory", file, agent);
        ask(cluster, agent, 0, &last, &events, file);
    }
    if (agents % 2)
        clusterrun_give_up(cluster);
    else
        expect(clusterrun_end(cluster, &answer, &length) == CLUSTERRUN_NO_MEMORY && !answer.filled && length == 0,
            "an end after want of memory", file, agents);
}

/* Turns around all agents, until all have ended or so many were taken, and the end of the cluster. Answers how many turns
   were taken; 0 where the cluster has not begun. */
static size_t play(const uint8_t *plan, size_t plan_length, size_t most, int gives_up, struct transcript *all, const char *file)
{
    struct clusterrun_cluster cluster = {0};
    struct clusterrun_answer answer = {0};
    size_t agents = 77, length = 77, said[8] = {0}, turns, over = 0, at;
    uint8_t text[GUARD];
    uint32_t status = clusterrun_begin(plan, plan_length, &cluster, &agents, text, GUARD, &length);

    all->length = 0;
    expect(length == 0 && cluster.filled == (status == CLUSTERRUN_DONE), "its beginning", file, status);
    if (status != CLUSTERRUN_DONE) {
        expect(status == CLUSTERRUN_NO_MEMORY && agents == 0 && cluster.at == NULL, "its beginning refused", file, status);
        return 0;
    }
    for (turns = 0; turns < most && over < agents; turns++) {
        status = clusterrun_step(&cluster, turns % agents);
        if (status == CLUSTERRUN_NO_MEMORY) {
            try_stopped(&cluster, agents, file);
            clusterrun_give_up(&cluster);
            return 0;
        }
        over = status == CLUSTERRUN_ENDED ? over + 1 : 0;
        add(all, &status, sizeof status);
        ask(&cluster, turns % agents, said[turns % agents], all, &said[turns % agents], file);
    }
    expect(clusterrun_step(&cluster, agents) == CLUSTERRUN_NO_AGENT, "an agent that is not there", file, agents);
    if (gives_up) {
        clusterrun_give_up(&cluster);
        clusterrun_give_up(&cluster);
        return turns;
    }
    status = clusterrun_end(&cluster, &answer, &length);
    expect(!cluster.filled && answer.filled == (status == CLUSTERRUN_DONE), "its end", file, status);
    if (status == CLUSTERRUN_NO_MEMORY)
        return 0;
    for (at = 0; at < length; at += GUARD)
        add(all, text, clusterrun_copy(&answer, at, text, GUARD) < GUARD ? length - at : GUARD);
    clusterrun_release(&answer);
    return turns;
}

/* The lines of an agent with less room than they need, and with more. */
static void try_rooms(const uint8_t *plan, size_t plan_length, const char *file)
{
    struct clusterrun_cluster cluster = {0};
    static uint8_t whole[ROOM], out[ROOM];
    size_t agents, length, events, whole_length, rooms[6], at, behind;

    clusterrun_begin(plan, plan_length, &cluster, &agents, out, ROOM, &length);
    while (clusterrun_step(&cluster, 0) == CLUSTERRUN_MOVED)
        ;
    clusterrun_said(&cluster, 0, 0, whole, ROOM, &whole_length, &events);
    rooms[0] = 0;
    rooms[1] = whole_length > 0;
    rooms[2] = whole_length / 2;
    rooms[3] = whole_length - (whole_length > 0);
    rooms[4] = whole_length;
    rooms[5] = whole_length + 1;
    for (at = 0; at < 6; at++) {
        size_t front = rooms[at] < whole_length ? rooms[at] : whole_length;
        int holds = 1;

        memset(out, BEHIND, whole_length + GUARD);
        clusterrun_said(&cluster, 0, 0, out, rooms[at], &length, &events);
        for (behind = front; behind < whole_length + GUARD; behind++)
            holds = holds && out[behind] == BEHIND;
        expect(holds && length == whole_length && memcmp(out, whole, front) == 0, "room for lines", file, rooms[at]);
    }
    clusterrun_said(&cluster, 0, events, out, ROOM, &length, &agents);
    expect(length == 0 && agents == events, "lines behind the last event", file, length);
    clusterrun_said(&cluster, 0, SIZE_MAX, out, ROOM, &length, &agents);
    expect(length == 0 && agents == events, "lines far behind the last event", file, length);
    clusterrun_give_up(&cluster);
}

static void try_plan(const uint8_t *plan, size_t plan_length, const char *file)
{
    size_t turns, number;
    long all, without = 0;

    refused = growths = 0;
    turns = play(plan, plan_length, MOST_TURNS, 0, &wanted, file);
    all = growths;
    expect(turns > 0 && turns < MOST_TURNS && wanted.length < sizeof wanted.bytes && blocks == 0, "turns", file, turns);
    for (number = 0; number <= turns; number++) {
        play(plan, plan_length, number, 1, &got, file);
        expect(blocks == 0 && memcmp(got.bytes, wanted.bytes, got.length) == 0, "given up after", file, number);
    }
    for (number = 1; number <= (size_t)all; number++) {
        growths = 0;
        refused = (long)number;
        if (play(plan, plan_length, MOST_TURNS, 0, &got, file) > 0) {
            expect(got.length == wanted.length && memcmp(got.bytes, wanted.bytes, got.length) == 0, "without growth", file, number);
            without++;
        }
        refused = 0;
        expect(blocks == 0, "blocks left after growth", file, number);
    }
    expect(without < all, "growths that it did without", file, (size_t)without);
    try_rooms(plan, plan_length, file);
    expect(blocks == 0, "blocks left", file, (size_t)blocks);
}

int main(int argc, char **argv)
{
    size_t plan_length;
    int at;

    for (at = 1; at < argc; at++) {
        uint8_t *plan = read_file(argv[at], &plan_length);

        try_plan(plan, plan_length, argv[at]);
        __real_free(plan);
    }
    printf("%ld passed, %ld failed\n", passed, failed);
    return failed > 0;
}
