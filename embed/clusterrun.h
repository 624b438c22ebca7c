/* The engine of clusterrun as a C library: the bytes of a plan in, the bytes of its report or of its trace out.

   A plan is JSON, and a report is text; docs/PLANS.md says how both are written. The agents of a plan run by turns in
   the thread that calls, and each plan has one report by turns. `./clusterrun library` makes libclusterrun.a, which
   stands beside this file:

       cc -o run embed/run.c embed/libclusterrun.a

   There are two ways to have a plan's answer. clusterrun_run, clusterrun_check and clusterrun_trace write its text into
   memory of the caller's, as much of it as there is room for. clusterrun_keep_run, clusterrun_keep_check and
   clusterrun_keep_trace keep it, however long it is, until the caller has copied it and gives it up; so no plan is run
   twice. And there is a way to move the agents of a
   plan oneself, one turn after the other, in whatever order: clusterrun_begin and what follows it.

   Memory. A plan, and what a function writes to, belongs to the caller before and after the call; the library keeps no
   pointer to it. What a call takes for its own work it takes by malloc and realloc, and has given back by free when
   it returns, whatever it answers. Only a `struct clusterrun_answer` and a `struct clusterrun_cluster` own memory
   between calls.

   Threads. The library itself keeps nothing from one call to the next, and a call starts no thread and takes no lock.
   So calls may be made from several threads at the same time, each with memory of its own to write to. An answer or a
   cluster that is kept stays with the thread that made it. No call may be made from a signal handler, nor in a child
   that was forked from a process with threads.

   What the caller owes, since nothing checks it:
   - No pointer is NULL, not even one to 0 bytes.
   - What a call writes to overlaps nothing else that is passed, and no other thread touches it, or writes to the plan,
     during the call.
   - `*length` has some value before the call, and the `room` bytes at `out` have been written to, as by calloc.
   - A `struct clusterrun_answer` and a `struct clusterrun_cluster` are handled as is said with them.
   - malloc, realloc and free are those of one allocator, and align as C says. */
#ifndef CLUSTERRUN_H
#define CLUSTERRUN_H

#include <stdbool.h>
#include <stddef.h>
#include <stdint.h>

#ifdef __cplusplus
extern "C" {
#endif

/* What a call answers: its status, which is the program's. */
enum {
    /* All went well. The text is the report or the trace, or "ok" and a line end where the plan was only checked. */
    CLUSTERRUN_DONE = 0,
    /* The plan has a fault. The text names the first one, as "refused S7 agent 0 job 1 command 1", without a line end. */
    CLUSTERRUN_REFUSED = 1,
    /* There was not memory enough. There is no text. */
    CLUSTERRUN_NO_MEMORY = 3,
    /* The plan has more than 4,294,967,295 bytes. There is no text. */
    CLUSTERRUN_TOO_LONG = 4
};

/* Runs a plan.

   The text of the answer goes to the front of `out`, as much of it as there is room for, and its whole length in
   bytes to `*length`; no zero byte follows it. What lies behind it in `out` is unchanged. Where there is no text, all
   of `out` is unchanged, and `*length` is 0.

   So the text is whole exactly where `*length <= room`. Where it is not, call again with `*length` bytes of room: the
   plan is then run once more, to the same report. */
uint32_t clusterrun_run(const uint8_t *plan, size_t plan_length, uint8_t *out, size_t room, size_t *length);

/* Checks a plan and does not run it. All else is as with clusterrun_run. */
uint32_t clusterrun_check(const uint8_t *plan, size_t plan_length, uint8_t *out, size_t room, size_t *length);

/* Runs a plan and gives its trace: what happened, as JSON Lines, which docs/TRACES.md describes. With `all` it tells of
   each value that stays after a collection what keeps it; else only of values that something holds weakly, and of those
   that lie on the way to them. All else is as with clusterrun_run. */
uint32_t clusterrun_trace(
    const uint8_t *plan, size_t plan_length, bool all, uint8_t *out, size_t room, size_t *length);

/* The text of an answer that is kept, where it is filled; else it owns nothing. It begins with zeros:

       struct clusterrun_answer answer = {0};

   No more than one copy of a filled one may be used, as with the pointer that malloc gives: a function that takes it by
   value takes its text over. `at` is the library's own. */
struct clusterrun_answer {
    bool filled;
    uint8_t *at;
};

/* Runs a plan, and keeps the text of the answer in `*answer`, which is not filled before the call. The whole length in
   bytes goes to `*length`. With the statuses 0 and 1 the answer is filled then; with the others there is no text, `*length`
   is 0 and `*answer` unchanged. */
uint32_t clusterrun_keep_run(const uint8_t *plan, size_t plan_length, struct clusterrun_answer *answer, size_t *length);

/* Checks a plan and does not run it. All else is as with clusterrun_keep_run. */
uint32_t clusterrun_keep_check(const uint8_t *plan, size_t plan_length, struct clusterrun_answer *answer, size_t *length);

/* Runs a plan, and keeps its trace, as clusterrun_trace gives it. All else is as with clusterrun_keep_run. */
uint32_t clusterrun_keep_trace(
    const uint8_t *plan, size_t plan_length, bool all, struct clusterrun_answer *answer, size_t *length);

/* Puts what the text of `answer`, which is filled, has from the byte `place` on, counted from 0, to the front of `out`, as
   much of it as there is room for. Gives how many bytes the text has from there on: 0 where it ends before. What lies
   behind it in `out` is unchanged. The text goes over to `*next`, which is not filled before the call and is filled then;
   `answer` may not be used any more. The call cannot fail. */
size_t clusterrun_kept_part(
    struct clusterrun_answer answer, size_t place, uint8_t *out, size_t room, struct clusterrun_answer *next);

/* Gives up the text of `answer`, which is filled, with its memory. It may not be used any more. */
void clusterrun_kept_free(struct clusterrun_answer answer);

/* The same in place: copies a part of the text of `*answer`, which is filled and stays so. */
static inline size_t clusterrun_copy(struct clusterrun_answer *answer, size_t place, uint8_t *out, size_t room)
{
    struct clusterrun_answer next = {false, NULL};
    size_t left = clusterrun_kept_part(*answer, place, out, room, &next);

    *answer = next;
    return left;
}

/* The same in place: gives up the text of `*answer`, where it is filled, and leaves it unfilled. */
static inline void clusterrun_release(struct clusterrun_answer *answer)
{
    if (answer->filled)
        clusterrun_kept_free(*answer);
    answer->filled = false;
    answer->at = NULL;
}

/* Agents moved one by one

   A cluster is the agents of a plan and what they share. clusterrun_begin makes it, and an agent moves only where
   clusterrun_step says so: the order of the agents is the caller's, since the standard leaves it to the host. */

/* What a turn of an agent came to. */
enum {
    /* The agent has one event more: it began or ended a job, received a message, did a command, or the like. */
    CLUSTERRUN_MOVED = 0,
    /* It waits on for a message, or sleeps at a word. Nothing happens before another agent has moved. */
    CLUSTERRUN_WAITS = 1,
    /* It has ended. */
    CLUSTERRUN_ENDED = 2,
    /* 3 is CLUSTERRUN_NO_MEMORY. */
    /* There is no agent with this number. */
    CLUSTERRUN_NO_AGENT = 4
};

/* A cluster that is kept, where it is filled; else it owns nothing. It begins with zeros:

       struct clusterrun_cluster cluster = {0};

   No more than one copy of a filled one may be used: a function that takes it by value takes the cluster over. A filled
   one comes from a call of the library and from nothing else, since a call relies on what lies behind `at`. */
struct clusterrun_cluster {
    bool filled;
    uint8_t *at;
};

/* All tickets of the shared blocks of a cluster, counted at one moment. */
struct clusterrun_counts {
    /* How many shared blocks were made, and how many of them are released. */
    uint64_t blocks;
    uint64_t released;
    /* How many tickets agents hold, and how many lie in messages that were not taken. */
    uint64_t in_agents;
    uint64_t in_ports;
};

/* Reads a plan and keeps its cluster in `*cluster`, which is not filled before the call. No agent has moved then.

   CLUSTERRUN_DONE: the cluster is filled, and `*agents` is how many agents it has; they have the numbers from 0 on.
   CLUSTERRUN_REFUSED: the plan has a fault, and its text is in `out` and `*length` as with clusterrun_run.
   CLUSTERRUN_NO_MEMORY, CLUSTERRUN_TOO_LONG: as with clusterrun_run.
   But for CLUSTERRUN_DONE, `*cluster` is unchanged and `*agents` is 0. */
uint32_t clusterrun_begin(
    const uint8_t *plan, size_t plan_length, struct clusterrun_cluster *cluster, size_t *agents, uint8_t *out,
    size_t room, size_t *length);

/* The functions that follow take over `cluster`, which is filled. The first three hand it on to `*next`, which is not
   filled before the call and is filled then, whatever they answer. Those below them do the same in place. */

/* One turn of the agent: its next event, and what that asks of the other agents. Answers CLUSTERRUN_MOVED, _WAITS or
   _ENDED. CLUSTERRUN_NO_MEMORY: there was not memory enough; no agent has changed, and none moves any more. The cluster
   can still be asked and given up. CLUSTERRUN_NO_AGENT: nothing has changed. */
uint32_t clusterrun_cluster_step(struct clusterrun_cluster cluster, size_t agent, struct clusterrun_cluster *next);

/* What the agent said: the lines that a report has of its events, from the event with the number `from` on; its oldest
   event has the number 0. Not every event has a line. They go to `out` and `*length` as with clusterrun_run, and how
   many events the agent has goes to `*events`: where the next call has this as `from`, it gives what is new by then. With
   `from` of `*events` or more there is no line. CLUSTERRUN_NO_MEMORY, CLUSTERRUN_NO_AGENT: all of `out` is unchanged, and
   `*length` and `*events` are 0. */
uint32_t clusterrun_cluster_said(
    struct clusterrun_cluster cluster, size_t agent, size_t from, uint8_t *out, size_t room, size_t *length,
    size_t *events, struct clusterrun_cluster *next);

/* Counts all tickets. With CLUSTERRUN_NO_MEMORY, `*counts` is unchanged. */
uint32_t clusterrun_cluster_audit(
    struct clusterrun_cluster cluster, struct clusterrun_counts *counts, struct clusterrun_cluster *next);

/* Runs what is left by turns, the lowest-numbered agent that can move first, and keeps the report of the whole in
   `*answer`, which is not filled before the call. So a cluster of which no agent was moved has the plan's report by turns.
   The whole length in bytes goes to `*length`. CLUSTERRUN_NO_MEMORY: there was not memory enough, now or in a turn
   before; there is no text, `*length` is 0 and `*answer` unchanged. The cluster is used up either way. */
uint32_t clusterrun_cluster_end(struct clusterrun_cluster cluster, struct clusterrun_answer *answer, size_t *length);

/* Gives the cluster up with its memory, however far its agents are. The call cannot fail. */
void clusterrun_cluster_free(struct clusterrun_cluster cluster);

/* The same in place. `*cluster` is filled, and stays so unless something else is said. */
static inline uint32_t clusterrun_step(struct clusterrun_cluster *cluster, size_t agent)
{
    struct clusterrun_cluster next = {false, NULL};
    uint32_t answer = clusterrun_cluster_step(*cluster, agent, &next);

    *cluster = next;
    return answer;
}

static inline uint32_t clusterrun_said(
    struct clusterrun_cluster *cluster, size_t agent, size_t from, uint8_t *out, size_t room, size_t *length,
    size_t *events)
{
    struct clusterrun_cluster next = {false, NULL};
    uint32_t status = clusterrun_cluster_said(*cluster, agent, from, out, room, length, events, &next);

    *cluster = next;
    return status;
}

static inline uint32_t clusterrun_audit(struct clusterrun_cluster *cluster, struct clusterrun_counts *counts)
{
    struct clusterrun_cluster next = {false, NULL};
    uint32_t status = clusterrun_cluster_audit(*cluster, counts, &next);

    *cluster = next;
    return status;
}

/* The cluster is not filled afterwards. */
static inline uint32_t clusterrun_end(
    struct clusterrun_cluster *cluster, struct clusterrun_answer *answer, size_t *length)
{
    struct clusterrun_cluster over = *cluster;

    cluster->filled = false;
    cluster->at = NULL;
    return clusterrun_cluster_end(over, answer, length);
}

/* Gives the cluster up, where it is filled, and leaves it unfilled. */
static inline void clusterrun_give_up(struct clusterrun_cluster *cluster)
{
    if (cluster->filled)
        clusterrun_cluster_free(*cluster);
    cluster->filled = false;
    cluster->at = NULL;
}

#ifdef __cplusplus
}
#endif

#endif
