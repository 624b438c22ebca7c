/* Moves the agents of the plan in a file one by one: step FILE TURNS. TURNS has a digit for each turn, the number of the
   agent that takes it. Says after each turn what it came to, the agent's newest lines, and how many tickets of shared
   blocks there are; and at last the report of the whole, of which what is left is run by turns. */
#include "clusterrun.h"
#include <stdio.h>
#include <stdlib.h>

int main(int argc, char **argv)
{
    static const char *const answers[] = {"moved", "waits", "ended", "out of memory", "no such agent"};
    static uint8_t plan[1 << 20], text[1 << 16];
    FILE *file = argc == 3 ? fopen(argv[1], "rb") : NULL;
    size_t said[10] = {0}, plan_length, agents, length, at;
    struct clusterrun_cluster cluster = {0};
    struct clusterrun_answer answer = {0};
    struct clusterrun_counts counts;

    if (file == NULL)
        return 2;
    plan_length = fread(plan, 1, sizeof plan, file);
    fclose(file);
    if (clusterrun_begin(plan, plan_length, &cluster, &agents, text, sizeof text, &length) != CLUSTERRUN_DONE)
        return fprintf(stderr, "%.*s\n", (int)length, (char *)text), 1;
    for (at = 0; argv[2][at] != 0; at++) {
        size_t agent = (size_t)(argv[2][at] - '0') % 10;

        printf("agent %zu %s\n", agent, answers[clusterrun_step(&cluster, agent)]);
        if (clusterrun_said(&cluster, agent, said[agent], text, sizeof text, &length, &said[agent]) == CLUSTERRUN_DONE)
            fwrite(text, 1, length < sizeof text ? length : sizeof text, stdout);
        if (clusterrun_audit(&cluster, &counts) == CLUSTERRUN_DONE)
            printf("%ju blocks, %ju released, tickets: %ju in agents, %ju in messages\n", (uintmax_t)counts.blocks,
                (uintmax_t)counts.released, (uintmax_t)counts.in_agents, (uintmax_t)counts.in_ports);
    }
    if (clusterrun_end(&cluster, &answer, &length) != CLUSTERRUN_DONE)
        return CLUSTERRUN_NO_MEMORY;
    for (at = 0; at < length; at += sizeof text)
        fwrite(text, 1, clusterrun_copy(&answer, at, text, sizeof text) < sizeof text ? length - at : sizeof text, stdout);
    clusterrun_release(&answer);
    return 0;
}
