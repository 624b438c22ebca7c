/* Runs the plan in a file, or only checks it: run [--check] FILE. It ends with the status of the answer. */
#include "clusterrun.h"
#include <stdio.h>
#include <stdlib.h>
#include <string.h>

int main(int argc, char **argv)
{
    static const char *const complaints[] = {"", "\n", "", "out of memory\n", "cannot read\n"};
    int checks = argc == 3 && strcmp(argv[1], "--check") == 0;
    FILE *file = argc == 2 + checks ? fopen(argv[1 + checks], "rb") : NULL;
    size_t plan_length = 0, room = 1 << 16, length = 0;
    uint8_t *plan = malloc(room), *text;
    struct clusterrun_answer answer = {0};
    uint32_t status;

    if (file == NULL || plan == NULL)
        return 2;
    while ((plan_length += fread(plan + plan_length, 1, room - plan_length, file)) == room)
        if ((plan = realloc(plan, room *= 2)) == NULL)
            return CLUSTERRUN_NO_MEMORY;
    status = (checks ? clusterrun_keep_check : clusterrun_keep_run)(plan, plan_length, &answer, &length);
    if ((text = calloc(length + 1, 1)) == NULL)
        return CLUSTERRUN_NO_MEMORY;
    if (answer.filled)
        clusterrun_copy(&answer, 0, text, length);
    clusterrun_release(&answer);
    fwrite(text, 1, length, status == CLUSTERRUN_DONE ? stdout : stderr);
    fputs(complaints[status], stderr);
    fclose(file);
    free(plan);
    free(text);
    return (int)status;
}
