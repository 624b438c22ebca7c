/* What the C tests of the library share: its malloc, realloc and free come by way of ours (-Wl,--wrap), which count the
   blocks and can refuse one growth; and tests are counted. */
#ifndef REFUSING_H
#define REFUSING_H

#include <stdio.h>
#include <stdlib.h>

void *__real_malloc(size_t size);
void *__real_realloc(void *old, size_t size);
void __real_free(void *old);

/* How many growths there were, the number of the one that is refused, where it is not 0, and how many blocks there are. */
static long growths, refused, blocks;
static long passed, failed;

static int is_refused(void)
{
    return ++growths == refused;
}

void *__wrap_malloc(size_t size)
{
    void *new = is_refused() ? NULL : __real_malloc(size);
    blocks += new != NULL;
    return new;
}

void *__wrap_realloc(void *old, size_t size)
{
    void *new = is_refused() ? NULL : __real_realloc(old, size);
    blocks += old == NULL && new != NULL;
    return new;
}

void __wrap_free(void *old)
{
    blocks -= old != NULL;
    __real_free(old);
}

static void expect(int holds, const char *what, const char *file, size_t number)
{
    passed += holds;
    failed += !holds;
    if (!holds)
        printf("FAILED: %s: %s %zu\n", file, what, number);
}

static uint8_t *read_file(const char *name, size_t *length)
{
    FILE *file = fopen(name, "rb");
    uint8_t *bytes = __real_malloc(1 << 20);

    if (file == NULL || bytes == NULL) {
        printf("FAILED: %s cannot be read\n0 passed, 1 failed\n", name);
        exit(1);
    }
    *length = fread(bytes, 1, 1 << 20, file);
    fclose(file);
    return bytes;
}

#endif
