/* Put before the C library by LD_PRELOAD, it refuses one growth: the call of malloc, realloc or pthread_create
   whose number, counted from 1 over all threads, stands in the variable REFUSE. When the program ends it writes
   how many calls there were to the file that the variable GROWTHS names, and on a second line how many of them
   were of pthread_create. */
#define _GNU_SOURCE
#include <dlfcn.h>
#include <errno.h>
#include <fcntl.h>
#include <pthread.h>
#include <stdatomic.h>
#include <stddef.h>
#include <stdlib.h>
#include <sys/syscall.h>
#include <unistd.h>

extern void *__libc_malloc(size_t size);
extern void *__libc_realloc(void *old, size_t size);

typedef int create_thread(pthread_t *thread, const pthread_attr_t *how, void *(*begin)(void *), void *given);

static atomic_long calls;
static atomic_long threads;

static int is_refused(void)
{
    const char *word = getenv("REFUSE");
    long number = atomic_fetch_add(&calls, 1) + 1;
    return word != NULL && atol(word) == number;
}

void *malloc(size_t size)
{
    return is_refused() ? NULL : __libc_malloc(size);
}

void *realloc(void *old, size_t size)
{
    return is_refused() ? NULL : __libc_realloc(old, size);
}

/* A thread needs a stack, which the C library takes elsewhere. */
int pthread_create(pthread_t *thread, const pthread_attr_t *how, void *(*begin)(void *), void *given)
{
    create_thread *create = (create_thread *)dlsym(RTLD_NEXT, "pthread_create");
    atomic_fetch_add(&threads, 1);
    return is_refused() ? EAGAIN : create(thread, how, begin, given);
}

/* Writes a number, and a line's end, before the byte at this place; where it begins then. */
static size_t number_before(char *text, size_t at, long number)
{
    text[--at] = '\n';
    do {
        text[--at] = (char)('0' + number % 10);
        number /= 10;
    } while (number > 0);
    return at;
}

__attribute__((destructor)) static void tell(void)
{
    const char *name = getenv("GROWTHS");
    char text[48];
    size_t at = number_before(text, sizeof text, atomic_load(&threads));
    int file = name == NULL ? -1 : open(name, O_WRONLY | O_CREAT | O_TRUNC, 0600);

    at = number_before(text, at, atomic_load(&calls));
    if (file >= 0 && write(file, text + at, sizeof text - at) >= 0)
        close(file);
}

/* A program with threads ends so, and then nothing else would tell. */
void _exit(int status)
{
    tell();
    syscall(SYS_exit_group, status);
    __builtin_unreachable();
}
