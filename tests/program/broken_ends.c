/* Put before the C library by LD_PRELOAD, it breaks the ends of a program. A read from the file that the variable
   READ_FROM numbers gives one byte at most, and the read whose number, counted from 1, stands in FAIL_READ fails. What
   is written to the file that WRITE_TO numbers is taken up to TAKE bytes in all, and whatever comes after them fails.
   WITH is the error's number. What is not told fails nowhere. */
#define _GNU_SOURCE
#include <dlfcn.h>
#include <errno.h>
#include <stdlib.h>
#include <sys/types.h>
#include <sys/uio.h>

typedef ssize_t read_file(int file, void *bytes, size_t size);
typedef ssize_t write_file(int file, const void *bytes, size_t size);

static long reads;
static long taken;

/* The number in a variable, or -1. */
static long told(const char *name)
{
    const char *word = getenv(name);
    return word == NULL ? -1 : atol(word);
}

static ssize_t failed(void)
{
    errno = (int)told("WITH");
    return -1;
}

ssize_t read(int file, void *bytes, size_t size)
{
    read_file *next = (read_file *)dlsym(RTLD_NEXT, "read");

    if (file != told("READ_FROM") || size == 0)
        return next(file, bytes, size);
    if (++reads == told("FAIL_READ"))
        return failed();
    return next(file, bytes, 1);
}

ssize_t write(int file, const void *bytes, size_t size)
{
    write_file *next = (write_file *)dlsym(RTLD_NEXT, "write");
    long left = told("TAKE") - taken;
    ssize_t written;

    if (file != told("WRITE_TO") || size == 0)
        return next(file, bytes, size);
    if (left <= 0)
        return failed();
    written = next(file, bytes, (long)size < left ? size : (size_t)left);
    if (written > 0)
        taken += written;
    return written;
}

/* One piece is enough: the rest is asked for again. */
ssize_t writev(int file, const struct iovec *pieces, int count)
{
    return count > 0 ? write(file, pieces[0].iov_base, pieces[0].iov_len) : 0;
}
