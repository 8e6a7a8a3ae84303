/*
 * Loaded in front of the C library (LD_PRELOAD), it has calls of read or write on one descriptor fail, or move fewer bytes than
 * asked, as a system may. What it does stands in the environment:
 *
 *   FAULT_CALL   read or write; without it nothing is changed
 *   FAULT_FD     the descriptor
 *   FAULT_MOST   the most bytes that a call moves
 *   FAULT_AT     the call that fails, counted from 1
 *   FAULT_TIMES  how many calls from that one on fail, 1 where it is not given
 *   FAULT_ERRNO  with which error
 *   FAULT_SHUT   a descriptor that is to be closed by then: calls fail with EBUSY while it is open
 */
#define _GNU_SOURCE
#include <dlfcn.h>
#include <errno.h>
#include <fcntl.h>
#include <stdlib.h>
#include <string.h>
#include <unistd.h>

static long setting(const char *name, long otherwise)
{
    const char *value = getenv(name);

    return value == NULL ? otherwise : atol(value);
}

/* The count that is to be asked of the C library, or -1 with errno where the call is to fail. */
static ssize_t asked(const char *call, int fd, size_t count)
{
    static long calls;
    const char *faulty = getenv("FAULT_CALL");
    long at = setting("FAULT_AT", 0);
    long most = setting("FAULT_MOST", 0);
    long shut = setting("FAULT_SHUT", -1);

    if (faulty == NULL || strcmp(faulty, call) != 0 || fd != setting("FAULT_FD", -1))
        return (ssize_t)count;
    calls++;
    if (at > 0 && at <= calls && calls < at + setting("FAULT_TIMES", 1)) {
        errno = (int)setting("FAULT_ERRNO", EIO);
        return -1;
    }
    if (shut >= 0 && fcntl((int)shut, F_GETFD) != -1) {
        errno = EBUSY;
        return -1;
    }
    return most > 0 && count > (size_t)most ? most : (ssize_t)count;
}

ssize_t read(int fd, void *bytes, size_t count)
{
    ssize_t (*real)(int, void *, size_t) = (ssize_t (*)(int, void *, size_t))dlsym(RTLD_NEXT, "read");
    ssize_t n = asked("read", fd, count);

    return n < 0 ? n : real(fd, bytes, (size_t)n);
}

ssize_t write(int fd, const void *bytes, size_t count)
{
    ssize_t (*real)(int, const void *, size_t) = (ssize_t (*)(int, const void *, size_t))dlsym(RTLD_NEXT, "write");
    ssize_t n = asked("write", fd, count);

    return n < 0 ? n : real(fd, bytes, (size_t)n);
}
