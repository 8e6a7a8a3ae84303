/*
 * The planning tool: the quoted wait of one master at one slave of a board (rule 5.7), and its longest transfer there (rule 5.5).
 *
 *   plan BOARD MASTER SLAVE
 *
 * prints `wait,W` and `serve,S`, in clocks, or `refused,N` with exit status 1.
 * Exit status 2: wrong arguments, a file that cannot be read, or output that cannot be written.
 */
#define _POSIX_C_SOURCE 200809L
#include <errno.h>
#include <fcntl.h>
#include <inttypes.h>
#include <poll.h>
#include <stdio.h>
#include <string.h>
#include <unistd.h>

#include "fabric.h"
#include "number.h"

/* One byte more than a description may have (rule 1.2): a longer file is then refused as such. */
#define TEXT_ROOM 8193

/* What keeps plan from answering: the stream or the file, and errno's text. */
static int failed(const char *what)
{
    fprintf(stderr, "plan: %s: %s\n", what, strerror(errno));
    return 2;
}

/* Whether a call that failed is to be made again: after a signal at once, on a descriptor that does not wait once it is ready. */
static int again(int descriptor, short event)
{
    struct pollfd ready = {descriptor, event, 0};

    if (errno == EINTR)
        return 1;
    if (errno != EAGAIN)
        return 0;
    poll(&ready, 1, -1);
    return 1;
}

/* Prints a text on standard output, and answers `status`, or 2 where it cannot be written. */
static int print(const char *text, int status)
{
    size_t left = strlen(text);

    while (left > 0) {
        ssize_t put = write(STDOUT_FILENO, text, left);

        if (put > 0) {
            text += put;
            left -= (size_t)put;
        } else if (put == 0 || !again(STDOUT_FILENO, POLLOUT)) {
            return failed("standard output");
        }
    }
    return status;
}

/* Reads up to `room` bytes of a file, all where it has no more. Only a read that answers 0 is the file's end. -1: it failed. */
static ssize_t read_file(const char *name, uint8_t *text, size_t room)
{
    size_t length = 0;
    int file = open(name, O_RDONLY);

    if (file < 0)
        return -1;
    while (length < room) {
        ssize_t got = read(file, text + length, room - length);

        if (got == 0)
            break;
        if (got > 0)
            length += (size_t)got;
        else if (!again(file, POLLIN))
            return -1;
    }
    close(file);
    return (ssize_t)length;
}

/* Eight bytes, the lowest first. */
static uint64_t figure(const uint8_t *bytes)
{
    uint64_t value = 0;

    for (int i = 7; i >= 0; i--)
        value = value * 256 + bytes[i];
    return value;
}

/* The figures of a pair of the board in a file. */
static int plan(const char *board, uint32_t master, uint32_t slave)
{
    uint8_t text[TEXT_ROOM];
    uint8_t out[FABRIC_WAIT_BYTES];
    char lines[64];
    uint32_t refusal;
    ssize_t length = read_file(board, text, sizeof text);

    if (length < 0)
        return failed(board);
    refusal = fabric_wait(text, (size_t)length, master, slave, out, sizeof out);
    if (refusal != FABRIC_TAKEN) {
        snprintf(lines, sizeof lines, "refused,%" PRIu32 "\n", refusal);
        return print(lines, 1);
    }
    snprintf(lines, sizeof lines, "wait,%" PRIu64 "\nserve,%" PRIu64 "\n", figure(out), figure(out + 8));
    return print(lines, 0);
}

/* An option is the first word, where it begins with `-`; `--` ends the options. */
int main(int count, char **words)
{
    static const char usage[] = "usage: plan BOARD MASTER SLAVE\n"
                                "  BOARD   a file with a board description\n"
                                "  MASTER  the master's number, from 0\n"
                                "  SLAVE   the slave's number, from 0\n";
    const char *option = count > 1 && words[1][0] == '-' ? words[1] : "";
    uint32_t master, slave;

    if (count == 2 && (strcmp(option, "-h") == 0 || strcmp(option, "--help") == 0))
        return print(usage, 0);
    if (count == 2 && strcmp(option, "--version") == 0)
        return print("plan (Zelgwy) " FABRIC_VERSION "\n", 0);
    if (strcmp(option, "--") == 0) {
        option = "";
        words++;
        count--;
    }
    if (*option != '\0' || count != 4 || !number_of(words[2], &master) || !number_of(words[3], &slave)) {
        fputs(usage, stderr);
        return 2;
    }
    return plan(words[1], master, slave);
}
