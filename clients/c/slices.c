/* What fabric_wait does to the bytes it is lent: none is changed by a refusal, and none behind the first 16 (rules 8.1, 8.6). */
#include <stdio.h>
#include <string.h>

#include "fabric.h"

#define ROOM 32

static const char board[] =
    "master,4,8\n"
    "master,2,1\n"
    "slave,4096,4096,2,8,1,0,0,0\n"
    "share,0,0,2\n"
    "share,1,0,3\n";

/* The same with a native slave: a word of master 0 is one access, not two. */
static const char native_board[] =
    "master,4,8\n"
    "master,2,1\n"
    "slave,4096,4096,2,8,1,0,1,0\n"
    "share,0,0,2\n"
    "share,1,0,3\n";

/* The first with latency: all grants of a turn but the last are writes (rule 5.6), without a wait here. */
static const char late_board[] =
    "master,4,8\n"
    "master,2,1\n"
    "slave,4096,4096,2,8,1,0,0,3\n"
    "share,0,0,2\n"
    "share,1,0,3\n";

/* The first with an answer for unmapped transfers: no figure changes (rule 1.11). */
static const char default_board[] =
    "master,4,8\n"
    "master,2,1\n"
    "slave,4096,4096,2,8,1,0,0,0\n"
    "share,0,0,2\n"
    "share,1,0,3\n"
    "default\n";

/* Two slaves, and each of two masters connected to one of them. */
static const char two_slaves[] =
    "master,4,8\n"
    "master,4,8\n"
    "slave,0,8,4,1,0,0,0,0\n"
    "slave,8,8,4,1,0,0,0,0\n"
    "share,0,0,1\n"
    "share,1,1,1\n";

static int failed;

/* One call: the answer that is due, and how many bytes of out it may change. */
static void expect(const char *name, const char *text, uint32_t master, uint32_t slave, size_t lent, uint32_t answer,
                   const uint8_t *written, size_t changed)
{
    uint8_t out[ROOM];
    uint32_t got;

    memset(out, 0xa5, sizeof out);
    got = fabric_wait((const uint8_t *)text, strlen(text), master, slave, out, lent);
    if (got != answer) {
        printf("%s: answered %u, not %u\n", name, (unsigned)got, (unsigned)answer);
        failed = 1;
    }
    if (changed > 0 && memcmp(out, written, changed) != 0) {
        printf("%s: other bytes were written\n", name);
        failed = 1;
    }
    for (size_t i = changed; i < sizeof out; i++) {
        if (out[i] != 0xa5) {
            printf("%s: byte %u was changed\n", name, (unsigned)i);
            failed = 1;
        }
    }
}

/* A master without a share line: every pair of the board is refused, what is asked for it comes behind (rules 8.2 and 8.4). */
static void unshared(void)
{
    static const char second[] = "master,4,8\nmaster,2,1\nslave,4096,4096,2,8,1,0,0,0\nshare,0,0,2\n";
    static const char none[] = "master,4,8\nslave,4096,4096,2,8,1,0,0,0\n";

    expect("a master without a share line", second, 1, 0, 16, 20, NULL, 0);
    expect("another master of that board", second, 0, 0, 16, 20, NULL, 0);
    expect("no share line", none, 0, 0, ROOM, 20, NULL, 0);
    expect("no share line before output", none, 0, 0, 0, 20, NULL, 0);
    expect("no share line before master", none, 1, 0, 16, 20, NULL, 0);
    expect("no share line before slave", none, 0, 1, 16, 20, NULL, 0);
    expect("no slave before no share line", "master,4,8\n", 0, 0, 16, 2, NULL, 0);
    expect("a share line's value before no share line", "master,4,8\nslave,0,8,4,1,0,0,0,0\nshare,0,0,0\n", 0, 0, 16, 3, NULL, 0);
    expect("no such pair before no share line", "master,4,8\nslave,0,8,4,1,0,0,0,0\nshare,1,0,1\n", 0, 0, 16, 7, NULL, 0);
    expect("narrower master before no share line", "master,4,8\nmaster,1,8\nslave,0,8,2,1,0,0,1,0\nshare,1,0,1\n", 0, 0, 16, 19,
           NULL, 0);
}

/* A share line out of order: 3, 7 and 19 of that line come first, all else behind (rules 8.2, 8.4). */
static void unordered(void)
{
    static const char lines[] = "master,4,8\nmaster,2,1\nslave,4096,4096,2,8,1,0,0,0\nshare,1,0,3\nshare,0,0,2\n";
    static const char slaves[] = "master,4,8\nslave,0,8,4,1,0,0,0,0\nslave,8,8,4,1,0,0,0,0\nshare,0,1,1\nshare,0,0,1\n";
    static const char third[] = "master,4,8\nmaster,4,8\nmaster,4,8\nslave,0,8,4,1,0,0,0,0\nshare,1,0,1\nshare,0,0,1\n";

    expect("masters out of order", lines, 0, 0, 16, 21, NULL, 0);
    expect("the other master of that board", lines, 1, 0, ROOM, 21, NULL, 0);
    expect("slaves out of order", slaves, 0, 1, 16, 21, NULL, 0);
    expect("order before output", lines, 0, 0, 0, 21, NULL, 0);
    expect("order before master", lines, 2, 0, 16, 21, NULL, 0);
    expect("order before slave", slaves, 0, 2, 16, 21, NULL, 0);
    expect("order before no share line", third, 0, 0, 16, 21, NULL, 0);
    expect("a share line's value before order", "master,4,8\nmaster,4,8\nslave,0,8,4,1,0,0,0,0\nshare,1,0,1\nshare,0,0,0\n", 0, 0,
           16, 3, NULL, 0);
    expect("no such pair before order", "master,4,8\nmaster,4,8\nslave,0,8,4,1,0,0,0,0\nshare,1,0,1\nshare,0,1,1\n", 0, 0, 16, 7,
           NULL, 0);
    expect("narrower master before order", "master,1,8\nmaster,4,8\nslave,0,8,2,1,0,0,1,0\nshare,1,0,1\nshare,0,0,1\n", 0, 0, 16,
           19, NULL, 0);
}

/* The line `default`: behind all others, and once (rules 1.4 and 7.2); its refusals come before what is asked for. */
static void default_lines(const uint8_t *first, const uint8_t *second)
{
    expect("the line default", default_board, 0, 0, 16, 0, first, 16);
    expect("the line default, long output", default_board, 1, 0, ROOM, 0, second, 16);
    expect("the line default, short output", default_board, 0, 0, 15, 10, NULL, 0);
    expect("the line default, no such master", default_board, 2, 0, 16, 11, NULL, 0);
    expect("the line default, no such slave", default_board, 0, 1, 16, 16, NULL, 0);
    expect("default twice", "master,4,8\nslave,0,8,4,1,0,0,0,0\nshare,0,0,1\ndefault\ndefault\n", 0, 0, 16, 2, NULL, 0);
    expect("default before a slave line", "master,4,8\ndefault\nslave,0,8,4,1,0,0,0,0\nshare,0,0,1\n", 0, 0, 16, 2, NULL, 0);
    expect("default before a share line", "master,4,8\nslave,0,8,4,1,0,0,0,0\ndefault\nshare,0,0,1\n", 0, 0, 0, 2, NULL, 0);
    expect("default with a number", "master,4,8\nslave,0,8,4,1,0,0,0,0\nshare,0,0,1\ndefault,1\n", 0, 0, 16, 1, NULL, 0);
    expect("default and no share line", "master,4,8\nslave,0,8,4,1,0,0,0,0\ndefault\n", 0, 0, 16, 20, NULL, 0);
}

int main(void)
{
    static const uint8_t first[16] = {6, 0, 0, 0, 0, 0, 0, 0, 32};
    static const uint8_t second[16] = {36, 0, 0, 0, 0, 0, 0, 0, 2};
    static const uint8_t native_first[16] = {6, 0, 0, 0, 0, 0, 0, 0, 16};
    static const uint8_t native_second[16] = {18, 0, 0, 0, 0, 0, 0, 0, 2};
    static const uint8_t late_first[16] = {4, 0, 0, 0, 0, 0, 0, 0, 32};
    static const uint8_t late_second[16] = {34, 0, 0, 0, 0, 0, 0, 0, 2};

    expect("exact output", board, 0, 0, 16, 0, first, 16);
    expect("long output", board, 1, 0, ROOM, 0, second, 16);
    expect("a wider master's native slave", native_board, 0, 0, 16, 0, native_first, 16);
    expect("an equal master's native slave", native_board, 1, 0, 16, 0, native_second, 16);
    expect("a slave with latency", late_board, 0, 0, 16, 0, late_first, 16);
    expect("the other master's wait there", late_board, 1, 0, 16, 0, late_second, 16);
    expect("short output", board, 0, 0, 15, 10, NULL, 0);
    expect("no output", board, 0, 0, 0, 10, NULL, 0);
    expect("no such master", board, 2, 0, 16, 11, NULL, 0);
    expect("largest master", board, UINT32_MAX, 0, 16, 11, NULL, 0);
    expect("no such slave", board, 0, 1, 16, 16, NULL, 0);
    expect("largest slave", board, 0, UINT32_MAX, 16, 16, NULL, 0);
    expect("not connected", two_slaves, 1, 0, 16, 16, NULL, 0);
    expect("refused text", "master,3,8\n", 0, 0, 16, 3, NULL, 0);
    expect("narrower master", "master,1,8\nslave,0,8,2,1,0,0,1,0\nshare,0,0,1\n", 0, 0, 16, 19, NULL, 0);
    expect("text before output", "master,4,8", 0, 0, 0, 1, NULL, 0);
    expect("output before master", board, 2, 0, 15, 10, NULL, 0);
    expect("master before slave", board, 2, 1, 16, 11, NULL, 0);
    expect("empty text", "", 0, 0, 16, 2, NULL, 0);
    unshared();
    unordered();
    default_lines(first, second);
    if (!failed)
        printf("slices: ok\n");
    return failed;
}
