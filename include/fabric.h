/*
 * An Avalon-MM fabric for C and C++: a board's description read, the fabric clock by clock, and the quoted wait.
 *
 * Link with libfabric_c.a, which `tools/build fabric_c` writes to target/staticlib/ (x86-64 Linux).
 *
 *   fabric_read                            a description's text to a board
 *   fabric_refused_at, _refused_master     the line that is to blame for a refusal; the master that 20 names
 *   fabric_reset, fabric_post              the state after a reset; a master hands in a transfer
 *   fabric_clock, fabric_run               one clock of all slaves; clocks until a master finishes
 *   fabric_take                            the oldest entry of the log of unmapped transfers
 *   fabric_wait                            the most clocks that a master waits at a slave
 *
 * A rule that is cited by its number, as rule 4.13, stands in docs/RULES.md. Refusal k is rule 7.k.
 *
 * Each call but fabric_refused_master answers FABRIC_TAKEN or the number of a refusal. It judges the description, line by line
 * (rule 8.2), or the board first, and then in rising order of the numbers (rule 8.4). Where it refuses, board, state, memory,
 * buffer and out stay as they were, and all numbers of lines, responses, mask, clocks and entry are 0 (rule 8.1). The calls keep nothing and
 * allocate nothing: board, state, lines, memory and buffer are the caller's, and calls on different ones may be made at the same
 * time.
 *
 * A board, a state and a clock's lines are plain numbers of 32 bits, which may also be set by hand (rules 1.10 and 2.4). A
 * mark (held, write, serving, lost, default_line) is yes unless it is 0. The calls put 0 or 1 for a mark; a clock may also leave it
 * as it was, and fabric_take moves entries number for number. Every other number is judged as it stands, none is cut to fewer bits: a
 * wait of 300 is refused with 3, a latency of 64 too, an owner of 256 with 9, lanes of 256 with 15.
 *
 * The functions are proved to answer as said here for all numbers, bytes and lengths. The caller's part: no pointer is null,
 * not even for a length of 0, each is valid for the length handed in with it or for its struct, and what a call may write
 * overlaps nothing else that is handed in.
 */
#ifndef FABRIC_H
#define FABRIC_H

#include <stddef.h>
#include <stdint.h>

#ifdef __cplusplus
extern "C" {
#endif

/* The version of this header and of the library. */
#define FABRIC_VERSION "1.7.1"

/* The most masters and slaves of a board (rule 1.1), and the most bytes of its description (rule 1.2). */
#define FABRIC_MASTERS 8
#define FABRIC_SLAVES 16
#define FABRIC_TEXT_BYTES 8192

/*
 * The memory has as many bytes as the board's spans add up to (rule 2.1), FABRIC_MEMORY_BYTES at most (rule 1.7). The buffer
 * has FABRIC_BUFFER_BYTES: those from FABRIC_PART_BYTES * m on are the part of master m (rule 2.2).
 */
#define FABRIC_MEMORY_BYTES 65536
#define FABRIC_BUFFER_BYTES 4096
#define FABRIC_PART_BYTES 512

/* The bytes that fabric_wait writes: wait, then serve, 8 each, lowest byte first (rule 5.8). */
#define FABRIC_WAIT_BYTES 16

/* How many numbers the structs below are: each may be handled as an array of uint32_t, members in their order. */
#define FABRIC_BOARD_NUMBERS 275
#define FABRIC_STATE_NUMBERS 154
#define FABRIC_LINES_NUMBERS 96
#define FABRIC_ENTRY_NUMBERS 3

/* The most entries of the log (rule 4.18). */
#define FABRIC_LOG_ENTRIES 8

/*
 * What the calls answer. Whoever writes the description causes 1 to 7 and 19 to 21, whoever embeds the library 8 to 10, whoever
 * posts or asks for a wait 11 to 18, whoever reads the log 22. The comments are reminders: rule 7.k has refusal k whole.
 */
#define FABRIC_TAKEN 0
#define FABRIC_BAD_TEXT 1       /* the text's length or last line feed; a line's first word, its fields, a number */
#define FABRIC_BAD_ORDER 2      /* a line out of its order, or one too many; no master or no slave at all */
#define FABRIC_BAD_VALUE 3      /* a value that rule 1.6 does not allow */
#define FABRIC_BAD_BASE 4       /* a base that its span does not divide */
#define FABRIC_OVERLAP 5        /* an address that an earlier slave has */
#define FABRIC_SPAN_TOTAL 6     /* spans of more than FABRIC_MEMORY_BYTES together */
#define FABRIC_BAD_SHARE 7      /* shares for no pair of the board, or for a pair a second time */
#define FABRIC_BAD_LENGTH 8     /* the length of memory or buffer (rules 2.1 and 2.2) */
#define FABRIC_BAD_STATE 9      /* a state that rule 7.9 excludes */
#define FABRIC_SHORT_OUTPUT 10  /* too little room in out */
#define FABRIC_NO_MASTER 11     /* a master that the board does not have */
#define FABRIC_HELD 12          /* a master that holds a transfer already (rule 3.3) */
#define FABRIC_BAD_BEATS 13     /* no beat, or more beats than the master's burst */
#define FABRIC_BAD_ADDRESS 14   /* an address that the master's width does not divide */
#define FABRIC_BAD_LANES 15     /* lanes that rules 3.4 and 3.5 do not allow */
#define FABRIC_NOT_CONNECTED 16 /* the address selects no slave (rule 3.7); for a wait, no connected pair */
#define FABRIC_PAST_END 17      /* beats beyond the slave's span */
#define FABRIC_BAD_WORDS 18     /* words of another length than beats * width; any words of a read */
#define FABRIC_TOO_NARROW 19    /* shares of a master that is narrower than its native slave */
#define FABRIC_NO_SHARE 20      /* a master without shares at any slave */
#define FABRIC_SHARE_ORDER 21   /* a share line that is not in order, by master, then slave; of a text alone */
#define FABRIC_EMPTY_LOG 22     /* no entry of the log is there to take */

/* The responses of a clock (rules 4.13 and 4.17). */
#define FABRIC_OKAY 0
#define FABRIC_DECODE_ERROR 3

/* The phases of a slave's line (rule 4.13). */
#define FABRIC_IDLE 0
#define FABRIC_WAITING 1
#define FABRIC_ACCESS 2

/* A board: the numbers of its description's lines (rule 1.3). Rules 1.6 and 1.7 say which are legal. */
struct fabric_master {
    uint32_t width; /* bytes of a word */
    uint32_t burst; /* the most beats (words) of a burst */
};

struct fabric_slave {
    uint32_t base; /* the lowest byte address */
    uint32_t span; /* how many bytes it has */
    uint32_t width;
    uint32_t burst;
    uint32_t read_wait; /* clocks in front of each access (rule 4.8) */
    uint32_t write_wait;
    uint32_t native;  /* 0 bus sizing, 1 native alignment (rule 4.10) */
    uint32_t latency; /* clocks between the last access of a read and its finish (rule 4.16) */
};

struct fabric_board {
    uint32_t master_count;
    uint32_t slave_count;
    struct fabric_master master[FABRIC_MASTERS];
    struct fabric_slave slave[FABRIC_SLAVES];
    uint32_t shares[FABRIC_MASTERS][FABRIC_SLAVES]; /* of a master at a slave; 0 where they are not connected (rule 1.8) */
    uint32_t default_line; /* a mark: the line `default`, an answer for unmapped transfers (rules 1.11 and 3.7) */
};

/*
 * The state: the transfer that each master holds (rules 3.1 and 3.3), each slave's slot (rule 4.1), for each master the latency
 * clocks that its read still has to pass (rule 4.16), and the log of unmapped transfers (rule 4.18).
 */
struct fabric_transfer {
    uint32_t held; /* a mark; the other numbers count only where it is yes */
    uint32_t write;
    uint32_t address;
    uint32_t lanes; /* bit k for lane k of the master's word (rule 2.3) */
    uint32_t beats;
};

struct fabric_slot {
    uint32_t owner;     /* the last owner */
    uint32_t remaining; /* the grants that remain to it */
    uint32_t serving;
    uint32_t done;   /* accesses carried out (rule 4.10) */
    uint32_t waited; /* waits passed */
};

struct fabric_entry {
    uint32_t master;
    uint32_t address;
    uint32_t write; /* a mark: 0 for a read */
};

struct fabric_log {
    uint32_t count; /* how many entries stand, FABRIC_LOG_ENTRIES at the most; those behind it are not looked at */
    uint32_t lost;  /* a mark: a transfer was dropped since the reset because the log was full */
    struct fabric_entry entry[FABRIC_LOG_ENTRIES]; /* the oldest first */
};

struct fabric_state {
    struct fabric_transfer transfer[FABRIC_MASTERS];
    struct fabric_slot slot[FABRIC_SLAVES];
    uint32_t late[FABRIC_MASTERS]; /* for a read that is held and not served at most the slave's latency, else 0 (rule 7.9) */
    struct fabric_log log;
};

/* What a clock shows of a slave (rule 4.13): an idle one 0 everywhere, a waiting one the access that it waits for. */
struct fabric_line {
    uint32_t phase;  /* FABRIC_IDLE, FABRIC_WAITING or FABRIC_ACCESS */
    uint32_t owner;  /* the master that is served */
    uint32_t offset; /* of the slave's word that is accessed, in bytes from the slave's base */
    uint32_t lanes;  /* of the slave (rule 4.14) */
    uint32_t run;    /* the length of the run that the access belongs to (rule 4.12) */
    uint32_t place;  /* its place there, from 0 */
};

struct fabric_lines {
    struct fabric_line line[FABRIC_SLAVES];
};

/* The structs are as long as the library takes them to be: a compiler that pads them stops here. */
typedef char fabric_board_fits[sizeof(struct fabric_board) == FABRIC_BOARD_NUMBERS * sizeof(uint32_t) ? 1 : -1];
typedef char fabric_state_fits[sizeof(struct fabric_state) == FABRIC_STATE_NUMBERS * sizeof(uint32_t) ? 1 : -1];
typedef char fabric_lines_fits[sizeof(struct fabric_lines) == FABRIC_LINES_NUMBERS * sizeof(uint32_t) ? 1 : -1];
typedef char fabric_entry_fits[sizeof(struct fabric_entry) == FABRIC_ENTRY_NUMBERS * sizeof(uint32_t) ? 1 : -1];

/*
 * Reads a description (rules 1.1 to 1.8).
 *
 *   text, text_length   the description, FABRIC_TEXT_BYTES at the most
 *   board               where the board goes: all its numbers, those behind the counts are 0
 *
 * Refused with 1 to 7, 19 and 21, by the first line to blame, and with 2 and 20 for what is missing at the end (rule 8.2). Two texts
 * that are read to the same board are the same, byte for byte.
 */
uint32_t fabric_read(const uint8_t *text, size_t text_length, struct fabric_board *board);

/*
 * The line of a description that is to blame for its refusal (rule 8.3).
 *
 *   text, text_length   as for fabric_read
 *   line                the line charged, counted from 1; 0 where none is: for a text that is taken, one over
 *                       FABRIC_TEXT_BYTES (1), and one at whose end something is missing (2, 20)
 *
 * Answers what fabric_read does.
 */
uint32_t fabric_refused_at(const uint8_t *text, size_t text_length, size_t *line);

/*
 * The master that FABRIC_NO_SHARE names (rule 8.3).
 *
 *   text, text_length   as for fabric_read
 *
 * Answers the number of the lowest master that has no share line, where fabric_read answers FABRIC_NO_SHARE; 0 otherwise.
 */
uint32_t fabric_refused_master(const uint8_t *text, size_t text_length);

/*
 * The state after a reset (rule 4.2). Memory and buffer have no part in it.
 *
 *   board   as fabric_read left it, or made by hand
 *   state   where the state goes, all its numbers
 *
 * Refused with 2 to 7, 19 and 20, as the lines of the board's own description would be (rule 8.5).
 */
uint32_t fabric_reset(const struct fabric_board *board, struct fabric_state *state);

/*
 * A master hands in one transfer, which it holds until a clock's mask has its bit (rules 3.1 to 3.3), a read with latency clocks to
 * pass too.
 *
 *   board, state            the state gets the transfer
 *   buffer, buffer_length   FABRIC_BUFFER_BYTES; the words of a write are copied there (rule 3.2). Nothing else keeps them: each access
 *                           of the write takes its bytes from there in its own clock (rule 4.11)
 *   master                  its number, from 0
 *   write                   a mark: 0 for a read
 *   address, lanes, beats   the first byte's address, the lanes of the master's word (rules 3.4 and 3.5), the count of words
 *   words, words_length     beats * width bytes, lowest address first; for a read 0 bytes
 *
 * Refused with 2 to 7, 19 and 20 (the board), 8 (the buffer), 9 (the state) and 11 to 18 (the transfer). A board with the line
 * `default` does not refuse with 16: it takes an unmapped transfer, which the next clock finishes (rules 3.7 and 4.17).
 */
uint32_t fabric_post(const struct fabric_board *board, struct fabric_state *state, uint8_t *buffer, size_t buffer_length,
                     uint32_t master, uint32_t write, uint32_t address, uint32_t lanes, uint32_t beats,
                     const uint8_t *words, size_t words_length);

/*
 * One clock of all slaves (rules 4.1 to 4.14 and 4.16 to 4.18).
 *
 *   board, state            the state as the clock leaves it
 *   memory, memory_length   what the spans add up to; the bytes of a write access go there, from its master's part of the buffer
 *                           as it stands now (rule 4.11)
 *   buffer, buffer_length   FABRIC_BUFFER_BYTES; the bytes of a read access go to its master's part, those of an unmapped read
 *                           become 0 there
 *   lines                   what the clock shows of each slave; behind the board's slaves 0
 *   responses               FABRIC_MASTERS numbers: FABRIC_DECODE_ERROR for a master whose unmapped transfer is finished, which
 *                           enters the state's log (rules 4.17 and 4.18), else FABRIC_OKAY
 *   mask                    the masters that are finished, bit m for master m: a write with its last access, a read at a slave
 *                           with latency L in the L-th clock after its last access, which has freed the slave (rule 4.16)
 *
 * Refused with 2 to 7, 19 and 20 (the board), 8 (memory or buffer) and 9 (the state).
 */
uint32_t fabric_clock(const struct fabric_board *board, struct fabric_state *state, uint8_t *memory, size_t memory_length,
                      uint8_t *buffer, size_t buffer_length, struct fabric_lines *lines, uint32_t *responses,
                      uint32_t *mask);

/*
 * A run of clocks (rule 4.15): until a master finishes or `most` have passed. It leaves what as many calls of fabric_clock
 * leave (rule 6.11); board and state are checked once.
 *
 *   board, state, memory, buffer   as for fabric_clock
 *   lines, responses, mask         of the last clock; 0 where most is 0
 *   most                           the most clocks
 *   clocks                         how many there were
 *
 * Refused as fabric_clock is, also where most is 0.
 */
uint32_t fabric_run(const struct fabric_board *board, struct fabric_state *state, uint8_t *memory, size_t memory_length,
                    uint8_t *buffer, size_t buffer_length, struct fabric_lines *lines, uint32_t *responses, uint32_t most,
                    uint32_t *clocks, uint32_t *mask);

/*
 * Takes the oldest entry out of the log of unmapped transfers (rule 4.19), which makes space for another one. Every other entry moves
 * one place down. The lost mark stays until a reset.
 *
 *   board, state   the state without that entry
 *   entry          the entry: which master posted to which address, and whether it was a write, 0 or 1
 *
 * Refused with 2 to 7, 19 and 20 (the board), 9 (the state) and 22 (an empty log).
 */
uint32_t fabric_take(const struct fabric_board *board, struct fabric_state *state, struct fabric_entry *entry);

/*
 * The quoted figures of a pair, both in clocks: how long the master waits at the slave at the most, the wait (rule 5.7), and
 * how long its longest transfer there takes up to its last access, the serve (rule 5.5). Latency clocks are counted in neither: the
 * slave serves others meanwhile.
 *
 *   text, text_length   a description, as for fabric_read
 *   master, slave       their numbers, counted from 0 in the order of the description's lines
 *   out, out_length     where the figures go, in the first FABRIC_WAIT_BYTES (rule 5.8); no byte behind these is changed
 *
 * Refused with 1 to 7 and 19 to 21 (the description), 10 (out_length), 11 (the master) and 16 (the slave).
 */
uint32_t fabric_wait(const uint8_t *text, size_t text_length, uint32_t master, uint32_t slave,
                     uint8_t *out, size_t out_length);

#ifdef __cplusplus
}
#endif

#endif
