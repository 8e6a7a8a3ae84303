/*
 * The accesses of a transfer (rule 4.10): at a slave with bus sizing a write has those alone that have an enabled lane; a read, and
 * a native slave, have every access. Runs (rule 4.12), own length (rule 5.4), refusal 9 (rule 7.9) and the finish count the
 * accesses carried out; wait and serve (rules 5.5 and 5.7) do not move.
 *
 *   lanes [STEP]
 *
 * Every pair of widths, with bus sizing and native, and slave bursts of 1, 2, 4 and 8: reads and writes with all legal lanes,
 * and bursts. Each is clocked to its finish, run to its finish, and tried from lent states with accesses done. All that is lent
 * and answered is compared with what is worked out here, from the rules and not from the library. With STEP one of so many boards
 * is tried: a program that watches the memory makes each slow.
 */
#include <inttypes.h>
#include <stdio.h>
#include <stdlib.h>
#include <string.h>

#include "fabric.h"
#include "lent.h"
#include "number.h"

/* The pair tried is master 1 at slave 1: its bytes lie behind the FRONT bytes of slave 0, its part behind that of master 0. */
#define FRONT 16
#define BASE 4096
#define SPAN 128
#define MEMORY_BYTES (FRONT + SPAN)
#define PART FABRIC_PART_BYTES
#define BURST 8
#define SHARES 2
/* Of master 0, which is as wide. */
#define OTHER_BURST 2
#define OTHER_SHARES 3

/* The most accesses: BURST beats of 8 bytes at a slave of width 1. */
#define MOST_ACCESSES (BURST * 8)
/* More clocks than any transfer here takes. */
#define ENOUGH 5000
/* The place of a byte that the slave does not have. */
#define NOWHERE UINT32_MAX
/* One mistake fails in many transfers: the first lines name it. */
#define MOST_PRINTED 20

/* Everything that is lent to a clock. */
struct lent {
    struct fabric_board board;
    struct fabric_state state;
    uint8_t memory[MEMORY_BYTES];
    uint8_t buffer[FABRIC_BUFFER_BYTES];
    struct fabric_lines lines;
    uint32_t responses[FABRIC_MASTERS];
    uint32_t mask;
    uint32_t clocks;
};

struct access {
    uint32_t beat;
    uint32_t offset, lanes, run, place; /* as a line shows them */
};

static struct lent fresh;  /* the board after a reset */
static struct lent posted; /* with the transfer */
static struct lent tried;
static struct lent due; /* what `tried` is to be */

/* The transfer, its accesses that are carried out, in order, and how many there would be with those to words without a lane. */
static struct fabric_transfer transfer;
static struct access access_list[MOST_ACCESSES];
static uint32_t access_count, count_of_all;
static uint8_t words[PART];

static char pair_name[128], name[256];
static unsigned long checks, failures;
static unsigned long boards, transfers, shortened, clocks_passed; /* shortened: writes that leave accesses out */

/* Counts a check; whether it failed and is to be printed. */
static int prints(int holds)
{
    checks++;
    failures += !holds;
    return !holds && failures <= MOST_PRINTED;
}

static void check(const char *what, int holds)
{
    if (prints(holds))
        printf("lanes: %s: %s\n", name, what);
}

static void check_number(const char *what, uint64_t got, uint64_t wanted)
{
    if (prints(got == wanted))
        printf("lanes: %s: %s: %" PRIu64 ", not %" PRIu64 "\n", name, what, got, wanted);
}

static uint32_t post(struct lent *l, uint32_t master, const struct fabric_transfer *t)
{
    size_t length = t->write != 0 ? t->beats * l->board.master[master].width : 0;
    struct fabric_state *state = (struct fabric_state *)lend(&l->state, sizeof l->state);
    uint8_t *buffer = (uint8_t *)lend(l->buffer, sizeof l->buffer);
    uint8_t *lent_words = (uint8_t *)lend(words, length);
    uint32_t number = fabric_post(&l->board, state, buffer, sizeof l->buffer, master, t->write, t->address, t->lanes, t->beats,
                                  lent_words, length);

    take_back(&l->state, state, sizeof l->state);
    take_back(l->buffer, buffer, sizeof l->buffer);
    free(lent_words);
    return number;
}

/* A clock, or a run of so many clocks at most. */
#define ONE_CLOCK UINT64_MAX

static uint32_t clock_lent(struct lent *l, uint64_t most)
{
    struct fabric_state *state = (struct fabric_state *)lend(&l->state, sizeof l->state);
    uint8_t *memory = (uint8_t *)lend(l->memory, sizeof l->memory);
    uint8_t *buffer = (uint8_t *)lend(l->buffer, sizeof l->buffer);
    struct fabric_lines *lines = (struct fabric_lines *)lend(&l->lines, sizeof l->lines);
    uint32_t *responses = (uint32_t *)lend(l->responses, sizeof l->responses);
    uint32_t number;

    if (most == ONE_CLOCK)
        number = fabric_clock(&l->board, state, memory, sizeof l->memory, buffer, sizeof l->buffer, lines, responses, &l->mask);
    else
        number = fabric_run(&l->board, state, memory, sizeof l->memory, buffer, sizeof l->buffer, lines, responses,
                            (uint32_t)most, &l->clocks, &l->mask);
    take_back(&l->state, state, sizeof l->state);
    take_back(l->memory, memory, sizeof l->memory);
    take_back(l->buffer, buffer, sizeof l->buffer);
    take_back(&l->lines, lines, sizeof l->lines);
    take_back(l->responses, responses, sizeof l->responses);
    return number;
}

/* Any mark but 0 is yes (rule 2.4). */
static struct fabric_transfer marked(struct fabric_transfer t)
{
    t.held = t.held != 0;
    t.write = t.write != 0;
    return t;
}

static int same_transfers(const struct fabric_state *a, const struct fabric_state *b)
{
    for (uint32_t m = 0; m < FABRIC_MASTERS; m++) {
        struct fabric_transfer ours = marked(a->transfer[m]), theirs = marked(b->transfer[m]);

        if (memcmp(&ours, &theirs, sizeof ours) != 0)
            return 0;
    }
    return 1;
}

static void check_slot(uint32_t s)
{
    const struct fabric_slot *got = &tried.state.slot[s], *wanted = &due.state.slot[s];

    check("serving", (got->serving != 0) == (wanted->serving != 0));
    check_number("the last owner", got->owner, wanted->owner);
    check_number("the grants that remain", got->remaining, wanted->remaining);
    check_number("the accesses done", got->done, wanted->done);
    check_number("the waits passed", got->waited, wanted->waited);
}

static void check_line(uint32_t s)
{
    const struct fabric_line *got = &tried.lines.line[s], *wanted = &due.lines.line[s];

    check_number("the line's phase", got->phase, wanted->phase);
    check_number("the line's owner", got->owner, wanted->owner);
    check_number("the line's offset", got->offset, wanted->offset);
    check_number("the line's lanes", got->lanes, wanted->lanes);
    check_number("the line's run", got->run, wanted->run);
    check_number("the line's place", got->place, wanted->place);
}

static int all_zero(const void *bytes, size_t length)
{
    const uint8_t *b = (const uint8_t *)bytes;

    while (length > 0 && b[length - 1] == 0)
        length--;
    return length == 0;
}

/* All that a call has left and answered. */
static void check_due(void)
{
    check("every transfer", same_transfers(&tried.state, &due.state));
    check("every count of latency clocks", memcmp(tried.state.late, due.state.late, sizeof tried.state.late) == 0);
    check_slot(0);
    check_slot(1);
    check("the slots behind the board's slaves",
          memcmp(&tried.state.slot[2], &due.state.slot[2], (FABRIC_SLAVES - 2) * sizeof tried.state.slot[2]) == 0);
    check_line(1);
    check("the lines of the other slaves", memcmp(&tried.lines.line[0], &due.lines.line[0], sizeof tried.lines.line[0]) == 0
                                               && memcmp(&tried.lines.line[2], &due.lines.line[2],
                                                         (FABRIC_SLAVES - 2) * sizeof tried.lines.line[2])
                                                      == 0);
    check_number("the mask", tried.mask, due.mask);
    check("no response but 0", all_zero(tried.responses, sizeof tried.responses));
    check("the log", memcmp(&tried.state.log, &due.state.log, sizeof tried.state.log) == 0);
    check("the memory", memcmp(tried.memory, due.memory, sizeof tried.memory) == 0);
    check("the buffer", memcmp(tried.buffer, due.buffer, sizeof tried.buffer) == 0);
}

/* Master 1 and slave 1, as the board has them. */
static uint32_t master_width(void)
{
    return fresh.board.master[1].width;
}

static const struct fabric_slave *slave(void)
{
    return &fresh.board.slave[1];
}

/* How many accesses a beat has where each is carried out (rule 4.10). */
static uint32_t parts_of_beat(void)
{
    return slave()->native != 0 || master_width() < slave()->width ? 1 : master_width() / slave()->width;
}

/* The access of one part of a beat: its offset (rules 4.10 and 4.13) and its lanes (rule 4.14). */
static struct access part_of(uint32_t beat, uint32_t part)
{
    uint32_t all = (1u << slave()->width) - 1;
    uint32_t at = transfer.address - BASE + beat * master_width();
    struct access a = {beat, 0, 0, 0, 0};

    if (slave()->native != 0) {
        a.offset = at / master_width() * slave()->width;
        a.lanes = transfer.lanes & all;
    } else if (master_width() < slave()->width) {
        a.offset = at / slave()->width * slave()->width;
        a.lanes = transfer.lanes << at % slave()->width;
    } else {
        a.offset = at + part * slave()->width;
        a.lanes = transfer.lanes >> part * slave()->width & all;
    }
    if (transfer.write == 0)
        a.lanes = all;
    return a;
}

/* Lists what is carried out: of a write with bus sizing, the accesses with an enabled lane (rule 4.10). */
static void list_accesses(void)
{
    uint32_t parts = parts_of_beat();

    count_of_all = transfer.beats * parts;
    access_count = 0;
    for (uint32_t i = 0; i < count_of_all; i++) {
        struct access a = part_of(i / parts, i % parts);

        if (transfer.write == 0 || slave()->native != 0 || a.lanes != 0)
            access_list[access_count++] = a;
    }
}

/* Cuts what is listed into runs (rule 4.12). */
static void cut_runs(void)
{
    uint32_t longest = master_width() < slave()->width ? 1 : slave()->burst;

    for (uint32_t i = 0; i < access_count; i++) {
        uint32_t behind = access_count - i / longest * longest;

        access_list[i].run = behind < longest ? behind : longest;
        access_list[i].place = i % longest;
    }
}

/* Clocks before each access, and for all of them together. */
static uint32_t wait_due(void)
{
    return transfer.write != 0 ? slave()->write_wait : slave()->read_wait;
}

static uint32_t own_length(void)
{
    return access_count * (1 + wait_due());
}

/* Where slave 1 has byte j of a beat (rule 6.8), from its own front. */
static uint32_t kept_at(uint32_t beat, uint32_t j)
{
    uint32_t at = transfer.address - BASE + beat * master_width();

    if (slave()->native == 0)
        return at + j;
    return j < slave()->width ? at / master_width() * slave()->width + j : NOWHERE;
}

/* The bytes of an access, in `due` (rules 3.2, 4.10 and 4.11). */
static void move_bytes(const struct access *a)
{
    uint8_t *part = due.buffer + PART + a->beat * master_width();

    for (uint32_t j = 0; j < master_width(); j++) {
        uint32_t at = kept_at(a->beat, j);

        if (at != NOWHERE && (at < a->offset || at >= a->offset + slave()->width))
            continue; /* another access of this beat has it */
        if (transfer.write == 0)
            part[j] = at == NOWHERE ? 0 : due.memory[FRONT + at];
        else if (at != NOWHERE && (transfer.lanes >> j & 1) != 0)
            due.memory[FRONT + at] = part[j];
    }
}

/* A clock of slave 1 that serves, with access k the next and so many waits passed before it, in `due`. */
static void clock_due(uint32_t k, uint32_t waited)
{
    const struct access *a = &access_list[k];
    struct fabric_slot *slot = &due.state.slot[1];
    struct fabric_line line = {FABRIC_WAITING, 1, a->offset, a->lanes, a->run, a->place};

    memset(&due.lines, 0, sizeof due.lines);
    due.mask = 0;
    due.lines.line[1] = line;
    if (waited < wait_due()) {
        slot->waited = waited + 1;
        return;
    }
    due.lines.line[1].phase = FABRIC_ACCESS;
    move_bytes(a);
    slot->waited = 0;
    slot->done = k + 1;
    if (k + 1 < access_count)
        return;
    slot->serving = slot->done = 0;
    memset(&due.state.transfer[1], 0, sizeof due.state.transfer[1]);
    due.mask = 2;
}

/* The post: the transfer is held, and a write's words, those without a lane too, are in the master's part (rule 3.2). */
static void posts(void)
{
    posted = due = fresh;
    due.state.transfer[1] = transfer;
    if (transfer.write != 0)
        memcpy(due.buffer + PART, words, transfer.beats * master_width());
    check_number("a post", post(&posted, 1, &transfer), FABRIC_TAKEN);
    check("the transfer is held", same_transfers(&posted.state, &due.state));
    check("no slot is changed", memcmp(posted.state.slot, fresh.state.slot, sizeof fresh.state.slot) == 0);
    check("the words are posted", memcmp(posted.buffer, due.buffer, sizeof due.buffer) == 0);
}

/* The grant, in `due`: from a reset on, the first of the master's shares (rules 4.5 to 4.7). */
static void grant_due(void)
{
    struct fabric_slot granted = {1, transfer.beats > 1 ? 0u : SHARES - 1, 1, 0, 0};

    due = posted;
    due.state.slot[1] = granted;
}

/* The transfer clock by clock, to its finish. */
static void clocks_to_finish(void)
{
    uint32_t each = 1 + wait_due();

    tried = posted;
    grant_due();
    for (uint32_t i = 0; i < own_length(); i++) {
        clock_due(i / each, i % each);
        check_number("a clock", clock_lent(&tried, ONE_CLOCK), FABRIC_TAKEN);
        check_due();
        clocks_passed++;
    }
    check_number("finished in the last clock", due.mask, 2);
}

/* The same by runs of clocks: to the finish, where `due` stands, and up to the clock before it. */
static void runs_to_finish(void)
{
    uint32_t most[2] = {own_length(), ENOUGH};

    for (size_t i = 0; i < 2; i++) {
        tried = posted;
        check_number("a run of clocks", clock_lent(&tried, most[i]), FABRIC_TAKEN);
        check_number("the clocks of a run", tried.clocks, own_length());
        check_due();
    }
    tried = posted;
    check_number("a shorter run of clocks", clock_lent(&tried, own_length() - 1), FABRIC_TAKEN);
    check_number("the clocks of a shorter run", tried.clocks, own_length() - 1);
    check_number("the mask of a shorter run", tried.mask, 0);
    check("the transfer is held after a shorter run", tried.state.transfer[1].held != 0);
}

/* The other master posts while the transfer is served: its first cycle is the clock behind the finish. */
static void next_is_granted(void)
{
    struct fabric_transfer read = {1, 0, BASE, (1u << master_width()) - 1, 1};

    tried = posted;
    check_number("the first clock", clock_lent(&tried, ONE_CLOCK), FABRIC_TAKEN);
    check_number("a post while the first is served", post(&tried, 0, &read), FABRIC_TAKEN);
    if (own_length() > 1)
        check_number("the clocks behind it", clock_lent(&tried, own_length() - 1), FABRIC_TAKEN);
    check_number("the mask behind it", tried.mask, 2);
    check_number("the next clock", clock_lent(&tried, ONE_CLOCK), FABRIC_TAKEN);
    check("the other master is served then", tried.lines.line[1].phase != FABRIC_IDLE && tried.lines.line[1].owner == 0);
}

/* What a refused call has to leave (rule 8.1), as it is in `due`. */
static void check_left(const char *what)
{
    check(what, memcmp(&tried.board, &due.board, sizeof tried.board) == 0
                    && memcmp(&tried.state, &due.state, sizeof tried.state) == 0
                    && memcmp(tried.memory, due.memory, sizeof tried.memory) == 0
                    && memcmp(tried.buffer, due.buffer, sizeof tried.buffer) == 0);
}

/* The state of `due` is refused with 9 by a clock, by runs of clocks and by a post: nothing is changed, all answers are 0. */
static void refuses_state(void)
{
    static const uint64_t most[4] = {ONE_CLOCK, 0, 1, ENOUGH};
    struct fabric_transfer read = {1, 0, 0, (1u << master_width()) - 1, 1};

    for (size_t i = 0; i < 4; i++) {
        tried = due;
        memset(&tried.lines, 0xa5, sizeof tried.lines);
        memset(tried.responses, 0xa5, sizeof tried.responses);
        tried.mask = 0xa5;
        tried.clocks = most[i] == ONE_CLOCK ? 0 : 0xa5;
        check_number("a clock or a run, where all accesses are done", clock_lent(&tried, most[i]), FABRIC_BAD_STATE);
        check_left("a refused clock or run changes nothing");
        check("a refused clock or run answers 0", all_zero(&tried.lines, sizeof tried.lines)
                                                      && all_zero(tried.responses, sizeof tried.responses) && tried.mask == 0
                                                      && tried.clocks == 0);
    }
    tried = due;
    check_number("a post, where all accesses are done", post(&tried, 0, &read), FABRIC_BAD_STATE);
    check_left("a refused post changes nothing");
}

/* The state of `due`, in which access k is the next, is taken; the run passes the clocks that are left of the own length. */
static void takes_state(uint32_t k, uint32_t waited)
{
    struct lent lent_state = due;

    tried = due;
    clock_due(k, waited);
    check_number("a clock from accesses done", clock_lent(&tried, ONE_CLOCK), FABRIC_TAKEN);
    check_due();
    tried = lent_state;
    check_number("a run from accesses done", clock_lent(&tried, ENOUGH), FABRIC_TAKEN);
    check_number("the clocks of a run from accesses done", tried.clocks, (access_count - k) * (1 + wait_due()) - waited);
    check_number("the mask of a run from accesses done", tried.mask, 2);
}

/*
 * A lent state that serves the transfer, from every count of accesses done and with no wait or all waits passed: taken where it
 * is below the count carried out, and that access is the next; refused from there on, also where a word without a lane is left.
 */
static void lent_states(void)
{
    for (uint32_t i = 0; i < 2 * (count_of_all + 2); i++) {
        struct fabric_slot slot = {1, 0, 1, i / 2, i % 2 * wait_due()};

        due = posted;
        due.state.slot[1] = slot;
        if (slot.done < access_count)
            takes_state(slot.done, slot.waited);
        else
            refuses_state();
    }
}

/* How thoroughly a transfer is tried. */
enum depth { CLOCKED, LENT };

/* Master 1 posts a transfer from a word of slave 1 on. */
static void try_transfer(uint32_t write, uint32_t word, uint32_t lanes, uint32_t beats, enum depth depth)
{
    struct fabric_transfer t = {1, write, BASE + word * master_width(), lanes, beats};

    sprintf(name, "%s, %s at %" PRIu32 " lanes %" PRIu32 " beats %" PRIu32, pair_name, write != 0 ? "write" : "read", t.address,
            lanes, beats);
    transfer = t;
    list_accesses();
    cut_runs();
    posts();
    clocks_to_finish();
    runs_to_finish();
    next_is_granted();
    if (depth == LENT)
        lent_states();
    transfers++;
    shortened += access_count < count_of_all;
}

/* All legal lanes (rule 3.4) of a single, read and written, at one word. */
static void try_singles(uint32_t word, enum depth depth)
{
    for (uint32_t count = 1; count <= master_width(); count *= 2) {
        for (uint32_t lowest = 0; lowest < master_width(); lowest += count) {
            uint32_t lanes = ((1u << count) - 1) << lowest;

            try_transfer(0, word, lanes, 1, depth);
            try_transfer(1, word, lanes, 1, depth);
        }
    }
}

/* Bursts, which have all lanes (rule 3.5), so that none of them leaves an access out. */
static void try_bursts(void)
{
    static const uint32_t beats[4] = {2, 3, 5, BURST};
    uint32_t all = (1u << master_width()) - 1, last = SPAN / master_width();

    for (size_t i = 0; i < 4; i++) {
        for (uint32_t write = 0; write < 2; write++) {
            try_transfer(write, i % 2 == 0 ? 1 : last - beats[i], all, beats[i], i == 0 ? LENT : CLOCKED);
            check_number("no access of a burst is left out", access_count, count_of_all);
        }
    }
}

static uint64_t number_at(const uint8_t *bytes)
{
    uint64_t number = 0;

    for (size_t i = 8; i > 0; i--)
        number = number << 8 | bytes[i - 1];
    return number;
}

/*
 * The quoted figures of the pair (rules 5.1 to 5.7): each access of a beat counts, whatever a write leaves out. The last transfer
 * tried has BURST beats: in the direction of the longer wait it is as long as the serve.
 */
static void figures(const char *text)
{
    uint32_t v = 1 + (slave()->read_wait > slave()->write_wait ? slave()->read_wait : slave()->write_wait);
    uint32_t beat = parts_of_beat() * v;
    uint8_t out[FABRIC_WAIT_BYTES];

    check_number("the wait call", fabric_wait((const uint8_t *)text, strlen(text), 1, 1, out, sizeof out), FABRIC_TAKEN);
    check_number("the wait", number_at(out), (uint64_t)(OTHER_SHARES - 1) * beat + OTHER_BURST * beat);
    check_number("the serve", number_at(out + 8), (uint64_t)BURST * beat);
    check_number("the longest transfer", (uint64_t)access_count * v, number_at(out + 8));
}

/*
 * A board: masters of a width, slave 0, and slave 1 of a width, a burst, waits and an alignment. Every third board has the line
 * `default`, which changes nothing of a transfer for a slave.
 */
static void try_board(uint32_t width, uint32_t slave_width, uint32_t burst, uint32_t read_wait, uint32_t write_wait,
                      uint32_t native)
{
    char text[512];
    uint32_t number;

    sprintf(text,
            "master,%" PRIu32 ",%d\nmaster,%" PRIu32 ",%d\nslave,0,%d,1,1,0,0,0,0\n"
            "slave,%d,%d,%" PRIu32 ",%" PRIu32 ",%" PRIu32 ",%" PRIu32 ",%" PRIu32 ",0\n"
            "share,0,0,1\nshare,0,1,%d\nshare,1,1,%d\n%s",
            width, OTHER_BURST, width, BURST, FRONT, BASE, SPAN, slave_width, burst, read_wait, write_wait, native, OTHER_SHARES,
            SHARES, boards % 3 == 2 ? "default\n" : "");
    sprintf(pair_name,
            "master width %" PRIu32 ", slave width %" PRIu32 " burst %" PRIu32 " waits %" PRIu32 " %" PRIu32 " native %" PRIu32,
            width, slave_width, burst, read_wait, write_wait, native);
    strcpy(name, pair_name);
    memset(&fresh, 0, sizeof fresh);
    number = fabric_read((const uint8_t *)text, strlen(text), &fresh.board);
    check_number("reading", number, FABRIC_TAKEN);
    if (number != FABRIC_TAKEN)
        return;
    check_number("reset", fabric_reset(&fresh.board, &fresh.state), FABRIC_TAKEN);
    for (size_t i = 0; i < sizeof fresh.memory; i++)
        fresh.memory[i] = (uint8_t)(i * 7 + 1);
    memset(fresh.buffer, 0xa5, sizeof fresh.buffer);
    try_singles(1, CLOCKED);
    try_singles(6, LENT);
    try_singles(SPAN / width - 1, CLOCKED);
    try_bursts();
    figures(text);
    boards++;
}

/* Both alignments, as far as a share line may join the widths (rule 7.19), and all slave bursts; the two waits always differ. */
static void try_widths(uint32_t width, uint32_t slave_width, uint32_t step)
{
    static const uint32_t waits[4][2] = {{1, 2}, {2, 0}, {0, 1}, {3, 1}};
    static uint32_t number;

    for (uint32_t i = 0; i < (slave_width > width ? 4 : 8); i++) {
        const uint32_t *w = waits[(i + width + slave_width) % 4];

        if (number++ % step == 0)
            try_board(width, slave_width, 1u << i % 4, w[0], w[1], i / 4);
    }
}

int main(int count, char **arguments)
{
    uint32_t step = 1;

    if (count > 2 || (count == 2 && (!number_of(arguments[1], &step) || step == 0))) {
        fputs("usage: lanes [STEP]\n", stderr);
        return 2;
    }
    for (size_t i = 0; i < sizeof words; i++)
        words[i] = (uint8_t)(0x80 + 3 * i);
    for (uint32_t i = 0; i < 16; i++)
        try_widths(1u << i % 4, 1u << i / 4, step);
    strcpy(name, "all boards");
    check("many writes leave accesses out", step > 1 || shortened > 500);
    if (failures == 0)
        printf("lanes: ok, %lu boards, %lu transfers, %lu of them writes that leave accesses out, %lu clocks, %lu checks\n",
               boards, transfers, shortened, clocks_passed, checks);
    else
        printf("lanes: %lu of %lu checks failed\n", failures, checks);
    return failures != 0;
}
