/*
 * What the calls do to the numbers and bytes they are lent: which numbers are refused and with what (refusal k is rule 7.k),
 * that a refusal leaves everything as it was (rule 8.1), which master is named where one has no share line (rule 8.3), what a
 * native slave does with a master's word (rule 4.10), when a read at a slave with latency is finished (rule 4.16), what becomes of
 * an unmapped transfer and of the log (rules 4.17 to 4.19), that a run of clocks leaves what as many clocks leave (rule 4.15), and
 * which numbers the calls put for marks, and which they leave (rules 1.10 and 2.4).
 */
#include <stdio.h>
#include <stdlib.h>
#include <string.h>

#include "fabric.h"
#include "lent.h"

static const char description[] =
    "master,4,8\n"
    "master,2,1\n"
    "slave,4096,4096,2,8,1,0,0,0\n"
    "slave,0,64,4,1,0,3,0,0\n"
    "share,0,0,2\n"
    "share,0,1,1\n"
    "share,1,0,3\n";

#define MEMORY_BYTES (4096 + 64)

/* Everything that is lent to a clock or a take. */
struct lent {
    struct fabric_board board;
    struct fabric_state state;
    uint8_t memory[MEMORY_BYTES];
    uint8_t buffer[FABRIC_BUFFER_BYTES];
    struct fabric_lines lines;
    uint32_t responses[FABRIC_MASTERS];
    uint32_t mask;
    uint32_t clocks;
    struct fabric_entry entry;
};

static struct lent fresh; /* the board after a reset, nothing posted */
static struct lent tried;
static struct lent other;
static struct lent expected; /* what `tried` is to be */
static const uint8_t words[FABRIC_PART_BYTES] = {1, 2, 3, 4, 5, 6, 7, 8, 9};
static int checks, failed;

static void check(const char *name, int holds)
{
    checks++;
    if (!holds) {
        printf("calls: %s\n", name);
        failed = 1;
    }
}

static void check_number(const char *name, uint32_t got, uint32_t due)
{
    checks++;
    if (got != due) {
        printf("calls: %s: answered %lu, not %lu\n", name, (unsigned long)got, (unsigned long)due);
        failed = 1;
    }
}

static int all_zero(const void *bytes, size_t length)
{
    const uint8_t *b = (const uint8_t *)bytes;

    while (length > 0 && b[length - 1] == 0)
        length--;
    return length == 0;
}

/* Whether two are the same in all that a refusal has to leave: board, state, memory and buffer. */
static int same_lent(const struct lent *a, const struct lent *b)
{
    return memcmp(&a->board, &b->board, sizeof a->board) == 0 && memcmp(&a->state, &b->state, sizeof a->state) == 0
           && memcmp(a->memory, b->memory, sizeof a->memory) == 0 && memcmp(a->buffer, b->buffer, sizeof a->buffer) == 0;
}

static int same_answer(const struct lent *a, const struct lent *b)
{
    return memcmp(&a->lines, &b->lines, sizeof a->lines) == 0 && memcmp(a->responses, b->responses, sizeof a->responses) == 0
           && a->mask == b->mask;
}

/* Whether all that a clock answers is 0, as behind a refusal. */
static int answers_none(const struct lent *l)
{
    return all_zero(&l->lines, sizeof l->lines) && all_zero(l->responses, sizeof l->responses) && l->mask == 0;
}

/* What a clock answers is to be written by it: other numbers stand there before. */
static void spoil_answer(struct lent *l)
{
    memset(&l->lines, 0xa5, sizeof l->lines);
    memset(l->responses, 0xa5, sizeof l->responses);
    l->mask = 0xa5;
}

static uint32_t one_if(uint32_t mark)
{
    return mark != 0 ? 1 : 0;
}

/* Any mark but 0 is yes (rule 2.4): all of them as 0 or 1. */
static struct fabric_state marked(struct fabric_state s)
{
    for (uint32_t m = 0; m < FABRIC_MASTERS; m++) {
        s.transfer[m].held = one_if(s.transfer[m].held);
        s.transfer[m].write = one_if(s.transfer[m].write);
    }
    for (uint32_t i = 0; i < FABRIC_SLAVES; i++)
        s.slot[i].serving = one_if(s.slot[i].serving);
    s.log.lost = one_if(s.log.lost);
    for (uint32_t i = 0; i < FABRIC_LOG_ENTRIES; i++)
        s.log.entry[i].write = one_if(s.log.entry[i].write);
    return s;
}

/* Whether two are the same but for the numbers of marks that are yes in both. */
static int same_marked(const struct lent *a, const struct lent *b)
{
    struct fabric_state ours = marked(a->state), theirs = marked(b->state);

    return memcmp(&a->board, &b->board, sizeof a->board) == 0 && memcmp(&ours, &theirs, sizeof ours) == 0
           && memcmp(a->memory, b->memory, sizeof a->memory) == 0 && memcmp(a->buffer, b->buffer, sizeof a->buffer) == 0;
}

/* The masters that hold an unmapped transfer (rule 3.7), bit m for master m: of a board and a state that no rule refuses. */
static uint32_t unmapped(const struct lent *l)
{
    uint32_t masters = 0;

    for (uint32_t m = 0; m < l->board.master_count; m++) {
        uint32_t selected = 0;

        for (uint32_t s = 0; s < l->board.slave_count; s++)
            selected += l->board.shares[m][s] != 0
                        && (l->state.transfer[m].address & ~(l->board.slave[s].span - 1)) == l->board.slave[s].base;
        if (l->state.transfer[m].held != 0 && selected == 0)
            masters |= 1u << m;
    }
    return masters;
}

static uint32_t read_text(const char *text, size_t length, struct fabric_board *board)
{
    uint8_t *lent_text = (uint8_t *)lend(text, length);
    struct fabric_board *lent_board = (struct fabric_board *)lend(board, sizeof *board);
    uint32_t number = fabric_read(lent_text, length, lent_board);

    take_back(board, lent_board, sizeof *board);
    free(lent_text);
    return number;
}

static uint32_t refused_at(const char *text, size_t length, size_t *line)
{
    uint8_t *lent_text = (uint8_t *)lend(text, length);
    size_t *lent_line = (size_t *)lend(line, sizeof *line);
    uint32_t number = fabric_refused_at(lent_text, length, lent_line);

    take_back(line, lent_line, sizeof *line);
    free(lent_text);
    return number;
}

static uint32_t refused_master(const char *text, size_t length)
{
    uint8_t *lent_text = (uint8_t *)lend(text, length);
    uint32_t master = fabric_refused_master(lent_text, length);

    check("naming a master leaves the text", memcmp(lent_text, text, length) == 0);
    free(lent_text);
    return master;
}

static uint32_t reset(struct lent *l)
{
    struct fabric_board *board = (struct fabric_board *)lend(&l->board, sizeof l->board);
    struct fabric_state *state = (struct fabric_state *)lend(&l->state, sizeof l->state);
    uint32_t number = fabric_reset(board, state);

    take_back(&l->board, board, sizeof l->board);
    take_back(&l->state, state, sizeof l->state);
    return number;
}

static uint32_t post_lent(struct lent *l, size_t buffer_length, uint32_t master, uint32_t write, uint32_t address,
                          uint32_t lanes, uint32_t beats, size_t length)
{
    struct fabric_board *board = (struct fabric_board *)lend(&l->board, sizeof l->board);
    struct fabric_state *state = (struct fabric_state *)lend(&l->state, sizeof l->state);
    uint8_t *buffer = (uint8_t *)lend(l->buffer, buffer_length);
    uint8_t *lent_words = (uint8_t *)lend(words, length);
    uint32_t number = fabric_post(board, state, buffer, buffer_length, master, write, address, lanes, beats, lent_words, length);

    take_back(&l->board, board, sizeof l->board);
    take_back(&l->state, state, sizeof l->state);
    take_back(l->buffer, buffer, buffer_length);
    free(lent_words);
    return number;
}

static uint32_t post(struct lent *l, uint32_t master, uint32_t write, uint32_t address, uint32_t lanes, uint32_t beats,
                     size_t length)
{
    return post_lent(l, sizeof l->buffer, master, write, address, lanes, beats, length);
}

/* A clock, or a run of so many clocks at most. */
#define ONE_CLOCK UINT64_MAX

static uint32_t clock_lent(struct lent *l, size_t memory_length, size_t buffer_length, uint64_t most)
{
    struct fabric_board *board = (struct fabric_board *)lend(&l->board, sizeof l->board);
    struct fabric_state *state = (struct fabric_state *)lend(&l->state, sizeof l->state);
    uint8_t *memory = (uint8_t *)lend(l->memory, memory_length);
    uint8_t *buffer = (uint8_t *)lend(l->buffer, buffer_length);
    struct fabric_lines *lines = (struct fabric_lines *)lend(&l->lines, sizeof l->lines);
    uint32_t *responses = (uint32_t *)lend(l->responses, sizeof l->responses);
    uint32_t *mask = (uint32_t *)lend(&l->mask, sizeof l->mask);
    uint32_t *clocks = (uint32_t *)lend(&l->clocks, sizeof l->clocks);
    uint32_t number;

    if (most == ONE_CLOCK)
        number = fabric_clock(board, state, memory, memory_length, buffer, buffer_length, lines, responses, mask);
    else
        number = fabric_run(board, state, memory, memory_length, buffer, buffer_length, lines, responses, (uint32_t)most, clocks,
                            mask);
    take_back(&l->board, board, sizeof l->board);
    take_back(&l->state, state, sizeof l->state);
    take_back(l->memory, memory, memory_length);
    take_back(l->buffer, buffer, buffer_length);
    take_back(&l->lines, lines, sizeof l->lines);
    take_back(l->responses, responses, sizeof l->responses);
    take_back(&l->mask, mask, sizeof l->mask);
    take_back(&l->clocks, clocks, sizeof l->clocks);
    return number;
}

/*
 * The responses of a clock or a run that is taken: 3 for each master that held an unmapped transfer before it, which its first
 * clock finishes, else 0 (rules 4.13 and 4.17).
 */
static void check_responses(const struct lent *l, uint32_t unmapped_before)
{
    for (uint32_t m = 0; m < FABRIC_MASTERS; m++)
        check_number("a response", l->responses[m], (unmapped_before >> m & 1) != 0 ? FABRIC_DECODE_ERROR : FABRIC_OKAY);
    check("a master with response 3 is finished", (unmapped_before & ~l->mask) == 0);
    check("behind a clock no unmapped transfer is held", unmapped(l) == 0);
}

static uint32_t clock_once(struct lent *l)
{
    struct lent before = *l;
    uint32_t number = clock_lent(l, sizeof l->memory, sizeof l->buffer, ONE_CLOCK);

    if (number == FABRIC_TAKEN)
        check_responses(l, unmapped(&before));
    return number;
}

static uint32_t run(struct lent *l, uint32_t most)
{
    struct lent before = *l;
    uint32_t number = clock_lent(l, sizeof l->memory, sizeof l->buffer, most);

    if (number == FABRIC_TAKEN && most > 0) {
        check_responses(l, unmapped(&before));
        check("a run ends with the first clock where that has a response of 3", unmapped(&before) == 0 || l->clocks == 1);
    }
    if (number == FABRIC_TAKEN && most == 0)
        check("no clock answers 0, and changes nothing", answers_none(l) && same_lent(l, &before) && l->clocks == 0);
    return number;
}

static uint32_t take(struct lent *l)
{
    struct fabric_board *board = (struct fabric_board *)lend(&l->board, sizeof l->board);
    struct fabric_state *state = (struct fabric_state *)lend(&l->state, sizeof l->state);
    struct fabric_entry *entry = (struct fabric_entry *)lend(&l->entry, sizeof l->entry);
    uint32_t number = fabric_take(board, state, entry);

    take_back(&l->board, board, sizeof l->board);
    take_back(&l->state, state, sizeof l->state);
    take_back(&l->entry, entry, sizeof l->entry);
    return number;
}

/* A reading that is refused leaves the board, and the line to blame or the master without a share line is named (rule 8.3). */
static void judges_text(const char *name, const char *text, size_t length, uint32_t due, size_t line_due, uint32_t master_due)
{
    struct fabric_board board, before;
    size_t line = 77;

    memset(&board, 0xa5, sizeof board);
    before = board;
    check_number(name, read_text(text, length, &board), due);
    check(name, due == FABRIC_TAKEN || memcmp(&board, &before, sizeof board) == 0);
    check_number(name, refused_at(text, length, &line), due);
    check(name, line == line_due);
    check_number(name, refused_master(text, length), master_due);
}

/* A text that names no master. */
static void refuses_text(const char *name, const char *text, size_t length, uint32_t due, size_t line_due)
{
    judges_text(name, text, length, due, line_due, 0);
}

/* A text that is refused for a master without a share line, which no line is charged with. */
static void names_master(const char *name, const char *text, uint32_t master)
{
    judges_text(name, text, strlen(text), FABRIC_NO_SHARE, 0, master);
}

static void readings(void)
{
    static char longest[FABRIC_TEXT_BYTES + 1];

    memset(longest, 'x', sizeof longest);
    refuses_text("a text that is taken", description, strlen(description), FABRIC_TAKEN, 0);
    refuses_text("an empty text", "", 0, FABRIC_BAD_ORDER, 0);
    refuses_text("a text that is too long", longest, sizeof longest, FABRIC_BAD_TEXT, 0);
    refuses_text("a text as long as may be", longest, FABRIC_TEXT_BYTES, FABRIC_BAD_TEXT, 1);
    refuses_text("no final line feed", description, strlen(description) - 1, FABRIC_BAD_TEXT, 7);
    refuses_text("a wait of 300 in a text", "master,4,8\nslave,0,8,4,8,300,0,0,0\n", 35, FABRIC_BAD_VALUE, 2);
    refuses_text("a base of 4", "master,4,8\nslave,4,8,4,8,0,0,0,0\n", 33, FABRIC_BAD_BASE, 2);
    refuses_text("a slave line without native and latency", "master,4,8\nslave,0,8,4,8,0,0\n", 29, FABRIC_BAD_TEXT, 2);
    refuses_text("a slave line without latency", "master,4,8\nslave,0,8,4,8,0,0,0\n", 31, FABRIC_BAD_TEXT, 2);
    refuses_text("a slave line of nine numbers", "master,4,8\nslave,0,8,4,8,0,0,0,0,0\n", 35, FABRIC_BAD_TEXT, 2);
    refuses_text("a native of 2 in a text", "master,4,8\nslave,0,8,4,8,0,0,2,0\n", 33, FABRIC_BAD_VALUE, 2);
    refuses_text("a latency of 64 in a text", "master,4,8\nslave,0,8,4,8,0,0,0,64\n", 34, FABRIC_BAD_VALUE, 2);
    refuses_text("a latency of 63 in a text", "master,4,8\nslave,0,8,4,8,0,0,0,63\nshare,0,0,1\n", 46, FABRIC_TAKEN, 0);
    refuses_text("a master narrower than a native slave", "master,2,8\nslave,0,8,4,8,0,0,1,0\nshare,0,0,1\n", 45,
                 FABRIC_TOO_NARROW, 3);
    refuses_text("no slave", "master,4,8\n", 11, FABRIC_BAD_ORDER, 0);
}

#define MASTERS "master,4,8\nmaster,2,1\nmaster,8,4\n"
#define SLAVE "slave,0,64,2,1,0,0,0,0\n"

/* A text, what it is refused with, and the line that is charged. */
struct judged_text {
    const char *text;
    uint32_t due;
    size_t line;
};

static void refuses_texts(const char *name, const struct judged_text *texts, size_t count)
{
    for (size_t i = 0; i < count; i++)
        refuses_text(name, texts[i].text, strlen(texts[i].text), texts[i].due, texts[i].line);
}

/* Masters without a share line; what refuses a line of the text, or 2 at its end, comes first (rule 8.2). */
static void unshared_texts(void)
{
    static const struct judged_text earlier[] = {
        {MASTERS, FABRIC_BAD_ORDER, 0},
        {MASTERS SLAVE "share,0,0,1", FABRIC_BAD_TEXT, 5},
        {MASTERS SLAVE "share,0,0,1\n\n", FABRIC_BAD_TEXT, 6},
        {MASTERS SLAVE "share,0,0,1\n" SLAVE, FABRIC_BAD_ORDER, 6},
        {MASTERS SLAVE "share,0,0,0\n", FABRIC_BAD_VALUE, 5},
        {MASTERS SLAVE "slave,32,64,2,1,0,0,0,0\n", FABRIC_BAD_BASE, 5},
        {MASTERS SLAVE SLAVE, FABRIC_OVERLAP, 5},
        {MASTERS SLAVE "slave,65536,65536,2,1,0,0,0,0\n", FABRIC_SPAN_TOTAL, 5},
        {MASTERS SLAVE "share,3,0,1\n", FABRIC_BAD_SHARE, 5},
        {MASTERS SLAVE "share,2,0,1\nshare,2,0,1\n", FABRIC_BAD_SHARE, 6},
        {MASTERS "slave,0,64,4,1,0,0,1,0\nshare,2,0,1\nshare,1,0,1\n", FABRIC_TOO_NARROW, 6},
    };

    names_master("no share line", MASTERS SLAVE, 0);
    names_master("a share line of the last master alone", MASTERS SLAVE "share,2,0,1\n", 0);
    names_master("none of the first", MASTERS SLAVE "share,1,0,1\nshare,2,0,1\n", 0);
    names_master("none of the second", MASTERS SLAVE "share,0,0,1\nshare,2,0,1\n", 1);
    names_master("a share line of the first master alone", MASTERS SLAVE "share,0,0,1\n", 1);
    names_master("none of the last", MASTERS SLAVE "share,0,0,1\nshare,1,0,100\n", 2);
    names_master("three share lines of two masters",
                 MASTERS SLAVE "slave,64,64,2,1,0,0,1,0\nshare,0,0,1\nshare,0,1,1\nshare,2,1,1\n", 1);
    refuses_texts("what comes before a missing share line", earlier, sizeof earlier / sizeof earlier[0]);
}

#define TWO_SLAVES "slave,0,64,2,1,0,0,0,0\nslave,64,64,4,1,0,0,1,0\n"

/*
 * Share lines by master, then slave (rule 1.4). In a line that is out of order 1, 3, 7 and 19 come first, and 21 comes before what
 * is wrong behind that line (rule 8.2). Master 1 is narrower than slave 1, which is native.
 */
static void unordered_texts(void)
{
    static const struct judged_text texts[] = {
        {MASTERS TWO_SLAVES "share,0,1,1\nshare,1,0,1\nshare,2,0,1\n", FABRIC_TAKEN, 0},
        {MASTERS TWO_SLAVES "share,0,0,1\nshare,0,1,9\nshare,1,0,1\nshare,2,0,1\nshare,2,1,1\n", FABRIC_TAKEN, 0},
        {MASTERS TWO_SLAVES "share,0,1,1\nshare,0,0,1\nshare,1,0,1\nshare,2,0,1\n", FABRIC_SHARE_ORDER, 7},
        {MASTERS TWO_SLAVES "share,0,0,1\nshare,1,0,1\nshare,0,1,1\nshare,2,0,1\n", FABRIC_SHARE_ORDER, 8},
        {MASTERS TWO_SLAVES "share,0,0,1\nshare,2,0,1\nshare,1,0,1\n", FABRIC_SHARE_ORDER, 8},
        {MASTERS TWO_SLAVES "share,1,0,1\nshare,0,1,1\nshare,2,0,1\n", FABRIC_SHARE_ORDER, 7},
        {MASTERS TWO_SLAVES "share,2,1,1\nshare,2,0,1\nshare,1,0,1\nshare,0,0,1\n", FABRIC_SHARE_ORDER, 7},
        {MASTERS TWO_SLAVES "share,1,0,1\nshare,0,0,1\n", FABRIC_SHARE_ORDER, 7},
        {MASTERS TWO_SLAVES "share,1,0,1\nshare,0,0,1\nshare,0,0,1\n", FABRIC_SHARE_ORDER, 7},
        {MASTERS TWO_SLAVES "share,1,0,1\nshare,0,0,1\nshare", FABRIC_SHARE_ORDER, 7},
        {MASTERS TWO_SLAVES "share,1,0,1\nshare,0,0,1\n" SLAVE, FABRIC_SHARE_ORDER, 7},
        {MASTERS TWO_SLAVES "share,1,0,1\nshare,0,0,1", FABRIC_BAD_TEXT, 7},
        {MASTERS TWO_SLAVES "share,1,0,1\nshare,0,0\n", FABRIC_BAD_TEXT, 7},
        {MASTERS TWO_SLAVES "share,1,0,1\nshare,0,0,0\n", FABRIC_BAD_VALUE, 7},
        {MASTERS TWO_SLAVES "share,1,0,1\nshare,0,2,1\n", FABRIC_BAD_SHARE, 7},
        {MASTERS TWO_SLAVES "share,1,0,1\nshare,1,0,1\n", FABRIC_BAD_SHARE, 7},
        {MASTERS TWO_SLAVES "share,0,0,1\nshare,1,0,1\nshare,0,0,1\n", FABRIC_BAD_SHARE, 8},
        {MASTERS TWO_SLAVES "share,2,0,1\nshare,1,1,1\n", FABRIC_TOO_NARROW, 7},
    };

    refuses_texts("the order of share lines", texts, sizeof texts / sizeof texts[0]);
}

#define THREE_SHARES "share,0,0,1\nshare,1,0,1\nshare,2,0,1\n"
#define WITHOUT MASTERS SLAVE THREE_SHARES

/* The line `default` (rules 1.3 and 1.4): once, behind all others. A line behind it is judged for its form, then for its place. */
static void default_texts(void)
{
    static const struct judged_text texts[] = {
        {WITHOUT "default\n", FABRIC_TAKEN, 0},
        {WITHOUT "default\ndefault\n", FABRIC_BAD_ORDER, 9},
        {"default\n", FABRIC_BAD_ORDER, 1},
        {"default\n" WITHOUT, FABRIC_BAD_ORDER, 1},
        {MASTERS "default\n", FABRIC_BAD_ORDER, 4},
        {MASTERS "default\n" SLAVE THREE_SHARES, FABRIC_BAD_ORDER, 4},
        {MASTERS SLAVE "default\n" THREE_SHARES, FABRIC_BAD_ORDER, 6},
        {MASTERS SLAVE "default\nslave,64,64,2,1,0,0,0,0\n" THREE_SHARES, FABRIC_BAD_ORDER, 6},
        {WITHOUT "default\nmaster,4,8\n", FABRIC_BAD_ORDER, 9},
        {WITHOUT "default\nslave,64,64,2,1,0,0,0,0\n", FABRIC_BAD_ORDER, 9},
        {WITHOUT "default\nslave,1,2,3,4,256,256,2,64\n", FABRIC_BAD_ORDER, 9},
        {WITHOUT "default\nshare,0,0,1\n", FABRIC_BAD_ORDER, 9},
        {WITHOUT "default\nshare,9,99,101\n", FABRIC_BAD_ORDER, 9},
        {MASTERS SLAVE "share,0,0,1\ndefault\nshare,1,0,1\n", FABRIC_BAD_ORDER, 7},
        {WITHOUT "default\n\n", FABRIC_BAD_TEXT, 9},
        {WITHOUT "default\nshare,0,0\n", FABRIC_BAD_TEXT, 9},
        {WITHOUT "default\ndefault,1\n", FABRIC_BAD_TEXT, 9},
        {WITHOUT "default\ndefault", FABRIC_BAD_TEXT, 9},
        {WITHOUT "default,1\n", FABRIC_BAD_TEXT, 8},
        {WITHOUT "default,0\n", FABRIC_BAD_TEXT, 8},
        {WITHOUT "default,\n", FABRIC_BAD_TEXT, 8},
        {WITHOUT "default", FABRIC_BAD_TEXT, 8},
        {WITHOUT "defaults\n", FABRIC_BAD_TEXT, 8},
        {WITHOUT "defaul\n", FABRIC_BAD_TEXT, 8},
        {WITHOUT "Default\n", FABRIC_BAD_TEXT, 8},
        {WITHOUT "default \n", FABRIC_BAD_TEXT, 8},
        {WITHOUT "default\r\n", FABRIC_BAD_TEXT, 8},
        {MASTERS "default,1\n", FABRIC_BAD_TEXT, 4},
    };

    refuses_texts("the line default", texts, sizeof texts / sizeof texts[0]);
    names_master("the line default and no share line", MASTERS SLAVE "default\n", 0);
    names_master("the line default and no share line of the second", MASTERS SLAVE "share,0,0,1\nshare,2,0,1\ndefault\n", 1);
}

/* The lowest master of so many that a set, bit m for master m, does not have; their count where it has all. */
static uint32_t lowest_without(uint32_t set, uint32_t count)
{
    uint32_t m = 0;

    while (m < count && (set >> m & 1) != 0)
        m++;
    return m;
}

/* A description of so many masters and two slaves, with a share line for each master of the set, in order or backwards. */
static void shared_text(char *text, uint32_t count, uint32_t set, int backwards)
{
    for (uint32_t m = 0; m < count; m++)
        text += sprintf(text, "master,4,8\n");
    text += sprintf(text, "slave,0,8,4,8,0,0,0,0\nslave,8,8,4,8,0,0,0,0\n");
    for (uint32_t i = 0; i < count; i++) {
        uint32_t m = backwards ? count - 1 - i : i;

        if ((set >> m & 1) != 0)
            text += sprintf(text, "share,%u,%u,1\n", (unsigned)m, (unsigned)((set >> 1 ^ m) & 1));
    }
}

/* Every set of masters that have a share line, of every count of masters. Of several lines backwards the second is charged. */
static void shared_sets(void)
{
    char text[512], name[64];

    for (uint32_t count = 1; count <= FABRIC_MASTERS; count++) {
        for (uint32_t set = 0; set < 1u << count; set++) {
            uint32_t lowest = lowest_without(set, count);

            shared_text(text, count, set, 0);
            sprintf(name, "share lines of the masters %#x, of %u masters", (unsigned)set, (unsigned)count);
            if (lowest == count)
                refuses_text(name, text, strlen(text), FABRIC_TAKEN, 0);
            else
                names_master(name, text, lowest);
            shared_text(text, count, set, 1);
            if ((set & (set - 1)) != 0)
                refuses_text(name, text, strlen(text), FABRIC_SHARE_ORDER, count + 4);
        }
    }
}

/* What is read: the numbers of the description, and 0 behind the counts; and the state after a reset (rule 4.2). */
static void board_read(void)
{
    static const uint32_t masters[2 * FABRIC_MASTERS] = {4, 8, 2, 1};
    static const uint32_t slaves[8 * FABRIC_SLAVES] = {4096, 4096, 2, 8, 1, 0, 0, 0, 0, 64, 4, 1, 0, 3, 0, 0};
    static const uint32_t shares[FABRIC_MASTERS * FABRIC_SLAVES] = {2, 1, 0, 0, 0, 0, 0, 0, 0, 0, 0, 0, 0, 0, 0, 0, 3};
    struct fabric_board board;

    memset(&board, 0xa5, sizeof board);
    check_number("reading", read_text(description, strlen(description), &board), FABRIC_TAKEN);
    check("the counts read", board.master_count == 2 && board.slave_count == 2);
    check("the masters read", memcmp(board.master, masters, sizeof masters) == 0);
    check("the slaves read", memcmp(board.slave, slaves, sizeof slaves) == 0);
    check("the shares read", memcmp(board.shares, shares, sizeof shares) == 0);
    check_number("no line default", board.default_line, 0);
    memset(&fresh, 0, sizeof fresh);
    fresh.board = board;
    for (size_t i = 0; i < sizeof fresh.memory; i++)
        fresh.memory[i] = (uint8_t)(i * 7);
    memset(&fresh.state, 0xa5, sizeof fresh.state);
    check_number("reset", reset(&fresh), FABRIC_TAKEN);
    check("no transfers after a reset", all_zero(fresh.state.transfer, sizeof fresh.state.transfer));
    check("no latency clocks after a reset", all_zero(fresh.state.late, sizeof fresh.state.late));
    check("the last owners after a reset", fresh.state.slot[0].owner == 1 && fresh.state.slot[1].owner == 1);
    fresh.state.slot[0].owner = fresh.state.slot[1].owner = 0;
    check("all else 0 after a reset", all_zero(&fresh.state, sizeof fresh.state));
    fresh.state.slot[0].owner = fresh.state.slot[1].owner = 1;
}

/* The same board with the line `default` in its text has the mark, 1, and else the same numbers and the same state. */
static void default_read(void)
{
    char text[sizeof description + 8];

    sprintf(text, "%sdefault\n", description);
    tried = fresh;
    memset(&tried.board, 0xa5, sizeof tried.board);
    check_number("reading the line default", read_text(text, strlen(text), &tried.board), FABRIC_TAKEN);
    check_number("the line default", tried.board.default_line, 1);
    memset(&tried.state, 0xa5, sizeof tried.state);
    check_number("reset with the line default", reset(&tried), FABRIC_TAKEN);
    tried.board.default_line = 0;
    check("nothing else is another", same_lent(&tried, &fresh));
}

/* A refused clock and a refused run of clocks: all lent is as it was, and lines, responses, mask and clocks are 0. */
static void refuses_clock(const char *name, uint32_t due)
{
    uint32_t most[3] = {0, 1, 5};

    spoil_answer(&tried);
    other = tried;
    check_number(name, clock_once(&tried), due);
    check(name, same_lent(&tried, &other) && answers_none(&tried));
    for (size_t i = 0; i < 3; i++) {
        tried = other;
        tried.clocks = 0xa5;
        check_number(name, run(&tried, most[i]), due);
        check(name, same_lent(&tried, &other) && answers_none(&tried));
        check(name, tried.clocks == 0);
    }
    tried = other;
}

/* A refused take: all lent is as it was, and the entry is 0. */
static void refuses_take(const char *name, uint32_t due)
{
    memset(&tried.entry, 0xa5, sizeof tried.entry);
    other = tried;
    check_number(name, take(&tried), due);
    check(name, same_lent(&tried, &other) && all_zero(&tried.entry, sizeof tried.entry));
}

static void refuses_post(const char *name, uint32_t due, uint32_t master, uint32_t write, uint32_t address, uint32_t lanes,
                         uint32_t beats, size_t length)
{
    other = tried;
    check_number(name, post(&tried, master, write, address, lanes, beats, length), due);
    check(name, same_lent(&tried, &other));
}

/* One number of the board is another (rule 1.10): no call takes the board, and each answers the same refusal. */
static void refuses_board(const char *name, uint32_t *number, uint32_t value, uint32_t due)
{
    uint32_t before = *number;

    *number = value;
    other = tried;
    check_number(name, reset(&tried), due);
    check(name, same_lent(&tried, &other));
    refuses_post(name, due, 0, 0, 4096, 15, 1, 0);
    refuses_clock(name, due);
    refuses_take(name, due);
    *number = before;
}

static void boards(void)
{
    tried = fresh;
    refuses_board("a read wait of 256", &tried.board.slave[0].read_wait, 256, FABRIC_BAD_VALUE);
    refuses_board("a read wait of 300", &tried.board.slave[0].read_wait, 300, FABRIC_BAD_VALUE);
    refuses_board("the largest write wait", &tried.board.slave[1].write_wait, UINT32_MAX, FABRIC_BAD_VALUE);
    refuses_board("a master's width of 260", &tried.board.master[0].width, 260, FABRIC_BAD_VALUE);
    refuses_board("a master's burst of 264", &tried.board.master[0].burst, 264, FABRIC_BAD_VALUE);
    refuses_board("a slave's width of 258", &tried.board.slave[0].width, 258, FABRIC_BAD_VALUE);
    refuses_board("a slave's burst of 65537", &tried.board.slave[1].burst, 65537, FABRIC_BAD_VALUE);
    refuses_board("a span of 4", &tried.board.slave[1].span, 4, FABRIC_BAD_VALUE);
    refuses_board("a span of 131072", &tried.board.slave[1].span, 131072, FABRIC_BAD_VALUE);
    refuses_board("a base of 32", &tried.board.slave[1].base, 32, FABRIC_BAD_BASE);
    refuses_board("a base in another slave", &tried.board.slave[1].base, 4160, FABRIC_OVERLAP);
    refuses_board("a span of 65536 at a base of 4096", &tried.board.slave[0].span, 65536, FABRIC_BAD_BASE);
    refuses_board("101 shares", &tried.board.shares[0][0], 101, FABRIC_BAD_VALUE);
    refuses_board("258 shares", &tried.board.shares[0][0], 258, FABRIC_BAD_VALUE);
    refuses_board("shares of no master", &tried.board.shares[2][0], 1, FABRIC_BAD_SHARE);
    refuses_board("shares of no slave", &tried.board.shares[0][2], 1, FABRIC_BAD_SHARE);
    refuses_board("no master", &tried.board.master_count, 0, FABRIC_BAD_ORDER);
    refuses_board("no slave", &tried.board.slave_count, 0, FABRIC_BAD_ORDER);
    refuses_board("258 masters, the third of width 0", &tried.board.master_count, 258, FABRIC_BAD_VALUE);
    for (uint32_t m = 2; m < FABRIC_MASTERS; m++)
        tried.board.master[m] = tried.board.master[0];
    refuses_board("9 masters", &tried.board.master_count, 9, FABRIC_BAD_ORDER);
    refuses_board("258 masters", &tried.board.master_count, 258, FABRIC_BAD_ORDER);
    refuses_board("the largest count of masters", &tried.board.master_count, UINT32_MAX, FABRIC_BAD_ORDER);
    for (uint32_t s = 2; s < FABRIC_SLAVES; s++) {
        tried.board.slave[s] = tried.board.slave[1];
        tried.board.slave[s].base = 64 * (s - 1);
    }
    refuses_board("17 slaves", &tried.board.slave_count, 17, FABRIC_BAD_ORDER);
    refuses_board("the largest count of slaves", &tried.board.slave_count, UINT32_MAX, FABRIC_BAD_ORDER);
    tried = fresh;
    tried.board.slave[0].base = 65536;
    tried.board.slave[0].span = 65536;
    refuses_board("spans of 65600", &tried.board.slave[1].base, 0, FABRIC_SPAN_TOTAL);
}

/* The same of native slaves; a share line with several faults answers the lowest number. */
static void native_boards(void)
{
    tried = fresh;
    refuses_board("a native of 2", &tried.board.slave[0].native, 2, FABRIC_BAD_VALUE);
    refuses_board("a native of 256", &tried.board.slave[1].native, 256, FABRIC_BAD_VALUE);
    refuses_board("the largest native", &tried.board.slave[1].native, UINT32_MAX, FABRIC_BAD_VALUE);
    tried.board.slave[0].native = tried.board.slave[1].native = 1;
    refuses_board("a master narrower than a native slave", &tried.board.master[1].width, 1, FABRIC_TOO_NARROW);
    refuses_board("shares of a narrower master at a native slave", &tried.board.shares[1][1], 1, FABRIC_TOO_NARROW);
    refuses_board("101 shares of a narrower master", &tried.board.shares[1][1], 101, FABRIC_BAD_VALUE);
    refuses_board("shares of no master at a native slave", &tried.board.shares[2][1], 1, FABRIC_BAD_SHARE);
}

/* The same of slaves with latency, 63 clocks at the most. */
static void late_boards(void)
{
    tried = fresh;
    refuses_board("a latency of 64", &tried.board.slave[0].latency, 64, FABRIC_BAD_VALUE);
    refuses_board("a latency of 256", &tried.board.slave[1].latency, 256, FABRIC_BAD_VALUE);
    refuses_board("the largest latency", &tried.board.slave[1].latency, UINT32_MAX, FABRIC_BAD_VALUE);
    tried.board.slave[0].latency = tried.board.slave[1].latency = 63;
    check_number("a latency of 63", reset(&tried), FABRIC_TAKEN);
    refuses_board("a base of 32 with latency", &tried.board.slave[1].base, 32, FABRIC_BAD_BASE);
    tried.board.slave[2].latency = 64;
    check_number("a latency of 64 of no slave of the board's", reset(&tried), FABRIC_TAKEN);
}

/* A master without shares at any slave: 2 to 7 and 19 come before it (rule 8.5). */
static void unshared_boards(void)
{
    tried = fresh;
    refuses_board("no shares of master 1", &tried.board.shares[1][0], 0, FABRIC_NO_SHARE);
    tried.board.shares[0][0] = 0;
    check_number("shares of master 0 at one of its slaves", reset(&tried), FABRIC_TAKEN);
    refuses_board("no shares of master 0", &tried.board.shares[0][1], 0, FABRIC_NO_SHARE);
    tried.board.shares[0][1] = 0;
    refuses_board("no shares at all", &tried.board.shares[1][0], 0, FABRIC_NO_SHARE);
    tried = fresh;
    refuses_board("one master, with shares of the second", &tried.board.master_count, 1, FABRIC_BAD_SHARE);
    tried.board.shares[1][0] = 0;
    refuses_board("101 shares before no shares", &tried.board.shares[0][0], 101, FABRIC_BAD_VALUE);
    refuses_board("a wait of 256 before no shares", &tried.board.slave[1].write_wait, 256, FABRIC_BAD_VALUE);
    refuses_board("a base of 32 before no shares", &tried.board.slave[1].base, 32, FABRIC_BAD_BASE);
    refuses_board("a base in another slave before no shares", &tried.board.slave[1].base, 4160, FABRIC_OVERLAP);
    refuses_board("shares of no master before no shares", &tried.board.shares[2][0], 1, FABRIC_BAD_SHARE);
    refuses_board("shares of no slave before no shares", &tried.board.shares[1][2], 1, FABRIC_BAD_SHARE);
    tried.board.slave[1].native = 1;
    refuses_board("a native slave and no shares", &tried.board.master[1].burst, 64, FABRIC_NO_SHARE);
    refuses_board("a narrower master before no shares", &tried.board.master[0].width, 2, FABRIC_TOO_NARROW);
    tried.board.shares[0][0] = tried.board.shares[0][1] = 0;
    refuses_board("no slave, and no shares", &tried.board.slave_count, 0, FABRIC_BAD_ORDER);
    refuses_board("no master, and no shares", &tried.board.master_count, 0, FABRIC_BAD_ORDER);
    check_number("two masters without shares", reset(&tried), FABRIC_NO_SHARE);
    tried.board.shares[0][0] = 2;
    tried.board.master_count = 1;
    check_number("the second master is none of the board's", reset(&tried), FABRIC_TAKEN);
}

/*
 * A board of numbers has no lines that could stand out of order: it is taken whichever pair got its shares first, and also where
 * a lower master has the higher slave.
 */
static void unordered_boards(void)
{
    static const uint32_t masters[4] = {1, 1, 0, 0}, slaves[4] = {1, 0, 1, 0};

    tried = fresh;
    memset(tried.board.shares, 0, sizeof tried.board.shares);
    for (size_t i = 0; i < 4; i++) {
        tried.board.shares[masters[i]][slaves[i]] = 1;
        check_number("shares set from the last pair on", reset(&tried), i < 2 ? FABRIC_NO_SHARE : FABRIC_TAKEN);
    }
    tried.board.shares[0][0] = tried.board.shares[1][1] = 0;
    check_number("the lower master at the higher slave", reset(&tried), FABRIC_TAKEN);
    check_number("a post there", post(&tried, 0, 0, 0, 15, 1, 0), FABRIC_TAKEN);
    check_number("a clock there", clock_once(&tried), FABRIC_TAKEN);
    check_number("a run of clocks there", run(&tried, 1), FABRIC_TAKEN);
}

/* More masters than have shares: the count alone decides whether a master without them is one of the board. */
static void unshared_counts(void)
{
    tried = fresh;
    for (uint32_t m = 2; m < FABRIC_MASTERS; m++)
        tried.board.master[m] = tried.board.master[0];
    for (uint32_t m = 2; m < FABRIC_MASTERS; m++) {
        refuses_board("a master more, without shares", &tried.board.master_count, m + 1, FABRIC_NO_SHARE);
        refuses_board("9 masters, some without shares", &tried.board.master_count, 9, FABRIC_BAD_ORDER);
        check_number("as many masters as have shares", reset(&tried), FABRIC_TAKEN);
        tried.board.master_count = m + 1;
        tried.board.shares[m][m % 2] = m;
    }
    check_number("8 masters with shares", reset(&tried), FABRIC_TAKEN);
    for (uint32_t m = 1; m < FABRIC_MASTERS; m++)
        refuses_board("one of 8 masters without shares", &tried.board.shares[m][m < 2 ? 0 : m % 2], 0, FABRIC_NO_SHARE);
}

/* One number of the state is another: no post, no clock and no take takes the state. */
static void refuses_state(const char *name, uint32_t *number, uint32_t value)
{
    uint32_t before = *number;

    *number = value;
    refuses_post(name, FABRIC_BAD_STATE, 1, 0, 4096, 3, 1, 0);
    refuses_clock(name, FABRIC_BAD_STATE);
    refuses_take(name, FABRIC_BAD_STATE);
    *number = before;
}

static void states(void)
{
    struct fabric_transfer *t = &tried.state.transfer[0];
    struct fabric_slot *x = &tried.state.slot[0];

    tried = fresh;
    refuses_state("an owner of 2", &x->owner, 2);
    refuses_state("an owner of 256", &x->owner, 256);
    refuses_state("an owner of 257", &x->owner, 257);
    refuses_state("3 grants remaining of 3 shares", &x->remaining, 3);
    refuses_state("256 grants remaining", &x->remaining, 256);
    refuses_state("a grant remaining to a master not connected", &tried.state.slot[1].remaining, 1);
    refuses_state("accesses done without serving", &x->done, 65536);
    refuses_state("waits passed without serving", &x->waited, 256);
    refuses_state("serving nobody", &x->serving, 1);
    refuses_state("a transfer of no master", &tried.state.transfer[2].held, 256);
    check_number("a read of two accesses", post(&tried, 0, 0, 4096, 15, 1, 0), FABRIC_TAKEN);
    refuses_state("a held transfer with lanes of 256", &t->lanes, 256);
    refuses_state("a held transfer with lanes of 271", &t->lanes, 271);
    refuses_state("a held transfer of 9 beats", &t->beats, 9);
    refuses_state("a held transfer of 257 beats", &t->beats, 257);
    refuses_state("a held transfer for no slave", &t->address, 8192);
    check_number("its first clock", clock_once(&tried), FABRIC_TAKEN);
    check("it is served, and has waited once", x->serving != 0 && x->owner == 0 && x->done == 0 && x->waited == 1);
    refuses_state("as many accesses done as there are", &x->done, 2);
    refuses_state("65536 accesses done", &x->done, 65536);
    refuses_state("more waits passed than the wait", &x->waited, 2);
    refuses_state("257 waits passed", &x->waited, 257);
    refuses_state("serving what is not held", &t->held, 0);
    x->serving = 256;
    t->held = UINT32_MAX;
    check_number("any mark but 0 is yes", clock_once(&tried), FABRIC_TAKEN);
    check("the access is carried out", tried.lines.line[0].phase == FABRIC_ACCESS && x->done == 1 && x->waited == 0);
}

/*
 * Counts of latency clocks (rule 7.9). Slave 0 has a latency of 3, slave 1 none; a count above the latency is refused, and one of a
 * write, of a master that holds no transfer and of a master that is served.
 */
static void late_states(void)
{
    struct fabric_transfer *t = &tried.state.transfer[0];

    tried = fresh;
    tried.board.slave[0].latency = 3;
    for (uint32_t m = 0; m < FABRIC_MASTERS; m++)
        refuses_state(m < 2 ? "a latency clock of no transfer" : "a latency clock of no master", &tried.state.late[m], 1);
    check_number("a read", post(&tried, 0, 0, 4096, 15, 1, 0), FABRIC_TAKEN);
    refuses_state("4 latency clocks of 3", &tried.state.late[0], 4);
    refuses_state("256 latency clocks", &tried.state.late[0], 256);
    refuses_state("the most latency clocks", &tried.state.late[0], UINT32_MAX);
    refuses_state("a latency clock of another master", &tried.state.late[1], 1);
    t->write = 256;
    refuses_state("a latency clock of a write", &tried.state.late[0], 1);
    refuses_state("as many latency clocks of a write as the slave has", &tried.state.late[0], 3);
    t->write = 0;
    t->held = 0;
    refuses_state("a latency clock of a read that is not held", &tried.state.late[0], 1);
    t->held = 1;
    t->address = 0;
    refuses_state("a latency clock at a slave without latency", &tried.state.late[0], 1);
    t->address = 4096;
    check_number("its first clock", clock_once(&tried), FABRIC_TAKEN);
    refuses_state("a latency clock of a master that is served", &tried.state.late[0], 1);
    refuses_state("as many latency clocks of a master that is served as the slave has", &tried.state.late[0], 3);
    check_number("a read that waits beside it", post(&tried, 1, 0, 4096, 3, 1, 0), FABRIC_TAKEN);
    refuses_state("4 latency clocks of 3 beside a master that is served", &tried.state.late[1], 4);
    tried.state.late[1] = 3;
    check_number("3 latency clocks beside a master that is served", clock_once(&tried), FABRIC_TAKEN);
    check("one is passed", tried.state.late[1] == 2 && tried.mask == 0 && tried.lines.line[0].owner == 0);
}

static void posts(void)
{
    tried = fresh;
    refuses_post("master 2", FABRIC_NO_MASTER, 2, 0, 4096, 15, 1, 0);
    refuses_post("master 256", FABRIC_NO_MASTER, 256, 0, 4096, 15, 1, 0);
    refuses_post("no beats", FABRIC_BAD_BEATS, 0, 0, 4096, 15, 0, 0);
    refuses_post("9 beats", FABRIC_BAD_BEATS, 0, 0, 4096, 15, 9, 0);
    refuses_post("257 beats", FABRIC_BAD_BEATS, 0, 0, 4096, 15, 257, 0);
    refuses_post("an address of 4098", FABRIC_BAD_ADDRESS, 0, 0, 4098, 15, 1, 0);
    refuses_post("lanes of 0", FABRIC_BAD_LANES, 0, 0, 4096, 0, 1, 0);
    refuses_post("lanes of 6", FABRIC_BAD_LANES, 0, 0, 4096, 6, 1, 0);
    refuses_post("lanes of 256", FABRIC_BAD_LANES, 0, 0, 4096, 256, 1, 0);
    refuses_post("lanes of 271", FABRIC_BAD_LANES, 0, 0, 4096, 271, 1, 0);
    refuses_post("the largest lanes", FABRIC_BAD_LANES, 0, 0, 4096, UINT32_MAX, 1, 0);
    refuses_post("a burst with lanes of 3", FABRIC_BAD_LANES, 0, 0, 4096, 3, 2, 0);
    refuses_post("an address of no slave", FABRIC_NOT_CONNECTED, 0, 0, 8192, 15, 1, 0);
    refuses_post("a slave not connected", FABRIC_NOT_CONNECTED, 1, 0, 0, 3, 1, 0);
    refuses_post("a burst past the end", FABRIC_PAST_END, 0, 0, 8188, 15, 2, 0);
    refuses_post("a write without words", FABRIC_BAD_WORDS, 0, 1, 4096, 15, 1, 0);
    refuses_post("a write with a byte more", FABRIC_BAD_WORDS, 0, 1, 4096, 15, 1, 5);
    refuses_post("a read with words", FABRIC_BAD_WORDS, 0, 0, 4096, 15, 1, 4);
    check_number("a write marked 256", post(&tried, 0, 256, 4096, 15, 2, 8), FABRIC_TAKEN);
    check("it is held, for writing", tried.state.transfer[0].held != 0 && tried.state.transfer[0].write != 0);
    check("with its words", memcmp(tried.buffer, words, 8) == 0 && all_zero(tried.buffer + 8, sizeof tried.buffer - 8));
    check("memory is not touched", memcmp(tried.memory, fresh.memory, sizeof tried.memory) == 0);
    tried.state.transfer[0].held = 2;
    refuses_post("a transfer held, marked 2", FABRIC_HELD, 0, 0, 4096, 15, 1, 0);
}

/* Clocks of lent blocks of these lengths are refused: all lent is as it was, and lines, responses, mask and clocks are 0. */
static void refuses_lengths(const char *name, uint32_t due, size_t memory, size_t buffer)
{
    uint64_t most[2] = {ONE_CLOCK, 9};

    other = tried;
    for (size_t i = 0; i < 2; i++) {
        tried = other;
        spoil_answer(&tried);
        tried.clocks = 0xa5;
        check_number(name, clock_lent(&tried, memory, buffer, most[i]), due);
        check(name, same_lent(&tried, &other) && answers_none(&tried));
        check(name, most[i] == ONE_CLOCK || tried.clocks == 0);
    }
    tried = other;
}

static void lengths(void)
{
    tried = fresh;
    check_number("a post with a shorter buffer", post_lent(&tried, sizeof tried.buffer - 1, 0, 1, 4096, 15, 1, 4),
                 FABRIC_BAD_LENGTH);
    check_number("a post with no buffer", post_lent(&tried, 0, 0, 1, 4096, 15, 1, 4), FABRIC_BAD_LENGTH);
    check("a post with another buffer changes nothing", same_lent(&tried, &fresh));
    refuses_lengths("a memory with a byte less", FABRIC_BAD_LENGTH, sizeof tried.memory - 1, sizeof tried.buffer);
    refuses_lengths("no memory", FABRIC_BAD_LENGTH, 0, sizeof tried.buffer);
    refuses_lengths("a buffer with a byte less", FABRIC_BAD_LENGTH, sizeof tried.memory, sizeof tried.buffer - 1);
    refuses_lengths("no buffer", FABRIC_BAD_LENGTH, sizeof tried.memory, 0);
}

/* A count that is refused comes before what is posted (11 to 18), and behind the board and the lengths: rule 8.4. */
static void late_first(void)
{
    tried = fresh;
    tried.board.slave[0].latency = 3;
    check_number("a read to be set late", post(&tried, 0, 0, 4096, 15, 1, 0), FABRIC_TAKEN);
    tried.state.late[0] = 4;
    refuses_post("latency clocks before no such master", FABRIC_BAD_STATE, 2, 0, 4096, 15, 1, 0);
    refuses_post("latency clocks before a transfer held", FABRIC_BAD_STATE, 0, 0, 4096, 15, 1, 0);
    refuses_post("latency clocks before no beats", FABRIC_BAD_STATE, 1, 0, 4096, 3, 0, 0);
    refuses_lengths("the memory's length before latency clocks", FABRIC_BAD_LENGTH, 0, sizeof tried.buffer);
    refuses_board("a latency of 64 before latency clocks", &tried.board.slave[0].latency, 64, FABRIC_BAD_VALUE);
    tried.state.late[0] = 3;
    refuses_post("a transfer held, with latency clocks", FABRIC_HELD, 0, 0, 4096, 15, 1, 0);
    refuses_post("a transfer held before no beats, with latency clocks", FABRIC_HELD, 0, 0, 4096, 15, 0, 0);
    refuses_lengths("a memory with a byte less, with latency clocks", FABRIC_BAD_LENGTH, sizeof tried.memory - 1,
                    sizeof tried.buffer);
    refuses_board("a latency of 64, with latency clocks", &tried.board.slave[0].latency, 64, FABRIC_BAD_VALUE);
    tried.board.slave[0].latency = 2;
    refuses_clock("a latency that falls below the count", FABRIC_BAD_STATE);
    tried.board.slave[0].latency = 63;
    check_number("a reset with latency clocks", reset(&tried), FABRIC_TAKEN);
    check("it leaves none", memcmp(&tried.state, &fresh.state, sizeof tried.state) == 0);
}

/* A master without shares comes before lengths (8), the state (9) and what is posted (11 to 18): rule 8.4. */
static void unshared_first(void)
{
    tried = fresh;
    check_number("a transfer to be held", post(&tried, 0, 0, 4096, 15, 1, 0), FABRIC_TAKEN);
    tried.board.shares[1][0] = 0;
    refuses_lengths("no shares before the memory's length", FABRIC_NO_SHARE, 0, sizeof tried.buffer);
    refuses_lengths("no shares before the buffer's length", FABRIC_NO_SHARE, sizeof tried.memory, sizeof tried.buffer - 1);
    refuses_lengths("no shares before both lengths", FABRIC_NO_SHARE, 0, 0);
    other = tried;
    check_number("a post with no shares and no buffer", post_lent(&tried, 0, 1, 0, 4096, 3, 1, 0), FABRIC_NO_SHARE);
    check("it changes nothing", same_lent(&tried, &other));
    refuses_post("no shares before no such master", FABRIC_NO_SHARE, 2, 0, 4096, 15, 1, 0);
    refuses_post("no shares before a transfer held", FABRIC_NO_SHARE, 0, 0, 4096, 15, 1, 0);
    refuses_post("no shares before no beats", FABRIC_NO_SHARE, 1, 0, 4096, 3, 0, 0);
    refuses_post("no shares before an address of 4097", FABRIC_NO_SHARE, 1, 0, 4097, 3, 1, 0);
    refuses_post("no shares before lanes of 0", FABRIC_NO_SHARE, 1, 0, 4096, 0, 1, 0);
    refuses_post("no shares before an address of no slave", FABRIC_NO_SHARE, 1, 0, 8192, 3, 1, 0);
    refuses_post("no shares before words of a read", FABRIC_NO_SHARE, 1, 0, 4096, 3, 1, 2);
    tried.state.slot[0].owner = 2;
    refuses_post("no shares before the state, by a post", FABRIC_NO_SHARE, 1, 0, 4096, 3, 1, 0);
    refuses_clock("no shares before the state", FABRIC_NO_SHARE);
    tried.board.shares[1][0] = 3;
    refuses_clock("the state, with shares", FABRIC_BAD_STATE);
}

/* Shares that a served master loses and gets back: what is refused between moves nothing, and its read goes on. */
static void unshared_between(void)
{
    tried = fresh;
    check_number("a write of master 1", post(&tried, 1, 1, 4098, 3, 1, 2), FABRIC_TAKEN);
    check_number("a read of master 0", post(&tried, 0, 0, 4096, 15, 1, 0), FABRIC_TAKEN);
    check_number("the read's first clock", clock_once(&tried), FABRIC_TAKEN);
    refuses_board("a waiting master without shares", &tried.board.shares[1][0], 0, FABRIC_NO_SHARE);
    tried.board.shares[0][1] = 0;
    refuses_board("a served master without shares", &tried.board.shares[0][0], 0, FABRIC_NO_SHARE);
    check_number("the read's other clocks", run(&tried, 1000), FABRIC_TAKEN);
    check("the read is finished in its fourth clock", tried.clocks == 3 && tried.mask == 1);
    check("it has brought its bytes", memcmp(tried.buffer, fresh.memory, 4) == 0);
    check_number("the write's clock", run(&tried, 1000), FABRIC_TAKEN);
    check("the write is finished", tried.clocks == 1 && tried.mask == 2 && memcmp(tried.memory + 2, words, 2) == 0);
}

/* A clock in which slave 0 carries out an access of master 0. */
static void accesses(const char *name, uint32_t offset, uint32_t lanes, uint32_t length, uint32_t place)
{
    const struct fabric_line *l = &tried.lines.line[0];

    check_number(name, clock_once(&tried), FABRIC_TAKEN);
    check(name, l->phase == FABRIC_ACCESS && l->owner == 0 && l->offset == offset && l->lanes == lanes);
    check(name, l->run == length && l->place == place);
}

/* Slave 0, half as wide as master 0, is native: word k, at 4 * k for the master, is written at 2 * k, the lower half of it. */
static void native_writes(void)
{
    tried = fresh;
    tried.board.slave[0].native = 1;
    other = tried;
    check_number("a write above a native slave's width", post(&tried, 0, 1, 4100, 12, 1, 4), FABRIC_TAKEN);
    accesses("it is an access with no lane", 2, 0, 1, 0);
    check("it finishes", tried.mask == 1);
    check("it changes no byte", memcmp(tried.memory, other.memory, sizeof tried.memory) == 0);
    check_number("a burst to a native slave", post(&tried, 0, 1, 4104, 15, 2, 8), FABRIC_TAKEN);
    accesses("its first word", 4, 3, 2, 0);
    accesses("its second word", 6, 3, 2, 1);
    check("the burst finishes", tried.mask == 1);
    memcpy(other.memory + 4, words, 2);
    memcpy(other.memory + 6, words + 4, 2);
    check("the lower halves are written", memcmp(tried.memory, other.memory, sizeof tried.memory) == 0);
}

/* The same slave's last words for master 0, which lie at half its span: the upper half of each reads as 0. */
static void native_reads(void)
{
    tried = fresh;
    tried.board.slave[0].native = 1;
    memset(tried.buffer, 0xa5, sizeof tried.buffer);
    refuses_post("a burst past a native slave's end", FABRIC_PAST_END, 0, 0, 8164, 15, 8, 0);
    check_number("the last words of a native slave", post(&tried, 0, 0, 8160, 15, 8, 0), FABRIC_TAKEN);
    check_number("the first clock", clock_once(&tried), FABRIC_TAKEN);
    refuses_state("as many accesses done as a native slave's beats", &tried.state.slot[0].done, 8);
    other = tried;
    for (uint32_t k = 0; k < 8; k++) {
        memset(other.buffer + 4 * k, 0, 4);
        memcpy(other.buffer + 4 * k, other.memory + 2032 + 2 * k, 2);
    }
    check_number("the clocks of 8 words", run(&tried, 1000), FABRIC_TAKEN);
    check("a beat is one access", tried.clocks == 15 && tried.mask == 1);
    check("upper halves are 0", memcmp(tried.buffer, other.buffer, sizeof tried.buffer) == 0);
    check("a read changes no byte", memcmp(tried.memory, fresh.memory, sizeof tried.memory) == 0);
}

/* A clock in which slave 0 is idle, with the mask that is due and the latency clocks that master 0 has to pass behind it. */
static void idles(const char *name, uint32_t mask, uint32_t late)
{
    check_number(name, clock_once(&tried), FABRIC_TAKEN);
    check_number(name, tried.lines.line[0].phase, FABRIC_IDLE);
    check_number(name, tried.mask, mask);
    check_number(name, tried.state.late[0], late);
}

/*
 * Slave 0 has a latency of 3. The last access of a read brings its bytes and frees the slave: master 1, which has stood since,
 * writes there in the next clock. The read is finished 3 clocks after that access, and held until then (rule 4.16).
 */
static void late_reads(void)
{
    tried = fresh;
    tried.board.slave[0].latency = 3;
    check_number("a read of two accesses, with latency", post(&tried, 0, 0, 4096, 15, 1, 0), FABRIC_TAKEN);
    check_number("a write to what is read", post(&tried, 1, 1, 4098, 3, 1, 2), FABRIC_TAKEN);
    check_number("the clocks before the last access", run(&tried, 3), FABRIC_TAKEN);
    check_number("no latency clock before it", tried.state.late[0], 0);
    accesses("the last access", 2, 3, 2, 1);
    check("it finishes no master", tried.mask == 0 && tried.state.late[0] == 3);
    check("it brings the bytes", memcmp(tried.buffer, fresh.memory, 4) == 0);
    check("it frees the slave", tried.state.slot[0].serving == 0 && tried.state.slot[0].done == 0);
    refuses_post("a post before the finish", FABRIC_HELD, 0, 0, 4096, 15, 1, 0);
    check_number("the clock behind it", clock_once(&tried), FABRIC_TAKEN);
    check("master 1 is served", tried.lines.line[0].phase == FABRIC_ACCESS && tried.lines.line[0].owner == 1);
    check("and finished", tried.mask == 2 && tried.state.late[0] == 2);
    idles("the second latency clock", 0, 1);
    idles("the third latency clock", 1, 0);
    check("no transfer is held", all_zero(tried.state.transfer, sizeof tried.state.transfer));
    check("the bytes of the read stay", memcmp(tried.buffer, fresh.memory, 4) == 0);
    check("the bytes of the write are there", memcmp(tried.memory + 2, words, 2) == 0);
    check_number("a write with latency", post(&tried, 0, 1, 4096, 15, 1, 4), FABRIC_TAKEN);
    check_number("its clocks", run(&tried, 1000), FABRIC_TAKEN);
    check("it is finished with its last access", tried.clocks == 2 && tried.mask == 1 && tried.state.late[0] == 0);
    check_number("a second read", post(&tried, 0, 0, 4096, 15, 1, 0), FABRIC_TAKEN);
    check_number("its clocks, in one run", run(&tried, 1000), FABRIC_TAKEN);
    check("they are 4 and 3", tried.clocks == 7 && tried.mask == 1 && tried.lines.line[0].phase == FABRIC_IDLE);
}

/* Every count that is legal, set by hand for a read that nobody serves: so many clocks, and the last finishes the master. */
static void late_counts(uint32_t latency)
{
    for (uint32_t count = 1; count <= latency; count++) {
        struct lent at_once;

        tried = fresh;
        tried.board.slave[0].latency = latency;
        check_number("a read, to be set late", post(&tried, 0, 0, 4096, 15, 1, 0), FABRIC_TAKEN);
        tried.state.late[0] = count;
        tried.state.transfer[0].held = UINT32_MAX;
        refuses_post("a post with latency clocks to pass", FABRIC_HELD, 0, 1, 4096, 15, 1, 4);
        at_once = tried;
        check_number("a run of the latency clocks", run(&at_once, 1000), FABRIC_TAKEN);
        check("it ends with the last of them", at_once.clocks == count && at_once.mask == 1);
        for (uint32_t left = count - 1; left > 0; left--)
            idles("a latency clock", 0, left);
        idles("the last latency clock", 1, 0);
        check("both leave the same", same_lent(&tried, &at_once) && same_answer(&tried, &at_once));
        check("it is as after a reset", memcmp(&tried.state, &fresh.state, sizeof tried.state) == 0);
        check("no byte is read", all_zero(tried.buffer, sizeof tried.buffer));
        check_number("a post behind the finish", post(&tried, 0, 0, 4096, 15, 1, 0), FABRIC_TAKEN);
        check_number("it has no latency clock", tried.state.late[0], 0);
    }
}

/*
 * A read of master 0, which has 2 shares, leaves it a grant. Without latency its next transfer is served before that of master 1;
 * with latency it does not request in the next clock, and the grant is lost (rules 4.3 and 4.16).
 */
static void late_grants(uint32_t latency)
{
    const struct fabric_slot *x = &tried.state.slot[0];
    uint32_t first = latency == 0 ? 0 : 1;

    tried = fresh;
    tried.board.slave[0].latency = latency;
    check_number("a read that leaves a grant", post(&tried, 0, 0, 4096, 15, 1, 0), FABRIC_TAKEN);
    check_number("its four clocks", run(&tried, 4), FABRIC_TAKEN);
    check("a grant remains", x->owner == 0 && x->remaining == 1 && x->serving == 0 && tried.state.late[0] == latency);
    check_number("the clocks of the latency", run(&tried, latency), FABRIC_TAKEN);
    check("they are as many as the latency", latency == 0 || (tried.clocks == latency && tried.mask == 1));
    check("with them the grant is lost", x->owner == 0 && x->remaining == (latency == 0 ? 1u : 0u));
    check_number("a post of each, master 0", post(&tried, 0, 0, 4096, 15, 1, 0), FABRIC_TAKEN);
    check_number("a post of each, master 1", post(&tried, 1, 0, 4096, 3, 1, 0), FABRIC_TAKEN);
    check_number("the clock behind", clock_once(&tried), FABRIC_TAKEN);
    check_number("who is served first", tried.lines.line[0].owner, first);
    check("one is waiting for its access", tried.lines.line[0].phase == FABRIC_WAITING && x->waited == 1);
}

/*
 * Two reads at slave 0 with a latency of 5, their latencies side by side: the last access of master 0 is in clock 4, that of
 * master 1 in clock 6. Master 0 then writes in the clock in which master 1 is finished.
 */
static void late_together(void)
{
    tried = fresh;
    tried.board.slave[0].latency = 5;
    check_number("the first of two reads", post(&tried, 0, 0, 4096, 15, 1, 0), FABRIC_TAKEN);
    check_number("the second of two reads", post(&tried, 1, 0, 4098, 3, 1, 0), FABRIC_TAKEN);
    for (uint32_t clock = 1; clock <= 10; clock++) {
        check_number("a clock of two reads", clock_once(&tried), FABRIC_TAKEN);
        check_number("the first is finished in clock 9", tried.mask, clock == 9 ? 1 : 0);
        check_number("the clocks that the first has left", tried.state.late[0], clock < 4 || clock > 9 ? 0 : 9 - clock);
        check_number("the clocks that the second has left", tried.state.late[1], clock < 6 ? 0 : 11 - clock);
        check("the slave is free behind clock 6", clock <= 6 || tried.lines.line[0].phase == FABRIC_IDLE);
    }
    check_number("a write of one access", post(&tried, 0, 1, 4096, 12, 1, 4), FABRIC_TAKEN);
    check_number("a clock that finishes both", clock_once(&tried), FABRIC_TAKEN);
    check_number("a write and a read are finished", tried.mask, 3);
    check("the write is carried out in it", tried.lines.line[0].phase == FABRIC_ACCESS && tried.lines.line[0].owner == 0);
    check("the second read has its bytes", memcmp(tried.buffer + FABRIC_PART_BYTES, fresh.memory + 2, 2) == 0);
    check("no count is left", all_zero(tried.state.late, sizeof tried.state.late));
}

/* The marks that are yes, whatever their number (rules 1.10 and 2.4). */
static const uint32_t yes[] = {1, 2, 256, UINT32_C(0x80000000), UINT32_MAX};
#define YES_COUNT (sizeof yes / sizeof yes[0])

/* An address between the slaves; slave 0 ends in front of it. */
#define HOLE 8192

/* Without the mark an unmapped post is refused with 16; with it, whichever number it is, the post is taken and answered. */
static void default_marks(void)
{
    tried = fresh;
    refuses_post("an address of no slave without the mark", FABRIC_NOT_CONNECTED, 0, 0, HOLE, 15, 1, 0);
    for (size_t i = 0; i < YES_COUNT; i++) {
        tried = fresh;
        tried.board.default_line = yes[i];
        memset(&tried.state, 0xa5, sizeof tried.state);
        check_number("reset with the mark", reset(&tried), FABRIC_TAKEN);
        check("the state is as without it", memcmp(&tried.state, &fresh.state, sizeof tried.state) == 0);
        check_number("a post to no slave with the mark", post(&tried, 0, 0, HOLE, 15, 1, 0), FABRIC_TAKEN);
        check_number("a post to a slave that is not connected", post(&tried, 1, yes[i], 0, 3, 1, 2), FABRIC_TAKEN);
        check_number("the clock that answers them", clock_once(&tried), FABRIC_TAKEN);
        check("both are finished", tried.mask == 3 && tried.state.log.count == 2);
        check("the log has a read and a write", tried.state.log.entry[0].write == 0 && tried.state.log.entry[1].write != 0);
        check_number("a take with the mark", take(&tried), FABRIC_TAKEN);
    }
}

/* The mark is judged by no refusal of a board, and moves none. */
static void default_boards(void)
{
    tried = fresh;
    tried.board.default_line = UINT32_MAX;
    refuses_board("no slave, with the line default", &tried.board.slave_count, 0, FABRIC_BAD_ORDER);
    refuses_board("no master, with the line default", &tried.board.master_count, 0, FABRIC_BAD_ORDER);
    refuses_board("a read wait of 256, with the line default", &tried.board.slave[0].read_wait, 256, FABRIC_BAD_VALUE);
    refuses_board("a base of 32, with the line default", &tried.board.slave[1].base, 32, FABRIC_BAD_BASE);
    refuses_board("a base in another slave, with the line default", &tried.board.slave[1].base, 4160, FABRIC_OVERLAP);
    refuses_board("shares of no slave, with the line default", &tried.board.shares[0][2], 1, FABRIC_BAD_SHARE);
    refuses_board("no shares of master 1, with the line default", &tried.board.shares[1][0], 0, FABRIC_NO_SHARE);
    tried.board.slave[1].native = 1;
    refuses_board("a narrower master, with the line default", &tried.board.shares[1][1], 1, FABRIC_TOO_NARROW);
}

/* An unmapped post is judged for 11 to 15 and 18, in that order, and for no 16 and 17; a mapped one as ever (rule 3.7). */
static void unmapped_posts(void)
{
    tried = fresh;
    tried.board.default_line = 1;
    refuses_post("master 2, unmapped", FABRIC_NO_MASTER, 2, 0, HOLE, 15, 1, 0);
    refuses_post("no beats, unmapped", FABRIC_BAD_BEATS, 0, 0, HOLE, 15, 0, 0);
    refuses_post("9 beats, unmapped", FABRIC_BAD_BEATS, 0, 0, HOLE, 15, 9, 0);
    refuses_post("257 beats, unmapped", FABRIC_BAD_BEATS, 0, 0, HOLE, 15, 257, 0);
    refuses_post("no beats before the address, unmapped", FABRIC_BAD_BEATS, 0, 1, HOLE + 2, 0, 0, 1);
    refuses_post("an address of no whole word, unmapped", FABRIC_BAD_ADDRESS, 0, 0, HOLE + 2, 15, 1, 0);
    refuses_post("the highest address", FABRIC_BAD_ADDRESS, 0, 0, UINT32_MAX, 15, 1, 0);
    refuses_post("the address before lanes, unmapped", FABRIC_BAD_ADDRESS, 0, 1, HOLE + 2, 0, 1, 1);
    refuses_post("lanes of 0, unmapped", FABRIC_BAD_LANES, 0, 0, HOLE, 0, 1, 0);
    refuses_post("lanes of 6, unmapped", FABRIC_BAD_LANES, 0, 0, HOLE, 6, 1, 0);
    refuses_post("lanes of 256, unmapped", FABRIC_BAD_LANES, 0, 0, HOLE, 256, 1, 0);
    refuses_post("lanes of 271, unmapped", FABRIC_BAD_LANES, 0, 0, HOLE, 271, 1, 0);
    refuses_post("a burst with lanes of 3, unmapped", FABRIC_BAD_LANES, 0, 0, HOLE, 3, 2, 0);
    refuses_post("lanes before words, unmapped", FABRIC_BAD_LANES, 0, 1, HOLE, 6, 1, 1);
    refuses_post("a write without words, unmapped", FABRIC_BAD_WORDS, 0, 1, HOLE, 15, 1, 0);
    refuses_post("a write with a byte less, unmapped", FABRIC_BAD_WORDS, 0, 1, HOLE, 15, 2, 7);
    refuses_post("a write with a byte more, unmapped", FABRIC_BAD_WORDS, 0, 1, HOLE, 15, 1, 5);
    refuses_post("a read with words, unmapped", FABRIC_BAD_WORDS, 0, 0, HOLE, 15, 1, 4);
    refuses_post("words of a burst that reaches a slave", FABRIC_BAD_WORDS, 0, 1, 4092, 15, 8, 31);
    refuses_post("a burst past a slave's end, with the mark", FABRIC_PAST_END, 0, 0, 8188, 15, 2, 0);
    refuses_post("the end before words, with the mark", FABRIC_PAST_END, 0, 1, 8188, 15, 2, 0);
    check_number("a post with no buffer, unmapped", post_lent(&tried, 0, 0, 1, HOLE, 15, 1, 4), FABRIC_BAD_LENGTH);
    check_number("an unmapped read", post(&tried, 0, 0, HOLE, 15, 8, 0), FABRIC_TAKEN);
    refuses_post("a second transfer, unmapped", FABRIC_HELD, 0, 0, HOLE, 15, 1, 0);
    refuses_post("a second transfer", FABRIC_HELD, 0, 0, 4096, 15, 1, 0);
}

/* An entry that no transfer here makes, with numbers that fewer bits do not hold; i tells it from others. */
static struct fabric_entry odd_entry(uint32_t i)
{
    struct fabric_entry e = {UINT32_C(0x1000100) * (i + 1), UINT32_MAX - i, i % 3 == 0 ? 0 : yes[i % YES_COUNT]};

    return e;
}

/* Puts so many entries into the log of `tried`; the places behind them have numbers too, which do not count. */
static void fill_log(uint32_t count, uint32_t lost)
{
    tried.state.log.count = count;
    tried.state.log.lost = lost;
    for (uint32_t i = 0; i < FABRIC_LOG_ENTRIES; i++)
        tried.state.log.entry[i] = odd_entry(i);
}

/* Enters a transfer into the log of `expected` (rule 4.18). */
static void enter_expected(uint32_t m, uint32_t address, uint32_t write)
{
    struct fabric_log *log = &expected.state.log;
    struct fabric_entry e = {m, address, one_if(write)};

    if (log->count == FABRIC_LOG_ENTRIES)
        log->lost = 1;
    else
        log->entry[log->count++] = e;
}

/*
 * Master m posts an unmapped transfer: it is held, and a write's words are in the buffer. The clock behind finishes it: of a read
 * the bytes of its words become 0, the log has it, no slave shows it, and nothing else is changed (rules 4.17 and 4.18).
 */
static void answers(const char *name, uint32_t m, uint32_t write, uint32_t address, uint32_t lanes, uint32_t beats)
{
    uint32_t length = beats * tried.board.master[m].width;
    struct fabric_transfer t = {1, one_if(write), address, lanes, beats};
    struct fabric_transfer none = {0, 0, 0, 0, 0};

    expected = tried;
    expected.state.transfer[m] = t;
    if (write != 0)
        memcpy(expected.buffer + FABRIC_PART_BYTES * m, words, length);
    check_number(name, post(&tried, m, write, address, lanes, beats, write != 0 ? length : 0), FABRIC_TAKEN);
    check(name, same_marked(&tried, &expected));
    expected.state.transfer[m] = none;
    enter_expected(m, address, write);
    if (write == 0)
        memset(expected.buffer + FABRIC_PART_BYTES * m, 0, length);
    spoil_answer(&tried);
    check_number(name, clock_once(&tried), FABRIC_TAKEN);
    check(name, same_marked(&tried, &expected));
    check_number(name, tried.mask, 1u << m);
    check(name, all_zero(&tried.lines, sizeof tried.lines));
}

/* The fresh board with the mark, a buffer without a 0, and entries in the log. */
static void set_unmapped(uint32_t entries)
{
    tried = fresh;
    tried.board.default_line = yes[entries % YES_COUNT];
    memset(tried.buffer, 0xa5, sizeof tried.buffer);
    fill_log(entries, entries % 2);
}

/* Addresses in front of the slaves and behind them, and in a slave that is not connected, with the log at every count. */
static void unmapped_transfers(void)
{
    static const uint32_t addresses[] = {64, 2048, HOLE, 65536, UINT32_C(0x80000000), UINT32_C(0x80001000), UINT32_C(0xfffffff8)};

    for (uint32_t entries = 0; entries <= FABRIC_LOG_ENTRIES; entries++) {
        for (size_t i = 0; i < sizeof addresses / sizeof addresses[0]; i++) {
            set_unmapped(entries);
            answers("an unmapped read of a word", 0, 0, addresses[i], 15, 1);
            answers("an unmapped write of a word", 0, 1, addresses[i], 15, 1);
            answers("an unmapped read of 8 words", 0, 0, addresses[i], 15, 8);
            answers("an unmapped write of 8 words", 0, yes[i % YES_COUNT], addresses[i], 15, 8);
            answers("an unmapped read of master 1", 1, 0, addresses[i], 3, 1);
            answers("an unmapped write of master 1", 1, 1, addresses[i], 3, 1);
        }
        set_unmapped(entries);
        answers("a read of a slave that is not connected", 1, 0, 0, 3, 1);
        answers("a write to a slave that is not connected", 1, 1, 62, 3, 1);
    }
}

/* Bursts that begin at no slave and reach into one, slave 1 from the top of all addresses on: how far is not asked (rule 3.7). */
static void unmapped_reaching(void)
{
    for (uint32_t beats = 1; beats <= 8; beats++) {
        for (uint32_t word = 1; word <= 8; word++) {
            set_unmapped(beats);
            answers("a read that reaches into slave 0", 0, 0, 4096 - 4 * word, 15, beats);
            answers("a write that reaches into slave 0", 0, 1, 4096 - 4 * word, 15, beats);
            answers("a read that passes the highest address", 0, 0, 0u - 4 * word, 15, beats);
            answers("a write that passes the highest address", 0, 1, 0u - 4 * word, 15, beats);
        }
    }
}

/* A read brings all lanes, whichever it names (rule 3.5): all bytes of its word become 0. */
static void unmapped_lanes(void)
{
    static const uint32_t lanes[] = {1, 2, 4, 8, 3, 12, 15};

    for (size_t i = 0; i < sizeof lanes / sizeof lanes[0]; i++) {
        set_unmapped((uint32_t)i);
        answers("an unmapped read with some of the lanes", 0, 0, HOLE, lanes[i], 1);
        answers("an unmapped write with some of the lanes", 0, 1, HOLE, lanes[i], 1);
    }
}

/* An unmapped transfer that is held (rule 7.9): 13 to 15 are judged, it has no latency clocks, and the board has the mark. */
static void unmapped_state(uint32_t write)
{
    static const uint32_t counts[] = {1, 2, 63, 64, 256, UINT32_MAX};
    struct fabric_transfer *t = &tried.state.transfer[0];

    tried = fresh;
    tried.board.default_line = 1;
    tried.board.slave[0].latency = tried.board.slave[1].latency = 63;
    check_number("an unmapped transfer to be held", post(&tried, 0, write, HOLE, 15, 1, write != 0 ? 4 : 0), FABRIC_TAKEN);
    fill_log(3, 0);
    for (size_t i = 0; i < sizeof counts / sizeof counts[0]; i++)
        refuses_state("latency clocks of an unmapped transfer", &tried.state.late[0], counts[i]);
    refuses_state("an unmapped transfer of 0 beats", &t->beats, 0);
    refuses_state("an unmapped transfer of 9 beats", &t->beats, 9);
    refuses_state("an unmapped transfer of no whole word", &t->address, HOLE + 2);
    refuses_state("an unmapped transfer with lanes of 6", &t->lanes, 6);
    refuses_state("an unmapped transfer with lanes of 256", &t->lanes, 256);
    tried.state.slot[0].owner = 0;
    refuses_state("a slave that serves an unmapped transfer", &tried.state.slot[0].serving, 1);
    refuses_state("an unmapped transfer without the mark", &tried.board.default_line, 0);
    tried.state.transfer[2] = *t;
    tried.state.transfer[2].held = 0;
    refuses_state("an unmapped transfer of no master", &tried.state.transfer[2].held, 1);
    for (size_t i = 0; i < YES_COUNT; i++) {
        expected = tried;
        tried.board.default_line = t->held = yes[i];
        t->write = write != 0 ? yes[i] : 0;
        check_number("an unmapped transfer with the mark", clock_once(&tried), FABRIC_TAKEN);
        check("it is finished, and in the log", tried.mask == 1 && tried.state.log.count == 4);
        check("with its direction", one_if(tried.state.log.entry[3].write) == one_if(write));
        tried = expected;
    }
}

static void unmapped_states(void)
{
    unmapped_state(0);
    unmapped_state(1);
}

/* A clock in which master 0 is answered and slave 0 carries out a write of master 1: neither is part of the other. */
static void unmapped_beside(void)
{
    set_unmapped(0);
    check_number("a write beside it", post(&tried, 1, 1, 4098, 3, 1, 2), FABRIC_TAKEN);
    check_number("an unmapped read beside a write", post(&tried, 0, 0, 4092, 15, 3, 0), FABRIC_TAKEN);
    expected = tried;
    memcpy(expected.memory + 2, words, 2);
    memset(expected.buffer, 0, 12);
    memset(expected.state.transfer, 0, sizeof expected.state.transfer);
    expected.state.slot[0].remaining = 2;
    enter_expected(0, 4092, 0);
    check_number("the clock of both", clock_once(&tried), FABRIC_TAKEN);
    check("both are done in it", same_marked(&tried, &expected));
    check_number("both are finished", tried.mask, 3);
    check_number("with a response of 3 for one", tried.responses[0], FABRIC_DECODE_ERROR);
    check_number("and of 0 for the other", tried.responses[1], FABRIC_OKAY);
    check("the slave shows the write", tried.lines.line[0].phase == FABRIC_ACCESS && tried.lines.line[0].owner == 1);
}

/* A master that is answered requests no slave: a grant that remains to it is lost, as where it holds nothing (rule 4.3). */
static void unmapped_grants(void)
{
    set_unmapped(0);
    check_number("a write that leaves a grant", post(&tried, 0, 1, 4096, 3, 1, 4), FABRIC_TAKEN);
    check_number("its clock", clock_once(&tried), FABRIC_TAKEN);
    check("a grant remains", tried.mask == 1 && tried.state.slot[0].owner == 0 && tried.state.slot[0].remaining == 1);
    check_number("an unmapped write behind it", post(&tried, 0, 1, HOLE, 15, 1, 4), FABRIC_TAKEN);
    check_number("the clock that answers it", clock_once(&tried), FABRIC_TAKEN);
    check("with it the grant is lost", tried.state.slot[0].owner == 0 && tried.state.slot[0].remaining == 0);
}

/* Latency clocks of master 1 pass beside unmapped transfers of master 0; with the last of them both are finished. */
static void unmapped_late(void)
{
    set_unmapped(0);
    tried.board.slave[0].latency = 3;
    check_number("a read with latency", post(&tried, 1, 0, 4098, 3, 1, 0), FABRIC_TAKEN);
    check_number("its two clocks", run(&tried, 2), FABRIC_TAKEN);
    check_number("its latency clocks", tried.state.late[1], 3);
    for (uint32_t left = 3; left > 0; left--) {
        check_number("an unmapped transfer meanwhile", post(&tried, 0, left % 2, HOLE, 15, 1, left % 2 == 0 ? 0 : 4), FABRIC_TAKEN);
        check_number("its clock", clock_once(&tried), FABRIC_TAKEN);
        check_number("a latency clock has passed", tried.state.late[1], left - 1);
        check_number("who is finished", tried.mask, left == 1 ? 3 : 1);
    }
    check("the read has its bytes", memcmp(tried.buffer + FABRIC_PART_BYTES, fresh.memory + 2, 2) == 0);
    check_number("three entries", tried.state.log.count, 3);
}

/* A run of clocks stops where an unmapped transfer is finished, however long another one takes; no clock answers nothing. */
static void unmapped_runs(void)
{
    static const uint32_t most[] = {1, 2, 1000, UINT32_MAX};

    for (size_t i = 0; i < sizeof most / sizeof most[0]; i++) {
        set_unmapped(8);
        check_number("a long read", post(&tried, 0, 0, 4096, 15, 8, 0), FABRIC_TAKEN);
        check_number("its first clocks", run(&tried, 5), FABRIC_TAKEN);
        check_number("an unmapped read beside it", post(&tried, 1, 0, HOLE, 3, 1, 0), FABRIC_TAKEN);
        spoil_answer(&tried);
        check_number("a run of no clock", run(&tried, 0), FABRIC_TAKEN);
        check_number("a run that ends with the response", run(&tried, most[i]), FABRIC_TAKEN);
        check("it is one clock", tried.clocks == 1 && tried.mask == 2 && tried.responses[1] == FABRIC_DECODE_ERROR);
        check("the transfer is dropped, and the log marked lost", tried.state.log.count == 8 && tried.state.log.lost != 0);
        check_number("the run behind it", run(&tried, 1000), FABRIC_TAKEN);
        check("it is the rest of the read", tried.clocks == 26 && tried.mask == 1);
    }
}

/* Counts of the log (rule 7.9): nine and more are refused, by every call that is lent a state but a reset. */
static void log_counts(void)
{
    static const uint32_t over[] = {9, 10, 255, 256, 264, 65536, UINT32_C(0x80000000), UINT32_MAX};

    for (uint32_t mark = 0; mark < 2; mark++) {
        for (size_t i = 0; i < sizeof over / sizeof over[0]; i++) {
            tried = fresh;
            tried.board.default_line = mark;
            refuses_state("a log of more than eight entries", &tried.state.log.count, over[i]);
            fill_log(over[i], 1);
            refuses_lengths("the memory's length before the log", FABRIC_BAD_LENGTH, 0, sizeof tried.buffer);
            refuses_post("the log before no such master", FABRIC_BAD_STATE, 2, 0, 4096, 15, 1, 0);
            check_number("a reset with such a log", reset(&tried), FABRIC_TAKEN);
            check("it leaves none", memcmp(&tried.state, &fresh.state, sizeof tried.state) == 0);
        }
        for (uint32_t count = 0; count <= FABRIC_LOG_ENTRIES; count++) {
            tried = fresh;
            tried.board.default_line = mark;
            fill_log(count, yes[count % YES_COUNT]);
            expected = tried;
            check_number("a run of no clock with a log", run(&tried, 0), FABRIC_TAKEN);
            check_number("a clock with a log", clock_once(&tried), FABRIC_TAKEN);
            check("it leaves the log", same_marked(&tried, &expected));
            check_number("a post with a log", post(&tried, 0, 0, 4096, 15, 1, 0), FABRIC_TAKEN);
            expected.state.transfer[0] = tried.state.transfer[0];
            check("it leaves the log too", same_marked(&tried, &expected));
            check_number("a take, by the count", take(&tried), count == 0 ? FABRIC_EMPTY_LOG : FABRIC_TAKEN);
        }
    }
}

/* A board of 8 masters, all at slave 0, with the mark. */
static void set_eight(void)
{
    tried = fresh;
    tried.board.default_line = 1;
    tried.board.master_count = FABRIC_MASTERS;
    for (uint32_t m = 2; m < FABRIC_MASTERS; m++) {
        tried.board.master[m] = tried.board.master[0];
        tried.board.shares[m][0] = m;
    }
    check_number("reset of 8 masters", reset(&tried), FABRIC_TAKEN);
    memset(tried.buffer, 0xa5, sizeof tried.buffer);
}

/* The masters of a set hold an unmapped transfer each, read or write by turns; `expected` is what a clock leaves of it all. */
static void hold_unmapped(uint32_t set)
{
    expected = tried;
    for (uint32_t m = 0; m < FABRIC_MASTERS; m++) {
        uint32_t width = tried.board.master[m].width;
        struct fabric_transfer t = {1, (m + set) % 2, HOLE + 64 * m, (1u << width) - 1, 1};

        if ((set >> m & 1) == 0)
            continue;
        tried.state.transfer[m] = t;
        enter_expected(m, t.address, t.write);
        if (t.write == 0)
            memset(expected.buffer + FABRIC_PART_BYTES * m, 0, width);
    }
}

/*
 * Every set of masters that are answered in one clock, with the log at every count: entered by master number behind the entries
 * that stand, and dropped from the ninth on. The places behind stay, number for number (rules 2.4 and 4.18).
 */
static void log_entries(void)
{
    static struct lent eight;

    set_eight();
    eight = tried;
    for (uint32_t i = 0; i < 256 * (FABRIC_LOG_ENTRIES + 1); i++) {
        uint32_t set = i % 256, count = i / 256, behind;

        tried = eight;
        fill_log(count, set % 3 == 0 ? yes[set % YES_COUNT] : 0);
        hold_unmapped(set);
        check_number("a clock of several unmapped transfers", clock_once(&tried), FABRIC_TAKEN);
        check_number("all are finished", tried.mask, set);
        check_number("the count of the log", tried.state.log.count, expected.state.log.count);
        check("the lost mark", (tried.state.log.lost != 0) == (expected.state.log.lost != 0));
        check("the log and all else", same_marked(&tried, &expected));
        behind = expected.state.log.count;
        check("the places behind the count are left",
              memcmp(&tried.state.log.entry[behind], &expected.state.log.entry[behind],
                     (FABRIC_LOG_ENTRIES - behind) * sizeof tried.entry)
                  == 0);
    }
}

/* A lost mark stays through clocks and takes, and goes with a reset; a take makes space for one transfer. */
static void log_restarts(void)
{
    set_eight();
    hold_unmapped(255);
    check_number("a clock that fills the log", clock_once(&tried), FABRIC_TAKEN);
    check("it is full, and nothing is lost", tried.state.log.count == 8 && tried.state.log.lost == 0);
    hold_unmapped(1);
    check_number("a clock with a full log", clock_once(&tried), FABRIC_TAKEN);
    check("it is marked lost", same_marked(&tried, &expected) && tried.state.log.lost != 0);
    for (uint32_t i = 0; i < FABRIC_LOG_ENTRIES; i++) {
        check_number("a take from it", take(&tried), FABRIC_TAKEN);
        check("by master number", tried.entry.master == i && tried.entry.address == HOLE + 64 * i);
        check_number("the direction", tried.entry.write, (i + 255) % 2);
        check("the lost mark stays", tried.state.log.lost != 0);
        hold_unmapped(4);
        check_number("a clock with space for one", clock_once(&tried), FABRIC_TAKEN);
        check("it is entered", same_marked(&tried, &expected) && tried.state.log.count == 8);
    }
    for (uint32_t i = 0; i < FABRIC_LOG_ENTRIES; i++)
        check_number("a take without a clock behind it", take(&tried), FABRIC_TAKEN);
    refuses_take("a take from a log that is empty again", FABRIC_EMPTY_LOG);
    check("the lost mark stays with an empty log", tried.state.log.lost != 0);
    check_number("a reset", reset(&tried), FABRIC_TAKEN);
    check("it takes the lost mark off", all_zero(&tried.state.log, sizeof tried.state.log));
}

/* What a take leaves, in `expected` (rule 4.19): every place moves down, also those behind the count, and all else stays. */
static void take_expected(void)
{
    struct fabric_log *log = &expected.state.log;
    struct fabric_entry none = {0, 0, 0};

    expected = tried;
    expected.entry = log->entry[0];
    expected.entry.write = one_if(expected.entry.write);
    for (uint32_t i = 0; i + 1 < FABRIC_LOG_ENTRIES; i++)
        log->entry[i] = log->entry[i + 1];
    log->entry[FABRIC_LOG_ENTRIES - 1] = none;
    log->count--;
}

/*
 * A state in which much is going on, with marks of any number: slave 0 serves master 0, master 1 holds an unmapped transfer, or
 * without the mark of the board a read for slave 0.
 */
static void set_busy(uint32_t default_line, uint32_t number)
{
    set_unmapped(0);
    tried.board.default_line = default_line;
    check_number("a read to be served", post(&tried, 0, 0, 4096, 15, 1, 0), FABRIC_TAKEN);
    check_number("its first clock", clock_once(&tried), FABRIC_TAKEN);
    check_number("a transfer beside it", post(&tried, 1, 1, default_line != 0 ? HOLE : 4096, 3, 1, 2), FABRIC_TAKEN);
    tried.state.transfer[0].held = tried.state.transfer[1].held = tried.state.transfer[1].write = number;
    tried.state.slot[0].serving = number;
    tried.state.transfer[5].address = number;
    tried.state.slot[9].owner = number;
}

/* Takes from every count to the empty log, with lost marks and other marks of every number, on boards with the mark and without. */
static void takes(void)
{
    for (uint32_t i = 0; i < 2 * YES_COUNT * (FABRIC_LOG_ENTRIES + 1); i++) {
        uint32_t number = yes[i % YES_COUNT], left = i / 2 / YES_COUNT;

        set_busy(i / YES_COUNT % 2 == 0 ? 0 : number, number);
        fill_log(left, i % 3 == 0 ? 0 : number);
        for (; left > 0; left--) {
            take_expected();
            memset(&tried.entry, 0xa5, sizeof tried.entry);
            check_number("a take", take(&tried), FABRIC_TAKEN);
            check_number("the master of the entry", tried.entry.master, expected.entry.master);
            check_number("the address of the entry", tried.entry.address, expected.entry.address);
            check_number("the direction of the entry, 0 or 1", tried.entry.write, expected.entry.write);
            check("a take moves the log, and leaves all else", same_marked(&tried, &expected));
            check("a take leaves every number of a mark", same_lent(&tried, &expected));
        }
        refuses_take("a take from an empty log", FABRIC_EMPTY_LOG);
        check_number("a clock behind the takes", clock_once(&tried), FABRIC_TAKEN);
    }
}

/* A take judges the board, then the state, then whether there is an entry (rule 8.4). */
static void takes_first(void)
{
    set_unmapped(0);
    refuses_take("an empty log", FABRIC_EMPTY_LOG);
    refuses_board("a wait of 256 before an empty log", &tried.board.slave[0].read_wait, 256, FABRIC_BAD_VALUE);
    refuses_board("no shares before an empty log", &tried.board.shares[1][0], 0, FABRIC_NO_SHARE);
    refuses_state("an owner of 2 before an empty log", &tried.state.slot[0].owner, 2);
    refuses_state("a latency clock before an empty log", &tried.state.late[0], 1);
    check_number("an unmapped transfer", post(&tried, 0, 0, HOLE, 15, 1, 0), FABRIC_TAKEN);
    refuses_take("an empty log, with an unmapped transfer held", FABRIC_EMPTY_LOG);
    refuses_state("no mark before an empty log", &tried.board.default_line, 0);
    tried.state.slot[0].owner = 2;
    refuses_board("a wait of 256 before the state", &tried.board.slave[0].read_wait, 256, FABRIC_BAD_VALUE);
    fill_log(9, 0);
    refuses_board("no shares before the log", &tried.board.shares[1][0], 0, FABRIC_NO_SHARE);
    tried.state.slot[0].owner = 1;
    refuses_take("a log of 9 entries", FABRIC_BAD_STATE);
    tried.state.log.count = 8;
    check_number("a log of 8 entries", take(&tried), FABRIC_TAKEN);
}

/* What is lent, with numbers between that are not. */
#define GAP 16
struct spaced {
    uint32_t gap_0[GAP];
    struct fabric_state state;
    uint32_t gap_1[GAP];
    uint8_t memory[MEMORY_BYTES];
    uint32_t gap_2[GAP];
    uint8_t buffer[FABRIC_BUFFER_BYTES];
    uint32_t gap_3[GAP];
    struct fabric_lines lines;
    uint32_t gap_4[GAP];
    uint32_t responses[FABRIC_MASTERS];
    uint32_t gap_5[GAP];
    uint32_t mask;
    uint32_t gap_6[GAP];
    uint32_t clocks;
    uint32_t gap_7[GAP];
    struct fabric_entry entry;
    uint32_t gap_8[GAP];
};

static int gap_kept(const uint32_t *gap)
{
    uint32_t i = 0;

    while (i < GAP && gap[i] == UINT32_C(0xa5a5a5a5))
        i++;
    return i == GAP;
}

static int gaps_kept(const struct spaced *s)
{
    return gap_kept(s->gap_0) && gap_kept(s->gap_1) && gap_kept(s->gap_2) && gap_kept(s->gap_3) && gap_kept(s->gap_4)
           && gap_kept(s->gap_5) && gap_kept(s->gap_6) && gap_kept(s->gap_7) && gap_kept(s->gap_8);
}

/* Calls on what stands in one block, the state that of `tried`: what stands between is as it was. */
static void spaced_calls(uint32_t number)
{
    static struct spaced s;
    const struct fabric_board *b = &tried.board;
    uint32_t from_log = number != FABRIC_TAKEN || tried.state.log.count > 0 ? number : FABRIC_EMPTY_LOG;

    memset(&s, 0xa5, sizeof s);
    s.state = tried.state;
    check_number("a take with neighbours", fabric_take(b, &s.state, &s.entry), from_log);
    check("a take leaves its neighbours", gaps_kept(&s));
    check_number("a clock with neighbours",
                 fabric_clock(b, &s.state, s.memory, sizeof s.memory, s.buffer, sizeof s.buffer, &s.lines,
                              s.responses, &s.mask),
                 number);
    check("a clock leaves its neighbours", gaps_kept(&s));
    s.state = tried.state;
    check_number("a run with neighbours",
                 fabric_run(b, &s.state, s.memory, sizeof s.memory, s.buffer, sizeof s.buffer, &s.lines, s.responses, 9, &s.clocks,
                            &s.mask),
                 number);
    check("a run leaves its neighbours", gaps_kept(&s));
    s.state = tried.state;
    memset(s.state.transfer, 0, sizeof s.state.transfer);
    check_number("a post with neighbours",
                 fabric_post(b, &s.state, s.buffer, sizeof s.buffer, b->master_count - 1, 1, HOLE, 15, 8, words, 32), number);
    check("a post leaves its neighbours", gaps_kept(&s));
}

/* The highest of 8 masters reads 8 words to no slave, the others one; with an empty log, a full one and one that is refused. */
static void neighbours(void)
{
    static const uint32_t counts[] = {0, 1, 7, 8, 9};

    for (size_t i = 0; i < sizeof counts / sizeof counts[0]; i++) {
        set_eight();
        hold_unmapped(0xaa);
        tried.state.transfer[7].write = 0;
        tried.state.transfer[7].beats = 8;
        fill_log(counts[i], 0);
        spaced_calls(counts[i] > FABRIC_LOG_ENTRIES ? FABRIC_BAD_STATE : FABRIC_TAKEN);
    }
}

/* Boards with an answer for unmapped transfers, and the log. */
static void answered(void)
{
    default_marks();
    default_boards();
    unmapped_posts();
    unmapped_transfers();
    unmapped_reaching();
    unmapped_lanes();
    unmapped_states();
    unmapped_beside();
    unmapped_grants();
    unmapped_late();
    unmapped_runs();
    log_counts();
    log_entries();
    log_restarts();
    takes();
    takes_first();
    neighbours();
}

/*
 * Both of two that are the same post a master's transfer number i; lengths, kinds and addresses go by turns, on a board with the
 * line `default` to no slave too.
 */
static void post_both(uint32_t m, uint32_t i)
{
    uint32_t width = tried.board.master[m].width;
    uint32_t beats = m == 0 && i % 3 == 0 ? 1 + i % 8 : 1;
    uint32_t lanes = beats == 1 && i % 5 == 0 ? 1 : (1u << width) - 1;
    uint32_t address = m == 0 && i % 4 == 1 ? 4 * (i % 9) : 4096 + width * (i % 40);
    size_t length = i % 2 == 0 ? beats * width : 0;

    if (tried.board.default_line != 0 && i % 7 < 3)
        address = 8192 + 4 * (i % 11);
    check_number("a post before a run of clocks", post(&tried, m, i % 2 == 0, address, lanes, beats, length), FABRIC_TAKEN);
    check_number("a post before clocks", post(&other, m, i % 2 == 0, address, lanes, beats, length), FABRIC_TAKEN);
}

/* Both take an entry, in front of a run of clocks; 1 where there was one. */
static unsigned long take_both(void)
{
    uint32_t number = take(&other);

    check_number("a take before a run of clocks", take(&tried), number);
    check("both take the same", memcmp(&tried.entry, &other.entry, sizeof tried.entry) == 0);
    return number == FABRIC_TAKEN;
}

/* Runs of clocks beside as many clocks: the same numbers and bytes, and no master finished before the last clock. */
static void runs(uint32_t native, uint32_t latency, uint32_t default_line)
{
    uint32_t posted[2] = {0, 0};
    unsigned long finished = 0, cut = 0, taken = 0;

    tried = fresh;
    tried.board.slave[0].native = tried.board.slave[1].native = native;
    tried.board.slave[0].latency = latency;
    tried.board.default_line = default_line;
    other = tried;
    for (uint32_t i = 0; i < 400; i++) {
        uint32_t most = i % 7 == 0 ? i % 5 : 1000;

        for (uint32_t m = 0; m < 2; m++) {
            if (tried.state.transfer[m].held == 0 && (m == 0 || i % 6 < 4))
                post_both(m, posted[m]++);
        }
        if (i % 3 == 0)
            taken += take_both();
        check_number("a run of clocks", run(&tried, most), FABRIC_TAKEN);
        check("a run of clocks is no longer than asked", tried.clocks <= most);
        check("a run of clocks ends where a master finishes", tried.clocks == most || tried.mask != 0);
        memset(&other.lines, 0, sizeof other.lines);
        memset(other.responses, 0, sizeof other.responses);
        other.mask = 0;
        for (uint32_t c = 0; c < tried.clocks; c++) {
            check("a run of clocks goes on where no master finishes", other.mask == 0);
            check_number("a clock of a run of clocks", clock_once(&other), FABRIC_TAKEN);
        }
        check("a run of clocks leaves what as many clocks leave", same_lent(&tried, &other));
        check("a run of clocks shows its last clock", same_answer(&tried, &other));
        finished += tried.mask != 0;
        cut += tried.mask == 0;
    }
    check("runs of clocks that end at a finish, and others", finished > 300 && cut > 20);
    check("takes beside them, where there are unmapped transfers", (taken > 50) == (default_line != 0));
}

static void runs_of_boards(void)
{
    runs(0, 0, 0);
    runs(1, 0, 0);
    runs(0, 5, 0);
    runs(1, 63, 0);
    runs(0, 5, 1);
    runs(1, 63, 256);
}

/* Numbers one by one, marks as they stand; the first that is another is named by its place. */
static void check_same(const char *name, const void *got, const void *due, uint32_t count)
{
    const uint32_t *g = (const uint32_t *)got, *d = (const uint32_t *)due;
    char place[128];
    uint32_t i = 0;

    while (i + 1 < count && g[i] == d[i])
        i++;
    sprintf(place, "%s, number %u of %u", name, (unsigned)i, (unsigned)count);
    check_number(place, g[i], d[i]);
}

static uint64_t drawn = 1;

/* A number below n, the next of a series that is always the same. */
static uint32_t below(uint32_t n)
{
    drawn = drawn * UINT64_C(6364136223846793005) + UINT64_C(1442695040888963407);
    return (uint32_t)((drawn >> 33) % n);
}

/* A mark that is yes and that no call puts: 7, a number whose lowest byte is 0, or one that tells its place from others. */
static uint32_t odd_mark(void)
{
    uint32_t kind = below(3);

    if (kind == 0)
        return 7;
    return kind == 1 ? UINT32_C(256) << below(24) : below(UINT32_C(0x80000000)) << 1 | 2;
}

/* So many numbers, none of which a call puts for a mark. */
static void put_odd(void *numbers, uint32_t count)
{
    for (uint32_t i = 0; i < count; i++)
        ((uint32_t *)numbers)[i] = odd_mark();
}

/* The place of a member among the numbers of a state. */
#define PLACE(member) ((uint32_t)(offsetof(struct fabric_state, member) / sizeof(uint32_t)))

/* Whether number i of a state is a mark (rule 2.4): held and write of a transfer, serving, lost, write of an entry. */
static int is_mark(uint32_t i)
{
    if (i < PLACE(slot))
        return i % 5 < 2;
    if (i < PLACE(late))
        return (i - PLACE(slot)) % 5 == 2;
    return i == PLACE(log.lost) || (i >= PLACE(log.entry) && (i - PLACE(log.entry)) % 3 == 2);
}

/* Whether number i of a state does not count (rule 2.4): of a transfer not held, a slot of no slave, an entry from the count on. */
static int idle_number(const struct lent *l, uint32_t i)
{
    if (i < PLACE(slot))
        return i % 5 != 0 && l->state.transfer[i / 5].held == 0;
    if (i < PLACE(late))
        return (i - PLACE(slot)) / 5 >= l->board.slave_count;
    return i >= PLACE(log.entry) && (i - PLACE(log.entry)) / 3 >= l->state.log.count;
}

/* Other numbers in `tried` for every mark that is yes, and for what does not count. The lost mark is drawn: no rule judges it. */
static void put_marks(void)
{
    uint32_t *n = (uint32_t *)&tried.state;

    tried.state.log.lost = below(2);
    for (uint32_t i = 0; i < FABRIC_STATE_NUMBERS; i++) {
        if (idle_number(&tried, i) || (is_mark(i) && n[i] != 0))
            n[i] = odd_mark();
    }
}

/*
 * A board of so many masters and slaves, of every width, with waits, latency and native slaves. All masters have shares at slave 0,
 * after each slave is a hole, and the spans of 16 slaves are as long as the memory.
 */
static void set_many(uint32_t masters, uint32_t slaves, uint32_t default_line)
{
    struct fabric_board *b = &tried.board;

    tried = fresh;
    memset(b, 0, sizeof *b);
    b->master_count = masters;
    b->slave_count = slaves;
    b->default_line = default_line;
    for (uint32_t i = 0; i < masters * slaves; i++) {
        uint32_t m = i / slaves, s = i % slaves;
        struct fabric_master master = {1u << m % 4, 1u << m % 7};
        struct fabric_slave slave = {1024 * s, s < 7 ? 512u : 64u, 1u << s % 4, 1u << s % 5, s % 3, s % 2, s % 3 / 2, s % 5};

        b->master[m] = master;
        b->slave[s] = slave;
        if (s == 0 || ((m + s) % 3 != 0 && (slave.native == 0 || master.width >= slave.width)))
            b->shares[m][s] = 1 + (m + s) % 4;
    }
}

/* A reset puts every number, the marks as 0, whatever stood there (rule 4.2): on boards of every count of masters and slaves. */
static void reset_numbers(void)
{
    for (uint32_t i = 0; i < FABRIC_MASTERS * FABRIC_SLAVES; i++) {
        uint32_t masters = 1 + i / FABRIC_SLAVES, slaves = 1 + i % FABRIC_SLAVES;

        set_many(masters, slaves, i % 3 == 0 ? 0 : odd_mark());
        put_odd(&tried.state, FABRIC_STATE_NUMBERS);
        expected = tried;
        memset(&expected.state, 0, sizeof expected.state);
        for (uint32_t s = 0; s < slaves; s++)
            expected.state.slot[s].owner = masters - 1;
        check_number("a reset over other numbers", reset(&tried), FABRIC_TAKEN);
        check_same("the state after a reset", &tried.state, &expected.state, FABRIC_STATE_NUMBERS);
        check("a reset leaves the board", same_lent(&tried, &expected));
    }
}

/* The text of a board (rule 1.9). */
static void text_of(const struct fabric_board *b, char *text)
{
    for (uint32_t m = 0; m < b->master_count; m++)
        text += sprintf(text, "master,%u,%u\n", (unsigned)b->master[m].width, (unsigned)b->master[m].burst);
    for (uint32_t i = 0; i < b->slave_count; i++) {
        const struct fabric_slave *s = &b->slave[i];

        text += sprintf(text, "slave,%u,%u,%u,%u,%u,%u,%u,%u\n", (unsigned)s->base, (unsigned)s->span, (unsigned)s->width,
                        (unsigned)s->burst, (unsigned)s->read_wait, (unsigned)s->write_wait, (unsigned)s->native,
                        (unsigned)s->latency);
    }
    for (uint32_t i = 0; i < FABRIC_MASTERS * FABRIC_SLAVES; i++) {
        uint32_t m = i / FABRIC_SLAVES, s = i % FABRIC_SLAVES;

        if (b->shares[m][s] != 0)
            text += sprintf(text, "share,%u,%u,%u\n", (unsigned)m, (unsigned)s, (unsigned)b->shares[m][s]);
    }
    strcpy(text, b->default_line != 0 ? "default\n" : "");
}

/* A reading puts every number, the mark as 0 or 1, whatever stood there: the same boards, from their texts. */
static void read_numbers(void)
{
    static char text[FABRIC_TEXT_BYTES];

    for (uint32_t i = 0; i < 2 * FABRIC_MASTERS * FABRIC_SLAVES; i++) {
        set_many(1 + i / 2 / FABRIC_SLAVES, 1 + i / 2 % FABRIC_SLAVES, i % 2);
        text_of(&tried.board, text);
        put_odd(&other.board, FABRIC_BOARD_NUMBERS);
        check_number("a reading over other numbers", read_text(text, strlen(text), &other.board), FABRIC_TAKEN);
        check_same("the board read", &other.board, &tried.board, FABRIC_BOARD_NUMBERS);
    }
}

/* What has come of the clocks of a board, so that nothing is left untried. */
struct happened {
    unsigned long granted, served, freed, late, finished, entered, dropped, reads, writes, taken;
};
static struct happened happened;

static void note_clocks(const struct lent *before)
{
    for (uint32_t s = 0; s < tried.board.slave_count; s++) {
        int was = before->state.slot[s].serving != 0, is = tried.state.slot[s].serving != 0;

        happened.granted += !was && is;
        happened.served += was && is;
        happened.freed += was && !is;
    }
    happened.late += !all_zero(tried.state.late, sizeof tried.state.late);
    happened.finished += tried.mask != 0;
    happened.entered += tried.state.log.count > before->state.log.count;
    happened.dropped += before->state.log.lost == 0 && tried.state.log.lost != 0;
}

/*
 * A post that is drawn, to a slave or into the hole after it. One that is accepted puts the five numbers of its transfer, held as 1
 * and write as 0 or 1, and the words of a write; all else stays, number for number. One that is refused changes nothing.
 */
static void post_drawn(uint32_t m)
{
    const struct fabric_slave *s = &tried.board.slave[below(tried.board.slave_count)];
    uint32_t width = tried.board.master[m].width, write = below(2) == 0 ? 0 : odd_mark();
    uint32_t beats = below(2) == 0 ? 1 : 1 + below(tried.board.master[m].burst);
    uint32_t lanes = beats == 1 && below(2) == 0 ? 1u << below(width) : (1u << width) - 1;
    uint32_t offset = (below(3) == 0 ? s->span : 0) + width * below(s->span / width);
    struct fabric_transfer t = {1, one_if(write), s->base + offset, lanes, beats};
    size_t length = write != 0 ? beats * width : 0;
    uint32_t due = FABRIC_TAKEN;

    expected = tried;
    expected.state.transfer[m] = t;
    memcpy(expected.buffer + FABRIC_PART_BYTES * m, words, length);
    if ((unmapped(&expected) >> m & 1) == 0)
        due = offset + beats * width > s->span ? FABRIC_PAST_END : FABRIC_TAKEN;
    else if (tried.board.default_line == 0)
        due = FABRIC_NOT_CONNECTED;
    if (due != FABRIC_TAKEN)
        expected = tried;
    check_number("a post beside other marks", post(&tried, m, write, t.address, lanes, beats, length), due);
    check_same("the state after a post", &tried.state, &expected.state, FABRIC_STATE_NUMBERS);
    check("a post leaves all else", same_lent(&tried, &expected));
    happened.reads += due == FABRIC_TAKEN && write == 0;
    happened.writes += due == FABRIC_TAKEN && write != 0;
}

/* A take moves entries number for number, their marks as they stand, and leaves every other number. It answers 0 or 1. */
static void take_marked(void)
{
    take_expected();
    memset(&tried.entry, 0xa5, sizeof tried.entry);
    check_number("a take of other marks", take(&tried), FABRIC_TAKEN);
    check_same("the entry taken", &tried.entry, &expected.entry, FABRIC_ENTRY_NUMBERS);
    check_same("the state after a take", &tried.state, &expected.state, FABRIC_STATE_NUMBERS);
    check("a take leaves all that is lent", same_lent(&tried, &expected));
    happened.taken++;
}

/*
 * After a clock or a run of clocks each mark is 0, 1 or what it was, what does not count is what it was, and all numbers of a
 * transfer that is finished are 0 (rule 4.9).
 */
static void check_marks(const struct lent *before)
{
    const uint32_t *was = (const uint32_t *)&before->state;
    struct fabric_state due = tried.state;
    uint32_t *d = (uint32_t *)&due;

    for (uint32_t i = 0; i < FABRIC_STATE_NUMBERS; i++) {
        if (i < PLACE(slot) && (tried.mask >> i / 5 & 1) != 0)
            d[i] = 0;
        else if ((is_mark(i) && d[i] > 1) || (idle_number(before, i) && idle_number(&tried, i)))
            d[i] = was[i];
    }
    check_same("the marks after clocks", &tried.state, &due, FABRIC_STATE_NUMBERS);
}

/* A clock, or a run of clocks if `most` is above 0, beside the same with marks of 0 and 1: only the numbers of marks are others. */
static void clocks_marked(uint32_t most)
{
    struct lent before = tried;
    struct fabric_state plain;

    other = tried;
    other.state = marked(tried.state);
    check_number("clocks of other marks", most == 0 ? clock_once(&tried) : run(&tried, most), FABRIC_TAKEN);
    check_number("clocks of marks of 0 and 1", most == 0 ? clock_once(&other) : run(&other, most), FABRIC_TAKEN);
    check("both answer the same", same_answer(&tried, &other) && tried.clocks == other.clocks);
    check("both leave the same", same_marked(&tried, &other));
    check("clocks leave the board", memcmp(&tried.board, &before.board, sizeof before.board) == 0);
    check_marks(&before);
    plain = marked(other.state);
    check_same("marks of 0 and 1 after clocks", &other.state, &plain, FABRIC_STATE_NUMBERS);
    note_clocks(&before);
}

/* Posts, takes and clocks on the board of `tried`, from a full log on; other marks are put before posts and before clocks. */
static void marks_of_board(void)
{
    const struct happened none = {0, 0, 0, 0, 0, 0, 0, 0, 0, 0}, *h = &happened;
    int line = tried.board.default_line != 0;

    happened = none;
    check_number("a reset before other marks", reset(&tried), FABRIC_TAKEN);
    fill_log(FABRIC_LOG_ENTRIES, 0);
    for (uint32_t i = 0; i < 600; i++) {
        put_marks();
        for (uint32_t m = 0; m < tried.board.master_count; m++) {
            if (tried.state.transfer[m].held == 0 && below(4) != 0)
                post_drawn(m);
        }
        if (tried.state.log.count > 0 && below(5) == 0)
            take_marked();
        put_marks();
        clocks_marked(below(2) == 0 ? 0 : 1 + below(9));
    }
    check("reads and writes beside other marks", h->reads > 50 && h->writes > 50);
    check("grants, service and ends of other marks", h->granted > 50 && h->served > 50 && h->freed > 50 && h->finished > 50);
    check("latency clocks of other marks", h->late > 50);
    check("entries of other marks, and dropped ones", line ? h->entered > 50 && h->dropped > 30 : h->entered + h->dropped == 0);
    check("takes of other marks", line ? h->taken > 50 : h->taken == FABRIC_LOG_ENTRIES);
}

/*
 * A small board, with places for masters and slaves that it does not have, and one of all of them; with the line `default`, whose
 * mark is 7, and without it.
 */
static void marks(void)
{
    reset_numbers();
    read_numbers();
    for (uint32_t i = 0; i < 4; i++) {
        tried = fresh;
        tried.board.slave[0].native = i / 2;
        tried.board.slave[0].latency = 3;
        tried.board.default_line = i % 2 == 0 ? 7 : 0;
        marks_of_board();
    }
    set_many(FABRIC_MASTERS, FABRIC_SLAVES, 7);
    marks_of_board();
    set_many(FABRIC_MASTERS, FABRIC_SLAVES, 0);
    marks_of_board();
}

int main(void)
{
    readings();
    unshared_texts();
    unordered_texts();
    default_texts();
    shared_sets();
    board_read();
    default_read();
    boards();
    native_boards();
    late_boards();
    unshared_boards();
    unordered_boards();
    unshared_counts();
    states();
    late_states();
    posts();
    lengths();
    late_first();
    unshared_first();
    unshared_between();
    native_writes();
    native_reads();
    late_reads();
    late_counts(3);
    late_counts(63);
    late_grants(0);
    late_grants(1);
    late_grants(63);
    late_together();
    answered();
    runs_of_boards();
    marks();
    if (!failed)
        printf("calls: ok, %d checks\n", checks);
    return failed;
}
