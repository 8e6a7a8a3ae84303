/*
 * The order of share lines, and the place of the line `default` (rule 1.4). Each text that is taken is byte for byte what the
 * writer puts for its board (rule 1.9); with its share lines in another order it is refused with 21, with `default` elsewhere or
 * twice with 2, the first line out of order is charged, and nothing that is lent changes (rules 7.2, 7.21, 8.1 and 8.3). `default`
 * changes no figure (rule 1.11). A board that is lent as numbers has no order: its shares may be set in any (rule 8.5).
 *
 *   order BOARD..
 *
 * tries the descriptions of the files named, which are to be taken, and generated ones.
 */
#include <inttypes.h>
#include <stdio.h>
#include <stdlib.h>
#include <string.h>

#include "fabric.h"
#include "lent.h"

/*
 * The most lines, with two more than a board has, and room for any numbers in them, also for those of a board that should not have
 * been answered.
 */
#define LINES (FABRIC_MASTERS + FABRIC_SLAVES + FABRIC_MASTERS * FABRIC_SLAVES + 3)
#define LINE_ROOM 96
#define TEXT_ROOM (LINES * LINE_ROOM)
#define GENERATED 400

/* A description: its lines, each with its line feed, which of them is the first share line, and which stands behind the last. */
struct text {
    size_t count;
    size_t first;
    size_t end;
    char line[LINES][LINE_ROOM];
};

static uint64_t drawn = 1;
static int checks, failed;
/* Texts with share lines out of order, with `default` in a wrong place or form, and in order. */
static unsigned long arranged, misplaced, taken;

static void check(const char *name, const char *what, int holds)
{
    checks++;
    if (!holds) {
        printf("order: %s: %s\n", name, what);
        failed = 1;
    }
}

static void check_number(const char *name, const char *call, uint32_t got, uint32_t due)
{
    checks++;
    if (got != due) {
        printf("order: %s: %s answered %" PRIu32 ", not %" PRIu32 "\n", name, call, got, due);
        failed = 1;
    }
}

/* A number below n, the next of a series. */
static uint32_t below(uint32_t n)
{
    drawn = drawn * UINT64_C(6364136223846793005) + UINT64_C(1442695040888963407);
    return (uint32_t)((drawn >> 33) % n);
}

static int all_are(const void *bytes, size_t length, uint8_t value)
{
    const uint8_t *b = (const uint8_t *)bytes;

    while (length > 0 && b[length - 1] == value)
        length--;
    return length == 0;
}

static void put_masters(const struct fabric_board *b, struct text *t)
{
    for (uint32_t m = 0; m < b->master_count; m++)
        sprintf(t->line[t->count++], "master,%" PRIu32 ",%" PRIu32 "\n", b->master[m].width, b->master[m].burst);
}

static void put_slaves(const struct fabric_board *b, struct text *t)
{
    for (uint32_t s = 0; s < b->slave_count; s++) {
        const struct fabric_slave *sl = &b->slave[s];

        sprintf(t->line[t->count++],
                "slave,%" PRIu32 ",%" PRIu32 ",%" PRIu32 ",%" PRIu32 ",%" PRIu32 ",%" PRIu32 ",%" PRIu32 ",%" PRIu32 "\n",
                sl->base, sl->span, sl->width, sl->burst, sl->read_wait, sl->write_wait, sl->native, sl->latency);
    }
}

static void put_shares(const struct fabric_board *b, uint32_t m, struct text *t)
{
    for (uint32_t s = 0; s < b->slave_count; s++) {
        if (b->shares[m][s] != 0)
            sprintf(t->line[t->count++], "share,%" PRIu32 ",%" PRIu32 ",%" PRIu32 "\n", m, s, b->shares[m][s]);
    }
}

/* The lines that the writer puts (rule 1.9), from the rule and not from the library. */
static void put_lines(const struct fabric_board *b, struct text *t)
{
    t->count = 0;
    put_masters(b, t);
    put_slaves(b, t);
    t->first = t->count;
    for (uint32_t m = 0; m < b->master_count; m++)
        put_shares(b, m, t);
    t->end = t->count;
    if (b->default_line != 0)
        strcpy(t->line[t->count++], "default\n");
}

/* All lines as one text: its length. */
static size_t join(const struct text *t, char *bytes)
{
    size_t length = 0;

    for (size_t i = 0; i < t->count; i++) {
        strcpy(bytes + length, t->line[i]);
        length += strlen(t->line[i]);
    }
    return length;
}

/* The master and the slave of a share line. */
static void pair_of(const char *line, uint32_t *m, uint32_t *s)
{
    check(line, "it is a share line", sscanf(line, "share,%" SCNu32 ",%" SCNu32 ",", m, s) == 2);
}

/* Whether the writer puts this text for a board. */
static int has_text(const struct fabric_board *b, const uint8_t *bytes, size_t length)
{
    static struct text t;
    static char own[TEXT_ROOM];

    if (b->master_count > FABRIC_MASTERS || b->slave_count > FABRIC_SLAVES)
        return 0;
    put_lines(b, &t);
    return join(&t, own) == length && memcmp(own, bytes, length) == 0;
}

/* fabric_read: what is read of a text that is taken has that text as its own, what is refused leaves the board. */
static void try_read(const char *name, const uint8_t *bytes, size_t length, uint32_t due)
{
    struct fabric_board before, *board;
    uint32_t number;

    memset(&before, 0xa5, sizeof before);
    board = (struct fabric_board *)lend(&before, sizeof before);
    number = fabric_read(bytes, length, board);
    check_number(name, "fabric_read", number, due);
    if (number == FABRIC_TAKEN) {
        check(name, "the text is what the writer puts", has_text(board, bytes, length));
        check(name, "the mark of the line default is 0 or 1", board->default_line <= 1);
    } else {
        check(name, "the board is as it was", memcmp(board, &before, sizeof before) == 0);
    }
    free(board);
}

/* fabric_wait, for the pair of a share line of the text, with room and without. */
static void try_wait(const char *name, const uint8_t *bytes, size_t length, const char *share, uint32_t due)
{
    uint8_t before[FABRIC_WAIT_BYTES], *out;
    uint32_t m = 0, s = 0;

    memset(before, 0xa5, sizeof before);
    out = (uint8_t *)lend(before, sizeof before);
    pair_of(share, &m, &s);
    check_number(name, "fabric_wait without room", fabric_wait(bytes, length, m, s, out, FABRIC_WAIT_BYTES - 1),
                 due == FABRIC_TAKEN ? FABRIC_SHORT_OUTPUT : due);
    check(name, "no byte is written without room", all_are(out, FABRIC_WAIT_BYTES, 0xa5));
    check_number(name, "fabric_wait for no master", fabric_wait(bytes, length, FABRIC_MASTERS, s, out, FABRIC_WAIT_BYTES),
                 due == FABRIC_TAKEN ? FABRIC_NO_MASTER : due);
    check_number(name, "fabric_wait", fabric_wait(bytes, length, m, s, out, FABRIC_WAIT_BYTES), due);
    check(name, "the figures are written where they are answered",
          all_are(out, FABRIC_WAIT_BYTES, 0xa5) == (due != FABRIC_TAKEN));
    free(out);
}

/* All calls that are handed a text: what they answer, and the line that is charged, from 1. */
static void judges(const char *name, const struct text *t, uint32_t due, size_t line_due)
{
    static char joined[TEXT_ROOM];
    size_t length = join(t, joined), line = 77;
    uint8_t *bytes = (uint8_t *)lend(joined, length);

    try_read(name, bytes, length, due);
    check_number(name, "fabric_refused_at", fabric_refused_at(bytes, length, &line), due);
    check(name, "the line charged", line == line_due);
    check_number(name, "fabric_refused_master", fabric_refused_master(bytes, length), 0);
    try_wait(name, bytes, length, t->line[t->first], due);
    check(name, "the text is as it was", memcmp(bytes, joined, length) == 0);
    free(bytes);
    taken += due == FABRIC_TAKEN;
    arranged += due == FABRIC_SHARE_ORDER;
    misplaced += due != FABRIC_TAKEN && due != FABRIC_SHARE_ORDER;
}

static void exchange(struct text *t, size_t i, size_t j)
{
    char line[LINE_ROOM];

    memcpy(line, t->line[i], LINE_ROOM);
    memcpy(t->line[i], t->line[j], LINE_ROOM);
    memcpy(t->line[j], line, LINE_ROOM);
}

/*
 * Two share lines exchanged, the lower index first: behind the upper of the two a line follows whose pair comes before, be it
 * one that stood between them or the other of the two. Lines count from 1.
 */
static void judges_exchanged(const char *name, struct text *t, size_t i, size_t j)
{
    exchange(t, i, j);
    judges(name, t, FABRIC_SHARE_ORDER, i + 2);
    exchange(t, i, j);
}

/* The line, from 1, of the first pair that comes before the pair above; 0 where there is none. */
static size_t first_before(const struct text *t)
{
    for (size_t i = t->first + 1; i < t->end; i++) {
        uint32_t m = 0, s = 0, above = 0, slave_above = 0;

        pair_of(t->line[i - 1], &above, &slave_above);
        pair_of(t->line[i], &m, &s);
        if (m < above || (m == above && s < slave_above))
            return i + 1;
    }
    return 0;
}

/* The share lines drawn one by one from those that are left. */
static void judges_shuffled(const char *name, struct text *t)
{
    size_t line;

    for (size_t i = t->first; i < t->end; i++)
        exchange(t, i, i + below((uint32_t)(t->end - i)));
    line = first_before(t);
    judges(name, t, line == 0 ? FABRIC_TAKEN : FABRIC_SHARE_ORDER, line);
}

/* A text with one line more, which then has the index i. */
static void judges_inserted(const char *name, const struct text *t, size_t i, const char *line, uint32_t due, size_t line_due)
{
    static struct text longer;

    longer = *t;
    memmove(longer.line[i + 1], longer.line[i], (t->count - i) * LINE_ROOM);
    strcpy(longer.line[i], line);
    longer.count++;
    longer.first += i <= t->first;
    longer.end += i < t->end;
    judges(name, &longer, due, line_due);
}

/*
 * `default` in front of a line of a text that is taken: in front of the first slave line, which has the index of the count of
 * masters, it is charged itself, elsewhere the line behind it. Lines count from 1.
 */
static void judges_default_at(const char *name, const struct fabric_board *b, const struct text *t, size_t i)
{
    judges_inserted(name, t, i, "default\n", FABRIC_BAD_ORDER, i <= b->master_count ? i + 1 : i + 2);
}

/* The pairs of the share lines, which two texts have in common, have the same figures by both. */
static void same_figures(const char *name, const struct text *with, const struct text *without)
{
    static char first[TEXT_ROOM], second[TEXT_ROOM];
    size_t first_length = join(with, first), second_length = join(without, second);

    for (size_t i = with->first; i < with->end; i++) {
        uint8_t ours[FABRIC_WAIT_BYTES] = {0}, theirs[FABRIC_WAIT_BYTES] = {1};
        uint32_t m = 0, s = 0;

        pair_of(with->line[i], &m, &s);
        check_number(name, "fabric_wait with the line default",
                     fabric_wait((uint8_t *)first, first_length, m, s, ours, sizeof ours), FABRIC_TAKEN);
        check_number(name, "fabric_wait without the line default",
                     fabric_wait((uint8_t *)second, second_length, m, s, theirs, sizeof theirs), FABRIC_TAKEN);
        check(name, "the line default changes no figure", memcmp(ours, theirs, sizeof ours) == 0);
    }
}

/*
 * The line `default` in a board's text: once at its end, twice, elsewhere, with lines behind it, and in other forms, of which each
 * board gets some.
 */
static void judges_default(const char *name, const struct fabric_board *b)
{
    static const char *const behind[] = {"default\n", "master,1,1\n", "slave,0,8,1,1,0,0,0,0\n", "slave,1,1,9,9,999,0,0,0\n",
                                         "share,0,0,1\n", "share,9,99,0\n"};
    static const char *const forms[] = {"default,1\n", "default,0\n", "default,\n", "default", "defaul\n", "Default\n"};
    static struct text with, without;
    struct fabric_board other = *b;

    other.default_line = 1;
    put_lines(&other, &with);
    other.default_line = 0;
    put_lines(&other, &without);
    judges(name, &with, FABRIC_TAKEN, 0);
    judges(name, &without, FABRIC_TAKEN, 0);
    same_figures(name, &with, &without);
    judges_default_at(name, b, &without, 0);
    judges_default_at(name, b, &without, b->master_count);
    judges_default_at(name, b, &without, b->master_count + 1);
    judges_default_at(name, b, &without, below((uint32_t)without.count));
    judges_default_at(name, b, &without, without.count - 1);
    for (size_t i = below(3); i < sizeof behind / sizeof behind[0]; i += 3)
        judges_inserted(name, &with, with.count, behind[i], FABRIC_BAD_ORDER, with.count + 1);
    for (size_t i = below(3); i < sizeof forms / sizeof forms[0]; i += 3) {
        judges_inserted(name, &without, without.count, forms[i], FABRIC_BAD_TEXT, without.count + 1);
        judges_inserted(name, &with, with.count, forms[i], FABRIC_BAD_TEXT, with.count + 1);
    }
}

/* A value of a list that begins with 1 and doubles. */
static uint32_t doubled(uint32_t count)
{
    return 1u << below(count);
}

/* Shares of a master at every so many slaves, which no rule refuses. Slave 0, with bus sizing, takes it where it has no other. */
static void draw_shares(struct fabric_board *b, uint32_t m, uint32_t sparse)
{
    int connected = 0;

    for (uint32_t s = 0; s < b->slave_count; s++) {
        if ((b->slave[s].native != 0 && b->slave[s].width > b->master[m].width) || below(sparse) != 0)
            continue;
        b->shares[m][s] = 1 + below(100);
        connected = 1;
    }
    if (!connected)
        b->shares[m][0] = 1 + below(100);
}

/* 16 slaves of 4,096 bytes are all that there can be. */
static void draw_slaves(struct fabric_board *b)
{
    uint32_t page = below(65536), turn = below(16);

    for (uint32_t s = 0; s < b->slave_count; s++) {
        struct fabric_slave *sl = &b->slave[s];

        sl->base = 65536 * page + 4096 * ((5 * s + turn) % 16);
        sl->span = 8 * doubled(10);
        sl->width = doubled(4);
        sl->burst = doubled(7);
        sl->read_wait = below(256);
        sl->write_wait = below(256);
        sl->native = s == 0 ? 0 : below(2);
        sl->latency = below(2) * below(64);
    }
}

/* A board of any size that no rule refuses. */
static void draw_board(struct fabric_board *b)
{
    uint32_t sparse = 1 + below(5);

    memset(b, 0, sizeof *b);
    b->master_count = 1 + below(FABRIC_MASTERS);
    b->slave_count = 1 + below(FABRIC_SLAVES);
    b->default_line = below(2);
    draw_slaves(b);
    for (uint32_t m = 0; m < b->master_count; m++) {
        b->master[m].width = doubled(4);
        b->master[m].burst = doubled(7);
        draw_shares(b, m, sparse);
    }
}

/* Calls on a board of numbers whose masters all have shares. */
static void calls_lent(const char *name, const struct fabric_board *b, uint32_t m, uint32_t s)
{
    static uint8_t memory[FABRIC_MEMORY_BYTES], buffer[FABRIC_BUFFER_BYTES];
    uint32_t lanes = (1u << b->master[m].width) - 1, mask, clocks, responses[FABRIC_MASTERS];
    struct fabric_state state;
    struct fabric_lines lines;
    struct fabric_entry entry;
    size_t length = 0;

    for (uint32_t i = 0; i < b->slave_count; i++)
        length += b->slave[i].span;
    check_number(name, "fabric_reset", fabric_reset(b, &state), FABRIC_TAKEN);
    check_number(name, "fabric_post",
                 fabric_post(b, &state, buffer, sizeof buffer, m, 0, b->slave[s].base, lanes, 1, memory, 0), FABRIC_TAKEN);
    check_number(name, "fabric_clock",
                 fabric_clock(b, &state, memory, length, buffer, sizeof buffer, &lines, responses, &mask), FABRIC_TAKEN);
    check(name, "no response of a clock", all_are(responses, sizeof responses, 0));
    check_number(name, "fabric_run",
                 fabric_run(b, &state, memory, length, buffer, sizeof buffer, &lines, responses, 5000, &clocks, &mask),
                 FABRIC_TAKEN);
    check(name, "no response of a run", all_are(responses, sizeof responses, 0));
    check_number(name, "fabric_take", fabric_take(b, &state, &entry), FABRIC_EMPTY_LOG);
}

/* A board of numbers gets the shares of a text's lines in the order in which these stand: until all are set, 20 or nothing. */
static void fills(const char *name, const struct fabric_board *b, const struct text *t)
{
    struct fabric_board filled = *b;
    struct fabric_state state;
    uint32_t m = 0, s = 0, connected = 0;

    memset(filled.shares, 0, sizeof filled.shares);
    for (size_t i = t->first; i < t->end; i++) {
        pair_of(t->line[i], &m, &s);
        filled.shares[m][s] = b->shares[m][s];
        connected |= 1u << m;
        check_number(name, "fabric_reset, by some shares", fabric_reset(&filled, &state),
                     connected == (1u << b->master_count) - 1 ? FABRIC_TAKEN : FABRIC_NO_SHARE);
    }
    check(name, "the same board", memcmp(&filled, b, sizeof filled) == 0);
    calls_lent(name, &filled, m, s);
}

static void generated(uint32_t number)
{
    static struct text t;
    struct fabric_board board;
    char name[32];
    size_t shares, i, j;

    sprintf(name, "text %" PRIu32, number);
    draw_board(&board);
    put_lines(&board, &t);
    shares = t.end - t.first;
    judges(name, &t, FABRIC_TAKEN, 0);
    fills(name, &board, &t);
    if (shares > 1) {
        i = t.first + below((uint32_t)shares - 1);
        j = i + 1 + below((uint32_t)(t.end - i - 1));
        judges_exchanged(name, &t, i, i + 1);
        judges_exchanged(name, &t, i, j);
        judges_exchanged(name, &t, t.first, t.end - 1);
    }
    judges_default(name, &board);
    judges_shuffled(name, &t);
    fills(name, &board, &t);
}

/* A file's text, and each share line of it exchanged with the next one. */
static void from_file(const char *name)
{
    static uint8_t bytes[FABRIC_TEXT_BYTES + 1];
    static struct text t;
    struct fabric_board board;
    FILE *file = fopen(name, "rb");
    size_t length;

    if (file == NULL) {
        perror(name);
        exit(2);
    }
    length = fread(bytes, 1, sizeof bytes, file);
    fclose(file);
    try_read(name, bytes, length, FABRIC_TAKEN);
    if (fabric_read(bytes, length, &board) != FABRIC_TAKEN || !has_text(&board, bytes, length))
        return;
    put_lines(&board, &t);
    judges(name, &t, FABRIC_TAKEN, 0);
    for (size_t i = t.first; i + 1 < t.end; i++)
        judges_exchanged(name, &t, i, i + 1);
    judges_default(name, &board);
    for (size_t i = 0; i < t.end; i++)
        judges_default_at(name, &board, &t, i);
    judges_shuffled(name, &t);
    fills(name, &board, &t);
}

int main(int count, char **words)
{
    for (int i = 1; i < count; i++)
        from_file(words[i]);
    for (uint32_t i = 0; i < GENERATED; i++)
        generated(i);
    check("generated texts", "most have several share lines", taken >= GENERATED && arranged > 3 * GENERATED);
    if (!failed)
        printf("order: ok, %lu texts in order, %lu out of order, %lu with default out of place, %d checks\n", taken, arranged,
               misplaced, checks);
    return failed;
}
