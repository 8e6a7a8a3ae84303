/*
 * Compares the library's clock with a simulator of the same board, and stops at the first clock in which they differ.
 *
 *   lockstep [--mistake NAME] BOARD CLOCKS [SEED]
 *
 * Both get the same transfers: reads and writes, singles with some lanes or all, and bursts, drawn from SEED, now many at a
 * time, now few. After each clock the line of every slave, the mask, the responses, the latency clocks that each master has to
 * pass, the log and every byte of memory and buffer are compared. On a board with the line `default` there are unmapped transfers
 * too (rule 3.7), entries are taken out of the log, and now and then both sides are reset; the entry taken and the log are
 * compared behind each of these. Where all agree it prints one line, and the exit status is 0; of a board with native slaves,
 * slaves with latency or the line `default` the line also says what they got. At a difference it prints what each side has, and
 * the status is 1. Status 2: wrong arguments, a board that is refused, a file that cannot be read, or output that cannot be
 * written.
 *
 * The simulator here is simulator.c; simulator.h says what another one has to offer. --mistake makes it go wrong on purpose,
 * to see that a difference is found; --mistakes lists the names.
 */
#include <errno.h>
#include <inttypes.h>
#include <stdio.h>
#include <stdlib.h>
#include <string.h>

#include "number.h"
#include "simulator.h"

/* The longest data of a transfer: the beats of the longest burst, of the widest word. */
#define MOST_WORDS FABRIC_PART_BYTES
/* For how many clocks the traffic stays equally dense, and how many degrees of density there are above none. */
#define SPELL 64
#define DEGREES 8
/* Of so many spells on a board with the line `default` one begins with a reset. */
#define SPELLS_PER_RESET 4
/* The slave of an unmapped transfer: none that a board has. */
#define NO_SLAVE FABRIC_SLAVES

struct post {
    uint32_t master, slave, write, address, lanes, beats; /* slave: NO_SLAVE where it is unmapped */
    uint32_t length; /* of its words */
    uint8_t words[MOST_WORDS];
};

/* The library's side: blocks of their own, as long as they have to be, so that what checks memory sees a step beyond. */
static struct fabric_board *board;
static struct fabric_state *state;
static struct fabric_lines *lines;
static uint32_t *responses;
static struct fabric_entry *entry;
static uint8_t *memory;
static uint8_t *buffer;
static size_t memory_length;

/* The traffic: who holds a transfer, for which slave, and what was posted. */
static uint32_t held;
static uint32_t goal[FABRIC_MASTERS];
static unsigned long posts, writes, bursts, parts;
/* Writes that leave accesses out. */
static unsigned long shortened;
/* At native slaves: transfers to narrower ones than the master and to equally wide ones, their bursts, writes to no lane. */
static unsigned long narrower, narrower_bursts, equal, equal_bursts, laneless;
/*
 * At slaves with latency (rule 4.16): reads that have passed it, reads that lose grants by it, clocks in which the slave serves
 * others meanwhile, writes that are finished with their last access.
 */
static unsigned long passed, losing, meanwhile, at_once;
/*
 * Unmapped (rule 3.7): reads, writes, bursts of both whose later beats reach into a slave that is connected, transfers that a full
 * log dropped; entries taken, takes from an empty log, resets behind the first one.
 */
static unsigned long unmapped_reads, unmapped_writes, reaching, dropped, entries_taken, empty_takes, resets;
static const char *made; /* the mistake that the simulator makes, or null */
static uint64_t drawn;

/* A number below n, the next of a series that SEED fixes. */
static uint32_t below(uint32_t n)
{
    drawn = drawn * UINT64_C(6364136223846793005) + UINT64_C(1442695040888963407);
    return (uint32_t)((drawn >> 33) % n);
}

static int failed(const char *what)
{
    fprintf(stderr, "lockstep: %s: %s\n", what, strerror(errno));
    return 2;
}

/* What was printed is on its way, or nothing is said of agreement. */
static int ended(int status)
{
    return fflush(stdout) == 0 && !ferror(stdout) ? status : failed("standard output");
}

/* A single's lanes: all, or some that rule 3.4 allows. */
static uint32_t some_lanes(uint32_t width)
{
    uint32_t count = width;

    while (count > 1 && below(2) == 0)
        count /= 2;
    return ((1u << count) - 1) << count * below(width / count);
}

/* The lanes and the words of a transfer whose other members are drawn. */
static void draw_words(struct post *p)
{
    uint32_t width = board->master[p->master].width;

    p->lanes = p->beats == 1 ? some_lanes(width) : (1u << width) - 1;
    p->length = p->write != 0 ? p->beats * width : 0;
    for (uint32_t i = 0; i < p->length; i++)
        p->words[i] = (uint8_t)below(256);
}

/* A transfer of master m for slave s that no rule refuses. Half of them are near the slave's front, where they meet. */
static void draw(struct post *p, uint32_t m, uint32_t s)
{
    uint32_t width = board->master[m].width;
    uint32_t words = board->slave[s].span / width;
    uint32_t most = board->master[m].burst < words ? board->master[m].burst : words;
    uint32_t room;

    p->master = m;
    p->slave = s;
    p->write = below(2);
    p->beats = below(2) == 0 ? 1 : 1 + below(1 + below(most));
    room = words - p->beats + 1;
    p->address = board->slave[s].base + width * below(below(2) == 0 && room > 8 ? 8 : room);
    draw_words(p);
}

/* Whether an address selects a slave for a master (rule 3.6). */
static int mapped(uint32_t m, uint32_t address)
{
    uint32_t s = 0;

    while (s < board->slave_count && (board->shares[m][s] == 0 || (address ^ board->slave[s].base) >= board->slave[s].span))
        s++;
    return s < board->slave_count;
}

/*
 * An address of whole words of the master that may be unmapped: a few words in front of a slave, so that a burst reaches into it,
 * behind its end, in it, for a master that is not connected; at the top of all addresses, which a burst may pass; or any.
 */
static uint32_t draw_address(uint32_t width, const struct fabric_slave *sl)
{
    switch (below(5)) {
    case 0:
        return sl->base - width * (1 + below(8));
    case 1:
        return sl->base + sl->span + width * below(8);
    case 2:
        return sl->base + width * below(sl->span / width);
    case 3:
        return 0u - width * (1 + below(64));
    default:
        return below(UINT32_C(0x80000000)) * 2 / width * width;
    }
}

/* A transfer of master m, at an address near slave s or elsewhere; 0 where it turns out to be mapped. */
static int draw_unmapped(struct post *p, uint32_t m, uint32_t s)
{
    uint32_t width = board->master[m].width;

    p->master = m;
    p->slave = NO_SLAVE;
    p->write = below(2);
    p->beats = below(2) == 0 ? 1 : 1 + below(board->master[m].burst);
    p->address = draw_address(width, &board->slave[s]);
    if (mapped(m, p->address))
        return 0;
    draw_words(p);
    return 1;
}

/* Whether a write leaves accesses out: with bus sizing, those to words of the slave that have no enabled lane (rule 4.10). */
static int leaves_out(const struct post *p)
{
    const struct fabric_slave *sl = &board->slave[p->slave];
    uint32_t width = board->master[p->master].width;
    uint32_t from = 0;

    if (p->write == 0 || sl->native != 0)
        return 0;
    while (from + sl->width <= width && (p->lanes >> from & ((1u << sl->width) - 1)) != 0)
        from += sl->width;
    return from + sl->width <= width;
}

/* Counts a transfer by its kind: traffic that leaves a kind out compares nothing of it. */
static void tally(const struct post *p)
{
    const struct fabric_slave *sl = &board->slave[p->slave];
    uint32_t width = board->master[p->master].width;

    posts++;
    writes += p->write != 0;
    bursts += p->beats > 1;
    parts += p->beats == 1 && p->lanes != (1u << width) - 1;
    shortened += leaves_out(p);
    if (sl->native == 0)
        return;
    narrower += sl->width < width;
    narrower_bursts += sl->width < width && p->beats > 1;
    equal += sl->width == width;
    equal_bursts += sl->width == width && p->beats > 1;
    laneless += p->write != 0 && p->lanes >> sl->width << sl->width == p->lanes;
}

/* The same of an unmapped transfer. Each beat has one address of a whole word: all its bytes are at a slave, or none is. */
static void tally_unmapped(const struct post *p)
{
    uint32_t width = board->master[p->master].width, beat = 1;

    unmapped_reads += p->write == 0;
    unmapped_writes += p->write != 0;
    while (beat < p->beats && !mapped(p->master, p->address + beat * width))
        beat++;
    reaching += beat < p->beats;
}

/* Hands both sides a transfer; 1 where the library refuses it. */
static int post(const struct post *p, uint32_t clock)
{
    uint32_t number = fabric_post(board, state, buffer, FABRIC_BUFFER_BYTES, p->master, p->write, p->address, p->lanes, p->beats,
                                  p->words, p->length);

    if (number != FABRIC_TAKEN) {
        printf("library: clock %" PRIu32 " master %" PRIu32 " post refused,%" PRIu32 "\n", clock, p->master, number);
        return 1;
    }
    simulator_post(p->master, p->write, p->address, p->lanes, p->beats, p->words);
    held |= 1u << p->master;
    goal[p->master] = p->slave;
    if (p->slave == NO_SLAVE)
        tally_unmapped(p);
    else
        tally(p);
    return 0;
}

/*
 * Masters that hold nothing post, so many times out of DEGREES, on a board with the line `default` unmapped transfers so many
 * times before that; 1 where the library refuses a transfer. Any other board draws no number for these.
 */
static int post_some(uint32_t degree, uint32_t unmapped_degree, uint32_t clock)
{
    static struct post p;

    for (uint32_t m = 0; m < board->master_count; m++) {
        uint32_t s = below(board->slave_count);

        if ((held >> m & 1) == 0 && board->default_line != 0 && below(DEGREES) < unmapped_degree && draw_unmapped(&p, m, s)
            && post(&p, clock))
            return 1;
        if ((held >> m & 1) != 0 || board->shares[m][s] == 0 || below(DEGREES) >= degree)
            continue;
        draw(&p, m, s);
        if (post(&p, clock))
            return 1;
    }
    return 0;
}

static void print_line(const char *side, uint32_t clock, uint32_t s, const struct fabric_line *l)
{
    printf("%-10s clock %" PRIu32 " slave %" PRIu32 " phase %" PRIu32 " owner %" PRIu32 " offset %" PRIu32 " lanes %" PRIu32
           " run %" PRIu32 " place %" PRIu32 "\n",
           side, clock, s, l->phase, l->owner, l->offset, l->lanes, l->run, l->place);
}

/* The first byte that differs, printed for both sides. */
static int bytes_differ(const char *name, uint32_t clock, const uint8_t *ours, const uint8_t *theirs, size_t length)
{
    size_t i = 0;

    if (memcmp(ours, theirs, length) == 0)
        return 0;
    while (ours[i] == theirs[i])
        i++;
    printf("library:   clock %" PRIu32 " %s byte %lu is %d\n", clock, name, (unsigned long)i, ours[i]);
    printf("simulator: clock %" PRIu32 " %s byte %lu is %d\n", clock, name, (unsigned long)i, theirs[i]);
    return 1;
}

/* The first count of latency clocks that differs, printed for both sides: also of masters that the board does not have. */
static int counts_differ(uint32_t clock)
{
    uint32_t m = 0;

    while (m < FABRIC_MASTERS && state->late[m] == simulator_late[m])
        m++;
    if (m == FABRIC_MASTERS)
        return 0;
    printf("library:   clock %" PRIu32 " master %" PRIu32 " latency clocks %" PRIu32 "\n", clock, m, state->late[m]);
    printf("simulator: clock %" PRIu32 " master %" PRIu32 " latency clocks %" PRIu32 "\n", clock, m, simulator_late[m]);
    return 1;
}

/* The first response that differs, printed for both sides: also of masters that the board does not have. */
static int responses_differ(uint32_t clock)
{
    uint32_t m = 0;

    while (m < FABRIC_MASTERS && responses[m] == simulator_responses[m])
        m++;
    if (m == FABRIC_MASTERS)
        return 0;
    printf("library:   clock %" PRIu32 " master %" PRIu32 " response %" PRIu32 "\n", clock, m, responses[m]);
    printf("simulator: clock %" PRIu32 " master %" PRIu32 " response %" PRIu32 "\n", clock, m, simulator_responses[m]);
    return 1;
}

/* Any mark but 0 is yes (rule 2.4). */
static int same_entry(const struct fabric_entry *a, const struct fabric_entry *b)
{
    return a->master == b->master && a->address == b->address && (a->write != 0) == (b->write != 0);
}

static void print_entry(const char *side, uint32_t clock, uint32_t place, const struct fabric_entry *e)
{
    printf("%-10s clock %" PRIu32 " log entry %" PRIu32 " master %" PRIu32 " address %" PRIu32 " write %d\n", side, clock, place,
           e->master, e->address, e->write != 0);
}

/* The first difference of the logs, printed for both sides: all places are looked at, those behind the count too. */
static int logs_differ(uint32_t clock)
{
    const struct fabric_log *ours = &state->log, *theirs = &simulator_log;

    if (ours->count != theirs->count || (ours->lost != 0) != (theirs->lost != 0)) {
        printf("library:   clock %" PRIu32 " log count %" PRIu32 " lost %d\n", clock, ours->count, ours->lost != 0);
        printf("simulator: clock %" PRIu32 " log count %" PRIu32 " lost %d\n", clock, theirs->count, theirs->lost != 0);
        return 1;
    }
    for (uint32_t i = 0; i < FABRIC_LOG_ENTRIES; i++) {
        if (!same_entry(&ours->entry[i], &theirs->entry[i])) {
            print_entry("library:", clock, i, &ours->entry[i]);
            print_entry("simulator:", clock, i, &theirs->entry[i]);
            return 1;
        }
    }
    return 0;
}

static void print_take(const char *side, uint32_t clock, uint32_t number, const struct fabric_entry *e)
{
    printf("%-10s clock %" PRIu32 " take %" PRIu32 " master %" PRIu32 " address %" PRIu32 " write %" PRIu32 "\n", side, clock,
           number, e->master, e->address, e->write);
}

/* Both sides take an entry before a clock; 1 where they differ in what they answer, the direction as 0 or 1, or in the log. */
static int take_both(uint32_t clock)
{
    struct fabric_entry theirs;
    uint32_t our_number, their_number;

    memset(entry, 0xa5, sizeof *entry);
    our_number = fabric_take(board, state, entry);
    their_number = simulator_take(&theirs);
    if (our_number != their_number || memcmp(entry, &theirs, sizeof theirs) != 0) {
        print_take("library:", clock, our_number, entry);
        print_take("simulator:", clock, their_number, &theirs);
        return 1;
    }
    entries_taken += our_number == FABRIC_TAKEN;
    empty_takes += our_number == FABRIC_EMPTY_LOG;
    return logs_differ(clock) || counts_differ(clock);
}

/* Up to three takes, so many times out of DEGREES; 1 at a difference. */
static int take_some(uint32_t degree, uint32_t clock)
{
    uint32_t takes = below(DEGREES) < degree ? 1 + below(3) : 0;

    while (takes > 0) {
        if (take_both(clock))
            return 1;
        takes--;
    }
    return 0;
}

/* Both sides are reset before a clock, whatever is held and served; memory and buffer stay (rule 4.2). 1 at a difference. */
static int reset_both(uint32_t clock)
{
    uint32_t number = fabric_reset(board, state);

    if (number != FABRIC_TAKEN) {
        printf("library: clock %" PRIu32 " reset refused,%" PRIu32 "\n", clock, number);
        return 1;
    }
    simulator_reset(board, made);
    held = 0;
    resets++;
    return logs_differ(clock) || counts_differ(clock);
}

/* Whether the sides differ after a clock; the first difference is printed. */
static int differ(uint32_t clock, const struct fabric_lines *theirs, uint32_t our_mask, uint32_t their_mask)
{
    for (uint32_t s = 0; s < FABRIC_SLAVES; s++) {
        if (memcmp(&lines->line[s], &theirs->line[s], sizeof lines->line[s]) != 0) {
            print_line("library:", clock, s, &lines->line[s]);
            print_line("simulator:", clock, s, &theirs->line[s]);
            return 1;
        }
    }
    if (our_mask != their_mask) {
        printf("library:   clock %" PRIu32 " mask %" PRIu32 "\n", clock, our_mask);
        printf("simulator: clock %" PRIu32 " mask %" PRIu32 "\n", clock, their_mask);
        return 1;
    }
    return counts_differ(clock) || responses_differ(clock) || logs_differ(clock)
           || bytes_differ("memory", clock, memory, simulator_memory, memory_length)
           || bytes_differ("buffer", clock, buffer, simulator_buffer, FABRIC_BUFFER_BYTES);
}

/* Counts what a clock, with its mask, was to the transfers at slaves with latency (rule 4.16). */
static void tally_latency(uint32_t mask)
{
    for (uint32_t m = 0; m < board->master_count; m++) {
        const struct fabric_line *l;
        int served;

        if ((held >> m & 1) == 0 || goal[m] == NO_SLAVE || board->slave[goal[m]].latency == 0)
            continue;
        l = &lines->line[goal[m]];
        served = l->phase != FABRIC_IDLE && l->owner == m;
        passed += (mask >> m & 1) != 0 && !served;
        at_once += (mask >> m & 1) != 0 && served;
        losing += state->late[m] > 0 && served && state->slot[goal[m]].remaining > 0;
        meanwhile += state->late[m] > 0 && !served && l->phase != FABRIC_IDLE;
    }
}

/* How dense the traffic is, out of DEGREES, for a spell; unmapped posts and takes are of boards with the line `default`. */
struct spell {
    uint32_t posts, unmapped, takes;
};

/* The spell that begins with a clock, perhaps by a reset; 1 at a difference. A board without `default` draws one number. */
static int next_spell(struct spell *spell, uint32_t clock)
{
    spell->posts = below(DEGREES + 1);
    if (board->default_line == 0)
        return 0;
    spell->unmapped = below(DEGREES + 1);
    spell->takes = below(DEGREES + 1);
    return below(SPELLS_PER_RESET) == 0 && reset_both(clock);
}

/* One clock of both sides; 1 at a difference. */
static int clock_each(uint32_t clock)
{
    static struct fabric_lines theirs;
    uint32_t our_mask, their_mask, before = state->log.count;
    uint32_t number = fabric_clock(board, state, memory, memory_length, buffer, FABRIC_BUFFER_BYTES, lines, responses, &our_mask);

    if (number != FABRIC_TAKEN) {
        printf("library: clock %" PRIu32 " refused,%" PRIu32 "\n", clock, number);
        return 1;
    }
    their_mask = simulator_clock(&theirs);
    if (differ(clock, &theirs, our_mask, their_mask))
        return 1;
    for (uint32_t m = 0; m < FABRIC_MASTERS; m++)
        dropped += responses[m] == FABRIC_DECODE_ERROR;
    dropped -= state->log.count - before;
    tally_latency(our_mask);
    held &= ~our_mask;
    return 0;
}

/* Clocks both sides; 1 at the first difference. */
static int clock_both(uint32_t clocks)
{
    struct spell spell = {DEGREES, 1, 1};
    uint32_t clock = 0;

    while (clock < clocks) {
        clock++;
        if (clock % SPELL == 0 && next_spell(&spell, clock))
            return 1;
        if (post_some(spell.posts, spell.unmapped, clock) || (board->default_line != 0 && take_some(spell.takes, clock)))
            return 1;
        if (clock_each(clock))
            return 1;
    }
    return 0;
}

/* A block of zeros; there is no going on without it. */
static void *block(size_t length)
{
    void *bytes = calloc(1, length);

    if (bytes == NULL)
        exit(failed("memory"));
    return bytes;
}

/* Reads the board of a file; 0, or the exit status with what is wrong on standard error. */
static int read_board(const char *name)
{
    static uint8_t text[FABRIC_TEXT_BYTES + 1]; /* a longer file is refused as such */
    FILE *file = fopen(name, "rb");
    size_t length, line;
    uint32_t number;
    int bad;

    if (file == NULL)
        return failed(name);
    length = fread(text, 1, sizeof text, file);
    bad = ferror(file) ? failed(name) : 0;
    fclose(file);
    if (bad != 0)
        return bad;
    board = (struct fabric_board *)block(sizeof *board);
    state = (struct fabric_state *)block(sizeof *state);
    lines = (struct fabric_lines *)block(sizeof *lines);
    responses = (uint32_t *)block(FABRIC_MASTERS * sizeof *responses);
    entry = (struct fabric_entry *)block(sizeof *entry);
    number = fabric_refused_at(text, length, &line);
    if (number == FABRIC_TAKEN)
        number = fabric_read(text, length, board);
    if (number == FABRIC_TAKEN)
        number = fabric_reset(board, state);
    if (number == FABRIC_TAKEN)
        return 0;
    /* one write for a line, whoever else writes to the same terminal */
    if (line > 0)
        fprintf(stderr, "lockstep: %s: line %lu: refusal %" PRIu32 "\n", name, (unsigned long)line, number);
    else
        fprintf(stderr, "lockstep: %s: refusal %" PRIu32 "\n", name, number);
    return 2;
}

/* Memory and buffer, with the same bytes on both sides. */
static void fill_memory(void)
{
    buffer = (uint8_t *)block(FABRIC_BUFFER_BYTES);
    memory_length = 0;
    for (uint32_t s = 0; s < board->slave_count; s++)
        memory_length += board->slave[s].span;
    memory = (uint8_t *)block(memory_length);
    for (size_t i = 0; i < memory_length; i++)
        memory[i] = (uint8_t)below(256);
    memcpy(simulator_memory, memory, memory_length);
}

/* What was compared. */
static void print_agreed(const char *name, uint32_t clocks)
{
    printf("lockstep: %s: %" PRIu32 " clocks agree, %lu transfers: %lu writes (%lu leave accesses out), %lu bursts, "
           "%lu with some of the lanes",
           name, clocks, posts, writes, shortened, bursts, parts);
    if (narrower + equal > 0)
        printf("; native: %lu narrower (%lu bursts), %lu equal (%lu bursts), %lu writes to no lane", narrower, narrower_bursts,
               equal, equal_bursts, laneless);
    if (passed + at_once > 0)
        printf("; latency: %lu reads passed it, %lu lost grants by it, %lu clocks of others meanwhile, %lu writes finished at once",
               passed, losing, meanwhile, at_once);
    if (board->default_line != 0)
        printf("; unmapped: %lu reads, %lu writes, %lu bursts that reach a card, %lu dropped, %lu taken, %lu takes from an empty "
               "log, %lu resets",
               unmapped_reads, unmapped_writes, reaching, dropped, entries_taken, empty_takes, resets);
    putchar('\n');
}

static int compare(const char *name, uint32_t clocks, uint32_t seed, const char *mistake)
{
    int status = read_board(name);

    if (status != 0)
        return status;
    drawn = seed;
    made = mistake;
    fill_memory();
    simulator_reset(board, made);
    if (clock_both(clocks))
        return ended(1);
    print_agreed(name, clocks);
    return ended(0);
}

/* The simulator's own name of a mistake; null where it knows none of that name. */
static const char *mistake_of(const char *name)
{
    for (const char *const *known = simulator_mistakes; *known != NULL; known++) {
        if (strcmp(*known, name) == 0)
            return *known;
    }
    return NULL;
}

int main(int count, char **words)
{
    static const char usage[] = "usage: lockstep [--mistake NAME] BOARD CLOCKS [SEED]\n"
                                "       lockstep --mistakes\n";
    const char *mistake = NULL;
    uint32_t clocks, seed = 1;

    if (count == 2 && (strcmp(words[1], "-h") == 0 || strcmp(words[1], "--help") == 0)) {
        fputs(usage, stdout);
        return ended(0);
    }
    if (count == 2 && strcmp(words[1], "--mistakes") == 0) {
        for (const char *const *known = simulator_mistakes; *known != NULL; known++)
            puts(*known);
        return ended(0);
    }
    if (count > 2 && strcmp(words[1], "--mistake") == 0) {
        mistake = mistake_of(words[2]);
        words += 2;
        count = mistake == NULL ? 0 : count - 2;
    }
    if (count < 3 || count > 4 || !number_of(words[2], &clocks) || (count == 4 && !number_of(words[3], &seed))) {
        fputs(usage, stderr);
        return 2;
    }
    return compare(words[1], clocks, seed, mistake);
}
