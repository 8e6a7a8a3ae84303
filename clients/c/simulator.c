/*
 * A small simulator of a fabric, written from the rules (docs/RULES.md, sections 2 to 4) and not from the library. It works
 * the way a bus monitor sees the bus: when a transfer is posted, the accesses that will be carried out for it are listed; a slave
 * then counts down the waits of the next access of its list and carries it out. It checks nothing: what is handed in has to be
 * legal.
 */
#include <string.h>

#include "simulator.h"

/* The most accesses of a transfer: 64 beats of 8 bytes at a slave of width 1. */
#define MOST_ACCESSES 512
/* The place of a byte that the slave does not have. */
#define NOWHERE UINT32_MAX
/* The slave of an unmapped transfer: none that a board has. */
#define NO_SLAVE FABRIC_SLAVES

struct access {
    struct fabric_line shown; /* as of an access */
    uint32_t wait;            /* clocks in front of it */
    uint32_t from, to;        /* its bytes, counted in the transfer */
};

/* The transfer of a master. */
struct request {
    int standing;
    int write;
    uint32_t address;
    uint32_t slave; /* NO_SLAVE where it is unmapped: it then has no accesses */
    uint32_t first; /* its address, from the slave's base: whole words of the master */
    uint32_t lanes;
    uint32_t beats;
    uint32_t clocks; /* for a mistake: those that an unmapped one has stood */
    uint32_t count;  /* of its accesses */
    uint32_t next;
    struct access access[MOST_ACCESSES];
};

struct card {
    uint32_t owner;
    uint32_t grants;
    int serving;
    uint32_t wait; /* clocks to pass before the next access */
    uint8_t *bytes;
};

uint8_t simulator_memory[FABRIC_MEMORY_BYTES];
uint8_t simulator_buffer[FABRIC_BUFFER_BYTES];
uint32_t simulator_late[FABRIC_MASTERS];
uint32_t simulator_responses[FABRIC_MASTERS];
struct fabric_log simulator_log;

const char *const simulator_mistakes[] = {
    "from-zero",        /* rule 4.5: the lowest requester is granted, whoever was the last owner */
    "silent-keeps",     /* rule 4.3: grants remain where nobody requests */
    "burst-keeps",      /* rule 4.6: grants remain behind a burst */
    "share-more",       /* rule 4.5: one grant more than the shares */
    "between-runs",     /* rules 4.8 and 4.9: another master is granted inside a burst, where a run ends */
    "wait-per-beat",    /* rule 4.8: a beat waits once, not before each of its accesses */
    "last-run",         /* rule 4.12: the last run is shown as long as the others */
    "read-lanes",       /* rule 4.14: a narrower master's read shows its own lanes only */
    "every-lane",       /* rule 4.11: a write changes bytes of lanes that are not enabled */
    "no-lane",          /* rule 4.10: a write carries out the accesses that have no lane too */
    "read-words",       /* rule 4.10: a read carries out only the accesses of the lanes that it names */
    "runs-of-all",      /* rule 4.12: runs count the accesses that a write leaves out */
    "waits-of-all",     /* rule 4.8: a write takes the clocks of the accesses that it leaves out before its first one */
    "late-none",        /* rule 4.16: a read is finished with its last access */
    "late-more",        /* rule 4.16: a read is finished a clock after its latency */
    "late-requests",    /* rule 4.16: a master requests while it passes a latency */
    "late-serves",      /* rule 4.16: the slave grants nobody while its last owner passes the latency */
    "late-writes",      /* rule 4.16: a write passes the latency too */
    "late-keeps",       /* rules 4.3 and 4.16: where nobody requests, grants remain while the last owner passes the latency */
    "unmapped-late",    /* rule 4.17: an unmapped transfer is finished a clock later */
    "unmapped-beats",   /* rule 4.17: one is finished after as many clocks as it has beats */
    "unmapped-one",     /* rule 4.17: a clock finishes one alone, that of the lowest master */
    "unmapped-okay",    /* rule 4.17: one is finished with response 0 */
    "unmapped-again",   /* rule 4.13: a response of 3 stays until the master is finished again */
    "unmapped-writes",  /* rule 4.17: a write changes the bytes that a card not connected to its master has at its addresses */
    "unmapped-reaches", /* rule 4.17: a write changes the bytes of a card that is connected, and that its later beats reach */
    "unmapped-reads",   /* rule 4.17: a read leaves its master's part as it was */
    "unmapped-short",   /* rule 4.17: the last byte of a read is left as it was */
    "unmapped-lanes",   /* rule 3.5: of a read the bytes alone become 0 whose lanes it names */
    "unmapped-part",    /* rule 4.17: a read makes the whole part of its master 0 */
    "unmapped-clears",  /* rule 4.17: a write makes its words in the buffer 0 */
    "log-descending",   /* rule 4.18: a clock enters its transfers from the highest master down */
    "log-direction",    /* rule 4.18: every entry says that it was a read */
    "log-address",      /* rule 4.18: an entry has the address of the last beat */
    "log-seven",        /* rule 4.18: the log has space for seven entries */
    "log-oldest",       /* rule 4.18: where the log is full the oldest entry is dropped, and not the new one */
    "log-unmarked",     /* rule 4.18: the lost mark is never set */
    "log-full",         /* rule 4.18: the lost mark is set with the eighth entry, before one is dropped */
    "log-reset",        /* rule 4.2: a reset leaves the log */
    "log-cleared",      /* rule 4.19: a take clears the lost mark */
    "log-emptied",      /* rule 4.19: the take of the last entry clears the lost mark */
    "log-place",        /* rule 4.19: a take leaves the last place as it was */
    "log-stays",        /* rule 4.19: a take moves no entry */
    "log-newest",       /* rule 4.19: a take takes the newest entry */
    "log-empty",        /* rule 7.22: a take from an empty log is not refused, and takes an entry of 0 */
    NULL,
};

static struct fabric_board board;
static struct request request[FABRIC_MASTERS];
static struct card card[FABRIC_SLAVES];
static const char *made;

static int mistake(const char *name)
{
    return made != NULL && strcmp(made, name) == 0;
}

void simulator_reset(const struct fabric_board *started, const char *on_purpose)
{
    uint8_t *bytes = simulator_memory;

    board = *started;
    made = on_purpose;
    memset(request, 0, sizeof request);
    memset(card, 0, sizeof card);
    memset(simulator_late, 0, sizeof simulator_late);
    memset(simulator_responses, 0, sizeof simulator_responses);
    if (!mistake("log-reset"))
        memset(&simulator_log, 0, sizeof simulator_log);
    for (uint32_t s = 0; s < board.slave_count; s++) {
        card[s].owner = board.master_count - 1;
        card[s].bytes = bytes;
        bytes += board.slave[s].span;
    }
}

/* The slave whose bytes have this address, connected or not; NO_SLAVE where none has it. */
static uint32_t slave_at(uint32_t address)
{
    uint32_t s = 0;

    while (s < board.slave_count && (address < board.slave[s].base || address - board.slave[s].base >= board.slave[s].span))
        s++;
    return s < board.slave_count ? s : NO_SLAVE;
}

/* The slave that an address selects for a master (rule 3.6); NO_SLAVE where the transfer is unmapped (rule 3.7). */
static uint32_t selected(uint32_t m, uint32_t address)
{
    uint32_t s = slave_at(address);

    return s != NO_SLAVE && board.shares[m][s] > 0 ? s : NO_SLAVE;
}

/*
 * Where the slave keeps byte i of a transfer, from its own front (rule 4.10). A native slave has a word for each word of the
 * master, and its words lie side by side: the bytes that the master's word has beyond the slave's are NOWHERE.
 */
static uint32_t kept_at(const struct request *r, uint32_t width, uint32_t i)
{
    const struct fabric_slave *sl = &board.slave[r->slave];
    uint32_t from_base = r->first + i;

    if (!sl->native)
        return from_base;
    return i % width < sl->width ? from_base / width * sl->width + i % width : NOWHERE;
}

/* The slave's lanes that a transfer has in its bytes from `from` to before `to` (rules 2.3 and 4.14): of a read all of them. */
static uint32_t lanes_of(const struct request *r, uint32_t width, uint32_t from, uint32_t to)
{
    uint32_t slave_width = board.slave[r->slave].width;
    uint32_t lanes = 0;

    if (!r->write && !mistake("read-lanes"))
        return (1u << slave_width) - 1;
    for (uint32_t i = from; i < to; i++) {
        uint32_t at = kept_at(r, width, i);

        if (at != NOWHERE && (!r->write || (r->lanes >> i % width & 1) != 0))
            lanes |= 1u << at % slave_width;
    }
    return lanes;
}

/* Whether one of the bytes from `from` to before `to` has an enabled lane in the master's word. */
static int enabled(const struct request *r, uint32_t width, uint32_t from, uint32_t to)
{
    while (from < to && (r->lanes >> from % width & 1) == 0)
        from++;
    return from < to;
}

/* Whether the access of these bytes is carried out (rule 4.10): with bus sizing, that of a write has an enabled lane. */
static int carried_out(const struct request *r, uint32_t width, uint32_t from, uint32_t to)
{
    if (board.slave[r->slave].native || (r->write ? mistake("no-lane") : !mistake("read-words")))
        return 1;
    return enabled(r, width, from, to);
}

/* Puts the access of these bytes behind those that are listed. */
static void list_access(struct request *r, uint32_t m, uint32_t from, uint32_t to)
{
    const struct fabric_slave *sl = &board.slave[r->slave];
    uint32_t width = board.master[m].width;
    uint32_t at = kept_at(r, width, from);
    struct access *a = &r->access[r->count];
    int first_of_beat = r->count == 0 || (a - 1)->from / width != from / width;

    a->shown.phase = FABRIC_ACCESS;
    a->shown.owner = m;
    a->shown.offset = at - at % sl->width;
    a->shown.lanes = lanes_of(r, width, from, to);
    a->wait = r->write ? sl->write_wait : sl->read_wait;
    if (mistake("wait-per-beat") && !first_of_beat)
        a->wait = 0;
    if (mistake("waits-of-all") && r->write && first_of_beat)
        a->wait += from % width / (to - from) * (a->wait + 1);
    a->from = from;
    a->to = to;
    r->count++;
}

/*
 * Cuts the accesses into runs of `limit`, the last one perhaps shorter (rule 4.12). Only those that are listed count; for a
 * mistake `bytes`, the length of the transfer, tells how many there would be with those that are left out.
 */
static void cut_runs(struct request *r, uint32_t limit, uint32_t bytes)
{
    for (uint32_t i = 0; i < r->count; i++) {
        struct access *a = &r->access[i];
        uint32_t unit = a->to - a->from;
        uint32_t number = mistake("runs-of-all") ? a->from / unit : i;
        uint32_t count = mistake("runs-of-all") ? bytes / unit : r->count;
        uint32_t left = count - (number - number % limit);

        a->shown.run = left < limit && !mistake("last-run") ? left : limit;
        a->shown.place = number % limit;
    }
}

/*
 * Lists the accesses that are carried out (rule 4.10), from the lowest address up: each has as many bytes as the narrower of
 * master and slave, at a native slave always a whole word of the master.
 */
static void list_accesses(struct request *r, uint32_t m)
{
    const struct fabric_slave *sl = &board.slave[r->slave];
    uint32_t width = board.master[m].width;
    uint32_t unit = sl->native || width < sl->width ? width : sl->width;
    uint32_t bytes = r->beats * width;

    r->count = 0;
    r->next = 0;
    for (uint32_t from = 0; from < bytes; from += unit) {
        if (carried_out(r, width, from, from + unit))
            list_access(r, m, from, from + unit);
    }
    cut_runs(r, width < sl->width ? 1 : sl->burst, bytes);
}

void simulator_post(uint32_t m, uint32_t write, uint32_t address, uint32_t lanes, uint32_t beats, const uint8_t *words)
{
    struct request *r = &request[m];

    r->standing = 1;
    r->write = write != 0;
    r->address = address;
    r->slave = selected(m, address);
    r->lanes = lanes;
    r->beats = beats;
    r->clocks = 0;
    if (r->write)
        memcpy(simulator_buffer + FABRIC_PART_BYTES * m, words, beats * board.master[m].width);
    if (r->slave == NO_SLAVE)
        return;
    r->first = address - board.slave[r->slave].base;
    list_accesses(r, m);
}

/* Whether a master requests the slave: while it passes a latency it holds its transfer, and does not (rule 4.16). */
static int requests(uint32_t m, uint32_t s)
{
    return request[m].standing && request[m].slave == s && (simulator_late[m] == 0 || mistake("late-requests"));
}

/* Whether the slave's last owner passes its latency. By rule 4.16 that is nothing to the slave: only mistakes ask. */
static int owner_late(uint32_t s)
{
    return simulator_late[card[s].owner] > 0 && request[card[s].owner].slave == s;
}

/* How many masters are tried before m (rule 4.5). */
static uint32_t tried_before(uint32_t m, uint32_t owner)
{
    if (mistake("from-zero"))
        return m;
    return (m + board.master_count - owner - 1) % board.master_count;
}

/* The requester that is tried first; master_count where none requests. */
static uint32_t first_requester(uint32_t s)
{
    uint32_t chosen = board.master_count;

    for (uint32_t m = 0; m < board.master_count; m++) {
        if (!requests(m, s))
            continue;
        if (chosen == board.master_count || tried_before(m, card[s].owner) < tried_before(chosen, card[s].owner))
            chosen = m;
    }
    return chosen;
}

/* Whom a slave that does not serve serves from this clock on, if anybody (rules 4.3 to 4.7). */
static void grant(uint32_t s)
{
    struct card *c = &card[s];
    uint32_t chosen = first_requester(s);

    if (chosen == board.master_count) {
        if (!mistake("silent-keeps") && !(mistake("late-keeps") && owner_late(s)))
            c->grants = 0;
        return;
    }
    if (c->grants > 0 && requests(c->owner, s)) {
        c->grants--;
    } else {
        c->owner = chosen;
        c->grants = board.shares[chosen][s] - (mistake("share-more") ? 0 : 1);
    }
    if (request[c->owner].beats > 1 && !mistake("burst-keeps"))
        c->grants = 0;
    c->serving = 1;
    c->wait = request[c->owner].access[request[c->owner].next].wait;
}

/* Moves the bytes of an access between the slave and the master's words (rules 3.2 and 4.11): what is NOWHERE reads as 0. */
static void move_bytes(const struct card *c, const struct request *r, const struct access *a)
{
    uint8_t *words = simulator_buffer + FABRIC_PART_BYTES * c->owner;
    uint32_t width = board.master[c->owner].width;

    for (uint32_t i = a->from; i < a->to; i++) {
        uint32_t at = kept_at(r, width, i);

        if (!r->write)
            words[i] = at == NOWHERE ? 0 : c->bytes[at];
        else if (at != NOWHERE && ((r->lanes >> i % width & 1) != 0 || mistake("every-lane")))
            c->bytes[at] = words[i];
    }
}

/* The clocks from a transfer's last access to its finish (rule 4.16): the slave's latency for a read, none for a write. */
static uint32_t latency_of(const struct request *r)
{
    uint32_t latency = board.slave[r->slave].latency;

    if (latency == 0 || mistake("late-none") || (r->write && !mistake("late-writes")))
        return 0;
    return mistake("late-more") ? latency + 1 : latency;
}

/* A clock of a slave that serves (rules 4.8 and 4.9); the last access frees it, whenever its owner is finished (rule 4.16). */
static void serve(struct card *c, struct fabric_line *line)
{
    struct request *r = &request[c->owner];
    struct access *a = &r->access[r->next];

    *line = a->shown;
    if (c->wait > 0) {
        c->wait--;
        line->phase = FABRIC_WAITING;
        return;
    }
    move_bytes(c, r, a);
    r->next++;
    if (r->next < r->count) {
        c->wait = r->access[r->next].wait;
        c->serving = !mistake("between-runs") || a->shown.place + 1 < a->shown.run;
        return;
    }
    c->serving = 0;
    r->next = 0; /* for a mistake: a master that requests again is served again */
    simulator_late[c->owner] = 1 + latency_of(r);
}

/*
 * The end of a clock (rules 4.9 and 4.16): each master behind its last access has one clock less, and one that has none left is
 * finished. The clock of the last access is counted too, so that without latency the transfer ends in it.
 */
static uint32_t finish(void)
{
    uint32_t mask = 0;

    for (uint32_t m = 0; m < board.master_count; m++) {
        if (simulator_late[m] == 0)
            continue;
        simulator_late[m]--;
        request[m].standing = simulator_late[m] > 0;
        if (!request[m].standing)
            mask |= 1u << m;
    }
    return mask;
}

/* For mistakes: the bytes of an unmapped write go to a card that has their addresses, be its master connected to it or not. */
static void store(uint32_t m)
{
    const struct request *r = &request[m];
    uint32_t width = board.master[m].width;

    for (uint32_t i = 0; i < r->beats * width; i++) {
        uint32_t s = slave_at(r->address + i);

        if (s == NO_SLAVE || (r->lanes >> i % width & 1) == 0)
            continue;
        if (board.shares[m][s] > 0 ? mistake("unmapped-reaches") : mistake("unmapped-writes"))
            card[s].bytes[r->address + i - board.slave[s].base] = simulator_buffer[FABRIC_PART_BYTES * m + i];
    }
}

/* What an unmapped transfer does to its master's words (rule 4.17): those of a read are 0, in all lanes. */
static void clear_words(uint32_t m)
{
    const struct request *r = &request[m];
    uint32_t width = board.master[m].width;
    uint32_t count = r->beats * width - (mistake("unmapped-short") ? 1 : 0);

    if (r->write ? !mistake("unmapped-clears") : mistake("unmapped-reads"))
        return;
    if (mistake("unmapped-part"))
        count = FABRIC_PART_BYTES;
    for (uint32_t i = 0; i < count; i++) {
        if ((r->lanes >> i % width & 1) != 0 || !mistake("unmapped-lanes"))
            simulator_buffer[FABRIC_PART_BYTES * m + i] = 0;
    }
}

/* Takes the oldest entry out (rule 4.19). */
static void move_down(void)
{
    struct fabric_log *log = &simulator_log;
    struct fabric_entry none = {0, 0, 0};

    for (uint32_t i = 0; i + 1 < FABRIC_LOG_ENTRIES && !mistake("log-stays"); i++)
        log->entry[i] = log->entry[i + 1];
    if (!mistake("log-place"))
        log->entry[FABRIC_LOG_ENTRIES - 1] = none;
    log->count--;
}

/* Enters the transfer of a master, or drops it where the log is full (rule 4.18). */
static void enter(uint32_t m)
{
    struct fabric_log *log = &simulator_log;
    const struct request *r = &request[m];
    uint32_t most = mistake("log-seven") ? FABRIC_LOG_ENTRIES - 1 : FABRIC_LOG_ENTRIES;
    uint32_t beyond = mistake("log-address") ? (r->beats - 1) * board.master[m].width : 0;
    struct fabric_entry entered = {m, r->address + beyond, r->write && !mistake("log-direction") ? 1u : 0u};

    if (log->count == most) {
        log->lost = mistake("log-unmarked") ? 0 : 1;
        if (!mistake("log-oldest"))
            return;
        move_down();
    }
    log->entry[log->count] = entered;
    log->count++;
    if (mistake("log-full") && log->count == most)
        log->lost = 1;
}

/* Whether a clock finishes the transfer of a master as an unmapped one (rule 4.17): the first one behind its post does. */
static int answers(uint32_t m, uint32_t answered)
{
    struct request *r = &request[m];

    if (!r->standing || r->slave != NO_SLAVE)
        return 0;
    r->clocks++;
    if (mistake("unmapped-late"))
        return r->clocks == 2;
    if (mistake("unmapped-beats"))
        return r->clocks == r->beats;
    return answered == 0 || !mistake("unmapped-one");
}

/* The unmapped transfers (rules 4.17 and 4.18): the mask of the masters that are finished, from `mask`, that of the others. */
static uint32_t answer_unmapped(uint32_t mask)
{
    uint32_t answered = 0;

    for (uint32_t m = 0; m < board.master_count; m++) {
        if (!mistake("unmapped-again") || (mask >> m & 1) != 0)
            simulator_responses[m] = FABRIC_OKAY;
        if (!answers(m, answered))
            continue;
        answered |= 1u << m;
        request[m].standing = 0;
        simulator_responses[m] = mistake("unmapped-okay") ? FABRIC_OKAY : FABRIC_DECODE_ERROR;
        if (request[m].write)
            store(m);
        clear_words(m);
    }
    for (uint32_t i = 0; i < board.master_count; i++) {
        uint32_t m = mistake("log-descending") ? board.master_count - 1 - i : i;

        if ((answered >> m & 1) != 0)
            enter(m);
    }
    return mask | answered;
}

uint32_t simulator_clock(struct fabric_lines *lines)
{
    memset(lines, 0, sizeof *lines);
    for (uint32_t s = 0; s < board.slave_count; s++) {
        if (!card[s].serving && !(mistake("late-serves") && owner_late(s)))
            grant(s);
        if (card[s].serving)
            serve(&card[s], &lines->line[s]);
    }
    return answer_unmapped(finish());
}

uint32_t simulator_take(struct fabric_entry *entry)
{
    struct fabric_log *log = &simulator_log;

    memset(entry, 0, sizeof *entry);
    if (log->count == 0)
        return mistake("log-empty") ? FABRIC_TAKEN : FABRIC_EMPTY_LOG;
    if (mistake("log-newest")) {
        log->count--;
        *entry = log->entry[log->count];
        memset(&log->entry[log->count], 0, sizeof *entry);
    } else {
        *entry = log->entry[0];
        move_down();
    }
    if (mistake("log-cleared") || (mistake("log-emptied") && log->count == 0))
        log->lost = 0;
    return FABRIC_TAKEN;
}
