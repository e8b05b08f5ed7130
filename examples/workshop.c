/*
 * Three terminals and a sequencer in one process, over a cable that loses and doubles packets. Terminal 2 is a bench that sleeps for a
 * while. Each terminal feeds a work list what it takes; terminal 0 keeps a journal on a file. At the end every terminal has taken the
 * same messages in the same order, or the program says so and fails.
 *
 *     workshop [SEED [JOURNAL]]
 */
#include "warghytes.h"
#include <stdio.h>
#include <stdlib.h>
#include <string.h>

enum { TERMINALS = 3, GROUP = 7, MESSAGES = 24, ROUNDS = 2000, TO_SEQUENCER = TERMINALS, CABLE = 256, ASLEEP_FROM = 6, ASLEEP_TO = 30 };

struct taken {
    uint32_t number, originator, count;
    size_t length;
    uint8_t payload[WARGHYTES_PAYLOAD];
};

struct terminal {
    struct warghytes_member member;
    struct warghytes_job jobs[WARGHYTES_JOBS];
    struct taken order[TERMINALS * MESSAGES];
    size_t took;
};

struct packet {
    int to;
    size_t size;
    uint8_t bytes[WARGHYTES_PACKET];
};

static struct warghytes_sequencer sequencer;
static struct terminal terminals[TERMINALS];
static struct packet cable[CABLE];
static size_t on_cable, sent, lost, doubled, slept_through, again, full;
static uint32_t seed = 2026;

static struct warghytes_writer writer = WARGHYTES_WRITER_FRESH;
static uint8_t hand[WARGHYTES_BLOCK], block[WARGHYTES_BLOCK];
static FILE *journal;

static uint32_t chance(uint32_t below)
{
    seed = seed * 1664525u + 1013904223u;
    return (seed >> 8) % below;
}

static void fail(const char *what, uint32_t code)
{
    fprintf(stderr, "%s: code %u\n", what, (unsigned)code);
    exit(1);
}

/* A packet goes on the cable: one in four is lost, one in eight comes twice. */
static void send_to(int to, const uint8_t *bytes, size_t size)
{
    int copies = 1;
    sent++;
    if (chance(4) == 0) {
        copies = 0;
        lost++;
    } else if (chance(8) == 0) {
        copies = 2;
        doubled++;
    }
    for (; copies > 0 && on_cable < CABLE; copies--) {
        cable[on_cable].to = to;
        cable[on_cable].size = size;
        memcpy(cable[on_cable].bytes, bytes, size);
        on_cable++;
    }
}

static void send_to_all(const uint8_t *bytes, size_t size)
{
    for (int i = 0; i < TERMINALS; i++)
        send_to(i, bytes, size);
}

static int asleep(int i, int round)
{
    return i == 2 && ASLEEP_FROM <= round && round < ASLEEP_TO;
}

static void sequencer_hears(const struct packet *p)
{
    uint8_t out[WARGHYTES_PACKET];
    struct warghytes_told told = warghytes_sequencer_receive(&sequencer, p->bytes, p->size, out, sizeof out);
    if (told.code < WARGHYTES_WORDS)
        fail("the sequencer refused a packet", told.code);
    if (told.code == WARGHYTES_AGAIN)
        again++;
    if (told.code == WARGHYTES_FULL)
        full++;
    if (told.written > 0)
        send_to_all(out, told.written);
    if (told.code == WARGHYTES_WANTED)
        for (uint32_t number = told.first; number <= told.second; number++) {
            struct warghytes_told copy = warghytes_sequencer_copy(&sequencer, number, out, sizeof out);
            if (copy.code == WARGHYTES_SENT)
                send_to_all(out, copy.written);
        }
}

static void terminal_hears(struct terminal *t, const struct packet *p)
{
    uint8_t out[WARGHYTES_PACKET];
    struct warghytes_told told = warghytes_member_receive(&t->member, p->bytes, p->size, out, sizeof out);
    if (told.code < WARGHYTES_WORDS)
        fail("a member refused a packet", told.code);
    if (told.written > 0)
        send_to(TO_SEQUENCER, out, told.written);
}

/* What came is handed over in any order; what a terminal that sleeps would have heard is lost. */
static void deliver(int round)
{
    size_t n = on_cable;
    static struct packet came[CABLE];
    memcpy(came, cable, n * sizeof came[0]);
    on_cable = 0;
    for (; n > 0; n--) {
        size_t k = chance((uint32_t)n);
        struct packet p = came[k];
        came[k] = came[n - 1];
        if (p.to == TO_SEQUENCER)
            sequencer_hears(&p);
        else if (asleep(p.to, round))
            slept_through++;
        else
            terminal_hears(&terminals[p.to], &p);
    }
}

static void put_block(void)
{
    if (fwrite(block, 1, sizeof block, journal) != sizeof block || fflush(journal) != 0)
        fail("the journal could not be written", 0);
}

static void keep(const struct taken *m)
{
    struct warghytes_answer kept = warghytes_journal_write(&writer, m->number, (uint8_t)m->originator, m->count, m->payload, m->length, hand, block);
    if (kept.code != WARGHYTES_KEPT)
        fail("the journal refused a message", kept.code);
    if (kept.number > 0)
        put_block();
}

static void take_all(int i)
{
    struct terminal *t = &terminals[i];
    uint8_t out[WARGHYTES_PACKET];
    struct warghytes_told told;
    while ((told = warghytes_member_take(&t->member, out, sizeof out)).code == WARGHYTES_TOOK) {
        struct taken *m = &t->order[t->took++];
        m->number = told.first;
        m->originator = told.second;
        m->count = told.third;
        m->length = told.written;
        memcpy(m->payload, out, told.written);
        struct warghytes_answer fed = warghytes_jobs_feed(t->jobs, WARGHYTES_JOBS, (uint8_t)m->originator, m->payload, m->length);
        if (fed.code == WARGHYTES_UNSOUND_STATE)
            fail("the work list is unsound", fed.code);
        if (i == 0)
            keep(m);
    }
    if (told.code != WARGHYTES_NONE)
        fail("a take was refused", told.code);
}

/* Its k-th message: terminal 0 adds jobs, terminal 1 fetches them, and the bench says what becomes of unit k modulo 5. */
static size_t message(int i, uint32_t k, uint8_t *payload)
{
    if (i == 1) {
        payload[0] = 2;
        return 1;
    }
    if (i == 0)
        return (size_t)sprintf((char *)payload, "\1board %u", (unsigned)k);
    return (size_t)sprintf((char *)payload, "\3%c%cstep %u of the chair", 1, (int)(k % 5 + 1), (unsigned)k);
}

static void works(int i)
{
    struct terminal *t = &terminals[i];
    uint8_t payload[WARGHYTES_PAYLOAD], out[WARGHYTES_PACKET];
    take_all(i);
    if (t->member.submitted < MESSAGES && chance(2) == 0) {
        size_t size = message(i, t->member.submitted + 1, payload);
        struct warghytes_told told = warghytes_member_submit(&t->member, payload, size, out, sizeof out);
        if (told.code == WARGHYTES_SENT)
            send_to(TO_SEQUENCER, out, told.written);
        else if (told.code != WARGHYTES_QUEUED && told.code != WARGHYTES_ALREADY_WAITING)
            fail("a message was refused", told.code);
    } else if (t->member.waiting > 0) {
        struct warghytes_told told = warghytes_member_repeat(&t->member, out, sizeof out);
        send_to(TO_SEQUENCER, out, told.written);
    }
}

static int finished(void)
{
    for (int i = 0; i < TERMINALS; i++) {
        const struct warghytes_member *m = &terminals[i].member;
        if (m->submitted < MESSAGES || m->waiting > 0 || m->taken < sequencer.top)
            return 0;
    }
    return 1;
}

static int run(void)
{
    uint8_t out[WARGHYTES_PACKET];
    for (int round = 0; round < ROUNDS; round++) {
        if (round == ASLEEP_FROM)
            printf("round %d: the bench falls asleep at number %u\n", round, (unsigned)terminals[2].member.taken);
        if (round == ASLEEP_TO)
            printf("round %d: the bench wakes at number %u; the last is %u\n", round, (unsigned)terminals[2].member.taken, (unsigned)sequencer.top);
        for (int i = 0; i < TERMINALS; i++)
            if (!asleep(i, round))
                works(i);
        struct warghytes_told poll = warghytes_sequencer_poll(&sequencer, out, sizeof out);
        send_to_all(out, poll.written);
        deliver(round);
        if (finished())
            return round;
    }
    fail("the terminals did not come to one order", 0);
    return ROUNDS;
}

static int same_message(const struct taken *x, const struct taken *y)
{
    return x->number == y->number && x->originator == y->originator && x->count == y->count && x->length == y->length
        && memcmp(x->payload, y->payload, x->length) == 0;
}

static int same_job(const struct warghytes_job *x, const struct warghytes_job *y)
{
    return x->state == y->state && x->member == y->member && x->length == y->length && memcmp(x->bytes, y->bytes, sizeof x->bytes) == 0;
}

static int same_at(const struct terminal *x, const struct terminal *y)
{
    if (x->took != TERMINALS * MESSAGES || y->took != x->took)
        return 0;
    for (size_t k = 0; k < x->took; k++)
        if (!same_message(&x->order[k], &y->order[k]))
            return 0;
    for (size_t k = 0; k < WARGHYTES_JOBS; k++)
        if (!same_job(&x->jobs[k], &y->jobs[k]))
            return 0;
    return 1;
}

static void show_jobs(void)
{
    size_t waiting = 0, given = 0;
    for (size_t k = 0; k < WARGHYTES_JOBS; k++) {
        waiting += terminals[0].jobs[k].state == 1;
        given += terminals[0].jobs[k].state == 2;
    }
    printf("work list: %zu jobs wait, %zu given\n", waiting, given);
}

/* Shutdown, and then what a restart finds on the card. */
static void restart(const char *name)
{
    static uint8_t bytes[64 * WARGHYTES_BLOCK], plan[4096];
    struct warghytes_answer closed = warghytes_journal_finish(&writer, hand, block);
    if (closed.code != WARGHYTES_CLOSED)
        fail("the journal did not close", closed.code);
    if (closed.number > 0)
        put_block();
    fclose(journal);
    journal = fopen(name, "rb");
    size_t size = journal == NULL ? 0 : fread(bytes, 1, sizeof bytes, journal);
    struct warghytes_found found = warghytes_journal_read(bytes, size, &writer);
    if (found.code != WARGHYTES_READ || found.messages != terminals[0].took)
        fail("the journal does not have every message", found.code);
    printf("journal: %zu blocks, %zu messages, goes on behind number %u\n", found.blocks, found.messages, (unsigned)writer.last);
    struct warghytes_answer laid = warghytes_plan(bytes, size, plan, sizeof plan);
    if (laid.code != WARGHYTES_BYTES)
        fail("no plan", laid.code);
    for (size_t at = 0; at < laid.number;) {
        size_t unit = plan[at] * 256u + plan[at + 1], length = plan[at + 2] * 256u + plan[at + 3];
        printf("unit %zu: %.*s\n", unit, (int)length, (const char *)&plan[at + 4]);
        at += 4 + length;
    }
    fclose(journal);
}

int main(int argc, char **argv)
{
    const char *name = argc > 2 ? argv[2] : "workshop.journal";
    if (argc > 1)
        seed = (uint32_t)strtoul(argv[1], NULL, 10);
    journal = fopen(name, "wb");
    if (journal == NULL)
        fail("the journal could not be opened", 0);
    if (warghytes_sequencer_open(&sequencer, TERMINALS, GROUP, 0).code != WARGHYTES_ACCEPTED)
        fail("the sequencer did not open", 0);
    for (int i = 0; i < TERMINALS; i++)
        if (warghytes_member_open(&terminals[i].member, TERMINALS, (uint8_t)i, GROUP, 0).code != WARGHYTES_ACCEPTED)
            fail("a member did not open", 0);
    int rounds = run();
    printf("%d rounds: %zu packets sent, %zu lost, %zu doubled, %zu slept through, %zu requests again, %zu times full\n", rounds, sent, lost, doubled, slept_through, again, full);
    show_jobs();
    restart(name);
    for (int i = 1; i < TERMINALS; i++)
        if (!same_at(&terminals[0], &terminals[i])) {
            printf("the orders of terminals 0 and %d differ\n", i);
            return 1;
        }
    printf("every terminal took the same %zu messages in the same order\n", terminals[0].took);
    return 0;
}
