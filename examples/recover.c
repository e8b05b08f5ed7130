/*
 * Three terminals in one process, over a cable that loses and doubles packets. Terminal 0 has the sequencer, and burns out with all that it
 * holds. The other two miss its polls; terminal 2 invites, and makes the group anew of those that reply. With a resilience degree of 1 each
 * message that anybody took lies at one terminal more than the sequencer's: nothing that terminal 0 took is lost, and the two that are left
 * take the same messages in the same order, or the program says so and fails.
 *
 *     recover [SEED]
 */
#include "warghytes.h"
#include <stdio.h>
#include <stdlib.h>
#include <string.h>

enum { TERMINALS = 3, GROUP = 7, RESILIENCE = 1, MESSAGES = 12, ROUNDS = 4000, CABLE = 512, BURNS = 30, PATIENCE = 12 };

struct taken {
    uint32_t number, originator, count;
    size_t length;
    uint8_t payload[WARGHYTES_PAYLOAD];
};

struct packet {
    size_t size;
    uint8_t bytes[WARGHYTES_PACKET];
};

static struct warghytes_terminal terminals[TERMINALS];
static struct taken orders[TERMINALS][2 * TERMINALS * MESSAGES];
static size_t took[TERMINALS];
static int burnt[TERMINALS], missed;
static struct packet cable[CABLE], result;
static size_t on_cable, sent, lost, doubled, invitations;
static uint32_t seed = 2026;

static uint32_t chance(uint32_t below)
{
    seed = seed * 1664525u + 1013904223u;
    return (seed >> 8) % below;
}

static void fail(const char *what, uint32_t code)
{
    fprintf(stderr, "%s: code %u\n", what, (unsigned)code);
    exit(1);
}

/* A packet goes on the cable, for all: one in four is lost, one in eight comes twice. */
static void send_to_all(const uint8_t *bytes, size_t size)
{
    int copies = 1;
    sent++;
    if (chance(4) == 0) {
        copies = 0;
        lost++;
    } else if (chance(8) == 0) {
        copies = 2;
        doubled++;
    }
    for (; copies > 0 && on_cable < CABLE; copies--) {
        cable[on_cable].size = size;
        memcpy(cable[on_cable].bytes, bytes, size);
        on_cable++;
    }
}

/* Every packet goes to the member, and to the sequencer where there is one: each refuses what is not for it. */
static void hears(int i, const struct packet *p)
{
    struct warghytes_terminal *t = &terminals[i];
    uint8_t out[WARGHYTES_PACKET];
    if (i == 2 && p->bytes[0] == WARGHYTES_KIND_POLL)
        missed = 0;
    struct warghytes_told told = warghytes_terminal_receive(t, p->bytes, p->size, out, sizeof out);
    if (told.code == WARGHYTES_UNSOUND_STATE)
        fail("a terminal is unsound", told.code);
    if (told.code >= WARGHYTES_WORDS && told.written > 0)
        send_to_all(out, told.written);
    if (!t->sequencing)
        return;
    told = warghytes_terminal_order(t, p->bytes, p->size, out, sizeof out);
    if (told.code == WARGHYTES_UNSOUND_STATE)
        fail("a sequencer is unsound", told.code);
    if (told.code >= WARGHYTES_WORDS && told.written > 0)
        send_to_all(out, told.written);
    if (told.code == WARGHYTES_WANTED)
        for (uint32_t number = told.first; number <= told.second; number++) {
            struct warghytes_told copy = warghytes_terminal_copy(t, number, out, sizeof out);
            if (copy.code == WARGHYTES_SENT)
                send_to_all(out, copy.written);
        }
}

/* What came is handed over in any order. */
static void deliver(void)
{
    static struct packet came[CABLE];
    size_t n = on_cable;
    memcpy(came, cable, n * sizeof came[0]);
    on_cable = 0;
    for (; n > 0; n--) {
        size_t k = chance((uint32_t)n);
        struct packet p = came[k];
        came[k] = came[n - 1];
        for (int i = 0; i < TERMINALS; i++)
            if (!burnt[i] && chance(8) != 0)
                hears(i, &p);
    }
}

static void take_all(int i)
{
    uint8_t out[WARGHYTES_PACKET];
    struct warghytes_told told;
    while ((told = warghytes_terminal_take(&terminals[i], out, sizeof out)).code == WARGHYTES_TOOK) {
        struct taken *m = &orders[i][took[i]++];
        m->number = told.first;
        m->originator = told.second;
        m->count = told.third;
        m->length = told.written;
        memcpy(m->payload, out, told.written);
    }
    if (told.code != WARGHYTES_NONE)
        fail("a take was refused", told.code);
}

static void works(int i)
{
    struct warghytes_terminal *t = &terminals[i];
    uint8_t out[WARGHYTES_PACKET];
    take_all(i);
    if (t->member.submitted < MESSAGES && chance(3) == 0) {
        char text[64];
        int size = sprintf(text, "board %u of terminal %d", (unsigned)t->member.submitted + 1, i);
        struct warghytes_told told = warghytes_terminal_submit(t, (const uint8_t *)text, (size_t)size, out, sizeof out);
        if (told.code == WARGHYTES_SENT)
            send_to_all(out, told.written);
        else if (told.code != WARGHYTES_QUEUED && told.code != WARGHYTES_ALREADY_WAITING)
            fail("a message was refused", told.code);
    } else if (t->member.waiting > 0) {
        struct warghytes_told told = warghytes_terminal_repeat(t, out, sizeof out);
        send_to_all(out, told.written);
    }
    if (t->sequencing) {
        struct warghytes_told poll = warghytes_terminal_poll(t, out, sizeof out);
        send_to_all(out, poll.written);
        /* the first number that not everybody is known to have taken, in case somebody missed that it is accepted */
        struct warghytes_told copy = warghytes_terminal_copy(t, t->sequencer.floor + 1, out, sizeof out);
        if (copy.code == WARGHYTES_SENT)
            send_to_all(out, copy.written);
    }
}

/* Terminal 2 waits for polls; where they stay away, it invites, each time with a new number, and makes the group of two. */
static void recovers(int round)
{
    struct warghytes_terminal *t = &terminals[2];
    uint8_t out[WARGHYTES_PACKET];
    struct warghytes_told told;
    if (result.size > 0)
        send_to_all(result.bytes, result.size);
    else if (t->inviting && (told = warghytes_terminal_make(t, 2, out, sizeof out)).code == WARGHYTES_SENT) {
        result.size = told.written;
        memcpy(result.bytes, out, told.written);
        printf("round %d: group %u is made anew, terminal %u is elected\n", round, (unsigned)t->member.group, (unsigned)t->member.elected);
    } else if (++missed % PATIENCE == 0) {
        told = warghytes_terminal_invite(t, GROUP + 1 + (uint32_t)invitations++, out, sizeof out);
        if (told.code != WARGHYTES_SENT)
            fail("an invitation was refused", told.code);
        send_to_all(out, told.written);
    }
}

static int finished(void)
{
    uint32_t top = 0;
    for (int i = 0; i < TERMINALS; i++)
        if (!burnt[i] && terminals[i].sequencing && terminals[i].sequencer.top > top)
            top = terminals[i].sequencer.top;
    for (int i = 0; i < TERMINALS; i++) {
        const struct warghytes_terminal *t = &terminals[i];
        if (!burnt[i] && (t->member.submitted < MESSAGES || t->member.waiting > 0 || t->member.taken < top))
            return 0;
    }
    return 1;
}

static int run(void)
{
    for (int round = 0; round < ROUNDS; round++) {
        if (round == BURNS) {
            printf("round %d: terminal 0 burns out, with the sequencer; it had taken %zu messages of %u\n", round, took[0], (unsigned)terminals[0].sequencer.top);
            memset(&terminals[0], 0xaa, sizeof terminals[0]);
            burnt[0] = 1;
        }
        for (int i = 0; i < TERMINALS; i++)
            if (!burnt[i])
                works(i);
        recovers(round);
        deliver();
        if (round > BURNS && finished())
            return round;
    }
    fail("the terminals did not come to one order", 0);
    return ROUNDS;
}

static int same(const struct taken *x, const struct taken *y)
{
    return x->number == y->number && x->originator == y->originator && x->count == y->count && x->length == y->length
        && memcmp(x->payload, y->payload, x->length) == 0;
}

int main(int argc, char **argv)
{
    if (argc > 1)
        seed = (uint32_t)strtoul(argv[1], NULL, 10);
    for (int i = 0; i < TERMINALS; i++)
        if (warghytes_terminal_open(&terminals[i], TERMINALS, (uint8_t)i, GROUP, RESILIENCE).code != WARGHYTES_ACCEPTED)
            fail("a terminal did not open", 0);
    int rounds = run();
    printf("%d rounds: %zu packets sent, %zu lost, %zu doubled, %zu invitations\n", rounds, sent, lost, doubled, invitations);
    if (took[1] != took[2]) {
        printf("terminals 1 and 2 did not take as many\n");
        return 1;
    }
    for (size_t k = 0; k < took[1]; k++)
        if (!same(&orders[1][k], &orders[2][k]) || (k < took[0] && !same(&orders[0][k], &orders[1][k]))) {
            printf("the orders differ at the %zu-th message\n", k + 1);
            return 1;
        }
    if (took[0] > took[1]) {
        printf("a message that terminal 0 took is lost\n");
        return 1;
    }
    printf("terminals 1 and 2 took the same %zu messages in the same order, and all %zu that terminal 0 took\n", took[1], took[0]);
    return 0;
}
