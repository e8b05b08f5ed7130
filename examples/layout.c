/*
 * Holds the header to the library: a call writes the whole of a state and nothing behind it, and what a few calls leave stands in the
 * fields that the header names.
 */
#include "warghytes.h"
#include <stddef.h>
#include <stdio.h>
#include <stdlib.h>
#include <string.h>

static int failures;

static void check(int holds, const char *what)
{
    if (!holds) {
        printf("not so: %s\n", what);
        failures++;
    }
}

#define CHECK(holds) check(holds, #holds)

/* The end of what an opening writes, by what is left of two fillings; it is rounded up to the alignment of a number. */
static size_t end_of(const uint8_t *x, const uint8_t *y, size_t room)
{
    size_t end = room;
    while (end > 0 && x[end - 1] == 0xaa && y[end - 1] == 0x55)
        end--;
    return (end + 3) / 4 * 4;
}

static uint8_t *filled(int byte, size_t room)
{
    uint8_t *bytes = malloc(room);
    if (bytes == NULL)
        exit(1);
    memset(bytes, byte, room);
    return bytes;
}

static void sizes(void)
{
    enum { ROOM = 32768 };
    uint8_t *x = filled(0xaa, ROOM), *y = filled(0x55, ROOM);
    warghytes_sequencer_open((struct warghytes_sequencer *)(void *)x, 3, 7, 2);
    warghytes_sequencer_open((struct warghytes_sequencer *)(void *)y, 3, 7, 2);
    CHECK(end_of(x, y, ROOM) == sizeof(struct warghytes_sequencer));
    memset(x, 0xaa, ROOM);
    memset(y, 0x55, ROOM);
    warghytes_member_open((struct warghytes_member *)(void *)x, 3, 2, 7, 2);
    warghytes_member_open((struct warghytes_member *)(void *)y, 3, 2, 7, 2);
    CHECK(end_of(x, y, ROOM) == sizeof(struct warghytes_member));
    memset(x, 0xaa, ROOM);
    memset(y, 0x55, ROOM);
    warghytes_terminal_open((struct warghytes_terminal *)(void *)x, 3, 0, 7, 2);
    warghytes_terminal_open((struct warghytes_terminal *)(void *)y, 3, 0, 7, 2);
    CHECK(end_of(x, y, ROOM) == sizeof(struct warghytes_terminal));
    free(x);
    free(y);
}

static uint8_t request[WARGHYTES_PACKET], broadcast[WARGHYTES_PACKET], out[WARGHYTES_PACKET];
static struct warghytes_sequencer s;
static struct warghytes_member m;

static void opened(void)
{
    memset(&s, 0xaa, sizeof s);
    memset(&m, 0xaa, sizeof m);
    struct warghytes_told told = warghytes_sequencer_poll(&s, out, sizeof out);
    CHECK(told.code == WARGHYTES_UNSOUND_STATE && told.written == 0);
    told = warghytes_member_take(&m, out, sizeof out);
    CHECK(told.code == WARGHYTES_UNSOUND_STATE && m.n == 0xaa && m.held_payloads[WARGHYTES_HELD * WARGHYTES_PAYLOAD - 1] == 0xaa);
    CHECK(warghytes_sequencer_open(&s, 3, 0x01020304, 0).code == WARGHYTES_ACCEPTED);
    CHECK(s.n == 3 && s.resilience == 0 && s.group == 0x01020304 && s.top == 0 && s.payloads[sizeof s.payloads - 1] == 0);
    CHECK(warghytes_member_open(&m, 3, 3, 0x01020304, 0).code == WARGHYTES_OPENING);
    CHECK(warghytes_member_open(&m, 3, 2, 0x01020304, 0).code == WARGHYTES_ACCEPTED);
    CHECK(m.n == 3 && m.resilience == 0 && m.group == 0x01020304 && m.number == 2 && m.submitted == 0 && m.held_payloads[sizeof m.held_payloads - 1] == 0);
}

static void member_fields(void)
{
    struct warghytes_told told = warghytes_member_submit(&m, (const uint8_t *)"saw", 3, request, sizeof request);
    CHECK(told.code == WARGHYTES_SENT && told.written == 23 && m.submitted == 1 && m.waiting == 1);
    told = warghytes_member_submit(&m, (const uint8_t *)"board", 5, out, sizeof out);
    CHECK(told.code == WARGHYTES_QUEUED && told.first == 2 && told.written == 0 && m.submitted == 2 && m.waiting == 2);
    CHECK(m.queued[1] == 1 && m.queued_originators[1] == 2 && m.queued_lengths[1] == 3 && memcmp(m.queued_payloads + WARGHYTES_PAYLOAD, "saw", 4) == 0);
    CHECK(m.queued[2] == 2 && m.queued_lengths[2] == 5 && memcmp(m.queued_payloads + 2 * WARGHYTES_PAYLOAD, "board", 6) == 0);
}

static void sequencer_fields(void)
{
    struct warghytes_told told = warghytes_sequencer_receive(&s, request, 23, broadcast, sizeof broadcast);
    CHECK(told.code == WARGHYTES_NUMBERED && told.first == 1 && told.written == 23 && s.top == 1 && s.accepted == 1 && s.counts[2] == 1);
    CHECK(s.kept[1] == 1 && s.originators[1] == 2 && s.lengths[1] == 3 && memcmp(s.payloads + WARGHYTES_PAYLOAD, "saw", 4) == 0);
    told = warghytes_sequencer_receive(&s, request, 23, out, sizeof out);
    CHECK(told.code == WARGHYTES_AGAIN && told.first == 1 && s.repeats[2] == 1);
    told = warghytes_member_receive(&m, broadcast, 23, out, sizeof out);
    CHECK(told.code == WARGHYTES_KEPT && told.written == 0 && m.accepted == 1 && m.held[1] == 1 && m.held_originators[1] == 2 && m.held_lengths[1] == 3);
    CHECK(memcmp(m.held_payloads + WARGHYTES_PAYLOAD, "saw", 4) == 0);
    told = warghytes_member_take(&m, out, sizeof out);
    CHECK(told.code == WARGHYTES_TOOK && told.first == 1 && told.second == 2 && told.third == 1 && told.more == 0 && told.written == 3);
    CHECK(m.taken == 1 && m.waiting == 1 && memcmp(out, "saw", 3) == 0);
    told = warghytes_member_status(&m, out, sizeof out);
    CHECK(told.code == WARGHYTES_SENT && warghytes_sequencer_receive(&s, out, told.written, request, sizeof request).code == WARGHYTES_NOTED);
    CHECK(s.taken[2] == 1 && s.floor == 0);
}

/* Terminal 0 types with a resilience degree of 1: nobody takes the message before terminal 1 has confirmed that it has it. */
static void offered(void)
{
    static struct warghytes_sequencer q;
    static struct warghytes_member t[2];
    uint8_t offer[WARGHYTES_PACKET], confirmation[WARGHYTES_PACKET], acceptance[WARGHYTES_PACKET];
    CHECK(warghytes_sequencer_open(&q, 2, 7, 2).code == WARGHYTES_RESILIENCE && q.n == 0);
    CHECK(warghytes_sequencer_open(&q, 2, 7, 1).code == WARGHYTES_ACCEPTED && q.resilience == 1);
    for (uint8_t i = 0; i < 2; i++) {
        CHECK(warghytes_member_open(&t[i], 2, i, 7, 2).code == WARGHYTES_RESILIENCE);
        CHECK(warghytes_member_open(&t[i], 2, i, 7, 1).code == WARGHYTES_ACCEPTED && t[i].resilience == 1);
    }
    warghytes_member_submit(&t[0], (const uint8_t *)"saw", 3, request, sizeof request);
    struct warghytes_told told = warghytes_sequencer_receive(&q, request, 23, offer, sizeof offer);
    CHECK(told.code == WARGHYTES_NUMBERED && told.written == 23 && offer[0] == WARGHYTES_KIND_OFFER && q.top == 1 && q.accepted == 0);
    told = warghytes_member_receive(&t[0], offer, 23, out, sizeof out);
    CHECK(told.code == WARGHYTES_KEPT && told.written == 0 && t[0].held[1] == 1 && t[0].accepted == 0);
    told = warghytes_member_receive(&t[1], offer, 23, confirmation, sizeof confirmation);
    CHECK(told.code == WARGHYTES_KEPT && told.written == 20 && confirmation[0] == WARGHYTES_KIND_CONFIRM);
    told = warghytes_member_receive(&t[1], offer, 23, out, sizeof out);
    CHECK(told.code == WARGHYTES_OLD && told.written == 20 && memcmp(out, confirmation, 20) == 0);
    for (int i = 0; i < 2; i++)
        CHECK(warghytes_member_take(&t[i], out, sizeof out).code == WARGHYTES_NONE);
    confirmation[1] = 0;
    CHECK(warghytes_sequencer_receive(&q, confirmation, 20, out, sizeof out).code == WARGHYTES_NOT_EXPECTED && q.accepted == 0);
    confirmation[1] = 1;
    told = warghytes_sequencer_receive(&q, confirmation, 20, acceptance, sizeof acceptance);
    CHECK(told.code == WARGHYTES_ACCEPTED && told.written == 20 && acceptance[0] == WARGHYTES_KIND_ACCEPT && q.accepted == 1 && q.marks[1] == 0);
    for (int i = 0; i < 2; i++) {
        told = warghytes_member_receive(&t[i], acceptance, 20, out, sizeof out);
        CHECK(told.code == WARGHYTES_NOTED && told.written == 0 && t[i].accepted == 1);
        told = warghytes_member_take(&t[i], out, sizeof out);
        CHECK(told.code == WARGHYTES_TOOK && told.first == 1 && told.second == 0 && told.written == 3 && memcmp(out, "saw", 3) == 0);
    }
}

/* With a degree of 2 the first confirmation is a mark. */
static void marked(void)
{
    static struct warghytes_sequencer q;
    static struct warghytes_member t;
    uint8_t offer[WARGHYTES_PACKET];
    warghytes_sequencer_open(&q, 3, 7, 2);
    warghytes_member_open(&t, 3, 2, 7, 2);
    warghytes_member_submit(&t, (const uint8_t *)"saw", 3, request, sizeof request);
    warghytes_sequencer_receive(&q, request, 23, offer, sizeof offer);
    CHECK(warghytes_member_receive(&t, offer, 23, out, sizeof out).written == 20);
    struct warghytes_told told = warghytes_sequencer_receive(&q, out, 20, request, sizeof request);
    CHECK(told.code == WARGHYTES_MARKED && told.written == 0 && q.accepted == 0 && q.marks[1] == 4);
}

/* Terminal 0 has the sequencer; terminal 1 invites, and makes the group anew with terminal 2. */
static void terminal_fields(void)
{
    static struct warghytes_terminal t[3];
    uint8_t offer[WARGHYTES_PACKET], reply[WARGHYTES_PACKET], result[WARGHYTES_PACKET];
    memset(t, 0xaa, sizeof t);
    CHECK(warghytes_terminal_take(&t[0], out, sizeof out).code == WARGHYTES_UNSOUND_STATE && t[0].member.n == 0xaa && t[0].payloads[sizeof t[0].payloads - 1] == 0xaa);
    CHECK(warghytes_terminal_open(&t[0], 3, 3, 7, 1).code == WARGHYTES_OPENING && t[0].member.n == 0 && t[0].sequencing == 0 && t[0].payloads[sizeof t[0].payloads - 1] == 0);
    CHECK(warghytes_terminal_open(&t[0], 3, 0, 7, 3).code == WARGHYTES_RESILIENCE && t[0].sequencer.n == 0 && t[0].sequencing == 0);
    for (uint8_t i = 0; i < 3; i++)
        CHECK(warghytes_terminal_open(&t[i], 3, i, 7, 1).code == WARGHYTES_ACCEPTED && t[i].member.number == i && t[i].member.group == 7 && t[i].sequencing == (i == 0) && t[i].sequencer.n == (i == 0 ? 3 : 0));
    CHECK(warghytes_terminal_poll(&t[1], out, sizeof out).code == WARGHYTES_UNSOUND_STATE);
    struct warghytes_told told = warghytes_terminal_poll(&t[0], out, sizeof out);
    CHECK(told.code == WARGHYTES_SENT && told.written == 20 && out[0] == WARGHYTES_KIND_POLL);
    told = warghytes_terminal_submit(&t[2], (const uint8_t *)"saw", 3, request, sizeof request);
    CHECK(told.code == WARGHYTES_SENT && told.written == 23 && t[2].member.submitted == 1 && t[2].member.waiting == 1 && t[2].queued[1] == 1 && t[2].queued_lengths[1] == 3);
    told = warghytes_terminal_order(&t[0], request, 23, offer, sizeof offer);
    CHECK(told.code == WARGHYTES_NUMBERED && told.first == 1 && t[0].sequencer.top == 1 && t[0].kept[1] == 1 && t[0].counts[2] == 1 && t[0].lengths[1] == 3);
    CHECK(warghytes_terminal_receive(&t[1], offer, 23, out, sizeof out).code == WARGHYTES_KEPT && t[1].held[1] == 1 && t[1].held_lengths[1] == 3);
    told = warghytes_terminal_order(&t[0], memcpy(reply, out, 20), 20, out, sizeof out);
    CHECK(told.code == WARGHYTES_ACCEPTED && t[0].sequencer.accepted == 1);
    CHECK(warghytes_terminal_receive(&t[1], memcpy(reply, out, 20), 20, out, sizeof out).code == WARGHYTES_NOTED && t[1].member.accepted == 1);
    told = warghytes_terminal_take(&t[1], out, sizeof out);
    CHECK(told.code == WARGHYTES_TOOK && told.first == 1 && told.second == 2 && t[1].member.taken == 1 && t[1].past[1] == 1 && t[1].past_originators[1] == 2 && t[1].past_lengths[1] == 3);
    CHECK(memcmp(t[1].past_payloads + WARGHYTES_PAYLOAD, "saw", 4) == 0 && t[1].highest[2] == 1);
    CHECK(warghytes_terminal_make(&t[1], 1, out, sizeof out).code == WARGHYTES_NOT_OF_ATTEMPT);
    told = warghytes_terminal_invite(&t[1], 8, request, sizeof request);
    CHECK(told.code == WARGHYTES_SENT && told.written == 20 && request[0] == WARGHYTES_KIND_INVITATION && t[1].inviting == 1 && t[1].invited == 8 && t[1].repliers == 2 && t[1].replies[1] == 1);
    CHECK(t[1].replied == 1 && t[1].attempt == 8 && t[1].number == 1 && warghytes_terminal_make(&t[1], 2, out, sizeof out).code == WARGHYTES_FEW_SURVIVORS);
    told = warghytes_terminal_receive(&t[2], request, 20, reply, sizeof reply);
    CHECK(told.code == WARGHYTES_NOTED && told.written == 20 && reply[0] == WARGHYTES_KIND_REPLY && t[2].replied == 1 && t[2].attempt == 8 && t[2].number == 0);
    CHECK(warghytes_terminal_receive(&t[2], offer, 23, out, sizeof out).code == WARGHYTES_OTHER_GROUP);
    told = warghytes_terminal_receive(&t[0], request, 20, out, sizeof out);
    CHECK(told.code == WARGHYTES_NOTED && t[0].frozen == 1 && warghytes_terminal_order(&t[0], request, 20, out, sizeof out).code == WARGHYTES_OTHER_END);
    CHECK(warghytes_terminal_receive(&t[1], reply, 20, out, sizeof out).code == WARGHYTES_NOTED && t[1].repliers == 6 && t[1].replies[2] == 0);
    told = warghytes_terminal_make(&t[1], 2, result, sizeof result);
    CHECK(told.code == WARGHYTES_SENT && told.written == 22 && result[0] == WARGHYTES_KIND_RESULT && t[1].member.group == 8 && t[1].member.elected == 1 && t[1].member.survivors == 6);
    CHECK(t[1].sequencing == 1 && t[1].sequencer.group == 8 && t[1].sequencer.top == 1 && t[1].kept[1] == 1 && t[1].replied == 0 && t[1].inviting == 0 && t[1].repliers == 0);
    CHECK(warghytes_terminal_receive(&t[2], result, 22, out, sizeof out).code == WARGHYTES_NOTED && t[2].member.group == 8 && t[2].sequencing == 0 && t[2].replied == 0);
    told = warghytes_terminal_copy(&t[1], 1, offer, sizeof offer);
    CHECK(told.code == WARGHYTES_SENT && warghytes_terminal_receive(&t[2], offer, told.written, out, sizeof out).code == WARGHYTES_KEPT && t[2].held[1] == 1);
    CHECK(warghytes_terminal_take(&t[2], out, sizeof out).code == WARGHYTES_TOOK && t[2].member.waiting == 0 && t[2].past[1] == 1);
    CHECK(warghytes_terminal_repeat(&t[2], out, sizeof out).code == WARGHYTES_NOTHING_WAITING);
    told = warghytes_terminal_status(&t[2], out, sizeof out);
    CHECK(told.code == WARGHYTES_SENT && warghytes_terminal_order(&t[1], out, told.written, request, sizeof request).code == WARGHYTES_NOTED && t[1].taken[2] == 1);
}

static void packet_fields(void)
{
    struct warghytes_fields fields = { 0 };
    CHECK(warghytes_packet_read(broadcast, 22, &fields) == WARGHYTES_PAYLOAD_LENGTH && fields.kind == 0);
    CHECK(warghytes_packet_read(broadcast, 23, &fields) == WARGHYTES_FIELDS);
    CHECK(fields.kind == WARGHYTES_KIND_BROADCAST && fields.member == 2 && fields.group == 0x01020304);
    struct warghytes_answer written = warghytes_packet_write((uint8_t)fields.kind, (uint8_t)fields.member, fields.group, fields.a, fields.b, fields.c, broadcast + 20, 3, out, sizeof out);
    CHECK(written.code == WARGHYTES_BYTES && written.number == 23 && memcmp(out, broadcast, 23) == 0);
}

static void job_fields(void)
{
    static struct warghytes_job jobs[WARGHYTES_JOBS + 1];
    struct warghytes_answer fed = warghytes_jobs_feed(jobs, WARGHYTES_JOBS, 1, (const uint8_t *)"\1saw", 4);
    CHECK(fed.code == WARGHYTES_ADDED && jobs[0].state == 1 && jobs[0].length == 3 && memcmp(jobs[0].bytes, "saw", 4) == 0);
    fed = warghytes_jobs_feed(jobs, WARGHYTES_JOBS, 1, (const uint8_t *)"\1board", 6);
    CHECK(fed.code == WARGHYTES_ADDED && jobs[1].state == 1 && jobs[1].length == 5);
    fed = warghytes_jobs_feed(jobs, WARGHYTES_JOBS, 4, (const uint8_t *)"\2", 1);
    CHECK(fed.code == WARGHYTES_GIVEN && fed.number == 0 && jobs[0].state == 2 && jobs[0].member == 4);
    fed = warghytes_jobs_feed(jobs, WARGHYTES_JOBS, 5, (const uint8_t *)"\2", 1);
    CHECK(fed.code == WARGHYTES_GIVEN && fed.number == 1);
    CHECK(warghytes_jobs_feed(jobs, WARGHYTES_JOBS, 5, (const uint8_t *)"\2", 1).code == WARGHYTES_NONE && jobs[1].state == 0);
    CHECK(warghytes_jobs_feed(jobs, WARGHYTES_JOBS, 5, (const uint8_t *)"\3", 1).code == WARGHYTES_NOT_FOR_LIST);
    CHECK(warghytes_jobs_feed(jobs, WARGHYTES_JOBS + 1, 5, (const uint8_t *)"\2", 1).code == WARGHYTES_UNSOUND_STATE);
}

static void journal_fields(void)
{
    struct warghytes_writer w = WARGHYTES_WRITER_FRESH, after = WARGHYTES_WRITER_FRESH;
    uint8_t hand[WARGHYTES_BLOCK], block[WARGHYTES_BLOCK];
    struct warghytes_answer kept = warghytes_journal_write(&w, 4, 2, 1, (const uint8_t *)"\3\0\7saw", 6, hand, block);
    CHECK(kept.code == WARGHYTES_KEPT && kept.number == 0 && w.last == 4 && w.free == 0 && w.first == 4 && w.records == 1 && w.used == 23);
    CHECK(warghytes_journal_write(&w, 6, 2, 1, (const uint8_t *)"saw", 3, hand, block).code == WARGHYTES_WRONG_JOURNAL && w.last == 4);
    kept = warghytes_journal_finish(&w, hand, block);
    CHECK(kept.code == WARGHYTES_CLOSED && kept.number == WARGHYTES_BLOCK && w.records == 0 && w.used == 10);
    struct warghytes_found found = warghytes_journal_read(block, sizeof block, &after);
    CHECK(found.code == WARGHYTES_READ && found.blocks == 1 && found.messages == 1 && memcmp(&after, &w, sizeof w) == 0);
    struct warghytes_writer next = WARGHYTES_WRITER_FRESH;
    found = warghytes_journal_next(&next, block, sizeof block);
    CHECK(found.code == WARGHYTES_RIGHT && found.blocks == 1 && found.messages == 1 && memcmp(&next, &w, sizeof w) == 0);
    CHECK(warghytes_journal_next(&next, block, sizeof block).code == WARGHYTES_WRONG);
    struct warghytes_record record = warghytes_journal_record(block, sizeof block, 10, 4);
    CHECK(record.code == WARGHYTES_RIGHT && record.number == 4 && record.originator == 2 && record.count == 1 && record.start == 17 && record.length == 6);
    CHECK(warghytes_journal_record(block, sizeof block, 508, 4).code == WARGHYTES_WRONG);
    next.free = 2;
    CHECK(warghytes_journal_finish(&next, hand, block).code == WARGHYTES_UNSOUND_STATE && next.free == 2);
    CHECK(warghytes_journal_next(&next, block, sizeof block).code == WARGHYTES_UNSOUND_STATE);
    uint8_t laid[WARGHYTES_BLOCK];
    struct warghytes_answer plan = warghytes_plan(block, sizeof block, laid, sizeof laid);
    CHECK(plan.code == WARGHYTES_BYTES && plan.number == 7 && memcmp(laid, "\0\7\0\3saw", 7) == 0);
    CHECK(warghytes_plan(block, sizeof block, laid, 6).code == WARGHYTES_NO_ROOM);
    CHECK(warghytes_rewrite(block, sizeof block, laid, sizeof laid).number == WARGHYTES_BLOCK);
    CHECK(warghytes_rewrite(block, 511, laid, sizeof laid).code == WARGHYTES_WRONG_JOURNAL);
}

/* Of a refused call every byte stays, those between the fields too. */
static void refused(void)
{
    static struct warghytes_terminal t, before;
    const size_t gap = offsetof(struct warghytes_terminal, frozen) + 1;
    static const uint8_t payload[WARGHYTES_PAYLOAD + 1];
    CHECK(warghytes_terminal_open(&t, 3, 0, 7, 0).code == WARGHYTES_ACCEPTED);
    ((uint8_t *)&t)[gap] = 0xa5;
    memcpy(&before, &t, sizeof t);
    CHECK(warghytes_terminal_submit(&t, payload, sizeof payload, out, sizeof out).code == WARGHYTES_LONG_PAYLOAD);
    CHECK(warghytes_terminal_take(&t, out, 0).code == WARGHYTES_SHORT_OUTPUT);
    CHECK(warghytes_terminal_receive(&t, payload, 19, out, sizeof out).code == WARGHYTES_PACKET_SIZE);
    CHECK(memcmp(&before, &t, sizeof t) == 0);
}

int main(void)
{
    sizes();
    opened();
    member_fields();
    sequencer_fields();
    offered();
    marked();
    terminal_fields();
    refused();
    packet_fields();
    job_fields();
    journal_fields();
    if (failures == 0)
        printf("the header is the library's\n");
    return failures == 0 ? 0 : 1;
}
