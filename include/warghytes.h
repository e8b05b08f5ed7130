/*
 * Warghytes: every terminal of a workshop gets the same messages in the same order.
 *
 * A terminal holds a member; the terminal that numbers the messages holds a sequencer too. Where that terminal may be lost, each holds a
 * warghytes_terminal, so that the others can make their group anew. The caller owns every state and every buffer:
 * the library allocates nothing, keeps no pointer, and has no state of its own. Each call is proved equal to its definition for every
 * state, packet, payload and output, so no call requires anything of the values that it is handed. A state of any bytes may be handed in:
 * one that no calls could have come to is refused, WARGHYTES_UNSOUND_STATE.
 *
 * What a caller owes:
 *   - each pointer points at what its type says, aligned as C aligns it, and with a size or room at as many bytes as that says; no pointer
 *     is null, also where the size is 0;
 *   - no two pointers of a call overlap, except two that are both to const;
 *   - no other thread writes what a call is handed, and none reads what is handed without const, until the call returns.
 *
 * What a call answers is a code. A code below WARGHYTES_WORDS is a refusal, by the number of the question that said no: then the state and
 * the output are as they were. What a call writes lies at the front of the output, and what lies behind it keeps its value; an output of
 * WARGHYTES_PACKET bytes has room for every packet and payload.
 */
#ifndef WARGHYTES_H
#define WARGHYTES_H

#include <stddef.h>
#include <stdint.h>

#ifdef __cplusplus
extern "C" {
#endif

/* The limits: members of a group, bytes of a payload and of a packet, messages in the history, places of a member for messages that it
 * holds beyond the next and for its own that wait, jobs of a work list and bytes of a job, bytes of a journal's block. */
#define WARGHYTES_MEMBERS 16
#define WARGHYTES_PAYLOAD 240
#define WARGHYTES_HEADER 20
#define WARGHYTES_PACKET 260
#define WARGHYTES_PLACES 32
#define WARGHYTES_HELD 8
#define WARGHYTES_WAITING 5
#define WARGHYTES_JOBS 64
#define WARGHYTES_JOB 239
#define WARGHYTES_BLOCK 512

/* The most bytes that a plan and a rewritten journal have. */
#define WARGHYTES_PLAN_MOST 123392
#define WARGHYTES_REWRITE_MOST 262144

/* ---- codes ---- */

/* Refusals, by the number of the question that said no. */
enum {
    WARGHYTES_UNSOUND_STATE = 1,
    WARGHYTES_SHORT_OUTPUT = 2,
    WARGHYTES_PACKET_SIZE = 3,
    WARGHYTES_UNKNOWN_KIND = 4,
    WARGHYTES_PAYLOAD_LENGTH = 5,
    WARGHYTES_FORBIDDEN_FIELDS = 6,
    WARGHYTES_OTHER_GROUP = 7,
    WARGHYTES_OTHER_END = 8,
    WARGHYTES_UNKNOWN_MEMBER = 9,
    WARGHYTES_ACKNOWLEDGED_AHEAD = 10,
    WARGHYTES_COUNT_AHEAD = 11,
    WARGHYTES_WANTED_AHEAD = 12,
    WARGHYTES_LONG_PAYLOAD = 13,
    WARGHYTES_ALREADY_WAITING = 14,
    WARGHYTES_NOTHING_WAITING = 15,
    WARGHYTES_NUMBERS_USED_UP = 16,
    WARGHYTES_NOT_IN_HISTORY = 17,
    WARGHYTES_OPENING = 18,
    WARGHYTES_NOT_FOR_LIST = 19,
    WARGHYTES_LIST_FULL = 20,
    WARGHYTES_WRONG_JOURNAL = 21,
    WARGHYTES_MANY_UNITS = 22,
    WARGHYTES_NO_ROOM = 23,
    WARGHYTES_RESILIENCE = 24,
    WARGHYTES_NOT_EXPECTED = 25,
    WARGHYTES_FEW_SURVIVORS = 26,
    WARGHYTES_NOT_OF_ATTEMPT = 27
};

/* The codes from here on are words. */
#define WARGHYTES_WORDS 32

enum {
    WARGHYTES_OLD = 32,         /* nothing new; member: to an offer, its confirmation may have been written, for the sequencer */
    WARGHYTES_FULL = 33,        /* sequencer: no place in the history; a poll was written, for every member */
    WARGHYTES_NOTED = 34,       /* sequencer: an acknowledgement; member: what is accepted; terminal: a packet of a reset, too */
    WARGHYTES_SENT = 35,        /* a packet was written: a member's, for the sequencer; the sequencer's, for every member */
    WARGHYTES_AGAIN = 36,       /* sequencer: a request again; first: its number; its broadcast or offer was written again */
    WARGHYTES_NUMBERED = 37,    /* sequencer: first: the number that the message got; its broadcast or offer was written, for every member */
    WARGHYTES_WANTED = 38,      /* sequencer: a member misses the numbers first to second: copy each */
    WARGHYTES_ACCEPTED = 39,    /* opening: the state is fresh; sequencer: offered messages are accepted: that was written, for every member */
    WARGHYTES_MARKED = 40,      /* sequencer: a confirmation, and more are needed */
    WARGHYTES_KEPT = 48,        /* member: the message is held; its confirmation may have been written, for the sequencer; journal: it is in hand */
    WARGHYTES_KEPT_GAP = 49,    /* member: the same, and a gap stands before it: a packet was written, for the sequencer */
    WARGHYTES_BEYOND = 50,      /* member: no place for that number yet */
    WARGHYTES_BEYOND_GAP = 51,  /* member: the same, and a gap stands before it: a packet was written, for the sequencer */
    WARGHYTES_GAP = 52,         /* member: a poll shows a gap: a packet was written, for the sequencer */
    WARGHYTES_STATUS = 53,      /* member: a poll: its status was written, for the sequencer */
    WARGHYTES_NONE = 54,        /* nothing to take; no job to give */
    WARGHYTES_TOOK = 55,        /* member: first: number, second: originator, third: count, more; the payload was written */
    WARGHYTES_QUEUED = 56,      /* member: first: the count under which the message waits behind others */
    WARGHYTES_CLOSED = 57,      /* journal: nothing is in hand */
    WARGHYTES_BYTES = 58,       /* number: how many bytes were written */
    WARGHYTES_FIELDS = 59,      /* the packet's fields were read */
    WARGHYTES_READ = 60,        /* the journal was read: blocks and messages before the first wrong block */
    WARGHYTES_RIGHT = 61,       /* a right block, or a right record */
    WARGHYTES_WRONG = 62,       /* a wrong block, or a wrong record */
    WARGHYTES_ADDED = 64,       /* the work list has one job more */
    WARGHYTES_GIVEN = 65        /* number: the place of the job that the member was given */
};

/* The kinds of packet: requests, gaps, statuses and confirmations go to the sequencer, broadcasts, polls, offers and acceptances to every
 * member; invitations, replies and results, of a group that is made anew, go to the terminals' members, and are refused by a member or a
 * sequencer that stands alone. */
enum {
    WARGHYTES_KIND_REQUEST = 1,
    WARGHYTES_KIND_BROADCAST = 2,
    WARGHYTES_KIND_GAP = 3,
    WARGHYTES_KIND_STATUS = 4,
    WARGHYTES_KIND_POLL = 5,
    WARGHYTES_KIND_OFFER = 6,
    WARGHYTES_KIND_CONFIRM = 7,
    WARGHYTES_KIND_ACCEPT = 8,
    WARGHYTES_KIND_INVITATION = 9,
    WARGHYTES_KIND_REPLY = 10,
    WARGHYTES_KIND_RESULT = 11
};

/* ---- states ---- */

/* The sequencer. Fields may be read; only the calls write them. Zeros are a closed one. */
struct warghytes_sequencer {
    uint8_t n;
    uint8_t resilience;                                    /* how many other members have a message before it is taken */
    uint16_t survivors;                                    /* one bit a member; a fresh group has all */
    uint8_t elected;                                       /* the member whose terminal has the sequencer; 0 in a fresh group */
    uint32_t group;
    uint32_t top;                                          /* the last number given */
    uint32_t accepted;                                     /* the last number that may be taken */
    uint32_t floor;                                        /* every member is known to have taken everything through it */
    uint32_t taken[WARGHYTES_MEMBERS];                     /* of each member: the last number that it is known to have taken */
    uint32_t counts[WARGHYTES_MEMBERS];                    /* of each member: the count of its last message that was numbered */
    uint32_t repeats[WARGHYTES_MEMBERS];                   /* of each member: how often a request came again */
    uint32_t kept[WARGHYTES_PLACES];                       /* the history: the count of each message, 0 for none */
    uint16_t marks[WARGHYTES_PLACES];                      /* who confirmed it while it was offered, one bit a member */
    uint8_t originators[WARGHYTES_PLACES];
    uint8_t lengths[WARGHYTES_PLACES];
    uint8_t payloads[WARGHYTES_PLACES * WARGHYTES_PAYLOAD];
};

/* A member. */
struct warghytes_member {
    uint8_t n;
    uint8_t resilience;
    uint16_t survivors;
    uint8_t elected;
    uint32_t group;
    uint8_t number;                                        /* its own */
    uint32_t taken;                                        /* the last number that it took */
    uint32_t accepted;                                     /* the last number that it knows to be accepted */
    uint32_t submitted;                                    /* how many messages it submitted */
    uint32_t waiting;                                      /* how many of them wait for their number */
    uint32_t queued[WARGHYTES_WAITING];                    /* those that wait: the count of each, 0 for none */
    uint32_t held[WARGHYTES_HELD];                         /* messages that are held: the count of each, 0 for none */
    uint8_t queued_originators[WARGHYTES_WAITING];
    uint8_t queued_lengths[WARGHYTES_WAITING];
    uint8_t held_originators[WARGHYTES_HELD];
    uint8_t held_lengths[WARGHYTES_HELD];
    uint8_t queued_payloads[WARGHYTES_WAITING * WARGHYTES_PAYLOAD];
    uint8_t held_payloads[WARGHYTES_HELD * WARGHYTES_PAYLOAD];
};

/* A terminal: a member, what it keeps so that it can begin a group anew, its part in that, and a sequencer where it has one. Fields may be
 * read; only the calls write them. Zeros are a closed one. */
struct warghytes_terminal {
    struct {                                               /* as a member's */
        uint8_t n;
        uint8_t resilience;
        uint16_t survivors;
        uint8_t elected;
        uint32_t group;
        uint8_t number;
        uint32_t taken;
        uint32_t accepted;
        uint32_t submitted;
        uint32_t waiting;
    } member;
    struct {                                               /* as a sequencer's; zeros where it has none */
        uint8_t n;
        uint8_t resilience;
        uint16_t survivors;
        uint8_t elected;
        uint32_t group;
        uint32_t top;
        uint32_t accepted;
        uint32_t floor;
    } sequencer;
    uint32_t read;                                         /* the highest floor that it read */
    uint32_t attempt;                                      /* the group number of the invitation that it replied to */
    uint32_t number;                                       /* what it replied with: the last number through which it has everything */
    uint32_t invited;                                      /* the group number of its own invitation */
    uint16_t repliers;                                     /* whose replies came, one bit a member */
    uint8_t replied;                                       /* 1: a reply is open, and its group's packets are refused until a result came */
    uint8_t inviting;                                      /* 1: its own invitation is open */
    uint8_t sequencing;                                    /* 1: it has the sequencer */
    uint8_t frozen;                                        /* 1: the sequencer refuses its group's packets until a result came */
    uint32_t queued[WARGHYTES_WAITING];                    /* as a member's */
    uint32_t held[WARGHYTES_HELD];
    uint8_t queued_originators[WARGHYTES_WAITING];
    uint8_t queued_lengths[WARGHYTES_WAITING];
    uint8_t held_originators[WARGHYTES_HELD];
    uint8_t held_lengths[WARGHYTES_HELD];
    uint8_t queued_payloads[WARGHYTES_WAITING * WARGHYTES_PAYLOAD];
    uint8_t held_payloads[WARGHYTES_HELD * WARGHYTES_PAYLOAD];
    uint32_t past[WARGHYTES_PLACES];                       /* the last messages taken: the count of each, 0 for none */
    uint8_t past_originators[WARGHYTES_PLACES];
    uint8_t past_lengths[WARGHYTES_PLACES];
    uint8_t past_payloads[WARGHYTES_PLACES * WARGHYTES_PAYLOAD];
    uint32_t highest[WARGHYTES_MEMBERS];                   /* of each member: the highest count among all messages taken */
    uint32_t replies[WARGHYTES_MEMBERS];                   /* of each replier: its number */
    uint32_t taken[WARGHYTES_MEMBERS];                     /* as a sequencer's */
    uint32_t counts[WARGHYTES_MEMBERS];
    uint32_t repeats[WARGHYTES_MEMBERS];
    uint32_t kept[WARGHYTES_PLACES];
    uint16_t marks[WARGHYTES_PLACES];
    uint8_t originators[WARGHYTES_PLACES];
    uint8_t lengths[WARGHYTES_PLACES];
    uint8_t payloads[WARGHYTES_PLACES * WARGHYTES_PAYLOAD];
};

/* A record of a work list; zeros are an unused one, and 64 of them an empty list. */
struct warghytes_job {
    uint8_t state;                                         /* 0: unused, 1: waiting, 2: given to the member */
    uint8_t member;
    size_t length;
    uint8_t bytes[WARGHYTES_JOB];
};

/* A journal's writer. The block in hand is lent to each call beside it. */
struct warghytes_writer {
    uint32_t last;                                         /* the last number */
    uint32_t free;                                         /* 1: any number above it may follow; 0: the next alone */
    uint32_t first;                                        /* of the block in hand: its first number, records and bytes used */
    uint32_t records;
    uint32_t used;
};

/* The writer of an empty journal. */
#define WARGHYTES_WRITER_FRESH { 0, 1, 0, 0, 10 }

/* ---- what calls tell; a number that the answer does not have is 0 ---- */

/* A call of an end: the answer's numbers in their order, whether the number behind a taken one may be taken too (1) or not (0), and how many
 * bytes were written. */
struct warghytes_told {
    uint32_t code;
    uint32_t first;
    uint32_t second;
    uint32_t third;
    uint32_t more;
    size_t written;
};

/* Another call: the answer's number, or how many bytes were written. */
struct warghytes_answer {
    uint32_t code;
    size_t number;
};

/* Reading a journal, or one block of it. */
struct warghytes_found {
    uint32_t code;
    size_t blocks;
    size_t messages;
};

/* Reading one record of a block: its payload is the `length` bytes from `start` on. */
struct warghytes_record {
    uint32_t code;
    uint32_t number;
    uint32_t originator;
    uint32_t count;
    size_t start;
    size_t length;
};

/* A packet's fields. */
struct warghytes_fields {
    uint32_t kind;
    uint32_t member;
    uint32_t group;
    uint32_t a;
    uint32_t b;
    uint32_t c;
};

/* The sizes that the library was built for. */
#define WARGHYTES_SAME(name, type, size) typedef char warghytes_size_of_##name[sizeof(type) == (size) ? 1 : -1]
WARGHYTES_SAME(sequencer, struct warghytes_sequencer, 8152);
WARGHYTES_SAME(member, struct warghytes_member, 3232);
WARGHYTES_SAME(terminal, struct warghytes_terminal, 19408);
WARGHYTES_SAME(job, struct warghytes_job, 256);
WARGHYTES_SAME(writer, struct warghytes_writer, 20);
WARGHYTES_SAME(told, struct warghytes_told, 32);
WARGHYTES_SAME(answer, struct warghytes_answer, 16);
WARGHYTES_SAME(found, struct warghytes_found, 24);
WARGHYTES_SAME(record, struct warghytes_record, 32);
WARGHYTES_SAME(fields, struct warghytes_fields, 24);

/* ---- the sequencer ---- */

/* The sequencer of n members, 1 to 16, in the group with that number: ACCEPTED, and it is fresh; else refused by OPENING or RESILIENCE, and it
 * is closed. The resilience degree is below n, and the same at every end: a message is taken only when so many members other than 0 have it.
 * With 0 each is broadcast as it is numbered; else it is offered first. */
struct warghytes_told warghytes_sequencer_open(struct warghytes_sequencer *s, uint8_t n, uint32_t group, uint8_t resilience);

/* A packet that came: NUMBERED, AGAIN, FULL, ACCEPTED (send what was written to every member), WANTED (copy each number), MARKED, NOTED, OLD. */
struct warghytes_told warghytes_sequencer_receive(struct warghytes_sequencer *s, const uint8_t *packet, size_t size, uint8_t *out, size_t room);

/* SENT: a poll, for every member. */
struct warghytes_told warghytes_sequencer_poll(const struct warghytes_sequencer *s, uint8_t *out, size_t room);

/* SENT: the broadcast of a number in the history again, or its offer if it is not accepted. */
struct warghytes_told warghytes_sequencer_copy(const struct warghytes_sequencer *s, uint32_t number, uint8_t *out, size_t room);

/* ---- a member ---- */

/* Member `number` of n in the group with that number and resilience degree: ACCEPTED, and it is fresh; else refused by OPENING or RESILIENCE,
 * and it is closed. */
struct warghytes_told warghytes_member_open(struct warghytes_member *m, uint8_t n, uint8_t number, uint32_t group, uint8_t resilience);

/* A message for all: SENT (its request was written, for the sequencer), or QUEUED behind up to four that wait. */
struct warghytes_told warghytes_member_submit(struct warghytes_member *m, const uint8_t *payload, size_t size, uint8_t *out, size_t room);

/* A packet that came: KEPT, KEPT_GAP, BEYOND, BEYOND_GAP, GAP, STATUS, NOTED, OLD. What is written is for the sequencer: KEPT and OLD write a
 * confirmation to an offer that this member is to confirm, else nothing. */
struct warghytes_told warghytes_member_receive(struct warghytes_member *m, const uint8_t *packet, size_t size, uint8_t *out, size_t room);

/* The next message in order, if it is held and accepted: TOOK, with its payload, or NONE. */
struct warghytes_told warghytes_member_take(struct warghytes_member *m, uint8_t *out, size_t room);

/* SENT: the request of the first message that waits, again; behind a take this sends the next one. */
struct warghytes_told warghytes_member_repeat(const struct warghytes_member *m, uint8_t *out, size_t room);

/* SENT: what it has, acknowledged. */
struct warghytes_told warghytes_member_status(const struct warghytes_member *m, uint8_t *out, size_t room);

/* ---- a terminal, whose group can be made anew ---- */

/* Terminal `number` of n in the group with that number and resilience degree: ACCEPTED, and it is fresh; else refused by OPENING or RESILIENCE,
 * and it is closed. Terminal 0 of a fresh group has the sequencer. */
struct warghytes_told warghytes_terminal_open(struct warghytes_terminal *t, uint8_t n, uint8_t number, uint32_t group, uint8_t resilience);

/* The member's calls. A reply that is open leaves its submissions waiting: the group's packets are refused by OTHER_GROUP until the result
 * came. A packet of a reset is answered with NOTED; to an invitation a reply is written, for its sender. */
struct warghytes_told warghytes_terminal_submit(struct warghytes_terminal *t, const uint8_t *payload, size_t size, uint8_t *out, size_t room);
struct warghytes_told warghytes_terminal_receive(struct warghytes_terminal *t, const uint8_t *packet, size_t size, uint8_t *out, size_t room);
struct warghytes_told warghytes_terminal_take(struct warghytes_terminal *t, uint8_t *out, size_t room);
struct warghytes_told warghytes_terminal_repeat(const struct warghytes_terminal *t, uint8_t *out, size_t room);
struct warghytes_told warghytes_terminal_status(const struct warghytes_terminal *t, uint8_t *out, size_t room);

/* The sequencer's calls: its packets, its poll and its copy. A terminal that has none refuses them by UNSOUND_STATE. */
struct warghytes_told warghytes_terminal_order(struct warghytes_terminal *t, const uint8_t *packet, size_t size, uint8_t *out, size_t room);
struct warghytes_told warghytes_terminal_poll(const struct warghytes_terminal *t, uint8_t *out, size_t room);
struct warghytes_told warghytes_terminal_copy(const struct warghytes_terminal *t, uint32_t number, uint8_t *out, size_t room);

/* SENT: an invitation to a group with that number, for every member. Its own reply is counted with it. */
struct warghytes_told warghytes_terminal_invite(struct warghytes_terminal *t, uint32_t number, uint8_t *out, size_t room);

/* SENT: the result, for every member: the group of all whose replies came, if they are as many as are demanded; else refused by FEW_SURVIVORS,
 * and by NOT_OF_ATTEMPT where no invitation of its own is open. The terminal itself has the result with it. */
struct warghytes_told warghytes_terminal_make(struct warghytes_terminal *t, uint32_t demand, uint8_t *out, size_t room);

/* ---- packets ---- */

/* FIELDS, and the packet's fields are written; its payload is what stands behind its first 20 bytes. */
uint32_t warghytes_packet_read(const uint8_t *packet, size_t size, struct warghytes_fields *fields);

/* BYTES: the packet with those fields and that payload. */
struct warghytes_answer warghytes_packet_write(uint8_t kind, uint8_t member, uint32_t group, uint32_t a, uint32_t b, uint32_t c,
                                               const uint8_t *payload, size_t size, uint8_t *out, size_t room);

/* ---- the work list ---- */

/* Feeds a list of 64 records a message that was taken. ADDED: byte 1 and a job. GIVEN or NONE: the single byte 2, by which the originator
 * finishes its earlier job and fetches the next. Any other message is refused by NOT_FOR_LIST, and a list of another length is unsound. */
struct warghytes_answer warghytes_jobs_feed(struct warghytes_job *jobs, size_t count, uint8_t originator, const uint8_t *payload, size_t size);

/* ---- the journal ---- */

/* Reads a journal: READ, and the writer goes on behind the blocks found; cut the file there first. */
struct warghytes_found warghytes_journal_read(const uint8_t *journal, size_t size, struct warghytes_writer *writer);

/* Reads a journal block by block, from a fresh writer on: RIGHT, and the writer goes on behind the block, or WRONG. */
struct warghytes_found warghytes_journal_next(struct warghytes_writer *writer, const uint8_t *block, size_t size);

/* The record at an index of a block, under that number: RIGHT or WRONG. */
struct warghytes_record warghytes_journal_record(const uint8_t *block, size_t size, size_t at, uint32_t number);

/* KEPT: a message that was taken is in hand. Where number is 512, the block before it was written to the output: put it on the card. */
struct warghytes_answer warghytes_journal_write(struct warghytes_writer *writer, uint32_t number, uint8_t originator, uint32_t count,
                                                const uint8_t *payload, size_t size, uint8_t hand[WARGHYTES_BLOCK], uint8_t out[WARGHYTES_BLOCK]);

/* CLOSED, at shutdown: what was in hand was written to the output, if number is 512. */
struct warghytes_answer warghytes_journal_finish(struct warghytes_writer *writer, const uint8_t hand[WARGHYTES_BLOCK], uint8_t out[WARGHYTES_BLOCK]);

/* BYTES: of each unit its number and the length of its latest description, two bytes each, and the description, in order of unit number. */
struct warghytes_answer warghytes_plan(const uint8_t *journal, size_t size, uint8_t *out, size_t room);

/* BYTES: the journal rewritten to the fewest records with the same plan. */
struct warghytes_answer warghytes_rewrite(const uint8_t *journal, size_t size, uint8_t *out, size_t room);

#ifdef __cplusplus
}
#endif

#endif
