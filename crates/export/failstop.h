/* The fail-stop store for C: the functions of libexport.a, which `rt lib` in crates/export writes.
 *
 * Each takes any values, reads and writes only the bytes that it is lent, and ends. A `refusal`
 * is 0 where the call did its work, and otherwise one of the numbers below; then nothing has changed. */
#ifndef FAILSTOP_H
#define FAILSTOP_H

#include <stdbool.h>
#include <stddef.h>
#include <stdint.h>

/* What a refusal says: the first question that was answered no. The numbers are document 01's, but for 11, which no call
   gives: document 02 has 21 and 22 in its place. Reading and writing ask 7, 8, 9, 5 of a message, 10, 21, 22 in this
   order; what is written has zeros for spare bytes, so that 21 is of reading alone. 18 to 20 are the journal's own. */
enum {
    FAILSTOP_DONE = 0,
    FAILSTOP_K = 1,               /* k is past 3 */
    FAILSTOP_GROUPS = 2,          /* N is not within 1 to 4 */
    FAILSTOP_OWNER = 3,           /* the owner is not within 1 to N */
    FAILSTOP_DELTA = 4,           /* delta is past 1,000,000 */
    FAILSTOP_REPLICA = 5,         /* the replica is not within 1 to 2k + 1; in a setup, not 0 */
    FAILSTOP_LENGTH = 6,          /* the record has more or fewer than 24 bytes */
    FAILSTOP_KIND = 7,            /* the kind is not 1 or 2 in a request, 3 or 4 in a message */
    FAILSTOP_GROUP = 8,           /* the group is not within 1 to N */
    FAILSTOP_PROCESS = 9,         /* the process is not within 1 to k + 1 */
    FAILSTOP_VARIABLE = 10,       /* the variable is past 255, 0 in a write, or other than 0 in a halt */
    FAILSTOP_TIME_TOO_LARGE = 12, /* the local time is past 2^62 */
    FAILSTOP_TIME_GOES_BACK = 13, /* the local time is below the last accepted one */
    FAILSTOP_PENDING_FULL = 14,   /* sixteen requests of the sender's group are pending */
    FAILSTOP_TOO_LITTLE_ROOM = 15, /* a destination of fewer than 24 bytes, an output of fewer than 1,608 */
    FAILSTOP_LIST_TOO_LONG = 16,  /* more than 64 messages */
    FAILSTOP_NO_MAJORITY = 17,    /* no value comes from k + 1 replicas */
    FAILSTOP_PARTIAL_RECORD = 18, /* a journal ends within a record */
    FAILSTOP_RECORD_ORDER = 19,   /* not a setup first in a journal, or neither delivery nor turn later */
    FAILSTOP_JOURNAL_ZERO = 20,   /* a byte of a journal's record that must be zero is not */
    FAILSTOP_SPARE_BYTE = 21,     /* a byte of a request or message, outside the value, that must be zero is not */
    FAILSTOP_VALUE = 22           /* a read or a halt carries a value */
};

/* A process's clock, and a replica's: unrelated, so a type for each. */
typedef struct { uint64_t ticks; } failstop_timestamp;
typedef struct { uint64_t ticks; } failstop_local_time;

typedef struct {
    uint8_t kind; /* 1 read, 2 write */
    uint8_t group;
    uint8_t process;
    uint16_t variable;
    failstop_timestamp timestamp;
    uint32_t value;
} failstop_request;

typedef struct {
    uint8_t kind; /* 3 reply, 4 halt */
    uint8_t group;
    uint8_t process;
    uint8_t replica;
    uint16_t variable;
    failstop_timestamp timestamp;
    uint32_t value;
} failstop_message;

typedef struct {
    failstop_request request;
    failstop_local_time arrival;
} failstop_pending;

/* What a unit is set up with; `groups` is document 01's N. */
typedef struct {
    uint8_t k;
    uint8_t groups;
    uint8_t owner;
    uint64_t delta;
} failstop_settings;

/* By value: what a call gives takes the place of what it got. */
typedef struct {
    failstop_settings settings;
    uint8_t number;
    failstop_local_time last;
    uint32_t variables[256];
    /* Sixteen places for each group, group 1's first. Of group g the first `counts[g - 1]` are pending, in order of
       arrival, the others free. A count past sixteen means sixteen. A request is of the group in whose places it
       stands; a reply to it goes to the group that it names. */
    failstop_pending pending[64];
    size_t counts[4];
    uint64_t writes;
} failstop_replica;

/* What a vote is on. */
typedef struct {
    uint8_t group;
    uint8_t process;
    uint16_t variable;
    failstop_timestamp timestamp;
} failstop_query;

/* What a vote gives. A set of replicas has one bit for each replica, the lowest for replica 1. Each of the 2k + 1 is in
   one of the three. For whoever swaps cards: under the third demand's premises (docs/THEOREM.md), after a vote of the
   owner on a read that is not mixed with a write, over an unforged list that has a reply of every correct replica,
   `other` and `silent` hold faulty ones alone. No other vote proves anything: in a guest's a correct replica that
   answered at another moment may stand in `other`, and in `silent` any whose reply is not in the list. */
typedef struct {
    uint32_t value;
    uint8_t agreed; /* its first counting reply has the value */
    uint8_t other;  /* it has another */
    uint8_t silent; /* there is none */
} failstop_election;

/* What a halt count gives: the replicas that sent a counting halt, how many, and whether those are k + 1, so that the
   process must halt. To have sent a halt is no fault by itself. Under the same premises, for a process of the owner and
   over an unforged list that has every halt of a correct replica to it: where `halt` is false the senders are faulty,
   and where it is true every correct replica is a sender, so that whoever is missing is faulty. */
typedef struct {
    uint8_t senders;
    uint8_t size;
    bool halt;
} failstop_halt_count;

/* The first `count` messages; more than 64 are refused. */
typedef struct {
    failstop_message messages[65];
    size_t count;
} failstop_list;

/* Beside a refusal stand zeros, or the replica as it came. A refused making has a blank replica, all zeros:
   it refuses every delivery, and a step of it only notes the time. */
typedef struct { uint8_t refusal; failstop_request request; } failstop_request_result;
typedef struct { uint8_t refusal; failstop_message message; } failstop_message_result;
typedef struct { uint8_t refusal; failstop_replica replica; } failstop_replica_result;
/* `count` records stand at the start of the output, whatever the replica. */
typedef struct { uint8_t refusal; size_t count; failstop_replica replica; } failstop_step_result;
typedef struct { uint8_t refusal; failstop_election election; } failstop_vote_result;
typedef struct { uint8_t refusal; failstop_halt_count count; } failstop_halt_result;

/* Beside the arrays of a unit whose journal is played in blocks. By value, as the replica. A new one is all zeros. */
typedef struct {
    /* 0: before the first record. 1: set up. 2: the first record was refused; any other number counts as 2. */
    uint8_t stage;
    /* In stage 1 what the unit is set up with, and the place of the next record; a unit of a k past 3 counts as
       stopped. In the other stages they are not looked at, and a call gives zeros. */
    failstop_settings settings;
    uint64_t place;
} failstop_player;

/* The first `taken` bytes of the block were played, and the text's first `used` bytes are their lines. */
typedef struct { failstop_player player; size_t taken; size_t used; } failstop_block_result;

#ifdef __cplusplus
extern "C" {
#endif

/* Records of 24 bytes. */
failstop_request_result failstop_read_request(
    uint8_t k, uint8_t n, const uint8_t *bytes, size_t length);
failstop_message_result failstop_read_message(
    uint8_t k, uint8_t n, const uint8_t *bytes, size_t length);
uint8_t failstop_write_request(
    uint8_t k, uint8_t n, failstop_request r, uint8_t *bytes, size_t length);
uint8_t failstop_write_message(
    uint8_t k, uint8_t n, failstop_message m, uint8_t *bytes, size_t length);

/* The replica. */
failstop_replica_result failstop_make(failstop_settings u, uint8_t number);
failstop_replica_result failstop_deliver(
    failstop_replica r, const uint8_t *bytes, size_t length, failstop_local_time at);
failstop_step_result failstop_step(
    failstop_replica r, failstop_local_time at, uint8_t *output, size_t length);

/* What a process makes of the messages that it received. */
failstop_vote_result failstop_vote(
    uint8_t k, uint8_t n, failstop_query q, failstop_list list);
failstop_halt_result failstop_count_halts(
    uint8_t k, uint8_t n, uint8_t group, uint8_t process, failstop_list list);

/* Journals in blocks. The arrays hold seven replicas side by side, replica 1's part first; those of a unit are the
   first 2k + 1. Of each there are 64 rows, as the places of failstop_replica, four counts, 256 variables, the number
   of writes, and the last local time. A row is four words: the timestamp, the arrival, kind + 256 * group +
   65,536 * process + 16,777,216 * variable, and the value; rows at and past a count are free. A setup makes all seven
   replicas new, so the arrays may hold anything before it; those past 2k + 1 stay so. Where no unit is set up after a
   call, the arrays are as they were.

   Plays the whole 40-byte records of a block, one after another, until they are used up, fewer than 8,844 bytes of
   the text are free, the unit has stopped, or the place is 2^64 - 1. The rest of the text stays as it was. What was
   not taken is lent again, with what follows it. */
failstop_block_result failstop_play_block(
    failstop_player p, const uint8_t *block, size_t length, uint64_t pending[448][4], size_t counts[28],
    uint32_t variables[1792], uint64_t writes[7], uint64_t lasts[7], uint8_t *text, size_t room);

/* The end of the input: what is left of it, whatever its length unless it is 0, is refused as a record with 18, and
   each replica has a line; a unit that has stopped prints nothing. Gives how many bytes of the text are used; a text
   that is too short holds the start, and 521 bytes are always enough. */
size_t failstop_play_end(
    failstop_player p, const uint8_t *rest, size_t length, const uint32_t variables[1792], const uint64_t writes[7],
    uint8_t *text, size_t room);

#ifdef __cplusplus
}
#endif

#endif
