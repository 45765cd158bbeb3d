/* The proved library for C: the calls on a process table and the script program, on lent bytes. A program includes this file and links
   libexports.a. Every function of the library is proved for all arguments; what each gives is defined in crates/wire/specs and
   crates/exports/specs. The ten at the end, which only read bytes and lay them out, are C.

   docs/BYTES.md has the bytes of a table, a guard, an answer and a session. Any bytes, RENDEZVOUS_TABLE_BYTES of them, are a table. A
   call that changes nothing, a refused one among them, writes the table that it read: the same bytes, but for such as no call writes
   (a NaN's payload, a tag past the last, a flag other than 0 and 1, anything but 0 in unused bytes), which are replaced.

   `out` takes the table that a call hands back and `answer` the answer, each at its front. If one of `table`, `out` and `answer` is
   too short, the call does nothing: no buffer changes, and it returns false.

   The buffers of a call must not overlap. Every pointer must be valid for its length, and `taken` and `filled` must point to a size_t:
   that is C's part, and nothing checks it.

   A call is one step of the whole table. Where two cores share a table, hold one lock from reading the table to storing the one that
   the call hands back. No order in which the cores get the lock makes a wrong
   rendezvous: that is demand 3 (crates/history/specs/Demand3.antt). But an order can keep one from happening: step EVERY process once
   a round, in number order, as examples/link/tasks.c does (README.md, "The loop of a task" and "Order and progress"). */
#ifndef RENDEZVOUS_H
#define RENDEZVOUS_H

#include <stdbool.h>
#include <stddef.h>
#include <stdint.h>

/* Lengths and offsets, in bytes (docs/BYTES.md). A name without BYTES tells where a part stands in what the name begins with. */
#define RENDEZVOUS_PROCESSES 32 /* the records of a table */
#define RENDEZVOUS_GUARDS 8     /* the slots of a list of guards */
#define RENDEZVOUS_WORD_BYTES 4
#define RENDEZVOUS_LONG_BYTES (2 * RENDEZVOUS_WORD_BYTES) /* a number of 64 bits */

#define RENDEZVOUS_MESSAGE_VARIANT 0
#define RENDEZVOUS_MESSAGE_FIRST 1
#define RENDEZVOUS_MESSAGE_SECOND (RENDEZVOUS_MESSAGE_FIRST + RENDEZVOUS_WORD_BYTES)
#define RENDEZVOUS_MESSAGE_BYTES (RENDEZVOUS_MESSAGE_SECOND + RENDEZVOUS_WORD_BYTES)

#define RENDEZVOUS_GUARD_ENABLED 0
#define RENDEZVOUS_GUARD_PARTNER 1
#define RENDEZVOUS_GUARD_KIND 2
#define RENDEZVOUS_GUARD_RANK 3
#define RENDEZVOUS_GUARD_SENDS 4
#define RENDEZVOUS_GUARD_MESSAGE 5
#define RENDEZVOUS_GUARD_BYTES (RENDEZVOUS_GUARD_MESSAGE + RENDEZVOUS_MESSAGE_BYTES)
#define RENDEZVOUS_LIST_BYTES (RENDEZVOUS_GUARDS * RENDEZVOUS_GUARD_BYTES)

#define RENDEZVOUS_RECORD_PLACE 0
#define RENDEZVOUS_RECORD_INDEX 1
#define RENDEZVOUS_RECORD_STEPS 1 /* at S, in the index's place: the own steps made there */
#define RENDEZVOUS_RECORD_KEPT 2
#define RENDEZVOUS_RECORD_OUTCOME 3
#define RENDEZVOUS_RECORD_SIGNAL (RENDEZVOUS_RECORD_OUTCOME + RENDEZVOUS_MESSAGE_BYTES)
#define RENDEZVOUS_RECORD_SIGNAL_MESSAGE (RENDEZVOUS_RECORD_SIGNAL + 2)
#define RENDEZVOUS_RECORD_TICKET (RENDEZVOUS_RECORD_SIGNAL_MESSAGE + RENDEZVOUS_MESSAGE_BYTES)
#define RENDEZVOUS_RECORD_ACCEPTING (RENDEZVOUS_RECORD_TICKET + RENDEZVOUS_WORD_BYTES)
#define RENDEZVOUS_RECORD_COUNTS (RENDEZVOUS_RECORD_ACCEPTING + 1)
#define RENDEZVOUS_RECORD_OWN (RENDEZVOUS_RECORD_COUNTS + 2)
#define RENDEZVOUS_RECORD_POSTED (RENDEZVOUS_RECORD_OWN + RENDEZVOUS_LIST_BYTES)
#define RENDEZVOUS_RECORD_BYTES (RENDEZVOUS_RECORD_POSTED + RENDEZVOUS_LIST_BYTES)

#define RENDEZVOUS_HEAD_COUNT 0
#define RENDEZVOUS_HEAD_NAP 1
#define RENDEZVOUS_HEAD_NEXT 2
#define RENDEZVOUS_HEAD_MEETINGS (RENDEZVOUS_HEAD_NEXT + RENDEZVOUS_WORD_BYTES)
#define RENDEZVOUS_HEAD_WITHDRAWN (RENDEZVOUS_HEAD_MEETINGS + RENDEZVOUS_LONG_BYTES)
#define RENDEZVOUS_HEAD_BYTES (RENDEZVOUS_HEAD_WITHDRAWN + RENDEZVOUS_LONG_BYTES)
#define RENDEZVOUS_TABLE_BYTES (RENDEZVOUS_HEAD_BYTES + RENDEZVOUS_PROCESSES * RENDEZVOUS_RECORD_BYTES)

#define RENDEZVOUS_NOTHING 0 /* variants of messages */
#define RENDEZVOUS_WHOLE 1
#define RENDEZVOUS_READING 2
#define RENDEZVOUS_LIMIT 3

#define RENDEZVOUS_ANSWER_VARIANT 0
#define RENDEZVOUS_ANSWER_FIRST 1
#define RENDEZVOUS_ANSWER_SECOND 2
#define RENDEZVOUS_ANSWER_MESSAGE 3
#define RENDEZVOUS_ANSWER_WORD (RENDEZVOUS_ANSWER_MESSAGE + RENDEZVOUS_MESSAGE_BYTES)
#define RENDEZVOUS_ANSWER_BYTES (RENDEZVOUS_ANSWER_WORD + RENDEZVOUS_WORD_BYTES)

#define RENDEZVOUS_MADE 0 /* variants of answers */
#define RENDEZVOUS_OFFERED 1
#define RENDEZVOUS_MOVED 2
#define RENDEZVOUS_UNCHANGED 3
#define RENDEZVOUS_COLLECTED 4
#define RENDEZVOUS_RUNNABLE 5
#define RENDEZVOUS_REFUSED 6
#define RENDEZVOUS_WITHDRAWN 7
#define RENDEZVOUS_TOO_LATE 8

#define RENDEZVOUS_BEGUN_BYTES 201 /* for a begun line: one more than a line may have */
#define RENDEZVOUS_SESSION_BEGUN 2
#define RENDEZVOUS_SESSION_TABLE (RENDEZVOUS_SESSION_BEGUN + RENDEZVOUS_BEGUN_BYTES)
#define RENDEZVOUS_SESSION_BYTES (RENDEZVOUS_SESSION_TABLE + RENDEZVOUS_TABLE_BYTES)
#define RENDEZVOUS_LINE_BYTES 64 /* no line of a script prints more */

/* A fresh table of n processes, 2 to 32 (else refused by 1), with naps of `nap` own steps, 1 to 255 (0 is refused by 15, after 1). A process
   that goes to S leaves it at its nap-th own step there; each step before that is answered moved, to S, and is a whole call. With rounds, as
   in examples/link/tasks.c, take 1. Where tasks step for themselves, take at least as many as one task makes between two steps of another:
   while a sleeper naps, an older process that steps passes it. A sleeper makes all of these steps, even where nobody is in its way any
   more (README.md, "Order and progress"). */
bool rendezvous_create(uint8_t n, uint8_t nap, uint8_t *out, size_t out_length, uint8_t *answer, size_t answer_length);

/* An offer by process p; `guards` has RENDEZVOUS_GUARD_BYTES for each guard, of any number of them. Bytes behind the last whole guard
   are not read. */
bool rendezvous_offer(const uint8_t *table, size_t table_length, uint8_t p, const uint8_t *guards, size_t guards_length, uint8_t *out,
                      size_t out_length, uint8_t *answer, size_t answer_length);

/* A step of process p. */
bool rendezvous_step(const uint8_t *table, size_t table_length, uint8_t p, uint8_t *out, size_t out_length, uint8_t *answer,
                     size_t answer_length);

/* A collection from process p. */
bool rendezvous_collect(const uint8_t *table, size_t table_length, uint8_t p, uint8_t *out, size_t out_length, uint8_t *answer,
                        size_t answer_length);

/* A withdrawal of process p's offer: withdrawn, or too late, since a commit came first. */
bool rendezvous_withdraw(const uint8_t *table, size_t table_length, uint8_t p, uint8_t *out, size_t out_length, uint8_t *answer,
                         size_t answer_length);

/* The set of processes that a step would change. */
bool rendezvous_runnable(const uint8_t *table, size_t table_length, uint8_t *out, size_t out_length, uint8_t *answer,
                         size_t answer_length);

/* A session of the script program before its first byte, to the front of `state`. */
bool rendezvous_script_start(uint8_t *state, size_t state_length);

/* Feeds a piece of the input to a session. As many bytes of the piece are taken as `out` has room for if each of them ends a line: the
   least of piece_length and out_length / RENDEZVOUS_LINE_BYTES. `taken` is set to how many that is; feed the rest next. What they print
   goes to the front of `out`, and `filled` is set to how many bytes that is. `after` takes the session after them. If `state` or
   `after` has less than RENDEZVOUS_SESSION_BYTES, no buffer changes, `taken` and `filled` are set to 0, and the call returns false. */
bool rendezvous_script_feed(const uint8_t *state, size_t state_length, const uint8_t *piece, size_t piece_length, uint8_t *after,
                            size_t after_length, uint8_t *out, size_t out_length, size_t *taken, size_t *filled);

/* What the end of the input prints, to the front of `out`, and how many bytes that is: an unended last line is malformed. If `out` has
   less than RENDEZVOUS_LINE_BYTES, or `state` less than RENDEZVOUS_SESSION_BYTES, `out` stays as it is and the call returns 0. */
size_t rendezvous_script_finish(const uint8_t *state, size_t state_length, uint8_t *out, size_t out_length);

/* For tests of an f32's bits, a NaN's too: it is handed back by way of a message that a table holds in a refused offer, in steps that post
   it, commit, hand it over, signal and absorb it, and in collections. */
float rendezvous_reading_through(float x);
float rendezvous_low_through(float low, float high);
float rendezvous_high_through(float low, float high);

/* A word of a table, an answer or a message. */
static inline uint32_t rendezvous_word(const uint8_t *bytes) {
    return bytes[0] | (uint32_t)bytes[1] << 8 | (uint32_t)bytes[2] << 16 | (uint32_t)bytes[3] << 24;
}

static inline void rendezvous_put_word(uint8_t *bytes, uint32_t word) {
    for (int k = 0; k < RENDEZVOUS_WORD_BYTES; k++) bytes[k] = word >> 8 * k;
}

/* A number of 64 bits of a table. */
static inline uint64_t rendezvous_long(const uint8_t *bytes) {
    return rendezvous_word(bytes) | (uint64_t)rendezvous_word(bytes + RENDEZVOUS_WORD_BYTES) << 32;
}

/* The day sheet's totals, of RENDEZVOUS_TABLE_BYTES: how many offers were accepted, which is the next ticket, how many rendezvous were
   committed, and how many offers were withdrawn. The sheet's fourth, how many processes have an open offer, stands in no byte: after
   any calls from a fresh table, offers = 2 * meetings + withdrawn + open. To check a sheet, count them: examples/link/sheet.c. */
static inline uint32_t rendezvous_offers(const uint8_t *table) { return rendezvous_word(table + RENDEZVOUS_HEAD_NEXT); }

static inline uint64_t rendezvous_meetings(const uint8_t *table) { return rendezvous_long(table + RENDEZVOUS_HEAD_MEETINGS); }

static inline uint64_t rendezvous_withdrawn(const uint8_t *table) { return rendezvous_long(table + RENDEZVOUS_HEAD_WITHDRAWN); }

/* A guard that receives, to RENDEZVOUS_GUARD_BYTES. Its kind and rank are 0. */
static inline void rendezvous_receives(uint8_t *guard, bool enabled, uint8_t partner) {
    for (int k = 0; k < RENDEZVOUS_GUARD_BYTES; k++) guard[k] = 0;
    guard[RENDEZVOUS_GUARD_ENABLED] = enabled;
    guard[RENDEZVOUS_GUARD_PARTNER] = partner;
}

/* A guard that sends a message of a variant: a whole number or the bits of a reading in `first`, the bits of a limit's low and high in
   both. Its kind and rank are 0. */
static inline void rendezvous_sends(uint8_t *guard, bool enabled, uint8_t partner, uint8_t variant, uint32_t first, uint32_t second) {
    uint8_t *message = guard + RENDEZVOUS_GUARD_MESSAGE;
    rendezvous_receives(guard, enabled, partner);
    guard[RENDEZVOUS_GUARD_SENDS] = true;
    message[RENDEZVOUS_MESSAGE_VARIANT] = variant;
    rendezvous_put_word(message + RENDEZVOUS_MESSAGE_FIRST, first);
    rendezvous_put_word(message + RENDEZVOUS_MESSAGE_SECOND, second);
}

/* Gives a guard that is laid out a kind: it matches only guards of the same kind. */
static inline void rendezvous_of_kind(uint8_t *guard, uint8_t kind) { guard[RENDEZVOUS_GUARD_KIND] = kind; }

/* Gives a guard that is laid out a rank: where several guards of a process that waits match, the one of greatest rank meets, the first
   among equals. Who scans still goes by the order of its list. */
static inline void rendezvous_of_rank(uint8_t *guard, uint8_t rank) { guard[RENDEZVOUS_GUARD_RANK] = rank; }

#endif
