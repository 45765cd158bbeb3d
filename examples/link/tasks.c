/* Two tasks on two threads pass readings and limits by rendezvous. `meet` is the loop of a task, to be copied.
   cc -pthread -Icrates/exports examples/link/tasks.c crates/exports/out/libexports.a -o target/tasks-c
   target/tasks-c [N]      passes N batches of 100 readings; N is 1,000 if it is not given

   The loop. A task takes the lock and offers. Under the same lock it makes rounds, in which EVERY process steps once, in number order,
   until a round changes nothing: then nothing is runnable (rendezvous_runnable gives 0), and so it is whenever the lock is free. If
   its process is then at M, so that a collection is not refused by 13, the task collects, wakes the others and goes on. If not, it
   waits to be woken, and looks again.

   Who is woken when: every task whose process may now be at M. Rounds step the processes of others too. If they have brought the
   own process to M, they have brought its partner there: broadcast. If they have not, they have brought nobody there: before the
   offer nothing was runnable, so that no two of the older offers match.

   Unchanged is no error: the process waits for another's move (at A until a younger one is out of its way, at W for a signal), or for
   its task (at I and M). S is a nap, NAP own steps long, in which a younger process makes way for an older one: let every
   other process step before it is over, or the older one may never find it asleep.

   No order of steps makes a wrong rendezvous, but an order can keep one from happening. These loops look right and need not end,
   although two offers match, since the older process never steps while the younger is asleep (examples/endless-nap.script and
   examples/endless-sweep.script, where a nap is one step long):
   - s 0, s 1, s 1 for ever, where 0 is the older and 1 is at A whenever 0 steps;
   - stepping only those that were runnable when the sweep began: upwards where the older process has the higher number, or downwards
     where it has the lower.
   With naps of two steps the first of them comes to rest. But no length ends every order: with naps of d, s 0 and then d + 1 times s 1 for
   ever, where 1 is at A whenever 0 steps, bring the same table back (`endless` of crates/history/specs/NapCases.antt; with naps of two
   in examples/nap-ends.script). */
#include "rendezvous.h"
#include <pthread.h>
#include <stdio.h>
#include <stdlib.h>
#include <string.h>

enum { SAMPLER, FINDER, PROCESSES };
enum { NAP = 1 }; /* rounds let every process step between two steps of a sleeper */

/* What a task collects: which of its guards has met, and the message's one or two f32, as bits. */
typedef struct {
    uint8_t guard;
    uint32_t low, high;
} Outcome;

static pthread_mutex_t lock = PTHREAD_MUTEX_INITIALIZER;
static pthread_cond_t met = PTHREAD_COND_INITIALIZER;
/* Under the lock: the table, and what the last call handed back. */
static uint8_t table[RENDEZVOUS_TABLE_BYTES], after[RENDEZVOUS_TABLE_BYTES], answer[RENDEZVOUS_ANSWER_BYTES];

static _Noreturn void fail(const char *what) {
    fprintf(stderr, "tasks-c: %s\n", what);
    exit(1);
}

/* The table that a call hands back is the one for the next call. */
static void keep(bool called) {
    if (!called) fail("a buffer is too short");
    memcpy(table, after, sizeof table);
}

static void offer(uint8_t p, const uint8_t *guards, size_t length) {
    keep(rendezvous_offer(table, sizeof table, p, guards, length, after, sizeof after, answer, sizeof answer));
    if (answer[RENDEZVOUS_ANSWER_VARIANT] != RENDEZVOUS_OFFERED) fail("an offer is refused");
}

/* Every process steps once, in number order. Gives whether that changed anything. */
static bool round_changes(void) {
    bool changes = false;
    for (uint8_t p = 0; p < PROCESSES; p++) {
        keep(rendezvous_step(table, sizeof table, p, after, sizeof after, answer, sizeof answer));
        if (answer[RENDEZVOUS_ANSWER_VARIANT] == RENDEZVOUS_MOVED) changes = true;
    }
    return changes;
}

/* Whether process p was at M; its outcome is then in the answer. */
static bool collected(uint8_t p) {
    keep(rendezvous_collect(table, sizeof table, p, after, sizeof after, answer, sizeof answer));
    return answer[RENDEZVOUS_ANSWER_VARIANT] == RENDEZVOUS_COLLECTED;
}

/* The loop of a task: process p offers the guards, and meets. */
static Outcome meet(uint8_t p, const uint8_t *guards, size_t length) {
    pthread_mutex_lock(&lock);
    offer(p, guards, length);
    while (round_changes()) continue;
    if (collected(p)) {
        pthread_cond_broadcast(&met);
    } else {
        do pthread_cond_wait(&met, &lock);
        while (!collected(p));
    }
    const uint8_t *message = answer + RENDEZVOUS_ANSWER_MESSAGE;
    Outcome outcome = {answer[RENDEZVOUS_ANSWER_FIRST], rendezvous_word(message + RENDEZVOUS_MESSAGE_FIRST), rendezvous_word(message + RENDEZVOUS_MESSAGE_SECOND)};
    pthread_mutex_unlock(&lock);
    return outcome;
}

typedef uint8_t Guard[RENDEZVOUS_GUARD_BYTES];

/* Reading k has the bits of 4.72 and k more, so that no two are alike. A batch is acknowledged by a limit: its first and its last. */
enum { FIRST_READING = 0x40970a3d, BATCH = 100 };
static uint32_t batches = 1000;
static uint32_t reading(uint32_t k) { return FIRST_READING + k; }

/* What each end has sent and taken. */
typedef struct {
    uint32_t readings, limits;
} Count;
static Count sampler, finder;

/* Offers the next reading, while there is one, and to take a limit: whichever comes. */
static void *sample(void *unused) {
    Guard guards[2];
    while (sampler.limits < batches) {
        rendezvous_sends(guards[0], sampler.readings < BATCH * batches, FINDER, RENDEZVOUS_READING, reading(sampler.readings), 0);
        rendezvous_receives(guards[1], true, FINDER);
        Outcome outcome = meet(SAMPLER, guards[0], sizeof guards);
        if (outcome.guard == 0) {
            sampler.readings++;
            continue;
        }
        uint32_t first = BATCH * sampler.limits++, last = first + BATCH - 1;
        if (last >= sampler.readings) fail("a limit comes before its readings are sent");
        if (outcome.low != reading(first) || outcome.high != reading(last)) fail("a limit is not the one that is due");
    }
    return unused;
}

/* Takes a batch of readings and acknowledges it, again and again. */
static void *find(void *unused) {
    Guard guard;
    while (finder.limits < batches) {
        uint32_t first = finder.readings, last = first + BATCH - 1;
        while (finder.readings <= last) {
            rendezvous_receives(guard, true, SAMPLER);
            if (meet(FINDER, guard, sizeof guard).low != reading(finder.readings++)) fail("a reading is not the one that is due");
        }
        rendezvous_sends(guard, true, SAMPLER, RENDEZVOUS_LIMIT, reading(first), reading(last));
        meet(FINDER, guard, sizeof guard);
        finder.limits++;
    }
    return unused;
}

int main(int count, char **words) {
    pthread_t sampling, finding;
    if (count > 1) batches = strtoul(words[1], NULL, 10);
    keep(rendezvous_create(PROCESSES, NAP, after, sizeof after, answer, sizeof answer));
    if (pthread_create(&sampling, NULL, sample, NULL) != 0 || pthread_create(&finding, NULL, find, NULL) != 0) fail("a thread cannot be made");
    pthread_join(sampling, NULL);
    pthread_join(finding, NULL);
    if (sampler.readings != finder.readings || sampler.limits != finder.limits) fail("the two ends have counted otherwise");
    printf("%lu readings and %lu limits, none lost, doubled or altered\n", (unsigned long)finder.readings, (unsigned long)sampler.limits);
    return 0;
}
