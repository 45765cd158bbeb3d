/* A radio task takes readings in slots, and gives up when a slot closes before it has met. `meet` is the loop of a task with a time
   limit, to be copied.
   cc -pthread -Icrates/exports examples/link/slot.c crates/exports/out/libexports.a -o target/slot-c

   The loop. As in tasks.c a task takes the lock, offers, and makes rounds, in which EVERY process steps once, in number order. After
   each round it looks whether its process is at M, and whether its slot has closed: here a slot is so many rounds, a radio would look
   at its clock. After a round that changes nothing it gives the lock up for a moment. When the slot closes, it withdraws:
   - Withdrawn: nobody has met this offer, and nobody will.
   - Too late, or refused by 14, since the process is at M by then: a commit came first, and the message is on its way. The task must
     go on until it collects. It waits for no other task in that, since rounds move the partner too.
   So each offer ends in one of two ways: met or withdrawn. */
#include "rendezvous.h"
#include <pthread.h>
#include <stdio.h>
#include <stdlib.h>
#include <string.h>
#include <time.h>

enum { STORE, RADIO, PROCESSES };
enum { NAP = 1 }; /* as in tasks.c */

static pthread_mutex_t lock = PTHREAD_MUTEX_INITIALIZER;
static pthread_cond_t changed = PTHREAD_COND_INITIALIZER;
/* Under the lock: the table, and what the last call handed back. */
static uint8_t table[RENDEZVOUS_TABLE_BYTES], after[RENDEZVOUS_TABLE_BYTES], answer[RENDEZVOUS_ANSWER_BYTES];

/* How the offers of a process ended, and how many withdrawals were too late. */
typedef struct {
    uint32_t met, withdrawn, late;
} Count;
static Count counts[PROCESSES];

static _Noreturn void fail(const char *what) {
    fprintf(stderr, "slot-c: %s\n", what);
    exit(1);
}

/* The table that a call hands back is the one for the next call. */
static void keep(bool called) {
    if (!called) fail("a buffer is too short");
    memcpy(table, after, sizeof table);
}

static void offer(uint8_t p, const uint8_t *guard) {
    keep(rendezvous_offer(table, sizeof table, p, guard, RENDEZVOUS_GUARD_BYTES, after, sizeof after, answer, sizeof answer));
    if (answer[RENDEZVOUS_ANSWER_VARIANT] != RENDEZVOUS_OFFERED) fail("an offer is refused");
}

/* Every process steps once, in number order. Gives whether that changed anything. */
static bool round_changes(void) {
    bool changes = false;
    for (uint8_t p = 0; p < PROCESSES; p++) {
        keep(rendezvous_step(table, sizeof table, p, after, sizeof after, answer, sizeof answer));
        if (answer[RENDEZVOUS_ANSWER_VARIANT] == RENDEZVOUS_MOVED) changes = true;
    }
    return changes;
}

/* Whether process p was at M; the bits of the reading that it collects, if any, go to `taken`. */
static bool collected(uint8_t p, uint32_t *taken) {
    keep(rendezvous_collect(table, sizeof table, p, after, sizeof after, answer, sizeof answer));
    *taken = rendezvous_word(answer + RENDEZVOUS_ANSWER_MESSAGE + RENDEZVOUS_MESSAGE_FIRST);
    return answer[RENDEZVOUS_ANSWER_VARIANT] == RENDEZVOUS_COLLECTED;
}

/* Whether the offer of process p is withdrawn. If not, a commit came first. */
static bool withdrawn(uint8_t p) {
    keep(rendezvous_withdraw(table, sizeof table, p, after, sizeof after, answer, sizeof answer));
    if (answer[RENDEZVOUS_ANSWER_VARIANT] == RENDEZVOUS_TOO_LATE) counts[p].late++;
    return answer[RENDEZVOUS_ANSWER_VARIANT] == RENDEZVOUS_WITHDRAWN;
}

/* Gives the lock up until another task has met or given up, for a millisecond at most. */
static void rest(void) {
    struct timespec end;
    timespec_get(&end, TIME_UTC);
    end.tv_nsec += 1000000;
    end.tv_sec += end.tv_nsec / 1000000000;
    end.tv_nsec %= 1000000000;
    pthread_cond_timedwait(&changed, &lock, &end);
}

/* The loop of a task with a time limit: process p offers the guard, and meets, or gives up when its slot of so many rounds closes. */
static bool meet(uint8_t p, const uint8_t *guard, uint32_t slot, uint32_t *taken) {
    bool met = false;
    pthread_mutex_lock(&lock);
    offer(p, guard);
    for (uint32_t k = 0; k < slot && !met; k++) {
        if (!round_changes()) rest();
        met = collected(p, taken);
    }
    if (!met && withdrawn(p)) {
        counts[p].withdrawn++;
    } else {
        for (; !met; met = collected(p, taken)) round_changes();
        counts[p].met++;
    }
    pthread_cond_broadcast(&changed);
    pthread_mutex_unlock(&lock);
    return met;
}

/* Reading k has the bits of 4.72 and k more, so that no two are alike. */
enum { FIRST_READING = 0x40970a3d, READINGS = 1000 };
static uint32_t reading(uint32_t k) { return FIRST_READING + k; }

/* Offers each reading until it is met, in slots that are long. */
static void *store(void *unused) {
    uint8_t guard[RENDEZVOUS_GUARD_BYTES];
    uint32_t nothing;
    while (counts[STORE].met < READINGS) {
        rendezvous_sends(guard, true, RADIO, RENDEZVOUS_READING, reading(counts[STORE].met), 0);
        meet(STORE, guard, 100, &nothing);
    }
    return unused;
}

/* Takes every reading, in slots of 0 to 7 rounds: where the store waits, a commit comes in the third. Between two slots the store comes back. */
static void *radio(void *unused) {
    const struct timespec apart = {.tv_nsec = 100000};
    uint8_t guard[RENDEZVOUS_GUARD_BYTES];
    uint32_t due, taken;
    rendezvous_receives(guard, true, STORE);
    for (uint32_t slot = 0; (due = counts[RADIO].met) < READINGS; slot = (slot + 1) % 8) {
        if (meet(RADIO, guard, slot, &taken) && taken != reading(due)) fail("a reading is not the one that is due");
        nanosleep(&apart, NULL);
    }
    return unused;
}

int main(void) {
    pthread_t storing, listening;
    keep(rendezvous_create(PROCESSES, NAP, after, sizeof after, answer, sizeof answer));
    if (pthread_create(&storing, NULL, store, NULL) != 0 || pthread_create(&listening, NULL, radio, NULL) != 0) fail("a thread cannot be made");
    pthread_join(storing, NULL);
    pthread_join(listening, NULL);
    /* Each offer took a ticket; each rendezvous ended two of them, each withdrawal one. */
    if (rendezvous_word(table + RENDEZVOUS_HEAD_NEXT) != 2 * READINGS + counts[STORE].withdrawn + counts[RADIO].withdrawn)
        fail("an offer has not ended, or has ended twice");
    if (counts[RADIO].withdrawn == 0 || counts[RADIO].late == 0) fail("no slot closed before the commit, or none after it");
    printf("%d readings, none lost, doubled or altered; every other offer was withdrawn\n", READINGS);
    return 0;
}
