/* An event finder waits with two values for the radio link, a trend line and an alarm, the trend line first in its list. One guard of the
   radio matches both: by the ranks it takes the alarm first.
   cc -Icrates/exports examples/link/alarm.c crates/exports/out/libexports.a -o target/alarm-c */
#include "rendezvous.h"
#include <stdio.h>
#include <stdlib.h>
#include <string.h>

enum { RADIO, FINDER, PROCESSES };
enum { NAP = 1 }; /* rounds let every process step between two steps of a sleeper */
enum { TREND = 0, ALARM = 9 }; /* ranks */

typedef uint8_t Guard[RENDEZVOUS_GUARD_BYTES];

static uint8_t table[RENDEZVOUS_TABLE_BYTES], after[RENDEZVOUS_TABLE_BYTES], answer[RENDEZVOUS_ANSWER_BYTES];

/* A call with a buffer that is too short does nothing. The table that one hands back is the one for the next call. Gives the variant of
   the answer. */
static uint8_t next(bool called) {
    if (!called) exit(1);
    memcpy(table, after, sizeof table);
    return answer[RENDEZVOUS_ANSWER_VARIANT];
}

/* Every process steps once, in number order. Gives whether that changed anything. */
static bool round_changes(void) {
    bool changes = false;
    for (uint8_t p = 0; p < PROCESSES; p++)
        if (next(rendezvous_step(table, sizeof table, p, after, sizeof after, answer, sizeof answer)) == RENDEZVOUS_MOVED) changes = true;
    return changes;
}

/* Process p offers, and then every process steps until the table is at rest: whoever finds no partner waits. */
static void offer(uint8_t p, const uint8_t *guards, size_t length) {
    uint8_t variant = next(rendezvous_offer(table, sizeof table, p, guards, length, after, sizeof after, answer, sizeof answer));
    if (variant != RENDEZVOUS_OFFERED) exit(1);
    while (round_changes()) continue;
}

/* Gives the index of the guard of process p that has met; the answer then holds what it took. */
static uint8_t collect(uint8_t p) {
    uint8_t variant = next(rendezvous_collect(table, sizeof table, p, after, sizeof after, answer, sizeof answer));
    if (variant != RENDEZVOUS_COLLECTED) exit(1);
    return answer[RENDEZVOUS_ANSWER_FIRST];
}

/* A guard of the event finder. */
static void value(uint8_t *guard, int32_t number, uint8_t rank) {
    rendezvous_sends(guard, true, RADIO, RENDEZVOUS_WHOLE, number, 0);
    rendezvous_of_rank(guard, rank);
}

int main(void) {
    const int32_t trend = 184, alarm = 17;
    Guard values[2], taking;
    int32_t taken[2] = {0, 0};
    value(values[0], trend, TREND);
    value(values[1], alarm, ALARM);
    rendezvous_receives(taking, true, FINDER);
    next(rendezvous_create(PROCESSES, NAP, after, sizeof after, answer, sizeof answer));
    for (int k = 0; k < 2; k++) {
        offer(FINDER, values[0], sizeof values);
        offer(RADIO, taking, sizeof taking);
        collect(RADIO);
        taken[k] = rendezvous_word(answer + RENDEZVOUS_ANSWER_MESSAGE + RENDEZVOUS_MESSAGE_FIRST);
        /* What was sent is not offered again. */
        values[collect(FINDER)][RENDEZVOUS_GUARD_ENABLED] = false;
    }
    printf("alarm %d, trend line %d: the radio took %d first, then %d\n", (int)alarm, (int)trend, (int)taken[0], (int)taken[1]);
    return taken[0] == alarm && taken[1] == trend ? 0 : 1;
}
