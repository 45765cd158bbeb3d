/* A pier's sampler offers a strain and a temperature, both whole numbers, and the store has a guard for each: by the kinds each value
   comes to the guard where it belongs, whatever the order of either list.
   cc -Icrates/exports examples/link/sensors.c crates/exports/out/libexports.a -o target/sensors-c */
#include "rendezvous.h"
#include <stdio.h>
#include <stdlib.h>
#include <string.h>

enum { SAMPLER, STORE, PROCESSES };
enum { NAP = 1 }; /* rounds let every process step between two steps of a sleeper */
enum { TEMPERATURE = 1, STRAIN = 2 }; /* kinds */

typedef uint8_t Guard[RENDEZVOUS_GUARD_BYTES];

static uint8_t table[RENDEZVOUS_TABLE_BYTES], after[RENDEZVOUS_TABLE_BYTES], answer[RENDEZVOUS_ANSWER_BYTES];

/* A call with a buffer that is too short does nothing. The table that one hands back is the one for the next call. Gives the variant of
   the answer. */
static uint8_t next(bool called) {
    if (!called) exit(1);
    memcpy(table, after, sizeof table);
    return answer[RENDEZVOUS_ANSWER_VARIANT];
}

static void offer(uint8_t p, const uint8_t *guards, size_t length) {
    uint8_t variant = next(rendezvous_offer(table, sizeof table, p, guards, length, after, sizeof after, answer, sizeof answer));
    if (variant != RENDEZVOUS_OFFERED) exit(1);
}

/* Every process steps once, in number order. Gives whether that changed anything. */
static bool round_changes(void) {
    bool changes = false;
    for (uint8_t p = 0; p < PROCESSES; p++)
        if (next(rendezvous_step(table, sizeof table, p, after, sizeof after, answer, sizeof answer)) == RENDEZVOUS_MOVED) changes = true;
    return changes;
}

/* Gives the index of the guard of process p that has met; the answer then holds what it took. */
static uint8_t collect(uint8_t p) {
    uint8_t variant = next(rendezvous_collect(table, sizeof table, p, after, sizeof after, answer, sizeof answer));
    if (variant != RENDEZVOUS_COLLECTED) exit(1);
    return answer[RENDEZVOUS_ANSWER_FIRST];
}

/* A guard of the sampler. */
static void value(uint8_t *guard, int32_t number, uint8_t kind) {
    rendezvous_sends(guard, true, STORE, RENDEZVOUS_WHOLE, number, 0);
    rendezvous_of_kind(guard, kind);
}

/* A guard of the store. */
static void place(uint8_t *guard, uint8_t kind) {
    rendezvous_receives(guard, true, SAMPLER);
    rendezvous_of_kind(guard, kind);
}

int main(void) {
    const int32_t strain = -412, temperature = 184;
    Guard values[2], places[2];
    int32_t taken[2] = {0, 0};
    value(values[0], strain, STRAIN);
    value(values[1], temperature, TEMPERATURE);
    place(places[0], TEMPERATURE);
    place(places[1], STRAIN);
    next(rendezvous_create(PROCESSES, NAP, after, sizeof after, answer, sizeof answer));
    for (int k = 0; k < 2; k++) {
        offer(SAMPLER, values[0], sizeof values);
        offer(STORE, places[0], sizeof places);
        while (round_changes()) continue;
        uint8_t index = collect(STORE);
        taken[index] = rendezvous_word(answer + RENDEZVOUS_ANSWER_MESSAGE + RENDEZVOUS_MESSAGE_FIRST);
        /* What was sent is not offered again. */
        values[collect(SAMPLER)][RENDEZVOUS_GUARD_ENABLED] = false;
    }
    printf("the temperature's guard took %d, the strain's took %d\n", (int)taken[0], (int)taken[1]);
    return taken[0] == temperature && taken[1] == strain ? 0 : 1;
}
