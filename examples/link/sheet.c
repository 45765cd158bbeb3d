/* The day sheet that an installer signs, out of the table's bytes: offers, meetings, withdrawn and open. A sampler hands two readings to
   the store; the radio link gives three offers up, and waits with a fourth.
   cc -Icrates/exports examples/link/sheet.c crates/exports/out/libexports.a -o target/sheet-c */
#include "rendezvous.h"
#include <inttypes.h>
#include <stdio.h>
#include <stdlib.h>
#include <string.h>

enum { SAMPLER, STORE, RADIO, PROCESSES };
enum { NAP = 1 }; /* rounds let every process step between two steps of a sleeper */

typedef uint8_t Guard[RENDEZVOUS_GUARD_BYTES];

static uint8_t table[RENDEZVOUS_TABLE_BYTES], after[RENDEZVOUS_TABLE_BYTES], answer[RENDEZVOUS_ANSWER_BYTES];

/* A call with a buffer that is too short does nothing. The table that one hands back is the one for the next call. Gives the variant of
   the answer. */
static uint8_t next(bool called) {
    if (!called) exit(1);
    memcpy(table, after, sizeof table);
    return answer[RENDEZVOUS_ANSWER_VARIANT];
}

/* Every process steps once, in number order. Gives whether that changed anything. */
static bool round_changes(void) {
    bool changes = false;
    for (uint8_t p = 0; p < PROCESSES; p++)
        if (next(rendezvous_step(table, sizeof table, p, after, sizeof after, answer, sizeof answer)) == RENDEZVOUS_MOVED) changes = true;
    return changes;
}

/* Process p offers a guard, and then every process steps until the table is at rest: whoever finds no partner waits. */
static void offer(uint8_t p, const uint8_t *guard) {
    uint8_t variant = next(rendezvous_offer(table, sizeof table, p, guard, RENDEZVOUS_GUARD_BYTES, after, sizeof after, answer, sizeof answer));
    if (variant != RENDEZVOUS_OFFERED) exit(1);
    while (round_changes()) continue;
}

static void collect(uint8_t p) {
    uint8_t variant = next(rendezvous_collect(table, sizeof table, p, after, sizeof after, answer, sizeof answer));
    if (variant != RENDEZVOUS_COLLECTED) exit(1);
}

static void withdraw(uint8_t p) {
    uint8_t variant = next(rendezvous_withdraw(table, sizeof table, p, after, sizeof after, answer, sizeof answer));
    if (variant != RENDEZVOUS_WITHDRAWN) exit(1);
}

/* Whether process p has an open offer: at E, A, T, P, O or S, or at H or W with wake count 0. The places' numbers go from I, 0, to M, 10. */
static bool has_open_offer(uint8_t p) {
    const uint8_t *record = table + RENDEZVOUS_HEAD_BYTES + RENDEZVOUS_RECORD_BYTES * p;
    const char *places = "IEATCPOHSWM";
    uint8_t at = record[RENDEZVOUS_RECORD_PLACE];
    if (at >= strlen(places)) return false;
    char place = places[at];
    return strchr("EATPOS", place) || (strchr("HW", place) && record[RENDEZVOUS_RECORD_ACCEPTING]);
}

int main(void) {
    Guard reading, taking, listening;
    uint64_t offers, meetings, withdrawn, open = 0;
    rendezvous_sends(reading, true, STORE, RENDEZVOUS_READING, 0x40970a3d, 0); /* 4.72 */
    rendezvous_receives(taking, true, SAMPLER);
    rendezvous_receives(listening, true, STORE);
    next(rendezvous_create(PROCESSES, NAP, after, sizeof after, answer, sizeof answer));
    for (int k = 0; k < 2; k++) {
        offer(SAMPLER, reading);
        offer(STORE, taking);
        collect(STORE);
        collect(SAMPLER);
    }
    for (int k = 0; k < 3; k++) {
        offer(RADIO, listening);
        withdraw(RADIO);
    }
    offer(RADIO, listening);

    offers = rendezvous_offers(table);
    meetings = rendezvous_meetings(table);
    withdrawn = rendezvous_withdrawn(table);
    for (uint8_t p = 0; p < PROCESSES; p++) open += has_open_offer(p);
    printf("%" PRIu64 " %" PRIu64 " %" PRIu64 " %" PRIu64 "\n", offers, meetings, withdrawn, open);
    return offers == 2 * meetings + withdrawn + open ? 0 : 1;
}
