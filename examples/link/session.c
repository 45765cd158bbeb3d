/* Process 0 offers the reading 4.72 to process 1, which takes it: the proved library from C.
   cc -Icrates/exports examples/link/session.c crates/exports/out/libexports.a -o target/session-c */
#include "rendezvous.h"
#include <stdio.h>
#include <stdlib.h>
#include <string.h>

static uint8_t table[RENDEZVOUS_TABLE_BYTES], after[RENDEZVOUS_TABLE_BYTES], answer[RENDEZVOUS_ANSWER_BYTES];

/* A call with a buffer that is too short does nothing. The table that one hands back is the one for the next call. */
static void next(bool called) {
    if (!called) exit(1);
    memcpy(table, after, sizeof table);
}

static void step(uint8_t p, int times) {
    for (int k = 0; k < times; k++) next(rendezvous_step(table, sizeof table, p, after, sizeof after, answer, sizeof answer));
}

static void offer(uint8_t p, const uint8_t *guard) {
    next(rendezvous_offer(table, sizeof table, p, guard, RENDEZVOUS_GUARD_BYTES, after, sizeof after, answer, sizeof answer));
}

int main(void) {
    float sent = 4.72f, received;
    uint32_t bits;
    uint8_t reading[RENDEZVOUS_GUARD_BYTES], taking[RENDEZVOUS_GUARD_BYTES];
    memcpy(&bits, &sent, sizeof bits);
    rendezvous_sends(reading, true, 1, RENDEZVOUS_READING, bits, 0);
    rendezvous_receives(taking, true, 0);
    next(rendezvous_create(2, 1, after, sizeof after, answer, sizeof answer)); /* two processes, naps of one step */
    offer(0, reading);
    offer(1, taking);
    step(0, 5); /* 0 finds nobody, posts its list and waits */
    step(1, 4); /* 1 finds 0 waiting, commits and takes the reading */
    step(0, 1); /* 0 absorbs the signal */
    next(rendezvous_collect(table, sizeof table, 1, after, sizeof after, answer, sizeof answer));
    bits = rendezvous_word(answer + RENDEZVOUS_ANSWER_MESSAGE + RENDEZVOUS_MESSAGE_FIRST);
    memcpy(&received, &bits, sizeof received);
    printf("process 1 collects %.2f from process %d\n", received, answer[RENDEZVOUS_ANSWER_SECOND]);
    return answer[RENDEZVOUS_ANSWER_VARIANT] == RENDEZVOUS_COLLECTED && memcmp(&received, &sent, sizeof sent) == 0 ? 0 : 1;
}
