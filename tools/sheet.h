/* The day sheet of a table, read out of the table's bytes, for tools/trace.c. docs/BYTES.md says what stands where. */
#ifndef SHEET_H
#define SHEET_H

#include "rendezvous.h"
#include <inttypes.h>
#include <stdio.h>
#include <string.h>

/* The letters of the places, by their numbers. */
static const char places[] = "IEATCPOHSWM";

typedef struct {
    uint64_t offers, meetings, withdrawn, open;
} Sheet;

/* Whether a record has an open offer: at E, A, T, P, O or S, or at H or W with wake count 0. */
static bool has_open_offer(const uint8_t *record) {
    uint8_t at = record[RENDEZVOUS_RECORD_PLACE];
    if (at >= strlen(places)) return false;
    return strchr("EATPOS", places[at]) || (strchr("HW", places[at]) && record[RENDEZVOUS_RECORD_ACCEPTING]);
}

/* Offers, meetings and withdrawn stand in the table's head, open is counted. */
static Sheet sheet_in(const uint8_t *table) {
    Sheet sheet = {rendezvous_offers(table), rendezvous_meetings(table), rendezvous_withdrawn(table), 0};
    for (unsigned p = 0; p < table[RENDEZVOUS_HEAD_COUNT] && p < RENDEZVOUS_PROCESSES; p++)
        sheet.open += has_open_offer(table + RENDEZVOUS_HEAD_BYTES + RENDEZVOUS_RECORD_BYTES * p);
    return sheet;
}

static bool same_sheets(Sheet a, Sheet b) {
    return a.offers == b.offers && a.meetings == b.meetings && a.withdrawn == b.withdrawn && a.open == b.open;
}

/* What its signer checks. The offers have 32 bits, and nothing below them makes the sum overflow. */
static bool adds_up(Sheet sheet) {
    return sheet.meetings <= sheet.offers && sheet.withdrawn <= sheet.offers && sheet.offers == 2 * sheet.meetings + sheet.withdrawn + sheet.open;
}

/* The sheet in words, with that check; where it is not what was counted line by line, that stands beside it. Gives whether all is right. */
static bool tell_sheet(Sheet sheet, Sheet counted) {
    printf("day sheet: %" PRIu64 " offers %s 2 x %" PRIu64 " meetings + %" PRIu64 " withdrawn + %" PRIu64 " open", sheet.offers,
           adds_up(sheet) ? "=" : "are not", sheet.meetings, sheet.withdrawn, sheet.open);
    if (!same_sheets(sheet, counted))
        printf(" <- not %" PRIu64 ", %" PRIu64 ", %" PRIu64 " and %" PRIu64, counted.offers, counted.meetings, counted.withdrawn, counted.open);
    puts(", as counted line by line");
    return adds_up(sheet) && same_sheets(sheet, counted);
}

#endif
