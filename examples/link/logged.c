/* Every call logged as a line of a script, so that what a logger did in the field can be traced afterwards.
   cc -Icrates/exports examples/link/logged.c crates/exports/out/libexports.a -o target/logged-c
   target/logged-c LOG     appends its calls to LOG, and prints what each of them answered, as the script program prints it
   ./run < LOG             prints the same
   ./run --trace < LOG     tells the way of each message

   A line is written before its call is made, so that the log of a program that stops ends with the call that it was in. Where tasks
   share a table, write it under the lock that the call is made under: the lines then stand in the order of the calls. A log begins
   where its table is made. A line longer than 200 bytes has 8 in the script. Where the offer was refused, by 3 say, the table stays the
   same either way. But an offer of seven or eight guards with long messages, kinds and ranks can be accepted and have so long a line: the
   script then goes on without it. A digit of each can be enough: eight limits with `:1^1` make up to 211 bytes. Where each guard has a
   kind or a rank below 10, and the other is 0, no accepted offer is so long. */
#include "rendezvous.h"
#include <stdio.h>
#include <stdlib.h>
#include <string.h>

static uint8_t table[RENDEZVOUS_TABLE_BYTES], after[RENDEZVOUS_TABLE_BYTES], answer[RENDEZVOUS_ANSWER_BYTES];
static FILE *script;

static void write_message(FILE *to, const uint8_t *message) {
    unsigned variant = message[RENDEZVOUS_MESSAGE_VARIANT];
    unsigned long first = rendezvous_word(message + RENDEZVOUS_MESSAGE_FIRST), second = rendezvous_word(message + RENDEZVOUS_MESSAGE_SECOND);
    if (variant == RENDEZVOUS_NOTHING) fprintf(to, "0");
    if (variant == RENDEZVOUS_WHOLE) fprintf(to, "w%ld", (long)(int32_t)first);
    if (variant == RENDEZVOUS_READING) fprintf(to, "r%08lx", first);
    if (variant == RENDEZVOUS_LIMIT) fprintf(to, "l%08lx%08lx", first, second);
}

static void write_guard(FILE *to, const uint8_t *guard) {
    bool sends = guard[RENDEZVOUS_GUARD_SENDS];
    fprintf(to, " %s%u%c", guard[RENDEZVOUS_GUARD_ENABLED] ? "" : "-", guard[RENDEZVOUS_GUARD_PARTNER], sends ? '!' : '?');
    if (sends) write_message(to, guard + RENDEZVOUS_GUARD_MESSAGE);
    if (guard[RENDEZVOUS_GUARD_KIND] != 0) fprintf(to, ":%u", guard[RENDEZVOUS_GUARD_KIND]);
    if (guard[RENDEZVOUS_GUARD_RANK] != 0) fprintf(to, "^%u", guard[RENDEZVOUS_GUARD_RANK]);
}

/* What a call answered, as the script program prints it. */
static void print_answer(const char *call) {
    unsigned variant = answer[RENDEZVOUS_ANSWER_VARIANT], first = answer[RENDEZVOUS_ANSWER_FIRST], second = answer[RENDEZVOUS_ANSWER_SECOND];
    if (variant == RENDEZVOUS_REFUSED)
        printf("x %u", first);
    else
        printf("%s", call);
    if (variant == RENDEZVOUS_OFFERED) printf(" t%lu", (unsigned long)rendezvous_word(answer + RENDEZVOUS_ANSWER_WORD));
    if (variant == RENDEZVOUS_MOVED) printf(" %c", first);
    if (variant == RENDEZVOUS_MOVED && strchr("ATC", first)) printf("%u", second);
    if (variant == RENDEZVOUS_UNCHANGED) printf(" =");
    if (variant == RENDEZVOUS_COLLECTED) printf(" %u %u ", first, second);
    if (variant == RENDEZVOUS_COLLECTED) write_message(stdout, answer + RENDEZVOUS_ANSWER_MESSAGE);
    if (variant == RENDEZVOUS_WITHDRAWN) printf(" ok");
    if (variant == RENDEZVOUS_TOO_LATE) printf(" late");
    if (variant == RENDEZVOUS_RUNNABLE) printf(" %08lx", (unsigned long)rendezvous_word(answer + RENDEZVOUS_ANSWER_WORD));
    printf("\n");
}

/* The call's letter and number go to the log, and to a text for print_answer. */
static const char *begin(char letter, unsigned p) {
    static char call[8];
    snprintf(call, sizeof call, "%c %u", letter, p);
    fprintf(script, "%s", call);
    return call;
}

/* The line stands in the log before the call is made. */
static void end_line(void) {
    fprintf(script, "\n");
    if (fflush(script) != 0) exit(1);
}

/* A call with a buffer that is too short does nothing. The table that one hands back is the one for the next call. */
static void next(bool called, const char *call) {
    if (!called) exit(1);
    memcpy(table, after, sizeof table);
    print_answer(call);
}

/* Naps of one step are logged as a script mostly writes them: left out, as kind 0 and rank 0 are. */
static void create(uint8_t n, uint8_t nap) {
    const char *call = begin('n', n);
    if (nap != 1) fprintf(script, " %u", nap);
    end_line();
    next(rendezvous_create(n, nap, after, sizeof after, answer, sizeof answer), call);
}

static void offer(uint8_t p, const uint8_t *guards, size_t length) {
    const char *call = begin('o', p);
    for (size_t at = 0; at + RENDEZVOUS_GUARD_BYTES <= length; at += RENDEZVOUS_GUARD_BYTES) write_guard(script, guards + at);
    end_line();
    next(rendezvous_offer(table, sizeof table, p, guards, length, after, sizeof after, answer, sizeof answer), call);
}

static void step(uint8_t p) {
    const char *call = begin('s', p);
    end_line();
    next(rendezvous_step(table, sizeof table, p, after, sizeof after, answer, sizeof answer), call);
}

static void collect(uint8_t p) {
    const char *call = begin('c', p);
    end_line();
    next(rendezvous_collect(table, sizeof table, p, after, sizeof after, answer, sizeof answer), call);
}

static void withdraw(uint8_t p) {
    const char *call = begin('w', p);
    end_line();
    next(rendezvous_withdraw(table, sizeof table, p, after, sizeof after, answer, sizeof answer), call);
}

static bool runnable(void) {
    fprintf(script, "m");
    end_line();
    next(rendezvous_runnable(table, sizeof table, after, sizeof after, answer, sizeof answer), "m");
    return rendezvous_word(answer + RENDEZVOUS_ANSWER_WORD) != 0;
}

/* Rounds in which both processes step once, in number order, until nothing is runnable. */
static void settle(void) {
    while (runnable())
        for (uint8_t p = 0; p < 2; p++) step(p);
}

typedef uint8_t Guard[RENDEZVOUS_GUARD_BYTES];

int main(int count, char **words) {
    Guard not_a_number, reading, taking[2], limit, taking_limit;
    rendezvous_sends(not_a_number, true, 1, RENDEZVOUS_READING, 0x7fc00000, 0);
    rendezvous_sends(reading, true, 1, RENDEZVOUS_READING, 0x40970a3d, 0);
    rendezvous_sends(taking[0], false, 0, RENDEZVOUS_WHOLE, -1, 0);
    rendezvous_receives(taking[1], true, 0);
    rendezvous_sends(limit, true, 0, RENDEZVOUS_LIMIT, 0x40970a3d, 0x40a00000);
    rendezvous_receives(taking_limit, true, 1);
    script = count == 2 ? fopen(words[1], "a") : NULL;
    if (!script) {
        fprintf(stderr, "logged-c LOG: LOG is a file that can be written.\n");
        return 2;
    }
    create(2, 1);
    offer(0, not_a_number, sizeof not_a_number);
    offer(0, reading, sizeof reading);
    settle();
    offer(1, taking[0], sizeof taking);
    settle();
    collect(1);
    collect(0);
    offer(1, limit, sizeof limit);
    settle();
    collect(1);
    offer(0, taking_limit, sizeof taking_limit);
    settle();
    collect(0);
    collect(1);
    offer(0, reading, sizeof reading);
    settle();
    withdraw(0);
    step(2);
    return fclose(script) != 0 || fflush(stdout) != 0 || ferror(stdout);
}
