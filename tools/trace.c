/* ./run --trace: tells, for each rendezvous of the script on standard input, which way its message went, station by station; for each
   offer that is withdrawn, as soon as it is, from which place; and at the end which offers have not met, which outcomes are not
   collected, the day sheet of the last table, and which lines were refused.
   The script goes to the proved library a line at a time. What a station shows is read out of the table's own bytes, as they stood
   just before and just after that line, and at a collection out of what the line printed; rendezvous.h says what stands where.
   Each station is held against the guards as the script wrote them, and a commit also against the posted guard that rule 7 keeps; between
   stations, no line may change what a record holds of them. The day sheet is held against the offers, commits and withdrawals that were
   seen. */
#include "rendezvous.h"
#include "sheet.h"
#include <stdarg.h>
#include <stdio.h>
#include <stdlib.h>
#include <string.h>

/* A line that is taken has at most so many bytes with its end, so it is one piece. */
enum { PIECE = RENDEZVOUS_BEGUN_BYTES };
/* Both offer; the waiter posts, opens, waits; one commits and signals, one absorbs; both may be too late to withdraw; both collect. */
enum { STATIONS = 12 };
/* So many rendezvous wait for an older one to be told. At most RENDEZVOUS_PROCESSES of them have a collection due. */
enum { STORIES = 256 };

/* A message or guard as a script writes it, a message perhaps with its decimals, or a few words: the longest is a limit with the decimals
   of low and high, of at most 61 bytes. A guard has at most 30. */
typedef struct {
    char text[80];
} Text;

/* The longest is a commit, of at most 159 bytes, that says of each of the seven other posted guards, in at most 88, why it is not kept. */
typedef struct {
    unsigned long line;
    char words[800];
    Text wanted; /* where the bits differ, or the choice of a guard: what they should be */
} Station;

typedef struct {
    unsigned long number;
    unsigned from, to, due;
    Text message;
    size_t count;
    Station stations[STATIONS];
} Story;

/* What a process does before it is known which of its guards will meet: its record just after each. */
enum { OFFERS, POSTS, OPENS, WAITS, ALONE };
typedef struct {
    unsigned long line;
    uint8_t record[RENDEZVOUS_RECORD_BYTES];
} Seen;

typedef struct {
    char offer[PIECE + 1]; /* the script's line */
    Seen seen[ALONE];
    unsigned long moved, stepped; /* the lines where it came to its place and where it last took a step; 0 is none */
    unsigned long story;          /* the number of its rendezvous, until it collects; 0 is none */
    unsigned guard;               /* its guard in that */
    Text due;                     /* and what it will collect */
    bool late;                    /* it was too late to withdraw */
    bool open;                    /* its offer has neither met nor been withdrawn */
} Process;

static uint8_t before[RENDEZVOUS_SESSION_BYTES], after[RENDEZVOUS_SESSION_BYTES];
static char piece[PIECE + 1], printed[PIECE * RENDEZVOUS_LINE_BYTES + 1];
static unsigned long line;
static Process processes[RENDEZVOUS_PROCESSES];
static Story stories[STORIES];
static size_t held;
static unsigned long rendezvous;
static unsigned long refused, first_refused, first_number;
static Sheet counted; /* what was seen of the last table; its open offers are counted at the end */
static bool differs;

static _Noreturn void fail(const char *what) {
    fflush(stdout);
    fprintf(stderr, "trace: %s (after line %lu)\n", what, line);
    exit(2);
}

static const uint8_t *record(const uint8_t *session, unsigned p) {
    return session + RENDEZVOUS_SESSION_TABLE + RENDEZVOUS_HEAD_BYTES + RENDEZVOUS_RECORD_BYTES * p;
}

/* Guard i of a record's list. */
static const uint8_t *guard_at(const uint8_t *process, unsigned list, unsigned i) { return process + list + RENDEZVOUS_GUARD_BYTES * i; }

static Text message_in(const uint8_t *bytes) {
    Text m = {"0"};
    unsigned variant = bytes[RENDEZVOUS_MESSAGE_VARIANT];
    unsigned long first = rendezvous_word(bytes + RENDEZVOUS_MESSAGE_FIRST), second = rendezvous_word(bytes + RENDEZVOUS_MESSAGE_SECOND);
    if (variant == RENDEZVOUS_WHOLE) snprintf(m.text, sizeof m.text, "w%ld", (long)(int32_t)first);
    if (variant == RENDEZVOUS_READING) snprintf(m.text, sizeof m.text, "r%08lx", first);
    if (variant == RENDEZVOUS_LIMIT) snprintf(m.text, sizeof m.text, "l%08lx%08lx", first, second);
    if (variant > RENDEZVOUS_LIMIT) snprintf(m.text, sizeof m.text, "variant %u", variant);
    return m;
}

/* The kind and the rank. 0 is shown as scripts mostly write it: left out. */
static Text marks_in(const uint8_t *guard) {
    Text m = {""};
    unsigned kind = guard[RENDEZVOUS_GUARD_KIND], rank = guard[RENDEZVOUS_GUARD_RANK];
    int length = kind > 0 ? snprintf(m.text, sizeof m.text, ":%u", kind) : 0;
    if (rank > 0) snprintf(m.text + length, sizeof m.text - length, "^%u", rank);
    return m;
}

static Text guard_in(const uint8_t *process, unsigned list, unsigned i) {
    const uint8_t *bytes = guard_at(process, list, i);
    bool sends = bytes[RENDEZVOUS_GUARD_SENDS];
    Text g, message = sends ? message_in(bytes + RENDEZVOUS_GUARD_MESSAGE) : (Text){""};
    snprintf(g.text, sizeof g.text, "%s%u%s%.20s%.8s", bytes[RENDEZVOUS_GUARD_ENABLED] ? "" : "-", bytes[RENDEZVOUS_GUARD_PARTNER], sends ? "!" : "?",
             message.text, marks_in(bytes).text);
    return g;
}

static Text signal_in(const uint8_t *process) {
    return process[RENDEZVOUS_RECORD_SIGNAL] ? message_in(process + RENDEZVOUS_RECORD_SIGNAL_MESSAGE) : (Text){"no signal"};
}

static Text outcome_in(const uint8_t *process) { return message_in(process + RENDEZVOUS_RECORD_OUTCOME); }

static unsigned long ticket_in(const uint8_t *process) { return rendezvous_word(process + RENDEZVOUS_RECORD_TICKET); }

static int wake_count_in(const uint8_t *process) { return !process[RENDEZVOUS_RECORD_ACCEPTING]; }

static char place(const uint8_t *session, unsigned p) {
    uint8_t at = record(session, p)[RENDEZVOUS_RECORD_PLACE];
    if (at >= strlen(places)) fail("a process is at no place");
    return places[at];
}

/* Takes a mark with 0 out of a guard as written, `:0` or `^0`. The number after a mark has no leading zeros: one that begins with 0 is 0. */
static void leave_out_zero(char *guard, char mark) {
    char *at = strchr(guard, mark);
    if (at && at[1] == '0') memmove(at, at + 2, strlen(at + 2) + 1);
}

/* Guard i as the script's line of an offer, `o P G..`, writes it, but for `:0` and `^0`: they are left out, as in guard_in. */
static Text guard_written(const char *offer, unsigned i) {
    Text g = {""};
    for (unsigned field = 0; field < i + 2 && offer; field++)
        if ((offer = strchr(offer, ' '))) offer++;
    if (!offer) fail("the table has a guard that the script has not");
    snprintf(g.text, sizeof g.text, "%.*s", (int)strcspn(offer, " \n"), offer);
    leave_out_zero(g.text, ':');
    leave_out_zero(g.text, '^');
    return g;
}

/* The message of a guard as written, which ends before the kind and the rank. */
static Text message_written(Text guard) {
    const char *mark = strchr(guard.text, '!');
    Text m = {"0"};
    if (mark) snprintf(m.text, sizeof m.text, "%.*s", (int)strcspn(mark + 1, ":^"), mark + 1);
    return m;
}

static Text named(Text message) { return strcmp(message.text, "0") ? message : (Text){"nothing (0)"}; }

/* The f32 whose bits eight hexadecimal digits are. */
static double value_of(const char *digits) {
    unsigned long bits = 0;
    float value;
    sscanf(digits, "%8lx", &bits);
    memcpy(&value, &(uint32_t){bits}, sizeof value);
    return value;
}

/* The message with each f32 in decimal beside its bits. Nine digits are enough to tell any two f32 apart. */
static Text readable(Text message) {
    Text shown = named(message);
    const char *m = message.text;
    if (*m == 'r') snprintf(shown.text, sizeof shown.text, "%.9s (%.9g)", m, value_of(m + 1));
    if (*m == 'l') snprintf(shown.text, sizeof shown.text, "%.17s (low %.9g, high %.9g)", m, value_of(m + 1), value_of(m + 9));
    return shown;
}

/* Puts words behind those that a station has. */
static void put(Station *station, const char *words, va_list list) {
    size_t said = strlen(station->words), room = sizeof station->words - said;
    int length = vsnprintf(station->words + said, room, words, list);
    if (length < 0 || (size_t)length >= room) fail("a station has more words than there is room for");
}

__attribute__((format(printf, 2, 3))) static void say(Station *station, const char *words, ...) {
    va_list list;
    va_start(list, words);
    put(station, words, list);
    va_end(list);
}

/* Adds a station in the order of lines. */
__attribute__((format(printf, 3, 4))) static Station *add(Story *story, unsigned long at, const char *words, ...) {
    va_list list;
    size_t k = story->count;
    if (story->count == STATIONS) fail("a rendezvous has more stations than the rules give it");
    for (; k > 0 && story->stations[k - 1].line > at; k--) story->stations[k] = story->stations[k - 1];
    story->count++;
    story->stations[k].line = at;
    story->stations[k].words[0] = story->stations[k].wanted.text[0] = 0;
    va_start(list, words);
    put(&story->stations[k], words, list);
    va_end(list);
    return &story->stations[k];
}

static void want(Station *station, Text found, Text wanted) {
    if (strcmp(found.text, wanted.text) != 0) station->wanted = wanted;
}

/* The message that is due to process p: only who receives has any. */
static Text due(const Story *story, unsigned p) { return story->to == p ? story->message : (Text){"0"}; }

/* Tells a rendezvous and forgets it. */
static void tell(size_t s) {
    const Story *story = &stories[s];
    unsigned long first = 0;
    printf("rendezvous %lu: %s from process %u to process %u\n", story->number, readable(story->message).text, story->from, story->to);
    for (size_t k = 0; k < story->count; k++) {
        const Station *station = &story->stations[k];
        const char *wanted = station->wanted.text;
        printf("  line %-6lu %s%s%s\n", station->line, station->words, *wanted ? " <- not " : "", wanted);
        if (*wanted && first == 0) first = station->line;
    }
    if (first > 0)
        printf("  not as it should be: line %lu is the first station that differs\n", first);
    else
        printf("  the same bits at every station%s\n", story->due > 0 ? " so far" : "");
    differs = differs || first > 0;
    held--;
    memmove(&stories[s], &stories[s + 1], (held - s) * sizeof stories[0]);
}

/* A new rendezvous. If too many wait for an older one, the first whose collections are made is told before it. */
static Story *begin(unsigned from, unsigned to, Text message) {
    for (size_t s = 0; held == STORIES; s++)
        if (stories[s].due == 0 || s + 1 == STORIES) tell(s);
    stories[held] = (Story){.number = ++rendezvous, .from = from, .to = to, .due = 2, .message = message};
    return &stories[held++];
}

static Story *story_of(unsigned p) {
    for (size_t s = held; s > 0; s--)
        if (stories[s - 1].number == processes[p].story) return &stories[s - 1];
    fail("a process meets, and none has committed to it");
}

/* Adds what process p did alone, if it did. */
static void add_seen(Story *story, unsigned p, unsigned what) {
    const Seen *seen = &processes[p].seen[what];
    unsigned i = processes[p].guard;
    Text guard = guard_in(seen->record, what == OFFERS ? RENDEZVOUS_RECORD_OWN : RENDEZVOUS_RECORD_POSTED, i);
    Station *station;
    if (seen->line == 0) return;
    if (what == OFFERS)
        station = add(story, seen->line, "process %u offers %s as guard %u, ticket %lu", p, guard.text, i, ticket_in(seen->record));
    else if (what == POSTS)
        station = add(story, seen->line, "process %u posts its list, with %s as guard %u", p, guard.text, i);
    else if (what == OPENS)
        station = add(story, seen->line, "process %u sets its wake count to %d, with %s as posted guard %u", p, wake_count_in(seen->record), guard.text, i);
    else
        station = add(story, seen->line, "process %u waits, with %s as posted guard %u", p, guard.text, i);
    want(station, guard, guard_written(processes[p].offer, i));
}

/* Process p did something alone: it is kept for the rendezvous to come. */
static void see(unsigned p, unsigned what) {
    Seen *seen = &processes[p].seen[what];
    seen->line = line;
    memcpy(seen->record, record(after, p), sizeof seen->record);
}

static void offers(unsigned p) {
    memset(&processes[p], 0, sizeof processes[p]);
    strcpy(processes[p].offer, piece);
    processes[p].open = true;
    counted.offers++;
    see(p, OFFERS);
}
static void posts(unsigned p) { see(p, POSTS); }
static void opens(unsigned p) { see(p, OPENS); }
static void waits(unsigned p) { see(p, WAITS); }

/* Process p is now in a rendezvous by its guard i. */
static void join(Story *story, unsigned p, unsigned i) {
    processes[p].story = story->number;
    processes[p].guard = i;
    processes[p].due = due(story, p);
    processes[p].open = false;
    for (unsigned what = OFFERS; what < ALONE; what++) add_seen(story, p, what);
}

static unsigned posted_count(const uint8_t *process) {
    unsigned count = process[RENDEZVOUS_RECORD_COUNTS + 1];
    if (count > RENDEZVOUS_GUARDS) fail("a posted list has more guards than there is room for");
    return count;
}

static unsigned posted_rank(const uint8_t *process, unsigned k) { return guard_at(process, RENDEZVOUS_RECORD_POSTED, k)[RENDEZVOUS_GUARD_RANK]; }

/* Why posted guard k of the partner does not match the guard that process p commits at, which names the partner; NULL if it does. */
static const char *obstacle(const uint8_t *partner, unsigned k, const uint8_t *guard, unsigned p) {
    const uint8_t *posted = guard_at(partner, RENDEZVOUS_RECORD_POSTED, k);
    if (!posted[RENDEZVOUS_GUARD_ENABLED]) return "is disabled";
    if (posted[RENDEZVOUS_GUARD_PARTNER] != p) return "names another process";
    if (posted[RENDEZVOUS_GUARD_SENDS] == guard[RENDEZVOUS_GUARD_SENDS]) return posted[RENDEZVOUS_GUARD_SENDS] ? "sends too" : "receives too";
    if (posted[RENDEZVOUS_GUARD_KIND] != guard[RENDEZVOUS_GUARD_KIND]) return "is of another kind";
    return NULL;
}

/* Which posted guard of the partner rule 7 keeps: of all that match the one of greatest rank, the first among equals. RENDEZVOUS_GUARDS is
   none: to a guard that is disabled none matches. */
static unsigned to_keep(const uint8_t *partner, const uint8_t *guard, unsigned p) {
    unsigned best = RENDEZVOUS_GUARDS;
    if (!guard[RENDEZVOUS_GUARD_ENABLED]) return best;
    for (unsigned k = 0; k < posted_count(partner); k++) {
        if (obstacle(partner, k, guard, p)) continue;
        if (best == RENDEZVOUS_GUARDS || posted_rank(partner, k) > posted_rank(partner, best)) best = k;
    }
    return best;
}

/* What to_keep gives, in words. */
static Text choice(const uint8_t *partner, unsigned k) {
    Text c = {"any posted guard: none matches"};
    if (k < RENDEZVOUS_GUARDS) snprintf(c.text, sizeof c.text, "posted guard %u (%.30s)", k, guard_in(partner, RENDEZVOUS_RECORD_POSTED, k).text);
    return c;
}

/* Says why posted guard j is the one to keep, where that is not plain from the two guards alone: a guard before it matches with a lower
   rank, or one of higher rank does not match. */
static void say_why(Station *station, const uint8_t *partner, unsigned j, const uint8_t *guard, unsigned p) {
    bool matched = false;
    for (unsigned k = 0; k < posted_count(partner); k++) {
        const char *why_not = obstacle(partner, k, guard, p);
        if (why_not && posted_rank(partner, k) > posted_rank(partner, j))
            say(station, "; posted guard %u (%s) ranks higher, but %s", k, guard_in(partner, RENDEZVOUS_RECORD_POSTED, k).text, why_not);
        if (!why_not && !matched && k < j)
            say(station, "; posted guard %u is the first that matches, but its rank is %u", k, posted_rank(partner, k));
        matched = matched || !why_not;
    }
}

static void commits(unsigned p) {
    const uint8_t *own = record(after, p);
    unsigned i = own[RENDEZVOUS_RECORD_INDEX], j = own[RENDEZVOUS_RECORD_KEPT];
    if (i >= RENDEZVOUS_GUARDS || j >= RENDEZVOUS_GUARDS) fail("a commit names no guard");
    const uint8_t *guard = guard_at(own, RENDEZVOUS_RECORD_OWN, i);
    unsigned q = guard[RENDEZVOUS_GUARD_PARTNER];
    bool sends = guard[RENDEZVOUS_GUARD_SENDS];
    if (q >= RENDEZVOUS_PROCESSES) fail("a commit names no process");
    const uint8_t *partner = record(after, q);
    Text mine = guard_in(own, RENDEZVOUS_RECORD_OWN, i), kept = guard_in(partner, RENDEZVOUS_RECORD_POSTED, j);
    Text wanted = guard_written(processes[p].offer, i), partners = guard_written(processes[q].offer, j);
    Story *story = begin(sends ? p : q, sends ? q : p, message_written(sends ? wanted : partners));
    counted.meetings++;
    join(story, q, j);
    join(story, p, i);
    Station *station = add(story, line, "process %u commits at its guard %u (%s) to posted guard %u of process %u (%s), whose wake count becomes %d", p, i,
                           mine.text, j, q, kept.text, wake_count_in(partner));
    unsigned right = to_keep(partner, guard, p);
    if (j == right) say_why(station, partner, j, guard, p);
    /* Where bits differ as well, they are told instead: the choice may follow from them. */
    want(station, choice(partner, j), choice(partner, right));
    want(station, mine, wanted);
    want(station, kept, partners);
}

static void signals(unsigned p) {
    Story *story = story_of(p);
    unsigned q = story->from == p ? story->to : story->from;
    Text kept = outcome_in(record(after, p)), signal = signal_in(record(after, q));
    Station *station = story->from == p
        ? add(story, line, "process %u signals process %u with %s, and keeps %s", p, q, named(signal).text, named(kept).text)
        : add(story, line, "process %u takes %s from the posted list of process %u, and signals it with %s", p, named(kept).text, q, named(signal).text);
    want(station, kept, due(story, p));
    want(station, signal, due(story, q));
}

static void absorbs(unsigned p) {
    Story *story = story_of(p);
    Text signal = signal_in(record(before, p)), kept = outcome_in(record(after, p));
    Station *station = add(story, line, "process %u absorbs the signal with %s, and keeps %s", p, named(signal).text, named(kept).text);
    want(station, signal, due(story, p));
    want(station, kept, due(story, p));
}

static void collects(unsigned p) {
    Story *story = story_of(p);
    unsigned i, q;
    Text message;
    if (sscanf(printed, "c %*u %u %u %31s", &i, &q, message.text) != 3) fail("a collection prints no message");
    want(add(story, line, "process %u collects %s from its rendezvous with process %u, as its guard %u", p, readable(message).text, q, i), message,
         due(story, p));
    story->due--;
    processes[p].story = 0;
    while (held > 0 && stories[0].due == 0) tell(0);
}

static void tell_all(void) {
    while (held > 0) tell(0);
}

/* How many steps of its nap process p has made at S. Of a nap of one step there is nothing to tell. */
static void tell_nap(const uint8_t *session, unsigned p) {
    unsigned nap = session[RENDEZVOUS_SESSION_TABLE + RENDEZVOUS_HEAD_NAP];
    if (nap > 1) printf("asleep for %u of %u steps, ", record(session, p)[RENDEZVOUS_RECORD_STEPS], nap);
}

/* Where process p stands. */
static void tell_place(const uint8_t *session, unsigned p) {
    const Process *process = &processes[p];
    char at = place(session, p);
    printf(" (at %c", at);
    if (strchr("ATC", at)) printf("%u", record(session, p)[RENDEZVOUS_RECORD_INDEX]);
    printf(" since line %lu, ", process->moved);
    if (at == 'S') tell_nap(session, p);
    if (process->stepped > 0)
        printf("last step at line %lu)\n", process->stepped);
    else
        printf("no step yet)\n");
}

/* The offer of process p, and where that process stands. */
static void tell_offer(const uint8_t *session, unsigned p) {
    printf("the offer of process %u at line %lu, ticket %lu", p, processes[p].seen[OFFERS].line, ticket_in(record(session, p)));
    tell_place(session, p);
}

/* Process p takes its offer back, which no rule lets it do after a commit. */
static void withdraws(unsigned p) {
    if (processes[p].story > 0) fail("an offer is withdrawn after its commit");
    processes[p].open = false;
    counted.withdrawn++;
    printf("withdrawn at line %lu: ", line);
    tell_offer(before, p);
}

/* Process p would withdraw, and a commit came first. It may ask again and again: the first time is told. */
static void comes_late(unsigned p) {
    if (!processes[p].late) add(story_of(p), line, "process %u is too late to withdraw its offer", p);
    processes[p].late = true;
}

/* From which places to which each station moves its process. */
static const struct {
    const char *from;
    char to;
    void (*station)(unsigned p);
} moves[] = {{"I", 'E', offers},  {"P", 'O', posts},   {"O", 'H', opens},    {"H", 'W', waits},           {"T", 'C', commits},
             {"C", 'M', signals}, {"W", 'M', absorbs}, {"M", 'I', collects}, {"EATCPOHSW", 'I', withdraws}};

/* An offer that has not met, or an outcome that is not collected. */
static void tell_left(const uint8_t *session, unsigned p) {
    const Process *process = &processes[p];
    if (process->story > 0) {
        printf("  not collected: %s for process %u of rendezvous %lu", readable(process->due).text, p, process->story);
        tell_place(session, p);
    } else {
        printf("  not met: ");
        tell_offer(session, p);
    }
}

/* What is left of a table where it ends, under a heading. Gives whether anything is. */
static bool tell_all_left(const uint8_t *session, Text heading) {
    bool any = false;
    for (unsigned p = 0; p < RENDEZVOUS_PROCESSES; p++) {
        if (place(session, p) == 'I') continue;
        if (!any) puts(heading.text);
        tell_left(session, p);
        any = true;
    }
    return any;
}

/* Whether the line changed the bytes of process p from one part of its record up to another. */
static bool changed(unsigned p, size_t start, size_t end) { return memcmp(record(before, p) + start, record(after, p) + start, end - start) != 0; }

/* Lists change where their process offers or posts, an outcome where it moves, a signal where there was none or it moves. */
static void see_stray(unsigned p, char from, char to) {
    bool writes = from != to && (to == 'E' || to == 'O');
    bool lists = !writes && changed(p, RENDEZVOUS_RECORD_OWN, RENDEZVOUS_RECORD_BYTES);
    bool outcome = from == to && changed(p, RENDEZVOUS_RECORD_OUTCOME, RENDEZVOUS_RECORD_SIGNAL);
    bool signal = from == to && record(before, p)[RENDEZVOUS_RECORD_SIGNAL] && changed(p, RENDEZVOUS_RECORD_SIGNAL, RENDEZVOUS_RECORD_TICKET);
    if (!lists && !outcome && !signal) return;
    printf("line %lu changes the %s of process %u against the rules\n", line, lists ? "lists" : outcome ? "outcome" : "signal", p);
    differs = true;
}

/* Whether the line brought process p to another place: a guard's index is a part of one, the steps made at S are not. */
static bool arrives(unsigned p, char from, char to) {
    return from != to || (to != 'S' && changed(p, RENDEZVOUS_RECORD_INDEX, RENDEZVOUS_RECORD_KEPT));
}

/* What the line did to process p. */
static void look_at(unsigned p) {
    char from = place(before, p), to = place(after, p);
    see_stray(p, from, to);
    for (size_t k = 0; from != to && k < sizeof moves / sizeof moves[0]; k++)
        if (strchr(moves[k].from, from) && to == moves[k].to) moves[k].station(p);
    if (arrives(p, from, to)) processes[p].moved = line;
}

/* The old table ends, and with it every story. */
static void begin_table(void) {
    Text heading;
    snprintf(heading.text, sizeof heading.text, "left at line %lu, which makes a new table:", line);
    tell_all();
    tell_all_left(before, heading);
    memset(processes, 0, sizeof processes);
    counted = (Sheet){0};
}

static void refuse(void) {
    if (refused++ > 0) return;
    first_refused = line;
    first_number = strtoul(printed + 2, NULL, 10);
}

/* What the line did, by what it printed and the tables before and after it. */
static void look(void) {
    unsigned p;
    line++;
    if (printed[0] == 'n') {
        begin_table();
        return;
    }
    if (printed[0] == 'x') refuse();
    for (p = 0; p < RENDEZVOUS_PROCESSES; p++) look_at(p);
    if (sscanf(printed, "s %u", &p) == 1 && p < RENDEZVOUS_PROCESSES) processes[p].stepped = line;
    if (sscanf(printed, "w %u", &p) == 1 && p < RENDEZVOUS_PROCESSES && strstr(printed, "late")) comes_late(p);
}

/* Reads up to the end of a line, or as much of it as a piece has. */
static size_t read_piece(void) {
    size_t length = 0;
    int byte;
    while (length < PIECE && (byte = getchar()) != EOF)
        if ((piece[length++] = (char)byte) == '\n') break;
    piece[length] = 0;
    return length;
}

static void feed(size_t length) {
    size_t taken = 0, filled = 0;
    memcpy(before, after, sizeof before);
    if (!rendezvous_script_feed(before, sizeof before, (const uint8_t *)piece, length, after, sizeof after, (uint8_t *)printed, sizeof printed - 1, &taken,
                                &filled) ||
        taken != length || filled >= sizeof printed)
        fail("the library does not take the next line");
    printed[filled] = 0;
}

/* A last line that is not ended is refused, and changes nothing. */
static void finish(void) {
    if (rendezvous_script_finish(after, sizeof after, (uint8_t *)printed, sizeof printed - 1) == 0) return;
    line++;
    refuse();
}

/* The day sheet of the last table. */
static void tell_day(void) {
    for (unsigned p = 0; p < RENDEZVOUS_PROCESSES; p++) counted.open += processes[p].open;
    if (!tell_sheet(sheet_in(after + RENDEZVOUS_SESSION_TABLE), counted)) differs = true;
}

static void tell_end(void) {
    tell_all();
    if (rendezvous == 0) puts("no rendezvous");
    if (!tell_all_left(after, (Text){"left at the end:"})) puts("left at the end: nothing");
    tell_day();
    if (refused == 0)
        puts("lines refused: none");
    else
        printf("lines refused: %lu of %lu, the first is line %lu with %lu\n", refused, line, first_refused, first_number);
}

int main(void) {
    size_t length;
    if (!rendezvous_script_start(after, sizeof after)) fail("the library gives no session");
    while ((length = read_piece()) > 0) {
        feed(length);
        if (piece[length - 1] == '\n') look();
    }
    if (ferror(stdin)) fail("standard input cannot be read");
    finish();
    tell_end();
    if (fflush(stdout) != 0 || ferror(stdout)) fail("standard output cannot be written");
    return differs;
}
