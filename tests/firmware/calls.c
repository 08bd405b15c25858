/* Recorded calls, one a line of small digits, each answered by a line: n and source (two bytes each), the bound,
 * own (2), heard (4), the record, then what was said, four bytes each. A bound is a byte, 0 for f and 1 for groups,
 * then f or how many groups there are (2), how many places follow (one byte) and these, four bytes each; all other
 * places hold 0. With f there is none, since hulmayek_step is told none. A record is taken, at, the notice (4), round,
 * and 20 rows: the edition (2), the count, how many places follow, and these, two bytes each; all other places hold 0.
 * An answer is the number and the record, in each row the places up to the last that is not 0.
 *   calls shared   for the step on a shared channel: after the record the default layout (2), then what was said, two
 *                  bytes each
 *   calls issues   lines of a record and a later notice (4), for hulmayek_issue
 *   calls stack    prints instead how many bytes of stack a step takes that looks at as many values as a record can
 *                  hold, or a later notice, the most of the functions */
#define _GNU_SOURCE
#include "terminal.h"

#include <stdio.h>
#include <string.h>
#include <ucontext.h>

enum {
    HEAD = 14 + 4 * HULMAYEK_GROUPS,
    ROW = 4 + 2 * HULMAYEK_ROUNDS,
    RECORD = 7 + HULMAYEK_TERMINALS * ROW,
    MOST = 64,
    PAINT = 0xa5
};

/* The bytes of a line, how many there are, and how many were read. */
static unsigned char body[HEAD + RECORD + 4 * MOST];
static size_t length, at;

/* The next bytes as a number; 0 past the end, which shows in `at`. */
static uint32_t take(size_t bytes) {
    uint32_t number = 0;
    for (size_t i = 0; i < bytes; i++, at++) number = number << 8 | (at < length ? body[at] : 0u);
    return number;
}

/* Whether there is another line. */
static int read_line(void) {
    static char line[2 * sizeof body + 2];
    unsigned byte;
    length = at = 0;
    if (!fgets(line, sizeof line, stdin)) return 0;
    while (length < sizeof body && sscanf(line + 2 * length, "%2x", &byte) == 1) body[length++] = (unsigned char)byte;
    return 1;
}

static void print_row(const hulmayek_note *row) {
    int places = HULMAYEK_ROUNDS;
    while (places > 0 && row->values[places - 1] == 0) places--;
    printf("%04x%02x%02x", row->edition, row->count, places);
    for (int i = 0; i < places; i++) printf("%04x", row->values[i]);
}

static void print(const hulmayek_answer *a) {
    const hulmayek_record *r = &a->after;
    printf("%02x%02x%02x%08x%02x", a->number, r->taken, r->at, r->notice, r->round);
    for (size_t j = 0; j < HULMAYEK_TERMINALS; j++) print_row(&r->notes[j]);
    putchar('\n');
}

/* Records, damaged ones too, that say another word than document 01 has them say. */
static unsigned wrong_words = 0;

/* What a call has before its record. */
typedef struct {
    size_t n, source, kind, own;
    hulmayek_groups bound;
    uint32_t heard;
} place;

/* Whether a place is read: f has no groups, and there are sixteen at most. */
static int read_place(place *p) {
    *p = (place){.n = take(2)};
    p->source = take(2);
    p->kind = take(1);
    p->bound.count = take(2);
    size_t places = take(1);
    if (p->kind > 1 || places > (p->kind == 0 ? 0 : HULMAYEK_GROUPS)) return 0;
    for (size_t i = 0; i < places; i++) p->bound.groups[i] = take(4);
    p->own = take(2);
    p->heard = take(4);
    return 1;
}

/* Whether a record is read: no row has more than forty places. */
static int read_record(hulmayek_record *r) {
    *r = (hulmayek_record){.taken = (uint8_t)take(1)};
    r->at = (uint8_t)take(1);
    r->notice = take(4);
    r->round = (uint8_t)take(1);
    for (size_t j = 0; j < HULMAYEK_TERMINALS; j++) {
        r->notes[j].edition = (uint16_t)take(2);
        r->notes[j].count = (uint8_t)take(1);
        size_t places = take(1);
        if (places > HULMAYEK_ROUNDS) return 0;
        for (size_t i = 0; i < places; i++) r->notes[j].values[i] = (uint16_t)take(2);
    }
    return 1;
}

static hulmayek_answer step(place p, hulmayek_record r, const uint32_t *said, size_t count) {
    if (p.kind == 0) return hulmayek_step(p.n, p.source, p.bound.count, p.own, p.heard, r, said, count);
    return hulmayek_group_step(p.n, p.source, p.bound, p.own, p.heard, r, said, count);
}

static hulmayek_answer shared_step(place p, uint16_t none, hulmayek_record r, const uint16_t *said, size_t count) {
    if (p.kind == 0) return hulmayek_shared_step(p.n, p.source, p.bound.count, p.own, p.heard, none, r, said, count);
    return hulmayek_shared_group_step(p.n, p.source, p.bound, p.own, p.heard, none, r, said, count);
}

/* Whether a line is a call; it is then played and answered. */
static int call(void) {
    place p;
    hulmayek_record r;
    uint32_t said[MOST];
    if (!read_place(&p) || !read_record(&r) || at > length) return 0;
    size_t count = (length - at) / 4;
    if (count > MOST) return 0;
    for (size_t j = 0; j < count; j++) said[j] = take(4);
    if (hulmayek_says(r) != (r.taken == 1 && r.at == r.round ? r.notice : 0)) wrong_words++;
    hulmayek_answer a = step(p, r, said, count);
    print(&a);
    return 1;
}

/* The same on a shared channel. */
static int shared_call(void) {
    place p;
    hulmayek_record r;
    uint16_t said[MOST];
    if (!read_place(&p) || !read_record(&r)) return 0;
    uint16_t none = (uint16_t)take(2);
    if (at > length) return 0;
    size_t count = (length - at) / 2;
    if (count > MOST) return 0;
    for (size_t j = 0; j < count; j++) said[j] = (uint16_t)take(2);
    hulmayek_answer a = shared_step(p, none, r, said, count);
    print(&a);
    return 1;
}

/* The same of a later notice, which is said next where it is taken. */
static int issue(void) {
    hulmayek_record r;
    if (!read_record(&r)) return 0;
    uint32_t notice = take(4);
    if (at != length) return 0;
    hulmayek_answer a = hulmayek_issue(r, notice);
    if (a.number == 0 && hulmayek_says(a.after) != notice) wrong_words++;
    print(&a);
    return 1;
}

static ucontext_t here, there;
static unsigned char stack[1 << 18];
static hulmayek_record full;
static uint32_t words[20];
static uint16_t layouts[20];

static void nothing(void) {
}

static void one_step(void) {
    hulmayek_answer a = hulmayek_step(20, 0, 1, 19, 0x7fffe, full, words, 20);
    full = a.after;
}

static void one_group_step(void) {
    hulmayek_answer a = hulmayek_group_step(20, 0, (hulmayek_groups){2, {0x3e, 0x7c0}}, 19, 0x7fffe, full, words, 20);
    full = a.after;
}

static void one_shared_step(void) {
    hulmayek_answer a = hulmayek_shared_step(20, 0, 1, 19, 0x7fffe, 7, full, layouts, 20);
    full = a.after;
}

static void one_issue(void) {
    hulmayek_answer a = hulmayek_issue(full, 3 << 16 | 7);
    full = a.after;
}

/* A record before its last round, with as many values of an edition as it can have, no two of them the same, and a new
 * word of each neighbour. */
static void fill(uint16_t edition) {
    uint16_t next = 1;
    full = hulmayek_start();
    full.round = HULMAYEK_ROUNDS - 1;
    for (size_t j = 1; j < 19; j++) {
        full.notes[j].edition = edition;
        full.notes[j].count = HULMAYEK_ROUNDS - 1;
        for (size_t i = 0; i < HULMAYEK_ROUNDS - 1; i++) full.notes[j].values[i] = next++;
        layouts[j] = next++;
        words[j] = HULMAYEK_NOTICE(edition, layouts[j]);
    }
}

/* How deep a function goes on a stack of its own, painted before; it is given the record `full`. */
static size_t depth(void (*run)(void)) {
    size_t left = 0;
    memset(stack, PAINT, sizeof stack);
    getcontext(&there);
    there.uc_stack.ss_sp = stack;
    there.uc_stack.ss_size = sizeof stack;
    there.uc_link = &here;
    makecontext(&there, run, 0);
    swapcontext(&here, &there);
    while (left < sizeof stack && stack[left] == PAINT) left++;
    return sizeof stack - left;
}

/* The same of a step, 0 where the round was not played. */
static size_t stepped(void (*run)(void), uint16_t edition) {
    fill(edition);
    size_t deep = depth(run);
    return full.round == HULMAYEK_ROUNDS && full.notes[18].count == HULMAYEK_ROUNDS ? deep : 0;
}

/* The same of a later notice, 0 where it was not taken. */
static size_t issued(void) {
    fill(2);
    full.taken = 1;
    full.notice = 1 << 16 | 7;
    size_t deep = depth(one_issue);
    return full.notice == (3 << 16 | 7) ? deep : 0;
}

/* The most of the functions; whether all were played. */
static int print_stack(void) {
    size_t deep[] = {stepped(one_step, 2), stepped(one_group_step, 2), stepped(one_shared_step, 1), issued()};
    size_t none = depth(nothing), most = 0, played = 1;
    for (size_t i = 0; i < sizeof deep / sizeof *deep; i++) {
        if (deep[i] > most) most = deep[i];
        if (deep[i] == 0) played = 0;
    }
    printf("%zu\n", most - none);
    return played;
}

int main(int count, char **arguments) {
    const char *what = count == 2 ? arguments[1] : "steps";
    int (*answer)(void) = strcmp(what, "issues") == 0 ? issue : strcmp(what, "shared") == 0 ? shared_call : call;
    if (strcmp(what, "stack") == 0) return !print_stack();
    while (read_line()) {
        if (!answer()) {
            fputs("calls: a line that is no call\n", stderr);
            return 2;
        }
    }
    if (wrong_words) fprintf(stderr, "calls: %u records say another word\n", wrong_words);
    return wrong_words != 0;
}
