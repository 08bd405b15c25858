/* One radio for all, document 02's P11: what a board takes by the source's word or the default, what it goes on by the
 * old rules, what is refused and in which order, sites with a bad source, and rounds drawn by a seed (the argument)
 * against the other step. */
#include "checks.h"

#include <stdlib.h>

enum { L5 = EDITION + 5, L7 = EDITION + 7, L8 = EDITION + 8, L9 = EDITION + 9 };

/* Of five terminals, 0 the source: 4 hears all the others, or all but the source. */
enum { ALL = 0xf, NOT_THE_SOURCE = 0xe };

/* Whether a row has noted these layouts in edition 1 and no other, and holds 0 after them. */
static int row_is(const hulmayek_record *r, size_t j, const uint16_t *values, size_t count) {
    const hulmayek_note *row = &r->notes[j];
    for (size_t i = 0; i < HULMAYEK_ROUNDS; i++) {
        if (row->values[i] != (i < count ? values[i] : 0)) return 0;
    }
    return row->edition == (count ? 1 : 0) && row->count == count;
}

/* One round of terminal 4, told f 1 and the default 5. */
static hulmayek_record hears(hulmayek_record r, uint32_t heard, uint16_t of_0, uint16_t of_1, uint16_t of_2, uint16_t of_3) {
    uint16_t said[5] = {of_0, of_1, of_2, of_3, 9};
    hulmayek_answer a = hulmayek_shared_step(5, 0, 1, 4, heard, 5, r, said, 5);
    expect(a.number == 0 && a.after.round == r.round + 1, "a round of terminal 4 is played");
    return a.after;
}

static void first_round(void) {
    hulmayek_record r = hears(hulmayek_start(), ALL, 7, 0, 0, 0);
    expect(took(&r, 1, L7) && hulmayek_says(r) == L7, "the source's word is taken, and said next");
    expect(row_is(&r, 0, (uint16_t[]){7}, 1), "and noted, in edition 1");
    r = hears(hulmayek_start(), ALL, 0, 0, 0, 0);
    expect(took(&r, 1, L5) && row_is(&r, 0, NULL, 0), "a silent source: the default, which is no word of the source");
    r = hears(hulmayek_start(), ALL, 0, 9, 9, 9);
    expect(took(&r, 1, L5), "whatever the others say");
    expect(row_is(&r, 1, (uint16_t[]){9}, 1) && row_is(&r, 3, (uint16_t[]){9}, 1), "which is noted as always");
    r = hears(hulmayek_start(), ALL, 7, 3, 3, 3);
    expect(took(&r, 1, L7), "the source's word comes before enough others too");
    r = hears(hulmayek_start(), NOT_THE_SOURCE, 7, 0, 0, 0);
    expect(r.taken == 0 && row_is(&r, 0, NULL, 0), "who does not hear the source takes neither its word nor the default");
    r = hears(hulmayek_start(), NOT_THE_SOURCE, 7, 9, 0, 9);
    expect(took(&r, 1, L9), "but what enough others say");
    uint16_t high[2] = {65535, 0};
    hulmayek_answer a = hulmayek_shared_step(2, 0, 0, 1, 1, 1, hulmayek_start(), high, 2);
    expect(a.number == 0 && took(&a.after, 1, EDITION + 65535), "the highest layout is one");
    high[0] = 0;
    a = hulmayek_shared_step(2, 0, 0, 1, 1, 65535, hulmayek_start(), high, 2);
    expect(a.number == 0 && took(&a.after, 1, EDITION + 65535), "also as the default");
    a = hulmayek_shared_step(2, 1, 0, 0, 2, 3, hulmayek_start(), (uint16_t[]){8, 0}, 2);
    expect(a.number == 0 && took(&a.after, 1, EDITION + 3), "a source that is not terminal 0");
}

static void later_rounds(void) {
    hulmayek_record waits = hears(hulmayek_start(), NOT_THE_SOURCE, 0, 0, 0, 0);
    hulmayek_record r = hears(waits, ALL, 0, 0, 0, 0);
    expect(r.taken == 0 && r.round == 2, "a record handed in waiting at a later round has no default");
    r = hears(waits, ALL, 7, 0, 0, 0);
    expect(took(&r, 2, L7), "and takes the source's word by the old rules");
    r = hears(waits, ALL, 0, 0, 9, 9);
    expect(took(&r, 2, L9), "or that of enough others");
    waits.notes[0] = (hulmayek_note){.edition = 1, .count = 1, .values = {8}};
    r = hears(waits, ALL, 7, 0, 0, 0);
    expect(took(&r, 2, L8) && row_is(&r, 0, (uint16_t[]){8, 7}, 2), "of the source's words the first that it noted");
    r = hears(hears(hulmayek_start(), ALL, 0, 0, 0, 0), ALL, 7, 9, 9, 9);
    expect(took(&r, 1, L5) && row_is(&r, 0, (uint16_t[]){7}, 1), "a source that speaks late is noted only");
    expect(hulmayek_says(r) == 0, "and what was taken is said once");
}

static void holders(void) {
    hulmayek_record r = hulmayek_start();
    r.taken = 1;
    r.notice = EDITION + 6;
    hulmayek_record after = hears(r, ALL, 7, 9, 9, 9);
    expect(took(&after, 0, EDITION + 6) && row_is(&after, 0, (uint16_t[]){7}, 1), "who holds a notice at round 0 keeps it, and notes");
    r.notice = 2 * EDITION + 8;
    after = hears(r, ALL, 0, 9, 9, 9);
    expect(took(&after, 0, 2 * EDITION + 8), "so does who holds one of a higher edition");
    hulmayek_answer a = hulmayek_shared_step(3, 0, 0, 0, 6, 5, hulmayek_source_start(L7), (uint16_t[]){0, 9, 9}, 3);
    expect(a.number == 0 && took(&a.after, 0, L7) && row_is(&a.after, 2, (uint16_t[]){9}, 1), "the source notes, and keeps its own");
    r = hulmayek_start();
    r.round = 1;
    r.notes[1] = r.notes[2] = (hulmayek_note){.edition = 2, .count = 1, .values = {8}};
    after = hears(r, NOT_THE_SOURCE, 0, 9, 9, 9);
    expect(took(&after, 2, 2 * EDITION + 8) && after.notes[1].count == 1,
           "notes of a higher edition still count, and words do not wipe them");
}

static void groups(void) {
    hulmayek_groups drawn = {2, {0x6, 0x8}};
    hulmayek_record r = hulmayek_start();
    hulmayek_answer a = hulmayek_shared_group_step(5, 0, drawn, 4, NOT_THE_SOURCE, 5, r, (uint16_t[]){5, 7, 7, 0, 0}, 5);
    expect(a.number == 0 && a.after.taken == 0, "1 and 2 share a group: they are not enough");
    a = hulmayek_shared_group_step(5, 0, drawn, 4, NOT_THE_SOURCE, 5, a.after, (uint16_t[]){0, 0, 0, 7, 0}, 5);
    expect(a.number == 0 && took(&a.after, 2, L7), "with 3 they are");
    a = hulmayek_shared_group_step(5, 0, drawn, 4, ALL, 5, r, (uint16_t[]){0, 7, 7, 7, 0}, 5);
    expect(a.number == 0 && took(&a.after, 1, L5), "with groups too the default comes first");
    a = hulmayek_shared_group_step(5, 0, (hulmayek_groups){1, {0}}, 4, ALL, 5, r, (uint16_t[]){8, 7, 7, 7, 0}, 5);
    expect(a.number == 0 && took(&a.after, 1, L8), "and the source's word");
}

/* ---- what is refused */

static unsigned refusals = 0;

/* Terminal 4, source 0, with the given bound. */
static void refused(size_t n, size_t kind, hulmayek_groups bound, uint32_t heard, uint16_t none, hulmayek_record r, size_t len,
                    int number, const char *what) {
    static const uint16_t said[100] = {7, 7, 7, 7, 7};
    hulmayek_answer a = hulmayek_bound_shared_step(n, 0, kind, bound, 4, heard, none, r, said, len);
    expect(a.number == number, what);
    expect(same(&a.after, &r), "a refused record comes back as it went in");
    refusals++;
}

static void each_refusal(void) {
    hulmayek_groups f = {1, {0}}, too_many = {5, {0}}, wrong = {1, {1}}, past = {1, {2, 2}}, none = {0, {0}};
    hulmayek_record r = full(), played = full(), first = hulmayek_start(), later = hulmayek_start(), silent = hulmayek_start();
    played.round = HULMAYEK_ROUNDS;
    later.taken = 1, later.at = 1, later.notice = L7;
    silent.taken = 1, silent.notice = 7;
    expect(HULMAYEK_WRONG_LAYOUT == 9, "the name is the documents' number");
    refused(1, 0, f, 0, 5, r, 1, 4, "one terminal: 4");
    refused(21, 0, f, 2, 5, r, 21, 4, "21 terminals: 4");
    refused(5, 0, too_many, 2, 5, r, 5, 4, "f 5 of 5: 4");
    refused(5, 2, f, 2, 5, r, 5, 4, "a kind that there is not: 4");
    refused(5, 0, f, 16, 5, r, 5, 5, "its own bit: 5");
    refused(5, 1, f, 32, 5, r, 5, 5, "number n: 5");
    refused(5, 1, wrong, 2, 5, r, 5, 17, "a group with the source: 17");
    refused(5, 1, past, 2, 5, r, 5, 17, "a group after those that are counted: 17");
    refused(5, 1, none, 2, 5, r, 5, 17, "no group: 17");
    refused(5, 0, wrong, 2, 5, r, 5, 17, "a bound f with a group: 17");
    refused(5, 0, f, 2, 0, r, 5, 9, "default 0: 9");
    refused(5, 0, f, 1, 0, first, 5, 9, "also where the source spoke: 9");
    refused(5, 1, f, 0, 0, r, 5, 9, "also where nobody is heard: 9");
    refused(5, 0, f, 2, 5, played, 5, 13, "40 rounds played: 13");
    refused(4, 0, f, 2, 5, r, 4, 13, "own not below n: 13");
    refused(5, 0, f, 2, 5, later, 5, 13, "taken later than its round: 13");
    refused(5, 0, f, 2, 5, silent, 5, 13, "taken with edition 0: 13");
    later.taken = 2;
    refused(5, 0, f, 2, 5, later, 5, 13, "bytes that are no state: 13");
    first.notes[1].count = 1;
    refused(5, 0, f, 3, 5, first, 5, 13, "a layout before the first round, though the source is heard: 13");
    refused(5, 0, f, 2, 5, r, 4, 12, "a short list: 12");
    refused(5, 0, f, 2, 5, r, 6, 12, "a long one: 12");
    refused(5, 0, f, 2, 5, r, 0, 12, "an empty one: 12");
    refused(20, 0, f, 2, 5, r, 21, 12, "one longer than any site's: 12");
    refused(5, 0, f, 2, 5, r, 100, 12, "much longer: 12");
    hulmayek_answer a = hulmayek_shared_step(3, 0, 0, 0, 0, 5, hulmayek_start(), (uint16_t[3]){0}, 3);
    expect(a.number == 13, "a source that waits: 13");
    a = hulmayek_shared_step(5, 5, 0, 4, 0, 5, hulmayek_start(), (uint16_t[5]){0}, 5);
    expect(a.number == 4, "a source that is not below n: 4");
}

/* Each cause with all that come after it. */
static void their_order(void) {
    hulmayek_groups f = {1, {0}}, wrong = {1, {1}};
    hulmayek_record played = full();
    played.round = HULMAYEK_ROUNDS;
    refused(21, 0, wrong, 1u << 21, 0, played, 4, 4, "4 before 5, 17, 9, 13 and 12");
    refused(21, 1, f, 2, 0, played, 21, 4, "4 before 9, though the list has as many");
    refused(5, 1, wrong, 16, 0, played, 4, 5, "5 before 17, 9, 13 and 12");
    refused(5, 1, wrong, 2, 0, played, 4, 17, "17 before 9, 13 and 12");
    refused(5, 1, f, 2, 0, played, 4, 9, "9 before 13 and 12");
    refused(5, 0, f, 2, 0, full(), 100, 9, "9 before 12");
    refused(5, 0, f, 2, 5, played, 4, 13, "13 before 12");
    refused(5, 0, f, 2, 5, played, 100, 13, "before a long list too");
    hulmayek_answer a = hulmayek_shared_step(20, 0, 1, 4, 2, 5, full(), (uint16_t[20]){0}, 20);
    expect(a.number == 0 && a.after.round == HULMAYEK_ROUNDS, "with nothing wrong the fortieth round is played");
}

/* ---- sites: 1, 2 and 3 hear the source, and 4 hears these; f is 1. Terminals that are bad have no record here. */

typedef struct {
    uint32_t bad;
    uint16_t said[3][5]; /* what the bad ones say, by round */
    hulmayek_record records[5];
} site;

static void play(site *s) {
    static const uint32_t heard[5] = {0, 1, 1, 1, NOT_THE_SOURCE};
    for (size_t b = 0; b < 5; b++) s->records[b] = b == 0 ? hulmayek_source_start(L7) : hulmayek_start();
    for (unsigned round = 0; round < 3; round++) {
        uint16_t said[5];
        for (size_t j = 0; j < 5; j++) {
            said[j] = (s->bad >> j) & 1 ? s->said[round][j] : HULMAYEK_NOTICE_LAYOUT(hulmayek_says(s->records[j]));
        }
        for (size_t b = 0; b < 5; b++) {
            hulmayek_answer a = hulmayek_shared_step(5, 0, 1, b, heard[b], 5, s->records[b], said, 5);
            expect(a.number == 0, "a round of a site is played");
            s->records[b] = a.after;
        }
    }
}

/* Whether all that are good hold the notice. */
static int hold(const site *s, uint32_t notice) {
    for (size_t b = 0; b < 5; b++) {
        if (!((s->bad >> b) & 1) && !(s->records[b].taken == 1 && s->records[b].notice == notice)) return 0;
    }
    return 1;
}

static void sites(void) {
    site good = {.bad = 0}, liar = {.bad = 2, .said = {{0, 9}, {0, 9}, {0, 9}}}, spoke = {.bad = 1, .said = {{9}, {8}}};
    site silent = {.bad = 1}, late = {.bad = 1, .said = {{0}, {9}, {9}}}, both = {.bad = 3, .said = {{0, 9}, {9, 9}, {9, 8}}};
    play(&good);
    expect(hold(&good, L7), "a good source: its layout");
    play(&liar);
    expect(hold(&liar, L7), "with a liar among its hearers too");
    play(&spoke);
    expect(hold(&spoke, L9) && spoke.records[4].at == 2, "a bad source that spoke: its word of round 1");
    play(&silent);
    expect(hold(&silent, L5), "a bad source that is silent: the default");
    play(&late);
    expect(hold(&late, L5), "one that speaks late: the default");
    play(&both);
    expect(hold(&both, L5) && row_is(&both.records[2], 0, (uint16_t[]){9}, 1), "with a bad hearer beside it: the default");
}

/* ---- drawn rounds */

static uint64_t state;

static uint32_t draw(void) {
    state = state * 6364136223846793005u + 1442695040888963407u;
    return (uint32_t)(state >> 33);
}

/* Six rounds of one terminal: those of the other step on notices of edition 1, but for the first of who hears the source. */
static void as_the_other_step(void) {
    size_t n = 2 + draw() % 19, source = draw() % n, own = draw() % n, f = draw() % n;
    uint32_t heard = draw() & ((1u << n) - 1) & ~(1u << own);
    uint16_t none = (uint16_t)(1 + draw() % 4);
    hulmayek_record r = own == source ? hulmayek_source_start(EDITION + 1 + draw() % 4) : hulmayek_start();
    for (unsigned round = 1; round <= 6; round++) {
        uint16_t said[20];
        uint32_t notices[20];
        for (size_t j = 0; j < n; j++) {
            said[j] = (uint16_t)(draw() % 3 ? 0 : draw() % 5);
            notices[j] = said[j] ? (uint32_t)EDITION + said[j] : 0;
        }
        hulmayek_answer a = hulmayek_shared_step(n, source, f, own, heard, none, r, said, n);
        hulmayek_answer b = hulmayek_step(n, source, f, own, heard, r, notices, n);
        if (round == 1 && own != source && (heard >> source) & 1) {
            b.after.taken = 1;
            b.after.at = 1;
            b.after.notice = (uint32_t)EDITION + (said[source] ? said[source] : none);
        }
        expect(a.number == 0 && b.number == 0 && same(&a.after, &b.after), "a drawn round is the other step's but for the first");
        r = a.after;
    }
}

int main(int count, char **arguments) {
    state = count == 2 ? strtoull(arguments[1], NULL, 10) : 1;
    first_round();
    later_rounds();
    holders();
    groups();
    each_refusal();
    their_order();
    sites();
    for (int i = 0; i < 5000; i++) as_the_other_step();
    if (failures == 0) {
        printf("a shared channel: first and later rounds, %u refusals, six sites, and 30000 drawn rounds: as the documents have them\n",
               refusals + 2);
    }
    return failures != 0;
}
