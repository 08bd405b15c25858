/* Newer notice wins, document 02's P8: what a terminal notes and takes where several editions are said, the later
 * notices of the office, the notice that is overtaken, and what is refused. */
#include "checks.h"

/* The notice of an edition and a layout. */
static uint32_t notice(uint32_t edition, uint32_t layout) {
    return edition * EDITION + layout;
}

static void names(void) {
    expect(HULMAYEK_WRONG_LAYOUT == 9 && HULMAYEK_WRONG_EDITION == 16, "the names are the documents' numbers");
    expect(HULMAYEK_NOTICE(1, 7) == 65543 && HULMAYEK_NOTICE(65535, 65535) == 4294967295u && HULMAYEK_NOTICE(0, 7) == 7,
           "a notice is edition times 65,536, and layout");
    expect(HULMAYEK_NOTICE_EDITION(4294901767u) == 65535 && HULMAYEK_NOTICE_LAYOUT(4294901767u) == 7, "its two halves");
}

/* ---- notes and takes */

/* Whether a row has noted these layouts of an edition and no other, and holds 0 after them. */
static int row_is(const hulmayek_record *r, size_t j, unsigned edition, const uint16_t *values, size_t count) {
    const hulmayek_note *row = &r->notes[j];
    for (size_t i = 0; i < HULMAYEK_ROUNDS; i++) {
        if (row->values[i] != (i < count ? values[i] : 0)) return 0;
    }
    return row->edition == edition && row->count == count;
}

/* One round of terminal 4 of five, which hears all the others, told the bound f; 0 is the source. */
static hulmayek_record hears(hulmayek_record r, size_t f, uint32_t of_0, uint32_t of_1, uint32_t of_2, uint32_t of_3) {
    uint32_t said[5] = {of_0, of_1, of_2, of_3, notice(9, 9)};
    hulmayek_answer a = hulmayek_step(5, 0, f, 4, 15, r, said, 5);
    expect(a.number == 0, "a round of terminal 4 is played");
    return a.after;
}

static void notes(void) {
    hulmayek_record r = hears(hears(hulmayek_start(), 4, 0, notice(1, 9), notice(2, 8), 0), 4, 0, notice(1, 7), notice(1, 7), 0);
    expect(row_is(&r, 1, 1, (uint16_t[]){9, 7}, 2), "layouts of one edition, in their order");
    expect(row_is(&r, 2, 2, (uint16_t[]){8}, 1), "a lower edition is not looked at");
    r = hears(r, 4, 0, notice(2, 9), notice(2, 8), 0);
    expect(row_is(&r, 1, 2, (uint16_t[]){9}, 1), "a higher edition wipes the lower one, whose places are then 0");
    expect(row_is(&r, 2, 2, (uint16_t[]){8}, 1), "a notice said again counts once");
    r = hears(hulmayek_start(), 0, 7, EDITION, 5 * EDITION, 65535);
    expect(row_is(&r, 0, 0, NULL, 0) && row_is(&r, 1, 0, NULL, 0) && row_is(&r, 2, 0, NULL, 0) && row_is(&r, 3, 0, NULL, 0)
               && r.taken == 0,
           "a zero in either half is silence");
}

static void takes(void) {
    hulmayek_record r = hears(hulmayek_start(), 0, 0, notice(1, 3), notice(3, 9), notice(2, 4));
    expect(took(&r, 1, notice(3, 9)), "of the editions in which something qualifies the highest");
    r = hears(hulmayek_start(), 1, 0, notice(5, 5), notice(2, 8), notice(2, 8));
    expect(took(&r, 1, notice(2, 8)), "a higher one in which nothing qualifies does not hinder");
    r = hears(hulmayek_start(), 1, 0, notice(1, 7), notice(2, 7), notice(3, 7));
    expect(r.taken == 0, "one layout in different editions is not enough");
    r = hears(hears(hulmayek_start(), 1, 0, notice(1, 7), 0, 0), 1, 0, notice(2, 8), notice(1, 7), 0);
    expect(r.taken == 0, "what was said in an edition that is wiped no longer counts");
    r = hears(hulmayek_start(), 1, 0, 0, notice(2, 9), notice(2, 9));
    r = hears(hears(r, 1, 0, 0, notice(2, 8), notice(2, 8)), 1, 0, notice(1, 4), notice(1, 4), notice(1, 4));
    expect(took(&r, 1, notice(2, 9)) && r.round == 3, "of the edition that it holds nothing is taken again, nor of a lower one");
    r = hears(hears(hulmayek_start(), 1, 0, 0, notice(1, 7), notice(1, 7)), 1, 0, notice(2, 8), 0, 0);
    expect(took(&r, 1, notice(1, 7)) && row_is(&r, 1, 2, (uint16_t[]){8}, 1), "one that has taken still notes");
    r = hears(r, 1, 0, 0, notice(2, 8), 0);
    expect(took(&r, 3, notice(2, 8)) && hulmayek_says(r) == notice(2, 8), "and takes a later edition, which it says");
    r = hears(r, 1, 0, 0, 0, 0);
    expect(took(&r, 3, notice(2, 8)) && hulmayek_says(r) == 0, "once");
}

static void source(void) {
    static const uint32_t said[3] = {0, 9 * EDITION + 9, 9 * EDITION + 9};
    hulmayek_record r = hears(hulmayek_start(), 1, notice(2, 9), 0, notice(2, 3), notice(2, 3));
    expect(took(&r, 1, notice(2, 9)), "within an edition the source's word comes first");
    r = hears(hulmayek_start(), 1, notice(2, 9), 0, notice(3, 8), notice(3, 8));
    expect(took(&r, 1, notice(3, 8)), "but a higher edition of enough others comes before it");
    r = hears(hulmayek_start(), 1, notice(3, 9), 0, notice(2, 3), notice(2, 3));
    expect(took(&r, 1, notice(3, 9)), "and the source's before a lower one of theirs");
    r = hears(hears(hulmayek_start(), 4, notice(1, 7), 0, 0, 0), 4, notice(1, 8), 0, 0, 0);
    expect(took(&r, 1, notice(1, 7)) && row_is(&r, 0, 1, (uint16_t[]){7, 8}, 2), "its second word in an edition is noted only");
    r = hears(r, 4, notice(2, 8), 0, 0, 0);
    expect(took(&r, 3, notice(2, 8)), "its word in a later edition is taken");
    hulmayek_answer a = hulmayek_step(3, 0, 0, 0, 6, hulmayek_source_start(notice(1, 7)), said, 3);
    expect(a.number == 0 && took(&a.after, 0, notice(1, 7)) && row_is(&a.after, 1, 9, (uint16_t[]){9}, 1),
           "the source notes, and takes nothing by its step");
}

/* Notes that are handed in with edition 0 or with more layouts than there were rounds. */
static void handed_in(void) {
    hulmayek_record r = hulmayek_start();
    r.round = 2;
    for (size_t j = 0; j < 4; j++) r.notes[j] = (hulmayek_note){.count = 2, .values = {7, 8}};
    hulmayek_record after = hears(r, 0, 0, 0, 0, 0);
    expect(after.taken == 0, "edition 0 counts for nothing");
    after = hears(r, 1, 0, notice(1, 8), notice(1, 8), 0);
    expect(took(&after, 3, notice(1, 8)) && row_is(&after, 1, 1, (uint16_t[]){8}, 1), "any edition wipes it");
    r.notes[1] = (hulmayek_note){.edition = 3, .count = 3};
    expect(hulmayek_step(5, 0, 0, 4, 15, r, (uint32_t[5]){0}, 5).number == 13, "more layouts in its edition than rounds: 13");
}

/* ---- later notices */

/* A source's record with something in each part; notes that no step would take are not looked at. */
static hulmayek_record office(uint8_t at, uint8_t round, uint32_t held) {
    hulmayek_record r = {.taken = 1, .at = at, .round = round, .notice = held};
    for (size_t j = 0; j < HULMAYEK_TERMINALS; j++) {
        r.notes[j].edition = (uint16_t)(300 * j);
        r.notes[j].count = (uint8_t)(255 - j);
        for (size_t i = 0; i < HULMAYEK_ROUNDS; i++) r.notes[j].values[i] = (uint16_t)(100 * j + i + 1);
    }
    return r;
}

static void issued(uint8_t at, uint8_t round, uint32_t held, uint32_t later) {
    hulmayek_record r = office(at, round, held);
    hulmayek_answer a = hulmayek_issue(r, later);
    expect(a.number == 0 && hulmayek_says(a.after) == later, "a later notice is taken, and said next");
    r.at = round;
    r.notice = later;
    expect(same(&a.after, &r), "in the round that the record shows, and all else is as it was");
}

static void refused(hulmayek_record r, uint32_t later, int number, const char *what) {
    hulmayek_answer a = hulmayek_issue(r, later);
    expect(a.number == number, what);
    expect(same(&a.after, &r), "a refused record comes back as it went in");
}

static void issues(void) {
    issued(0, 0, notice(1, 7), notice(2, 7));
    issued(0, 1, notice(1, 7), notice(2, 8));
    issued(3, 5, notice(255, 1), notice(256, 1));
    issued(40, 40, notice(65534, 65535), notice(65535, 65535));
    hulmayek_record r = office(3, 5, notice(2, 7));
    refused(r, notice(3, 0), 9, "layout 0: 9");
    refused(r, 0, 9, "layout 0 comes before edition 0: 9");
    refused(r, notice(2, 0), 9, "and before an edition that is not above: 9");
    refused(r, notice(0, 8), 16, "edition 0: 16");
    refused(r, notice(2, 8), 16, "the edition that it holds: 16");
    refused(r, notice(1, 65535), 16, "a lower one: 16");
    refused(office(3, 5, notice(65535, 7)), notice(65535, 8), 16, "there is none above 65,535: 16");
    refused(hulmayek_start(), notice(1, 7), 13, "one that waits: 13");
    refused(office(6, 5, notice(2, 7)), notice(3, 8), 13, "taken later than its round: 13");
    refused(office(3, 41, notice(2, 7)), notice(3, 8), 13, "past round 40: 13");
    refused(office(3, 5, 7), notice(1, 8), 13, "taken with edition 0: 13");
    refused(office(3, 5, notice(2, 0)), notice(3, 8), 13, "taken with layout 0: 13");
    refused(office(6, 5, notice(2, 7)), notice(3, 0), 9, "layout 0 comes before a wrong record: 9");
    refused(office(6, 5, notice(2, 7)), notice(2, 8), 16, "and so does the edition: 16");
}

/* Bytes that are no state hold edition 0. */
static void no_states(void) {
    static const struct {
        uint8_t taken, at;
        uint32_t notice;
    } rows[] = {{2, 0, 65543}, {255, 3, 0}, {0, 1, 0}, {0, 0, 65543}, {0, 0, 1}};
    for (size_t i = 0; i < sizeof rows / sizeof *rows; i++) {
        hulmayek_record r = office(rows[i].at, 5, rows[i].notice);
        r.taken = rows[i].taken;
        refused(r, notice(1, 7), 13, "bytes that are no state: 13");
        refused(r, notice(0, 7), 16, "edition 0 comes before it: 16");
        refused(r, notice(9, 0), 9, "and so does layout 0: 9");
    }
}

/* ---- steps that are refused */

static void steps(void) {
    static const uint32_t said[5] = {0};
    hulmayek_groups none = {1, {0}}, some = {1, {2}};
    hulmayek_record r = office(3, 39, 7);
    hulmayek_answer a = hulmayek_step(5, 0, 1, 4, 0, r, said, 5);
    expect(a.number == 13 && same(&a.after, &r), "a taken record of edition 0: 13");
    r = office(3, 39, notice(7, 0));
    a = hulmayek_step(5, 0, 1, 4, 0, r, said, 4);
    expect(a.number == 13 && same(&a.after, &r), "one of layout 0, before a short list: 13");
    r = office(3, 39, notice(1, 7));
    a = hulmayek_bound_step(5, 0, 2, none, 4, 16, r, said, 4);
    expect(a.number == 4 && same(&a.after, &r), "a kind that there is not, before all else: 4");
    a = hulmayek_bound_step(20, 0, SIZE_MAX, some, 4, 0, r, said, 5);
    expect(a.number == 4 && same(&a.after, &r), "whatever it is: 4");
    a = hulmayek_bound_step(5, 0, HULMAYEK_KIND_F, some, 4, 0, r, said, 5);
    expect(a.number == 17 && same(&a.after, &r), "a bound f with a group: 17");
    a = hulmayek_bound_step(5, 0, HULMAYEK_KIND_F, none, 4, 0, r, said, 5);
    expect(a.number == 0 && a.after.round == 40, "without one it is played");
    a = hulmayek_step(3, 0, 0, 0, 0, hulmayek_source_start(7), said, 3);
    expect(a.number == 13, "a layout alone does not start a source: 13");
}

/* ---- sites */

/* n terminals, of which `silent` say nothing; later[r - 1] is issued in round r, 0 for nothing. */
typedef struct {
    size_t n, f;
    uint32_t heard[6], silent, later[6];
    hulmayek_record records[6];
} site;

static void play(site *s, unsigned round) {
    uint32_t said[6];
    for (size_t j = 0; j < s->n; j++) said[j] = (s->silent >> j) & 1 ? 0 : hulmayek_says(s->records[j]);
    for (size_t b = 0; b < s->n; b++) {
        hulmayek_answer a = hulmayek_step(s->n, 0, s->f, b, s->heard[b], s->records[b], said, s->n);
        expect(a.number == 0, "a round of a site is played");
        s->records[b] = a.after;
    }
    if (s->later[round - 1] == 0) return;
    hulmayek_answer a = hulmayek_issue(s->records[0], s->later[round - 1]);
    expect(a.number == 0 && took(&a.after, round, s->later[round - 1]), "the source takes a later notice in its round");
    s->records[0] = a.after;
}

static void start(site *s) {
    s->records[0] = hulmayek_source_start(notice(1, 7));
    for (size_t b = 1; b < s->n; b++) s->records[b] = hulmayek_start();
}

/* Drawing C, whose office changes its mind in round 1, and once more in the last round. */
static void later_notice(void) {
    site s = {.n = 3, .heard = {0, 1, 2}, .later = {notice(2, 8), 0, 0, notice(4, 4)}};
    start(&s);
    play(&s, 1);
    expect(took(&s.records[1], 1, notice(1, 7)) && s.records[2].taken == 0, "round 1: the first notice reaches 1");
    play(&s, 2);
    expect(took(&s.records[1], 2, notice(2, 8)) && took(&s.records[2], 2, notice(1, 7)), "round 2: the later 1, the first 2");
    play(&s, 3);
    expect(took(&s.records[2], 3, notice(2, 8)), "round 3: the later one reaches 2");
    play(&s, 4);
    expect(took(&s.records[0], 4, notice(4, 4)) && took(&s.records[1], 2, notice(2, 8)), "one of the last round shows in the source only");
}

/* The plan passes; 2 is silent, and 5 hears a later edition of 1 before 4 has said the earlier one. */
static void overtaken(void) {
    site s = {.n = 6, .f = 1, .heard = {0, 1, 1, 1, 0xe, 0x16}, .silent = 4};
    for (unsigned round = 1; round <= 3; round++) s.later[round - 1] = notice(round + 1, 10 * round);
    start(&s);
    for (unsigned round = 1; round <= 5; round++) play(&s, round);
    expect(took(&s.records[1], 4, notice(4, 30)) && took(&s.records[3], 4, notice(4, 30)), "1 and 3 hold the last notice");
    expect(took(&s.records[4], 5, notice(4, 30)), "4 holds it after five rounds");
    expect(s.records[5].taken == 0, "5 still waits after five rounds");
    play(&s, 6);
    expect(took(&s.records[5], 6, notice(4, 30)), "and holds the last notice after six");
}

int main(void) {
    names();
    notes();
    takes();
    source();
    handed_in();
    issues();
    no_states();
    steps();
    later_notice();
    overtaken();
    if (failures == 0) puts("editions: notes, takes, later notices, 36 refusals, and one that is overtaken: as the documents have them");
    return failures != 0;
}
