/* Drawings C and E of document 01, played terminal by terminal, the rule of document 02 on every value that a
 * neighbour has said, and calls that are refused. All is of one edition; editions.c has several. */
#include "checks.h"

/* The notices of edition 1 with these layouts. */
enum { L5 = EDITION + 5, L7 = EDITION + 7, L8 = EDITION + 8, L9 = EDITION + 9, L100 = EDITION + 100 };

/* A site: heard[b] is the set that b hears; the terminals of the set `silent` say nothing. */
typedef struct {
    size_t n;
    size_t f;
    uint32_t heard[20];
    uint32_t silent;
    hulmayek_record records[20];
} site;

static void start(site *s, uint32_t notice) {
    s->records[0] = hulmayek_source_start(notice);
    for (size_t b = 1; b < s->n; b++) s->records[b] = hulmayek_start();
}

/* What terminal j says in a round: its notice in the round after it took, by document 01. */
static uint32_t says(const site *s, size_t j, unsigned round) {
    const hulmayek_record *r = &s->records[j];
    uint32_t by_rule = r->taken == 1 && r->at + 1u == round ? r->notice : 0;
    expect(hulmayek_says(*r) == by_rule, "a record says its notice in the round after it took, else 0");
    return (s->silent >> j) & 1 ? 0 : by_rule;
}

/* One round: all that is said is fixed before the first step. */
static void play(site *s, unsigned round) {
    uint32_t said[20];
    for (size_t j = 0; j < s->n; j++) said[j] = says(s, j, round);
    for (size_t b = 0; b < s->n; b++) {
        hulmayek_answer a = hulmayek_step(s->n, 0, s->f, b, s->heard[b], s->records[b], said, s->n);
        expect(a.number == 0, "a round of a site is played");
        s->records[b] = a.after;
    }
}

static void drawing_c(void) {
    site s = {.n = 3, .f = 0, .heard = {0, 1, 2}};
    start(&s, L7);
    play(&s, 1);
    expect(took(&s.records[1], 1, L7), "C: 1 takes 7 in round 1");
    expect(s.records[2].taken == 0, "C: 2 waits after round 1");
    play(&s, 2);
    expect(took(&s.records[2], 2, L7), "C: 2 takes 7 in round 2");
}

/* Whether a row has noted these layouts of edition 1 and no other, and holds 0 after them. */
static int row_is(const hulmayek_record *r, size_t j, const uint16_t *values, size_t count) {
    const hulmayek_note *row = &r->notes[j];
    for (size_t i = 0; i < HULMAYEK_ROUNDS; i++) {
        if (row->values[i] != (i < count ? values[i] : 0)) return 0;
    }
    return row->count == count && row->edition == (count ? 1 : 0);
}

static void drawing_e(void) {
    site s = {.n = 4, .f = 1, .heard = {0, 1, 1, 6}, .silent = 2};
    start(&s, L7);
    for (unsigned round = 1; round <= HULMAYEK_ROUNDS; round++) play(&s, round);
    expect(took(&s.records[2], 1, L7), "E: 2 takes 7 in round 1");
    expect(s.records[3].taken == 0 && s.records[3].at == 0 && s.records[3].notice == 0, "E: 3 waits for ever");
    expect(s.records[3].round == HULMAYEK_ROUNDS && row_is(&s.records[3], 2, (uint16_t[]){7}, 1)
               && row_is(&s.records[3], 1, NULL, 0),
           "E: 3 has played 40 rounds and heard 2 only");
    s.silent = 0;
    start(&s, L7);
    for (unsigned round = 1; round <= 2; round++) play(&s, round);
    expect(took(&s.records[3], 2, L7), "E: with nobody silent 3 takes in round 2");
}

/* One round of terminal 3 in drawing E, which hears 1 and 2. */
static hulmayek_record third(hulmayek_record r, uint32_t of_1, uint32_t of_2) {
    uint32_t said[4] = {L5, of_1, of_2, L5};
    hulmayek_answer a = hulmayek_step(4, 0, 1, 3, 6, r, said, 4);
    expect(a.number == 0, "a round of terminal 3 is played");
    return a.after;
}

/* A first word that was spoiled, one that is spoiled later, and words said again. */
static void every_value(void) {
    hulmayek_record r = third(third(hulmayek_start(), L9, 0), L7, L7);
    expect(took(&r, 2, L7), "after a bad word the good one counts");
    expect(row_is(&r, 1, (uint16_t[]){9, 7}, 2) && row_is(&r, 2, (uint16_t[]){7}, 1), "both words are noted");
    expect(row_is(&r, 0, NULL, 0) && row_is(&r, 3, NULL, 0), "of those not heard nothing is");
    r = third(third(third(hulmayek_start(), L7, 0), L9, 0), 0, L7);
    expect(took(&r, 3, L7), "a good word counts although a bad one follows");
    r = third(third(third(hulmayek_start(), L9, 0), L9, 0), L9, L8);
    expect(r.taken == 0 && row_is(&r, 1, (uint16_t[]){9}, 1), "a word said again counts once");
    r = hulmayek_start();
    for (unsigned round = 1; round <= HULMAYEK_ROUNDS; round++) r = third(r, L100 + round, L7);
    expect(r.taken == 0 && r.notes[1].count == 40 && r.notes[1].values[39] == 140, "forty values of a neighbour");
}

/* The number, and the record as it went in. */
static void refused(size_t n, size_t own, uint32_t heard, hulmayek_record r, size_t len, int number, const char *what) {
    static const uint32_t said[21] = {L7};
    hulmayek_answer a = hulmayek_step(n, 0, 1, own, heard, r, said, len);
    expect(a.number == number, what);
    expect(same(&a.after, &r), "a refused record comes back as it went in");
}

/* More values of a neighbour than rounds, waiting and taken; of one that is not heard it does not matter. */
static void too_many_values(void) {
    static const uint32_t said[4] = {0};
    hulmayek_record r = hulmayek_start();
    r.round = 2;
    r.notes[0].count = 2;
    expect(hulmayek_step(4, 0, 1, 1, 1, r, said, 4).number == 0, "as many values as rounds");
    r.notes[0].count = 3;
    r.notes[0].values[39] = 9;
    refused(4, 1, 1, r, 4, 13, "one value more: 13");
    refused(4, 1, 1, r, 3, 13, "it comes before a wrong length: 13");
    refused(4, 1, 3, r, 4, 5, "its own bit comes before it: 5");
    hulmayek_record after = hulmayek_step(4, 0, 1, 1, 4, r, said, 4).after;
    r.round = 3;
    expect(same(&after, &r), "the row of one that is not heard stays");
    r.round = 2;
    r.notes[0].count = 255;
    r.taken = 1;
    r.notice = L7;
    refused(4, 1, 1, r, 4, 13, "255 values of a taken one: 13");
}

static void refusals(void) {
    expect(HULMAYEK_WRONG_RANGE == 4 && HULMAYEK_WRONG_LINK == 5 && HULMAYEK_WRONG_LENGTH == 12
               && HULMAYEK_WRONG_RECORD == 13 && HULMAYEK_WAITING == 0 && HULMAYEK_TAKEN == 1
               && HULMAYEK_TERMINALS == 20 && HULMAYEK_ROUNDS == 40,
           "the names are document 01's numbers");
    hulmayek_record r = hulmayek_start();
    r.notes[3].count = 9;
    r.notes[3].values[0] = 9;
    r.notes[3].values[39] = 8;
    refused(21, 1, 1, r, 21, 4, "21 terminals: 4");
    refused(4, 1, 2, r, 4, 5, "its own bit: 5");
    refused(4, 1, 1, r, 3, 12, "a short list: 12");
    refused(4, 4, 1, r, 4, 13, "own number n: 13");
    r.round = 40;
    refused(4, 1, 1, r, 4, 13, "40 rounds played: 13");
    r.round = 1;
    r.taken = 2;
    refused(4, 1, 1, r, 4, 13, "taken is 2: 13");
    r.taken = 0;
    r.notice = L5;
    refused(4, 1, 1, r, 4, 13, "waiting with a notice: 13");
    r.taken = 255;
    refused(4, 1, 1, r, 3, 13, "no record comes before a wrong length: 13");
}

/* Records that say something or nothing: taken in the round that they show, before or after it, not at all, and
 * bytes that are no state. at 255 and round 255 agree: nothing wraps. */
static void words(void) {
    static const struct {
        uint8_t taken, at, round;
        uint32_t notice, says;
    } rows[] = {
        {1, 3, 3, L9, L9},     {1, 3, 4, L9, 0},   {1, 3, 2, L9, 0}, {0, 0, 0, 0, 0},  {1, 0, 0, L7, L7},
        {1, 255, 255, L9, L9}, {1, 255, 0, L9, 0}, {2, 3, 3, L9, 0}, {0, 3, 3, L9, 0}, {255, 0, 0, L9, 0},
    };
    for (size_t i = 0; i < sizeof rows / sizeof *rows; i++) {
        hulmayek_record r = {.taken = rows[i].taken, .at = rows[i].at, .round = rows[i].round, .notice = rows[i].notice};
        r.notes[1] = (hulmayek_note){.edition = 1, .count = 1, .values = {5}};
        expect(hulmayek_says(r) == rows[i].says, "a row of the words");
    }
}

/* What the header says of notice 0, of the fortieth round, of the layout and of no list. */
static void promises(void) {
    static const uint32_t said[3] = {0};
    hulmayek_record r = hulmayek_source_start(0);
    expect(hulmayek_says(r) == 0, "a source that starts with 0 says nothing");
    expect(hulmayek_step(3, 0, 0, 0, 0, r, said, 3).number == HULMAYEK_WRONG_RECORD, "and its step is refused");
    r = hulmayek_source_start(L7);
    for (unsigned round = 1; round <= HULMAYEK_ROUNDS; round++) r = hulmayek_step(3, 0, 0, 0, 0, r, said, 3).after;
    expect(r.round == HULMAYEK_ROUNDS && r.notice == L7, "forty rounds are played, and it keeps its notice");
    expect(hulmayek_step(3, 0, 0, 0, 0, r, said, 3).number == HULMAYEK_WRONG_RECORD, "the next one is refused");
    expect(hulmayek_layout() == HULMAYEK_LAYOUT, "the archive has the header's layout");
    expect(hulmayek_step(3, 0, 0, 1, 1, hulmayek_start(), NULL, 0).number == HULMAYEK_WRONG_LENGTH, "no list at all");
}

int main(void) {
    drawing_c();
    drawing_e();
    every_value();
    refusals();
    too_many_values();
    words();
    promises();
    if (failures == 0) puts("drawings C and E, every value heard, 12 refusals, and what is said: as the documents have them");
    return failures != 0;
}
