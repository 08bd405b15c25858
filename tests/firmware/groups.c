/* The step with groups, document 02's P10: who is enough and who is not, what is refused, and sites drawn by
 * a seed (the argument), against f and against the document's words, with editions (P8). */
#include "checks.h"

#include <stdlib.h>

enum { SHARE_1_2 = 0x6, ALONE_3 = 0x8, HEARS_1_2_3 = 0xe };

/* The notices of edition 1 with these layouts. */
enum { L5 = EDITION + 5, L7 = EDITION + 7, L8 = EDITION + 8, L9 = EDITION + 9 };

/* Terminal 4 of drawing F, which hears 1, 2 and 3, in the plan with groups {1,2} and {3}. */
static const hulmayek_groups drawn = {2, {SHARE_1_2, ALONE_3}};

/* One round of that terminal, told these groups. */
static hulmayek_record fourth(hulmayek_groups groups, hulmayek_record r, uint32_t of_1, uint32_t of_2, uint32_t of_3) {
    uint32_t said[5] = {L5, of_1, of_2, of_3, L5};
    hulmayek_answer a = hulmayek_group_step(5, 0, groups, 4, HEARS_1_2_3, r, said, 5);
    expect(a.number == 0, "a round of terminal 4 is played");
    return a.after;
}

static int takes(const hulmayek_record *r, unsigned round, uint32_t notice) {
    return took(r, round, notice) && r->round == round;
}

static void enough(void) {
    hulmayek_record r = fourth(drawn, hulmayek_start(), L7, L7, 0);
    expect(r.taken == 0, "1 and 2 share a group: they are not enough");
    r = fourth(drawn, r, 0, 0, L7);
    expect(takes(&r, 2, L7), "with 3 they are");
    r = fourth(drawn, hulmayek_start(), 0, 0, L7);
    expect(r.taken == 0, "3 by itself fits in the second group");
    r = fourth(drawn, hulmayek_start(), L7, 0, L7);
    expect(takes(&r, 1, L7), "1 and 3 are of different groups: they are enough");
    r = fourth(drawn, fourth(drawn, hulmayek_start(), L8, L8, 0), L9, 0, L9);
    expect(takes(&r, 2, L9), "a smaller value of one group only is not taken");
    r = fourth(drawn, fourth(drawn, fourth(drawn, hulmayek_start(), L9, L8, 0), 0, 0, L8), 0, 0, L9);
    expect(took(&r, 2, L8) && r.round == 3, "what was taken in round 2 stays");
    r = fourth((hulmayek_groups){1, {SHARE_1_2}}, hulmayek_start(), 0, 0, L7);
    expect(takes(&r, 1, L7), "one that is in no group is enough by itself");
    r = fourth((hulmayek_groups){1, {0}}, hulmayek_start(), 0, L7, 0);
    expect(takes(&r, 1, L7), "where the one group is empty anyone is enough");
    r = fourth((hulmayek_groups){1, {0}}, hulmayek_start(), 0, 0, 0);
    expect(r.taken == 0, "but nobody is not");
    r = fourth((hulmayek_groups){1, {HEARS_1_2_3}}, hulmayek_start(), L7, L7, L7);
    expect(r.taken == 0, "all of one group are not enough");
    r = fourth((hulmayek_groups){3, {SHARE_1_2, 0xa, 0xc}}, hulmayek_start(), L7, 0, L7);
    expect(r.taken == 0, "two of one group are not enough, though other groups have but one of them");
    r = fourth((hulmayek_groups){3, {SHARE_1_2, 0xa, 0xc}}, hulmayek_start(), L7, L7, L7);
    expect(takes(&r, 1, L7), "every two share a group, all three do not");
}

/* The source's word needs nobody else. */
static void source(void) {
    static const uint32_t said[3] = {L7, L9, 0};
    hulmayek_answer a = hulmayek_group_step(3, 0, (hulmayek_groups){1, {6}}, 2, 3, hulmayek_start(), said, 3);
    expect(a.number == 0 && takes(&a.after, 1, L7), "the source's word is taken, whatever the groups");
    a = hulmayek_group_step(3, 0, (hulmayek_groups){1, {6}}, 0, 0, hulmayek_source_start(L7), said, 3);
    expect(a.number == 0 && took(&a.after, 0, L7) && a.after.round == 1, "the source plays its round");
}

static void refused(size_t n, hulmayek_groups groups, uint32_t heard, hulmayek_record r, size_t len, int number, const char *what) {
    static const uint32_t said[21] = {L7};
    hulmayek_answer a = hulmayek_group_step(n, 0, groups, 4, heard, r, said, len);
    expect(a.number == number, what);
    expect(same(&a.after, &r), "a refused record comes back as it went in");
}

static void refusals(void) {
    hulmayek_record r = full();
    hulmayek_groups sixteen = {HULMAYEK_GROUPS, {2, 2, 2, 2, 2, 2, 2, 2, 2, 2, 2, 2, 2, 2, 2, 12}};
    hulmayek_groups past = drawn;
    past.groups[15] = ALONE_3;
    expect(HULMAYEK_WRONG_GROUPS == 17 && HULMAYEK_GROUPS == 16, "the names are the documents' numbers");
    refused(5, (hulmayek_groups){0, {0}}, 2, r, 5, 17, "no group: 17");
    refused(5, (hulmayek_groups){17, {2}}, 2, r, 5, 17, "seventeen groups: 17");
    refused(5, (hulmayek_groups){SIZE_MAX, {2}}, 2, r, 5, 17, "as many as a size can be: 17");
    refused(5, (hulmayek_groups){2, {2, 5}}, 2, r, 5, 17, "a group with the source: 17");
    refused(5, (hulmayek_groups){1, {32}}, 2, r, 5, 17, "a group with number n: 17");
    refused(5, (hulmayek_groups){1, {0x80000000}}, 2, r, 5, 17, "a group with number 31: 17");
    refused(5, past, 2, r, 5, 17, "a group after those that are counted: 17");
    refused(5, (hulmayek_groups){1, {2, 2}}, 2, r, 5, 17, "right after them: 17");
    refused(5, (hulmayek_groups){0, {2}}, 2, r, 5, 17, "a group, but none counted: 17");
    refused(21, (hulmayek_groups){0, {0}}, 1 << 21, r, 5, 4, "21 terminals come before it: 4");
    refused(5, (hulmayek_groups){0, {0}}, 16, r, 4, 5, "its own bit comes before it: 5");
    refused(5, drawn, 2, r, 4, 12, "a short list: 12");
    r.round = HULMAYEK_ROUNDS;
    refused(5, (hulmayek_groups){0, {0}}, 2, r, 4, 17, "it comes before 40 rounds played: 17");
    refused(5, drawn, 2, r, 4, 13, "40 rounds played come before a short list: 13");
    r.round = HULMAYEK_ROUNDS - 1;
    expect(hulmayek_group_step(5, 0, sixteen, 4, 2, r, (uint32_t[5]){0}, 5).number == 0, "sixteen groups are allowed");
}

/* ---- drawn sites */

static uint64_t state;

static uint32_t draw(void) {
    state = state * 6364136223846793005u + 1442695040888963407u;
    return (uint32_t)(state >> 33);
}

/* A round's words: few different ones, so that they meet, of three editions and none. */
static void words(uint32_t *said, size_t n) {
    for (size_t j = 0; j < n; j++) said[j] = draw() % 4 * EDITION + draw() % 4;
}

/* The same rounds with f and with groups that say the same, for a terminal that does not hear the source. */
static void as_with_f(size_t f) {
    size_t n = 2 + draw() % 16;
    size_t own = 1 + draw() % (n - 1);
    uint32_t heard = draw() & ((1u << n) - 2) & ~(1u << own);
    hulmayek_groups groups = {1, {0}};
    hulmayek_record one = hulmayek_start();
    hulmayek_record other = one;
    uint32_t said[20];
    if (f >= n) return;
    for (size_t j = 1; f == 1 && j < n; j++) groups.groups[j - 1] = 1u << j;
    if (f == 1) groups.count = n - 1;
    for (int round = 0; round < 5; round++) {
        words(said, n);
        one = hulmayek_step(n, 0, f, own, heard, one, said, n).after;
        other = hulmayek_group_step(n, 0, groups, own, heard, other, said, n).after;
    }
    expect(one.round == 5 && same(&one, &other), "one empty group is f 0, every terminal by itself a group is f 1");
}

/* What a terminal has said: its highest edition, and bit v where it has said layout v in it. */
typedef struct {
    uint32_t edition, layouts;
} spoken;

static void hear(spoken *s, uint32_t word) {
    uint32_t edition = word / EDITION, layout = word % EDITION;
    if (edition == 0 || layout == 0 || edition < s->edition) return;
    if (edition > s->edition) s->layouts = 0;
    s->edition = edition;
    s->layouts |= 1u << layout;
}

/* By the document's words: of the editions above the one that is held the highest in which somebody is enough, and in
 * it the smallest layout whose voters are in no group together; 0 for none. */
static uint32_t by_words(const spoken *all, uint32_t heard, const hulmayek_groups *groups, uint32_t held) {
    for (uint32_t edition = 3; edition > held; edition--) {
        for (uint32_t v = 1; v < 4; v++) {
            uint32_t voters = 0;
            int fit = 0;
            for (size_t j = 0; j < HULMAYEK_TERMINALS; j++) {
                if (all[j].edition == edition && (all[j].layouts >> v) & (heard >> j) & 1) voters |= 1u << j;
            }
            for (size_t i = 0; i < groups->count; i++) fit |= (voters & ~groups->groups[i]) == 0;
            if (voters && !fit) return edition * EDITION + v;
        }
    }
    return 0;
}

/* Forty rounds of a terminal that hears no source: what it holds after each. */
static void as_by_words(void) {
    size_t n = 3 + draw() % 18;
    uint32_t all = (1u << n) - 2, heard = draw() & all & ~2u, holds = 0, at = 0;
    hulmayek_groups groups = {.count = 1 + draw() % HULMAYEK_GROUPS};
    hulmayek_record r = hulmayek_start();
    spoken so_far[HULMAYEK_TERMINALS] = {{0, 0}};
    uint32_t said[20];
    for (size_t i = 0; i < groups.count; i++) groups.groups[i] = draw() & (draw() % 3 ? all : draw()) & all;
    for (unsigned round = 1; round <= HULMAYEK_ROUNDS; round++) {
        words(said, n);
        for (size_t j = 0; j < n; j++) said[j] = draw() % 9 ? 0 : said[j];
        for (size_t j = 0; j < n; j++) hear(&so_far[j], said[j]);
        hulmayek_answer a = hulmayek_group_step(n, 0, groups, 1, heard, r, said, n);
        uint32_t newer = by_words(so_far, heard, &groups, holds / EDITION);
        if (newer) holds = newer, at = round;
        expect(a.number == 0 && a.after.round == round, "a round of a drawn site is played");
        expect(holds ? took(&a.after, at, holds) : a.after.taken == 0, "it holds what the document's words say");
        r = a.after;
    }
}

int main(int count, char **arguments) {
    state = count == 2 ? strtoull(arguments[1], NULL, 10) : 1;
    enough();
    source();
    refusals();
    for (int i = 0; i < 2000; i++) {
        as_with_f(draw() % 2);
        as_by_words();
    }
    if (failures == 0) puts("groups: who is enough, 14 refusals, and 4000 drawn sites: as the documents have them");
    return failures != 0;
}
