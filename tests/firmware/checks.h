/* What the checks of the archive share: counting what is not so, and comparing records. */
#include "terminal.h"

#include <stdio.h>
#include <string.h>

/* A notice is its edition so many times, and its layout (document 02, P8). */
enum { EDITION = 65536 };

static int failures = 0;

static void expect(int right, const char *what) {
    if (!right) {
        printf("not so: %s\n", what);
        failures++;
    }
}

/* The same record, all but the padding. */
static int same(const hulmayek_record *a, const hulmayek_record *b) {
    if (a->taken != b->taken || a->at != b->at || a->notice != b->notice || a->round != b->round) return 0;
    for (size_t j = 0; j < HULMAYEK_TERMINALS; j++) {
        if (a->notes[j].edition != b->notes[j].edition || a->notes[j].count != b->notes[j].count) return 0;
        if (memcmp(a->notes[j].values, b->notes[j].values, sizeof a->notes[j].values) != 0) return 0;
    }
    return 1;
}

/* It has taken the notice in that round. */
static int took(const hulmayek_record *r, unsigned at, uint32_t notice) {
    return r->taken == 1 && r->at == at && r->notice == notice;
}

/* A record with something in each part, so that a part that is lost shows. */
static inline hulmayek_record full(void) {
    hulmayek_record r = hulmayek_start();
    r.round = HULMAYEK_ROUNDS - 1;
    for (size_t j = 0; j < HULMAYEK_TERMINALS; j++) {
        r.notes[j].edition = (uint16_t)(j + 1000);
        r.notes[j].count = (uint8_t)(j + 1);
        for (size_t i = 0; i < HULMAYEK_ROUNDS; i++) r.notes[j].values[i] = (uint16_t)(100 * j + i + 1);
    }
    return r;
}
