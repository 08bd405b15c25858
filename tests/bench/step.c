/* Steps of one terminal of a site of twenty, for counting their instructions: terminal 19 hears 1 to 18 and not the
 * source. As in a run with F liars: 1 to F say a new layout each round, the others of the 18 say 7 once, which is not
 * enough while they are at most F, so it waits through all rounds. All is of one edition, as before there were any.
 *   step ROUNDS F         so many steps from the start, with the bound F
 *   step ROUNDS F full    so many steps, 0 or 1, of a record in which each of the 18 has said 39 layouts */
#include "terminal.h"

#include <stdlib.h>

enum { N = 20, OWN = 19, HEARD = 0x7fffe };

static uint32_t word(size_t from, size_t round, size_t f) {
    if (from >= 1 && from <= f) return HULMAYEK_NOTICE(1, 1000 + 50 * from + round);
    return from > f && from < OWN && round == 5 ? HULMAYEK_NOTICE(1, 7) : 0;
}

static hulmayek_record full(void) {
    hulmayek_record r = hulmayek_start();
    r.round = 39;
    for (size_t j = 1; j < OWN; j++) {
        r.notes[j].edition = 1;
        r.notes[j].count = 39;
        for (size_t i = 0; i < 39; i++) r.notes[j].values[i] = (uint16_t)(1000 * j + i);
    }
    return r;
}

int main(int count, char **arguments) {
    if (count < 3) return 2;
    size_t rounds = (size_t)atoi(arguments[1]), f = (size_t)atoi(arguments[2]);
    hulmayek_record r = count > 3 ? full() : hulmayek_start();
    uint32_t said[N];
    for (size_t round = 1; round <= rounds; round++) {
        for (size_t j = 0; j < N; j++) said[j] = word(j, round, f);
        hulmayek_answer answer = hulmayek_step(N, 0, f, OWN, HEARD, r, said, N);
        if (answer.number != HULMAYEK_PLAYED || answer.after.taken) return 1;
        r = answer.after;
    }
    return 0;
}
