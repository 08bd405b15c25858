/* Three rounds of a site: 0 is the source, 1 hears 0, 2 hears 1 (drawing C, bound 0). After round 1 the office changes
 * its mind. A board has one record and a radio; here three records and an array stand for three boards. The compile
 * line is in README.md. */
#include "terminal.h"

#include <stdio.h>

enum { N = 3, SOURCE = 0, BOUND = 0 };

static const uint32_t heard[N] = {0x0, 0x1, 0x2}; /* bit j: it hears terminal j */

/* What a board said and what it has, as edition.layout. */
static void print(uint32_t said, uint32_t has) {
    printf(" said %u.%u,", HULMAYEK_NOTICE_EDITION(said), HULMAYEK_NOTICE_LAYOUT(said));
    printf(" has %u.%u;", HULMAYEK_NOTICE_EDITION(has), HULMAYEK_NOTICE_LAYOUT(has));
}

/* Whether all boards have played the round. */
static int play(hulmayek_record *board, int round) {
    uint32_t on_air[N]; /* all speak before any of them steps */
    for (size_t own = 0; own < N; own++) on_air[own] = hulmayek_says(board[own]);
    printf("round %d:", round);
    for (size_t own = 0; own < N; own++) {
        hulmayek_answer answer = hulmayek_step(N, SOURCE, BOUND, own, heard[own], board[own], on_air, N);
        if (answer.number != HULMAYEK_PLAYED) return 0;
        board[own] = answer.after;
        print(on_air[own], board[own].notice);
    }
    putchar('\n');
    return 1;
}

int main(void) {
    const uint32_t first = HULMAYEK_NOTICE(1, 7), later = HULMAYEK_NOTICE(2, 8);
    if (hulmayek_layout() != HULMAYEK_LAYOUT) return 2; /* header and archive differ */
    hulmayek_record board[N] = {hulmayek_source_start(first), hulmayek_start(), hulmayek_start()};
    if (!play(board, 1)) return 1;
    hulmayek_answer issued = hulmayek_issue(board[SOURCE], later); /* after the step, before it speaks again */
    if (issued.number != HULMAYEK_PLAYED) return 1;
    board[SOURCE] = issued.after;
    if (!play(board, 2) || !play(board, 3)) return 1;
    return board[2].notice == later ? 0 : 1;
}
