/* One weighbridge terminal: its record, the step that plays one round of it, what it says, and how the source's
 * terminal takes a later notice of its office.
 *
 * The functions are in libfirmware.a ('bash tools/archive'), for x86-64 with the System V calling
 * convention. They are proved: for any bytes that are handed in they end, touch no memory but their
 * arguments, and answer as the words below say. They use no heap and no function from outside; their long copies
 * and fills are by a memcpy and a memset inside the archive, which no proof covers (tools/memory.c). Records and
 * answers go by value, so a step has several of them on the stack: under 14 KiB in all, on a shared channel too,
 * measured. The caller's compiler may copy them by a call of memcpy, as clang does: a board
 * without a C library then has to supply that, for its own code and not for the archive.
 *
 * A notice is one number: its edition, 1 to 65535, and its layout, 1 to 65535 (HULMAYEK_NOTICE). The edition says
 * which notice is the newer one: when the office changes its mind it issues a notice of a higher edition. A number
 * with a zero in either half is no notice: it is silence, as 0 is. A site whose office never changes its mind gives
 * its one notice edition 1.
 *
 * A round of a board, of which there are HULMAYEK_ROUNDS at most:
 *   1. transmit hulmayek_says(record) to all neighbours; 0 is silence, nothing is sent
 *   2. collect what each neighbour transmitted in this round: said[j] from terminal j, 0 for nothing
 *   3. record = hulmayek_step(.., record, said, n).after, or hulmayek_group_step(..) where the plan has groups
 *   4. only the source's board, and only if its office has issued a later notice:
 *      record = hulmayek_issue(record, notice).after
 * So a terminal speaks once for each notice that it takes, in the round after the one that it took it in, and the
 * source in round 1. examples/board.c plays this.
 *
 * A site with one shared channel, where each word of a board reaches all who hear it alike, may play another way, in
 * which the source itself may be bad. All its boards are given the same default layout, 1 to 65535, and what they say
 * are layouts, 16 bits, each of which counts as edition 1. A round of a board is then:
 *   1. transmit HULMAYEK_NOTICE_LAYOUT(hulmayek_says(record)) to all; 0 is silence, nothing is sent
 *   2. collect said[j], the layout that terminal j transmitted in this round, 0 for nothing
 *   3. record = hulmayek_shared_step(.., default_layout, record, said, n).after, or hulmayek_shared_group_step(..)
 *      where the plan has groups
 * Records are the same, and so is their start; the source's is hulmayek_source_start(HULMAYEK_NOTICE(1, layout)). There
 * are no later notices: nobody calls hulmayek_issue. All boards of a site play the same way, in every round.
 *
 * Threads: nothing is kept between calls and nothing is shared, so any number of threads may call any
 * of the functions at the same time. Each record is a value of its caller's.
 *
 * What the caller owes, and no proof covers: the pointer `said` is valid for `said_len` words and aligned
 * for them, `said_len` is true, and nobody writes to the list during the call. A null pointer is outside the
 * contract, with said_len 0 too: pass the address of any word. With said_len 0 nothing is read and the call
 * is refused, since n is at least 2; this archive does the same with a null pointer, which is tested and not
 * proved.
 */
#ifndef HULMAYEK_TERMINAL_H
#define HULMAYEK_TERMINAL_H

#include <stddef.h>
#include <stdint.h>

#ifdef __cplusplus
extern "C" {
#endif

/* The layout in memory of the types below, and the meaning of the functions. An archive of another layout returns
 * another number from hulmayek_layout(): compare once, at the start. It has nothing to do with the layout that a
 * notice names. */
#define HULMAYEK_LAYOUT 5

/* A notice by its edition and its layout, and these two of a notice. */
#define HULMAYEK_NOTICE(edition, layout) ((uint32_t)(uint16_t)(edition) << 16 | (uint16_t)(layout))
#define HULMAYEK_NOTICE_EDITION(notice) ((uint16_t)((uint32_t)(notice) >> 16))
#define HULMAYEK_NOTICE_LAYOUT(notice) ((uint16_t)(notice))

/* The most terminals of a site, the most rounds that a record plays, and the most groups of a plan. */
#define HULMAYEK_TERMINALS 20
#define HULMAYEK_ROUNDS 40
#define HULMAYEK_GROUPS 16

/* `taken` of a record. */
#define HULMAYEK_WAITING 0
#define HULMAYEK_TAKEN 1

/* `kind` of hulmayek_bound_step and hulmayek_bound_shared_step. */
#define HULMAYEK_KIND_F 0
#define HULMAYEK_KIND_GROUPS 1

/* `number` of an answer; HULMAYEK_PLAYED is that of a later notice that was taken too. */
#define HULMAYEK_PLAYED 0
#define HULMAYEK_WRONG_RANGE 4
#define HULMAYEK_WRONG_LINK 5
#define HULMAYEK_WRONG_LAYOUT 9
#define HULMAYEK_WRONG_LENGTH 12
#define HULMAYEK_WRONG_RECORD 13
#define HULMAYEK_WRONG_EDITION 16
#define HULMAYEK_WRONG_GROUPS 17

/* A note: what a terminal has noted of one other: 84 bytes.
 *   edition  the highest edition that the other has said so far, 0 for none
 *   count    how many different layouts it has said in that edition, at most one a round
 *   values   these layouts, in the order that they were first said: values[0] to values[count - 1]. No step
 *            looks at values[count] and those after it; in a record that only the functions below have
 *            made they are 0. */
typedef struct {
    uint16_t edition;
    uint8_t count;
    uint16_t values[HULMAYEK_ROUNDS];
} hulmayek_note;

/* What a terminal keeps from round to round: 1688 bytes.
 *   taken   HULMAYEK_WAITING: at and notice are 0; HULMAYEK_TAKEN: it took `notice` in round `at`, and holds it.
 *           Any other bytes here are a record that no call takes: refused, HULMAYEK_WRONG_RECORD.
 *   round   how many rounds it has played
 *   notes   notes[j]: the note of terminal j */
typedef struct {
    uint8_t taken;
    uint8_t at;
    uint8_t round;
    uint32_t notice;
    hulmayek_note notes[HULMAYEK_TERMINALS];
} hulmayek_record;

/* What a step answers, and a later notice: 1692 bytes.
 *   number  HULMAYEK_PLAYED: the round was played, or the notice taken, and `after` is the new record. Otherwise
 *           `after` is the record that went in, byte for byte but for its padding, and number says what was wrong,
 *           the first that applies, for a step in this order (hulmayek_issue has its own):
 *            HULMAYEK_WRONG_RANGE   n is not 2 to 20, source or f is not below n, or there is no such kind
 *            HULMAYEK_WRONG_LINK    `heard` has a bit at or above n, or the terminal's own
 *            HULMAYEK_WRONG_GROUPS  only with groups: count is not 1 to 16, a group has a bit at or above n or
 *                                   the source's, or a place from count on is not 0
 *            HULMAYEK_WRONG_LAYOUT  only on a shared channel: the default layout is 0
 *            HULMAYEK_WRONG_RECORD  the record cannot be stepped: 40 rounds played, own not below n, the
 *                                   source waiting, taken later than its round, taken with edition 0 or
 *                                   layout 0, more layouts of a terminal that it hears than rounds played
 *                                   (notes[j].count above round), or no record at all
 *            HULMAYEK_WRONG_LENGTH  the list is not n words long; on a shared channel not n layouts
 *
 * HULMAYEK_WRONG_RECORD with before.round == HULMAYEK_ROUNDS is the end of the play: a record that was only
 * ever made by the functions below reaches that round and no later one, and keeps its notice. With any other
 * round the record is broken, or own is not below n.
 *
 * A layout that stands twice in a note, or 0 among a note's layouts, is not refused: the terminal counts once for
 * the layout, and 0 counts for nothing; nor does any layout in a note of edition 0. Notes of terminals that it does
 * not hear are not looked at, whatever their count, and come back as they were. */
typedef struct {
    uint8_t number;
    hulmayek_record after;
} hulmayek_answer;

/* The groups of a plan that lists groups in the place of f: 72 bytes. A group is a set of boards that can fail
 * together, as those that share a supply; whoever is bad on the site is in one and the same group. A board may
 * be in several groups or in none, and a group may be empty.
 *   count   how many groups there are, 1 to HULMAYEK_GROUPS
 *   groups  bit j of groups[i] says that terminal j is in group i; groups[count] and those after it are 0 */
typedef struct {
    size_t count;
    uint32_t groups[HULMAYEK_GROUPS];
} hulmayek_groups;

/* The record of a terminal that is switched on: waiting, round 0, nothing heard. */
hulmayek_record hulmayek_start(void);

/* The same of the source, which has taken its office's first notice in round 0. A number with edition 0 or layout 0
 * is not refused here, but gives a record that no step takes: HULMAYEK_WRONG_RECORD. So a layout alone, without
 * its edition, does not start a site. */
hulmayek_record hulmayek_source_start(uint32_t notice);

/* One round of terminal `own` on a site of n terminals. Bit j of `heard` says that it hears terminal j; said[j] is
 * the notice that terminal j said to it in this round, 0 for nothing. `kind` says what `bound` is:
 *   HULMAYEK_KIND_F       at most bound.count terminals that it hears may lie; all sixteen groups are 0 (else
 *                         HULMAYEK_WRONG_GROUPS)
 *   HULMAYEK_KIND_GROUPS  the groups of the plan
 * The two functions below call this one, for a board that knows which it has.
 *
 * Every terminal notes: one that waits, one that has taken, and the source. Of each terminal j that it hears, and
 * that said a notice in this round,
 *   - an edition above notes[j].edition wipes the note: it then has that edition and this one layout;
 *   - in the edition of the note, the layout comes after its values, unless it is among them already;
 *   - a lower edition is not looked at.
 * Then every terminal but the source looks for a notice above the edition that it holds (0 while it waits): it takes
 * the highest edition in which something qualifies, and in that edition
 *   1. the source's first layout, if it hears the source and the source's note is of that edition: count of that
 *      note is not 0, and values[0] is not 0;
 *   2. or else the smallest layout that stands in the notes, of that edition, of enough terminals that it hears:
 *      of more than f; with groups, of terminals that are not all in one group, so that for each group one of them
 *      is outside it. Each counts once for every different layout that it has said in that edition, and so a bad
 *      first word does no harm where the good one follows.
 * What it takes stands in `notice`, with the new round in `at`. Where nothing qualifies it keeps what it holds, or
 * waits on. So it never takes a second notice of the same edition, nor goes back to a lower one. The source takes
 * by hulmayek_issue only. */
hulmayek_answer hulmayek_bound_step(size_t n, size_t source, size_t kind, hulmayek_groups bound, size_t own,
                                    uint32_t heard, hulmayek_record before, const uint32_t *said, size_t said_len);

/* The step on a site of which at most f terminals that a terminal hears may lie. */
static inline hulmayek_answer hulmayek_step(size_t n, size_t source, size_t f, size_t own, uint32_t heard,
                                            hulmayek_record before, const uint32_t *said, size_t said_len) {
    hulmayek_groups bound = {f, {0}};
    return hulmayek_bound_step(n, source, HULMAYEK_KIND_F, bound, own, heard, before, said, said_len);
}

/* The step on a site whose plan lists groups. Two boards that share a supply are never enough by themselves, and one
 * board that is in no group is. */
static inline hulmayek_answer hulmayek_group_step(size_t n, size_t source, hulmayek_groups groups, size_t own,
                                                  uint32_t heard, hulmayek_record before, const uint32_t *said,
                                                  size_t said_len) {
    return hulmayek_bound_step(n, source, HULMAYEK_KIND_GROUPS, groups, own, heard, before, said, said_len);
}

/* One round of terminal `own` on a shared channel, where the source may be bad too: said[j] is the layout that terminal
 * j said to all who hear it, 0 for nothing, and `default_layout` is the site's. The other arguments are those of
 * hulmayek_bound_step, and so is the round, on the notices HULMAYEK_NOTICE(1, said[j]), and 0 where said[j] is 0, but
 * for this:
 *   A terminal that waits, with no round played, and hears the source takes in this round, its first: the layout
 *   said[source], or default_layout if the source said nothing, whatever the others say. `notice` is then
 *   HULMAYEK_NOTICE(1, that layout) and `at` is 1. What each neighbour said is noted as always.
 * Who does not hear the source, or waits in a later round, takes by the old rules alone, in which there is no default;
 * who holds a notice keeps it, or one of a higher edition, since all that is said counts as edition 1; and the source
 * takes nothing. default_layout 0 is refused, HULMAYEK_WRONG_LAYOUT, after the groups and before the record, in every
 * round and to every terminal.
 *
 * The two functions below call this one, for a board that knows which bound it has. */
hulmayek_answer hulmayek_bound_shared_step(size_t n, size_t source, size_t kind, hulmayek_groups bound, size_t own,
                                           uint32_t heard, uint16_t default_layout, hulmayek_record before,
                                           const uint16_t *said, size_t said_len);

/* The step on a shared channel of a site of which at most f terminals that a terminal hears may lie, the source not
 * counted. */
static inline hulmayek_answer hulmayek_shared_step(size_t n, size_t source, size_t f, size_t own, uint32_t heard,
                                                   uint16_t default_layout, hulmayek_record before,
                                                   const uint16_t *said, size_t said_len) {
    hulmayek_groups bound = {f, {0}};
    return hulmayek_bound_shared_step(n, source, HULMAYEK_KIND_F, bound, own, heard, default_layout, before, said,
                                      said_len);
}

/* The step on a shared channel of a site whose plan lists groups. */
static inline hulmayek_answer hulmayek_shared_group_step(size_t n, size_t source, hulmayek_groups groups, size_t own,
                                                         uint32_t heard, uint16_t default_layout,
                                                         hulmayek_record before, const uint16_t *said,
                                                         size_t said_len) {
    return hulmayek_bound_shared_step(n, source, HULMAYEK_KIND_GROUPS, groups, own, heard, default_layout, before, said,
                                      said_len);
}

/* The source's board takes a later notice of its office: `after` holds it, taken in the round that the record shows,
 * and all else is as it was. Call it after the step of a round and before hulmayek_says of the next one, which then
 * gives the notice; between hulmayek_says and the step it would never be said. Of two notices between the same two
 * rounds only the second is said. After the fortieth round a notice is still taken, and never said.
 * `number` is HULMAYEK_PLAYED, or the first that applies:
 *   HULMAYEK_WRONG_LAYOUT   the notice has layout 0
 *   HULMAYEK_WRONG_EDITION  its edition is 0, or not above the one that the record holds
 *   HULMAYEK_WRONG_RECORD   the record is none of a source: it waits, was taken later than its round or with edition 0
 *                           or layout 0, is past round 40, or is no record at all. Such bytes hold edition 0, as a
 *                           waiting record does, so edition 0 alone is refused as HULMAYEK_WRONG_EDITION before this
 * `after` is then the record that went in, byte for byte but for its padding. The notes are not looked at. Only the
 * source's board calls it: nothing in a record shows whose it is, and that of another board that has taken would take
 * the notice too. On a shared channel it has no place: a layout of a later edition would be heard as one of edition 1. */
hulmayek_answer hulmayek_issue(hulmayek_record before, uint32_t notice);

/* What the terminal transmits to all its neighbours in the round after record.round: its notice if it took it in
 * that round (record.at == record.round), else 0, which is silence. It is asked of the record before the step of
 * the round that the word is for. On a shared channel its layout alone is transmitted. A record whose bytes are no
 * state says 0. */
uint32_t hulmayek_says(hulmayek_record record);

/* HULMAYEK_LAYOUT of the header that the archive was built for. */
uint32_t hulmayek_layout(void);

#ifdef __cplusplus
}
#define HULMAYEK_SAME(name, is) static_assert(is, name)
#else
#define HULMAYEK_SAME(name, is) _Static_assert(is, name)
#endif

/* The layout that the archive was built for. */
HULMAYEK_SAME("note", sizeof(hulmayek_note) == 84);
HULMAYEK_SAME("edition", offsetof(hulmayek_note, edition) == 0);
HULMAYEK_SAME("count", offsetof(hulmayek_note, count) == 2);
HULMAYEK_SAME("values", offsetof(hulmayek_note, values) == 4);
HULMAYEK_SAME("record", sizeof(hulmayek_record) == 1688);
HULMAYEK_SAME("taken", offsetof(hulmayek_record, taken) == 0);
HULMAYEK_SAME("at", offsetof(hulmayek_record, at) == 1);
HULMAYEK_SAME("round", offsetof(hulmayek_record, round) == 2);
HULMAYEK_SAME("notice", offsetof(hulmayek_record, notice) == 4);
HULMAYEK_SAME("notes", offsetof(hulmayek_record, notes) == 8);
HULMAYEK_SAME("answer", sizeof(hulmayek_answer) == 1692);
HULMAYEK_SAME("number", offsetof(hulmayek_answer, number) == 0);
HULMAYEK_SAME("after", offsetof(hulmayek_answer, after) == 4);
HULMAYEK_SAME("groups", sizeof(hulmayek_groups) == 72);
HULMAYEK_SAME("how many groups", offsetof(hulmayek_groups, count) == 0);
HULMAYEK_SAME("group by group", offsetof(hulmayek_groups, groups) == 8);
HULMAYEK_SAME("size_t", sizeof(size_t) == 8);

#endif
