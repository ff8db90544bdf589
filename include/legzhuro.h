/* Legzhuro: repairs tracer masses so that they add up to the right total and lie within their bounds.
 *
 * A slice is passed as a pointer and its number of elements. Pointers must be valid for that many elements; a pointer with length 0 must
 * still not be null and must be aligned for its type. Lists that a call writes must not overlap any other list of the call. What happens
 * otherwise no definition decides.
 *
 * Calls have no state of their own and may be made from several threads at once on lists that are not shared. Every call returns, whatever
 * numbers, bytes or doubles it is given. A refused call writes to no list. legzhuro_reconstruct needs some 54 KB of stack, legzhuro_split
 * some 17 KB.
 *
 * legzhuro_reconstruct returns 0 or the refusal's number. The other calls return 0, or the refusal's number in the low 32 bits and its
 * place in the high 32: LEGZHURO_NUMBER and LEGZHURO_PLACE take them apart. A refusal is that of the first check that fails; each call
 * lists its own in the order of the checks. The place is 0 unless the table names one.
 *
 *    1  no items or cells, or more than 512; in a call on a family also another number of cells than the family's
 *    2  fewer nodes than cells, or more than 1024
 *    3  a list of another length, scratch under 4 numbers for each node, a book's buffer under 32768 bytes, or a list or buffer for the answer
 *       that is too short; in legzhuro_write_field a list or buffer that is too short for the cells and nodes
 *    4  the parents are no tree (place: the smallest node that breaks a rule)
 *    5  crossed bounds; in legzhuro_split also a low below 0 (place: the first item or cell)
 *    6  the highs (in legzhuro_split) or safe highs add up to over 2147483647
 *    7  the weights add up to over 2147483647; in legzhuro_split also a weight below 0
 *    8  the total is out of reach: outside the sums of the bounds (in legzhuro_split) or of the safety bounds
 *    9  a scale above 30
 *   10  a double that is infinite or not a number (place: the field: target 0, low 1, high 2, safe low 3, safe high 4)
 *   11  a double out of range after rounding (place: the field); in legzhuro_export and legzhuro_export_single a mass above 2147483647
 *   12  the kept masses do not add up to the total given; in legzhuro_read_answer the file's masses do not add up to its total; in a book a
 *       total, a later block's opening one included, that does not follow from the one before (place: the block); in a step a book that closes
 *       with another total than the one given (place: the last block)
 *   13  a total below 0 or above 2147483647, in legzhuro_book_start the one that the book is to open with
 *   14  a file of length 0, no multiple of 512, or not that of its cells and nodes; a field file over 18432 bytes or an answer file over 3072;
 *       a book of any length but 1 to 64 whole blocks of 512 bytes
 *   15  a block of the file or book with a wrong number or check word (place: the block, from 1)
 *   16  a file whose first payload word is not 512, or a spare word that is not 0; an answer file with an outcome above 2 (place: the block);
 *       in a book a number of records above 41, below 41 before the last block or 0 after the first, an outcome above 2, or a word of an unused
 *       record that is not 0 (place: the block)
 *   17  a step whose scale is above 30 or not that of the balance; an opening of a member at another scale than the family's
 *   18  a ratio above 1048576 (place: the first cell)
 *   19  a member's number above 7, an opening of a member that is open, a step or a registration of one that is not
 *   20  an opening, or a step with a source above 0, after which the totals of a family would pass its cap in sum
 *   21  a step whose book is full: every other check of the step has passed
 */
#ifndef LEGZHURO_H
#define LEGZHURO_H

#include <stddef.h>
#include <stdint.h>

#ifdef __cplusplus
extern "C" {
#endif

/* The number and the place of a return value; one of 32 bits has place 0. */
#define LEGZHURO_NUMBER(returned) ((uint32_t)(returned))
#define LEGZHURO_PLACE(returned) ((uint32_t)((uint64_t)(returned) >> 32))

#define LEGZHURO_MAX_CELLS 512 /* or items */
#define LEGZHURO_MAX_NODES 1024
#define LEGZHURO_MAX_TOTAL 2147483647 /* also the most that highs, safe highs or weights add up to */
#define LEGZHURO_MAX_SCALE 30
#define LEGZHURO_SCRATCH 4            /* scratch numbers for each node */
#define LEGZHURO_RATIO 1048576        /* the parts of a mixing ratio; also the largest ratio */
#define LEGZHURO_MEMBERS 8            /* of a family */
#define LEGZHURO_FAMILY 21            /* entries of the list that a family stands in */
#define LEGZHURO_NOBODY 8             /* in the place of a member: nobody waits */
#define LEGZHURO_BOOK 32768           /* bytes of a book's buffer, which are those of a full book */
#define LEGZHURO_MAX_FIELD_FILE 18432 /* bytes */
#define LEGZHURO_MAX_ANSWER_FILE 3072 /* bytes */

/* The bytes of a field file of so many cells and nodes, and of an answer file of so many cells. */
#define LEGZHURO_FIELD_FILE(cells, nodes) (512 * (1 + ((cells) + 19) / 20 + ((nodes) + 124) / 125))
#define LEGZHURO_ANSWER_FILE(cells) (512 * (1 + ((cells) + 124) / 125))

/* Reads a field file's bytes, repairs the masses of its cells so that they add up to its total M, and writes the answer file to the front
 * of `answer`; bytes past the file are left alone. 3072 bytes are enough for every answer. Both formats are blocks of 512 bytes with a number
 * and check words; the scope paper has them ('Files'). In block 1 of an answer the two words that follow the change, spare in that paper,
 * hold the sum shared out (see legzhuro_step), low word first. legzhuro_write_field makes a field file, legzhuro_read_answer takes an answer
 * apart.
 * Edits stay in their region: take two files with the same tree and total that no check before 8 refuses and that differ only in cells below one
 * node. If the six sums of these cells' targets, bounds and weights agree, both are refused with 8 or none is, and both answers have the same
 * outcome and the same mass of every other cell. The same holds of two steps with one balance, source, scale and book (legzhuro_step).
 * Refusals: those of reading (14; 15, 16, 1, 2 of block 1; 14; 15, 16 of later blocks), then those of the repair (4 to 8), then 3 (`answer`
 * is too short for the file). */
uint32_t legzhuro_reconstruct(const uint8_t *file, size_t file_len, uint8_t *answer, size_t answer_len);

/* Writes the field file of a field and its total to the front of `buffer`: LEGZHURO_FIELD_FILE(cells, nodes) bytes; later ones are left
 * alone. The lists are those of legzhuro_step, for 1 to 512 cells and as many nodes as cells or more, up to 1024; entries past `cells`, in
 * `parents` past `nodes`, are not looked at. Nothing is asked of the values: what is wrong with them legzhuro_reconstruct refuses.
 * Refusals: 1, 2, 3 (one of the first six lists is shorter than `cells`, `parents` is shorter than `nodes`, or `buffer` than the file). */
uint64_t legzhuro_write_field(size_t cells, size_t nodes, uint32_t total, const int32_t *targets, size_t targets_len, const uint32_t *lows,
                              size_t lows_len, const uint32_t *highs, size_t highs_len, const uint32_t *safe_lows, size_t safe_lows_len,
                              const uint32_t *safe_highs, size_t safe_highs_len, const uint32_t *weights, size_t weights_len,
                              const uint32_t *parents, size_t parents_len, uint8_t *buffer, size_t buffer_len);

/* Reads an answer file's bytes: masses[c] is the mass of cell c, answer[0] the number of cells, answer[1] the outcome, answer[2] the total,
 * answer[3] the change and answer[4] the sum shared out, as in legzhuro_step; later entries of both lists are left alone. An older file, from
 * before answer files had the sum shared out, shows 0 in its place and is read so; this 0 tells nothing. `file_len` must be the file's own
 * length, LEGZHURO_ANSWER_FILE of its cells; their number stands in bytes 8 and 9, low byte first, of a field file and of its answer. 512
 * masses are enough for every answer.
 * Refusals: 14; 15, 16, 1 of block 1; 14; 3 (`masses` is shorter than the number of cells, or `answer` has fewer than five entries); 15, 16 of
 * later blocks in order (place: the block); 12. */
uint64_t legzhuro_read_answer(const uint8_t *file, size_t file_len, uint32_t *masses, size_t masses_len, uint64_t *answer,
                              size_t answer_len);

/* Splits `total` among items: item i would like targets[i], must get a mass between lows[i] and highs[i], and shares what is missing or too
 * much by weights[i] first, then by the room that is left. masses[i] is what it gets; the masses add up to the total. By weights and by
 * room, what falls to the first items, however many, is their exact part to the nearest unit with halves up: of two items alike the earlier
 * one gets, or gives, the odd unit. deficit[0] is what is missing or, below 0, too much: the total minus the sum of the targets, each
 * clipped into its low and high; later entries of `deficit` are left alone. The number of items is that of the targets, 1 to 512; every
 * other list but `deficit` must have the same length. Lows and weights must not be below 0, and highs and weights each add up to at most
 * 2147483647.
 * Refusals: 1, 3 (also `deficit` without an entry), 5 (place: the first item), 6, 7, 8. */
uint64_t legzhuro_split(const int64_t *targets, size_t targets_len, const int64_t *lows, size_t lows_len, const int64_t *highs,
                        size_t highs_len, const int64_t *weights, size_t weights_len, int64_t total, int64_t *masses, size_t masses_len,
                        int64_t *deficit, size_t deficit_len);

/* Opens a kept field: kept[c] is the mass of cell c, of 1 to 512 cells, in units of 2^-scale, for a scale of 0 to 30. answer[0] is the sum of
 * the masses and answer[1] the scale: the field's balance, `total` and `total_scale` of the first step; later entries of `answer` are left
 * alone. No step changes the scale.
 * Refusals: 3 (`answer` has fewer than two entries), 1, 9, 13. */
uint64_t legzhuro_open(const uint32_t *kept, size_t kept_len, uint32_t scale, uint64_t *answer, size_t answer_len);

/* Starts a source book, which records the accepted steps of a kept field: of each its source, its outcome and its new total. A book without
 * records that opens with `total` goes to the front of `buffer`, and answer[0] is its length in bytes, 512; later bytes of `buffer` and later
 * entries of `answer` are left alone. The buffer has LEGZHURO_BOOK bytes, or more, whatever they hold.
 * A book has 1 to 64 blocks of 512 bytes, with a number and check words as in a field file. The 125 payload words of a block are the total that
 * it opens with, 41 records of three words (source in two's complement, outcome, new total), and the number of records used; unused ones are 0.
 * Start a field's book from its total, lend it to the field's steps alone, and keep its length, which each accepted step gives anew. When a
 * step is refused with 21 the book is full: file its 32768 bytes, start a new one from the total standing, which is the total that the full one
 * closes with, and make the step again. A book that is not full may be replaced likewise, at the end of a year.
 * Refusals: 3 (`answer` has no entry, or `buffer` fewer than 32768 bytes), 13. */
uint64_t legzhuro_book_start(uint32_t total, uint8_t *buffer, size_t buffer_len, uint64_t *answer, size_t answer_len);

/* Reports a book: answer[0] is the total it opens with, answer[1] the sum of its sources above 0, answer[2] the size of the sum of those below,
 * and answer[3] the total it closes with, which is answer[0] + answer[1] - answer[2]; later entries of `answer` are left alone. `file_len` must
 * be the book's own length, which may be less than its buffer's. The total it opens with may be any number of 32 bits.
 * Refusals: 3 (`answer` has fewer than four entries), 14, then 15, 16 and 12 block by block (place: the block). */
uint64_t legzhuro_book_report(const uint8_t *file, size_t file_len, uint64_t *answer, size_t answer_len);

/* Steps a kept field. `total` and `total_scale` are its balance: as legzhuro_open gave it, then the answer[1] of the last accepted step with
 * the same scale. `kept` are the masses as the last call left them, `source` is what enters (or, below 0, leaves) in this step: the new total
 * is `total` plus `source`. `scale` is the scale of this step's source and field, and must be `total_scale`: unlike units are not added. The
 * other lists are the new field: cell c would like targets[c] (transport may undershoot 0), should lie between lows[c] and highs[c], must lie
 * between safe_lows[c] and safe_highs[c], and shares by weights[c]; parents[v] is the parent of node v, where nodes 0 to cells - 1 are the
 * cells and the last node, its own parent, is the root. The number of cells is the length of `targets`, that of nodes the length of `parents`;
 * `kept` and the other five lists must have one entry for each cell, `scratch` four or more for each node. `book` is the buffer of the field's
 * book and `book_room` its bytes, 32768 or more; `book_length` is the length of the book, the first bytes of the buffer: as legzhuro_book_start
 * gave it, then the answer[4] of the last accepted step. The length told is the book: later bytes are not looked at.
 * After an accepted step `kept` holds the new masses; the first four entries of `scratch` for each node are 0, later ones are left alone; the
 * book has one record more, with the source, the outcome and the new total, in its last block or, where that has 41, in a new one behind it,
 * and closes with the new total; bytes past its last block are left alone. answer[0] is the outcome (0: within the bounds, 1: between safe low
 * and low, 2: between high and safe high), answer[1] the new total, answer[2] the change, the sum over cells of the absolute mass minus target,
 * answer[3] the sum shared out, that over inner nodes of the size of what is missing or too much when the node's mass is split among its
 * children (deficit[0] of legzhuro_split), 0 for a field of one node, answer[4] the book's new length; later entries of `answer` are left alone.
 * Refusals: 1, 2, 3 (lists, scratch, then `book_room` under 32768; also `answer` with fewer than five entries), 17, 4 (place: the smallest node
 * that breaks a rule), 5 (place: the first cell), 6, 7, 12, 13, 8; then of the book 14, then 15, 16 and 12 block by block (place: the block),
 * 12 if it closes with another total than `total` (place: the last block), and last of all 21. */
uint64_t legzhuro_step(uint32_t total, uint32_t total_scale, uint32_t *kept, size_t kept_len, int32_t source, uint32_t scale,
                       const int32_t *targets, size_t targets_len, const uint32_t *lows, size_t lows_len, const uint32_t *highs,
                       size_t highs_len, const uint32_t *safe_lows, size_t safe_lows_len, const uint32_t *safe_highs,
                       size_t safe_highs_len, const uint32_t *weights, size_t weights_len, const uint32_t *parents, size_t parents_len,
                       int64_t *scratch, size_t scratch_len, uint8_t *book, size_t book_room, size_t book_length, uint64_t *answer,
                       size_t answer_len);

/* Starts a family: up to 8 kept fields, its members, over the same cells, of 1 to 512, at one scale of 0 to 30, with a cap on the sum of their
 * totals. The family stands in the first 21 entries of `family`: family[0] is the cap, family[1] the scale, family[2] the number of cells; of
 * member i, 0 to 7, family[3 + 2 * i] is 1 if it is open, else 0, and family[4 + 2 * i] is its total; in family[19] bit i, of value 2^i, is set
 * if member i waits, and family[20] is the member with which the search for the next in turn begins. Nobody is open and nobody waits at the
 * start, and the search begins with member 0; later entries are left alone. Each call is given the list as the last one left it, and each
 * member has a kept list and a book of its own, lent to its calls alone and to the turns that serve it; its book is started from its total.
 * Then each member keeps the whole account of its own run, its book included, as a kept field by itself does; the totals never pass the cap in
 * sum; a member that waits is served within 8 turns, and no other twice before it; and what a member is told and holds depends on its own
 * calls, on scale and cells and, at each call, on the cap less the others' totals, on nothing else. Any list may be handed over: an entry that
 * is too wide is read modulo its width, 2^32 for scale, cells, totals and the start of the search, 256 for who waits and 2 for what is 0 or 1,
 * and the total of a member that is not open counts in the sum as it stands.
 * Refusals: 3 (`family` has fewer than 21 entries), 1, 9. */
uint64_t legzhuro_family_start(uint64_t cap, uint32_t scale, uint32_t cells, uint64_t *family, size_t family_len);

/* Opens a member of a family with its kept masses, as legzhuro_open does: answer[0] is the total and answer[1] the scale; later entries of
 * `answer` are left alone. The number of masses must be the family's number of cells, `scale` its scale.
 * Refusals: 3 (`family` has fewer than 21 entries or `answer` fewer than two), 19, 1, 9, 17, 13, 20. */
uint64_t legzhuro_family_open(uint64_t *family, size_t family_len, uint32_t member, const uint32_t *kept, size_t kept_len, uint32_t scale,
                              uint64_t *answer, size_t answer_len);

/* Steps a member of a family, as legzhuro_step does, from the total that the family holds of it. After an accepted step the family holds the
 * new total; the other lists, the member's book and `answer` are as in legzhuro_step. A source of 0 or below is not refused for the cap.
 * Refusals: 3 (`family` has fewer than 21 entries), 19, 1, 2, 3 (lists, scratch, then `book_room` under 32768; also `answer` with fewer than
 * five entries), 17, 4 (place: the smallest node that breaks a rule), 5 (place: the first cell), 6, 7, 12, 13, 20, 8; then of the book 14, then
 * 15, 16 and 12 block by block (place: the block), 12 if it closes with another total than the member's (place: the last block), and last of
 * all 21. */
uint64_t legzhuro_family_step(uint64_t *family, size_t family_len, uint32_t member, uint32_t *kept, size_t kept_len, int32_t source,
                              uint32_t scale, const int32_t *targets, size_t targets_len, const uint32_t *lows, size_t lows_len,
                              const uint32_t *highs, size_t highs_len, const uint32_t *safe_lows, size_t safe_lows_len,
                              const uint32_t *safe_highs, size_t safe_highs_len, const uint32_t *weights, size_t weights_len,
                              const uint32_t *parents, size_t parents_len, int64_t *scratch, size_t scratch_len, uint8_t *book,
                              size_t book_room, size_t book_length, uint64_t *answer, size_t answer_len);

/* Registers a member of a family as waiting for a turn. Registering twice counts once.
 * Refusals: 3 (`family` has fewer than 21 entries), 19. */
uint64_t legzhuro_family_register(uint64_t *family, size_t family_len, uint32_t member);

/* Reads the next in turn: answer[0] is the first member that waits after the last one served, going round, at the start from member 0, or 8
 * (LEGZHURO_NOBODY) if nobody waits; later entries of `answer` are left alone.
 * Refusals: 3 (`family` has fewer than 21 entries or `answer` none). */
uint64_t legzhuro_family_next(const uint64_t *family, size_t family_len, uint64_t *answer, size_t answer_len);

/* Reads how many members wait: answer[0] is the number of bits that are set in family[19]; later entries of `answer` are left alone.
 * Refusals: 3 (`family` has fewer than 21 entries or `answer` none). */
uint64_t legzhuro_family_waiting(const uint64_t *family, size_t family_len, uint64_t *answer, size_t answer_len);

/* A turn: serves the next in turn, whose step is called with what is lent, as legzhuro_family_step does, and whose waiting ends with it,
 * accepted or refused. Lend the kept list and the book of the member that legzhuro_family_next gives. answer[0] is the member served and
 * answer[1] what legzhuro_family_step returns for it, so 0 if its step was accepted; then answer[2] is the outcome, answer[3] the new total,
 * answer[4] the change, answer[5] the sum shared out and answer[6] the new length of the book, and 0 each if it was refused. If nobody waits
 * the turn is idle: answer[0] is 8 (LEGZHURO_NOBODY), the next six are 0, and nothing else changes. Later entries of `answer` are left alone.
 * Outside a turn a step serves nobody: who waits, waits on.
 * Refusals: 3 (`family` has fewer than 21 entries or `answer` fewer than seven); a refused step is in answer[1], and the turn returns 0. */
uint64_t legzhuro_family_turn(uint64_t *family, size_t family_len, uint32_t *kept, size_t kept_len, int32_t source, uint32_t scale,
                              const int32_t *targets, size_t targets_len, const uint32_t *lows, size_t lows_len, const uint32_t *highs,
                              size_t highs_len, const uint32_t *safe_lows, size_t safe_lows_len, const uint32_t *safe_highs,
                              size_t safe_highs_len, const uint32_t *weights, size_t weights_len, const uint32_t *parents, size_t parents_len,
                              int64_t *scratch, size_t scratch_len, uint8_t *book, size_t book_room, size_t book_length, uint64_t *answer,
                              size_t answer_len);

/* Makes the bounds of a field from mixing ratios: air[c] is the mass of the air of cell c, of 1 to 512 cells, low_ratios[c] and high_ratios[c]
 * are its ratios in parts of 1048576, at most that each. lows[c] is air times low ratio / 1048576 rounded up, highs[c] air times high ratio /
 * 1048576 rounded down; safe_lows[c] is by the smallest low ratio of the field, rounded up, and safe_highs[c] by the largest high ratio,
 * rounded down. All lists must have the same length. A low that comes out above its high is not refused here: legzhuro_step and
 * legzhuro_reconstruct refuse it with 5. If all ratios of the field are equal and each product divides evenly, then after an accepted step or
 * repair with these bounds every mass is air times ratio / 1048576, whatever the targets.
 * Refusals: 1, 3, 18 (place: the first cell that has a ratio above 1048576, low or high). */
uint64_t legzhuro_bounds(const uint32_t *air, size_t air_len, const uint32_t *low_ratios, size_t low_ratios_len, const uint32_t *high_ratios,
                         size_t high_ratios_len, uint32_t *lows, size_t lows_len, uint32_t *highs, size_t highs_len, uint32_t *safe_lows,
                         size_t safe_lows_len, uint32_t *safe_highs, size_t safe_highs_len);

/* Turns a cell's doubles into whole units of 2^-scale, for a scale of 0 to 30: each times 2^scale exactly, then the target to nearest with
 * ties to even, the lows up, the highs down. Minus zero is 0. units[0] to units[4] are target (-2147483648 to 2147483647), low, high, safe
 * low and safe high (0 to 2147483647); later entries are left alone.
 * By the class of a double in IEEE 754, at every scale: a zero gives 0; a subnormal 1 as either low if above zero, refusal 11 as either high
 * if below, and otherwise 0; infinity and what is not a number are refused with 10.
 * Refusals: 3 (`units` has fewer than five entries), 9, then 10 and 11 field by field (place: the field, 0 to 4); the double refused is the
 * argument of that field. */
uint64_t legzhuro_import(double target, double low, double high, double safe_low, double safe_high, uint32_t scale, int64_t *units,
                         size_t units_len);

/* Turns a mass of at most 2147483647 units of 2^-scale into a double: value[0] is mass times 2^-scale, exactly, plus zero for mass 0; later
 * entries are left alone. Importing it at that scale in any field gives the mass again.
 * Refusals: 3 (`value` has no entry), 9, 11. */
uint64_t legzhuro_export(uint32_t mass, uint32_t scale, double *value, size_t value_len);

/* Turns a mass of at most 2147483647 units of 2^-scale into a binary32, for a viewer that holds no doubles: value[0] is the binary32 nearest
 * to mass times 2^-scale, of two that are as near the even one, plus zero for mass 0; later entries are left alone. For a mass below 16777216
 * it is exact, and equal to the double of legzhuro_export.
 * Refusals: 3 (`value` has no entry), 9, 11. */
uint64_t legzhuro_export_single(uint32_t mass, uint32_t scale, float *value, size_t value_len);

#ifdef __cplusplus
}
#endif

#endif
