/* Local value numbering of Bril function records: a static library, proved.
 *
 *     (cd crates/exports && rt lib)        makes crates/exports/out/libexports.a
 *
 * Records, refusals and limits are those of docs/REFERENCE.md. Each function takes records of version 1, with ids of four bytes, and of
 * version 2, with ids of eight. It returns 0, or the number of its refusal:
 *
 *     1  fewer than four bytes, L not the rest, a field past the end, or bytes left over
 *     2  version: neither 1 nor 2
 *     3  a limit, a count, a type, saves that are not zero, a literal's kind or a literal that is not of its kind
 *     4  a name's text is malformed, reserved or used before
 *     5  unknown code: 15 to 19, 40 to 63, 72 and on
 *     6  a name or block number that is not in the record
 *     7  an instruction's types
 *     8  jmp, br or ret before the last place of its block
 *     9  rewrite, widening, narrowing: the output is too short
 *    11  name text: the rewriting does not belong to the input
 *    12  figures: fewer places than blocks
 *    13  run: store or answers do not read, a stored value is not of its name's type, or an answer that was taken does not fit
 *    14  run: too few bytes were lent for the events or for the final store
 *    15  narrowing: an instruction's id is 2^32 or more
 *
 * Every input is answered: nothing is asked of the bytes. Of the pointers it is asked that each points to as many bytes, or numbers, as
 * its length or type says, that none is null (not even with length 0), and that nothing which a call writes overlaps with anything else
 * that is lent to it. A call keeps no pointer, uses about 50 KB of stack and no heap, and calls may run in several threads at once.
 */
#ifndef LVN_H
#define LVN_H

#include <stddef.h>
#include <stdint.h>

#ifdef __cplusplus
extern "C" {
#endif

/* Whether the bytes are the record of a function: 0, or 1 to 8.
 * offset: where the first fault is; 0 if there is none. For 7 it is the offset of the instruction. */
uint8_t lvn_check(const uint8_t *input, size_t input_length, size_t *offset);

/* What lvn_rewrite and lvn_figures leave.
 * count: 0: the bytes of the rewriting. 1 to 8: the offset of the first fault. 9: the bytes that the rewriting needs. 12: 0.
 * saves: 0: all saves that are added. 1 to 9, 12: 0. */
typedef struct {
    size_t count;
    size_t saves;
} lvn_rewritten;

/* Writes the rewriting of a record to the start of output: 0, a refusal of lvn_check, or 9.
 * A refusal leaves output as it was, and success leaves the bytes beyond the rewriting as they were. Eight bytes of output for each byte of
 * input are always enough. */
uint8_t lvn_rewrite(const uint8_t *input, size_t input_length, uint8_t *output, size_t output_length, lvn_rewritten *answer);

/* The figures of a rewriting, worked out from the record without an output: 0, a refusal of lvn_check, or 12.
 * 0: answer has the bytes that the rewriting needs and all its saves. The first figures are those of the blocks, in order: how many
 * instructions a block's rewriting has, saves and terminator counted; at most 512.
 * 12: there are fewer figures than blocks, of which a record has at most 64.
 * A refusal leaves figures as they were, and success leaves those beyond the blocks as they were. */
uint8_t lvn_figures(const uint8_t *input, size_t input_length, uint16_t *figures, size_t figures_length, lvn_rewritten *answer);

/* What lvn_name_text leaves.
 * offset: of a refusal 1 to 8 of the input; else 0.
 * in_rewriting: 0: the text stands in the input. 1: it stands in the rewriting.
 * from, count: where it starts there, and how many bytes it has; they lie within that record. A refusal: all 0. */
typedef struct {
    size_t offset;
    size_t in_rewriting;
    size_t from;
    size_t count;
} lvn_named;

/* The text of a name of a record or of its rewriting, by the name's index: 0, or a refusal of lvn_check on the input; 11 if the rewriting
 * has fewer than 8 bytes, its L is not the rest, its version is not the input's, a name runs past its end or it has fewer names than the
 * input; 6 if the index is not below the rewriting's count of names. Nothing else of the rewriting is tested. */
uint8_t lvn_name_text(const uint8_t *input, size_t input_length, const uint8_t *rewriting, size_t rewriting_length, size_t index,
                      lvn_named *answer);

/* What lvn_run leaves.
 * events: 0, 14: the bytes of the events. 1 to 8: the offset of the record's first fault. 13: 0.
 * store: 0, 14: the bytes of the final store. Else 0.
 * steps: 0: the steps taken. Else 0.
 * ended: 0: how the run ended: 0 at the end, 1 ret, 2 halt, 3 unset, 4 a division by zero, 5 the limit is spent. Else 0.
 * id: 0 with ended 4: the id of that division. Else 0. */
typedef struct {
    uint64_t events;
    uint64_t store;
    uint64_t steps;
    uint64_t ended;
    uint64_t id;
} lvn_ran;

/* Runs the function of a record on the plain machine, from a starting store and with a list of answers, for at most limit steps: 0, a
 * refusal of lvn_check, 13 or 14. store and answers are in the house form of docs/REFERENCE.md.
 * 0: the events stand first in events, with ids as wide as the record's, the final store, in the house form too, in final_store; the bytes
 * beyond are as they were. The limit is spent exactly if the machine has not ended within that many steps.
 * A refusal leaves both as they were. 148 bytes of events for each answer, and 148 more, are always enough, and 4,357 of final_store. */
uint8_t lvn_run(const uint8_t *record, size_t record_length, const uint8_t *store, size_t store_length, const uint8_t *answers,
                size_t answers_length, uint64_t limit, uint8_t *events, size_t events_length, uint8_t *final_store, size_t final_length,
                lvn_ran *answer);

/* Writes the record in version 2, whose ids have eight bytes, to the start of output: 0, a refusal of lvn_check, or 9.
 * answer: 0: the bytes written. 1 to 8: the offset of the first fault. 9: the bytes needed.
 * A record of version 2 comes out unchanged. A refusal leaves output as it was, and success leaves the bytes beyond the record as they
 * were. Two bytes of output for each byte of input are always enough. */
uint8_t lvn_widen(const uint8_t *input, size_t input_length, uint8_t *output, size_t output_length, size_t *answer);

/* Writes the record in version 1, whose ids have four bytes, to the start of output: 0, a refusal of lvn_check, 15, or 9.
 * answer: as lvn_widen leaves it. 15: the offset of the first instruction whose id is 2^32 or more.
 * A record of version 1 comes out unchanged. What is left as it was is as with lvn_widen. As many bytes of output as of input are always
 * enough. */
uint8_t lvn_narrow(const uint8_t *input, size_t input_length, uint8_t *output, size_t output_length, size_t *answer);

#ifdef __cplusplus
}
#endif

#endif
