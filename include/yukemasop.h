/*
 * Yukemasop: RNA folding that is proved. The C interface of libyukemasop.a.
 *
 * Every call takes any bytes, tables and numbers, tests its own input and refuses by number; the
 * numbers stand in docs/RULES.md. A call that can refuse returns a struct whose first field is
 * the refusal's number (0: accepted) and whose second is the place it points at (YKM_NOWHERE:
 * none). A call that refuses nothing returns its plain answer.
 * Nothing is allocated and nothing is kept between calls. Lent memory must not overlap.
 */
#ifndef YUKEMASOP_H
#define YUKEMASOP_H

#include <stdbool.h>
#include <stddef.h>
#include <stdint.h>

#ifdef __cplusplus
extern "C" {
#endif

/* Major x 10,000 + minor x 100 + patch, of this header. */
#define YKM_VERSION 100

/* No place. */
#define YKM_NOWHERE SIZE_MAX

/* The number of no pair, from ykm_pair_index. */
#define YKM_NO_PAIR 6

/* The version of the library that is linked: YKM_VERSION where header and library agree. */
uint32_t ykm_version(void);

/*
 * Reads one byte as a base: a A, c C, g G, u U, t T are kept as A C G U U.
 * Refusals: 2 at place 0, if the byte is no base; letter is then 0.
 *
 *     ykm_base b = ykm_read_base('t');      b.number == 0, b.letter == 'U'
 */
typedef struct {
    uint32_t number;
    size_t place;
    uint8_t letter;
} ykm_base;
ykm_base ykm_read_base(uint8_t byte);

/*
 * Whether two kept letters pair: AU UA GC CG GU UG, and no other bytes.
 *
 *     ykm_can_pair('G', 'U') is true, ykm_can_pair('g', 'u') is false
 */
bool ykm_can_pair(uint8_t a, uint8_t b);

/*
 * The number of a pair in the order AU UA GC CG GU UG, from 0; YKM_NO_PAIR if the bytes don't pair.
 *
 *     ykm_pair_index('C', 'G') is 3
 */
size_t ykm_pair_index(uint8_t a, uint8_t b);

/*
 * Structures. A pair table is 16-bit numbers, one a position: its partner, or YKM_UNPAIRED. Structures
 * and bracket text have 0 to 4,096 positions (else refusal 3). Nothing is written before the whole
 * input is judged, and what a lent buffer has beyond the need is never changed.
 *
 * A number, or the refusal. value is 0 in a refusal.
 */
#define YKM_UNPAIRED 65535
typedef struct {
    uint32_t number;
    size_t place;
    size_t value;
} ykm_answer;

/*
 * Bracket text into a pair table, which it writes to the first text_length entries of pairs.
 * value: text_length. Refusals: 3; 5 or 6 at the first offending place; 7 at the leftmost `(`
 * that is never closed; 4 if pairs is too short.
 *
 *     ykm_from_dot_bracket("(.)", 3, pairs, 3)      writes 2 65535 0
 */
ykm_answer ykm_from_dot_bracket(const uint8_t *text, size_t text_length, uint16_t *pairs, size_t pairs_length);

/*
 * A pair table into bracket text, which it writes to the first pairs_length bytes of text.
 * value: pairs_length. Refusals: 3; 8 at the lowest unsound place; 4 if text is too short.
 */
ykm_answer ykm_to_dot_bracket(const uint16_t *pairs, size_t pairs_length, uint8_t *text, size_t text_length);

/*
 * The pairs i < j by rising i, written to out as i, j, i, j, ... value: the number of pairs.
 * Refusals: 3; 8; 4 if out is shorter than twice that.
 */
ykm_answer ykm_base_pairs(const uint16_t *pairs, size_t pairs_length, uint16_t *out, size_t out_length);

/* value: 1 if position i is paired, 0 if it isn't or is outside. Refusals: 3; 8. */
ykm_answer ykm_is_paired(const uint16_t *pairs, size_t pairs_length, size_t i);

/* value: the partner of position i, YKM_NOWHERE if it has none or is outside. Refusals: 3; 8. */
ykm_answer ykm_partner(const uint16_t *pairs, size_t pairs_length, size_t i);

/* value: the number of pairs. Refusals: 3; 8. */
ykm_answer ykm_num_pairs(const uint16_t *pairs, size_t pairs_length);

/*
 * value: the pairs that are in one structure and not in the other.
 * Refusals: 3; 9 if the lengths differ; 8, the first table before the second.
 */
ykm_answer ykm_base_pair_distance(const uint16_t *a, size_t a_length, const uint16_t *b, size_t b_length);

/*
 * value: the sum of the absolute differences of the mountain heights. Refusals: as above.
 */
ykm_answer ykm_mountain_distance(const uint16_t *a, size_t a_length, const uint16_t *b, size_t b_length);

/*
 * Folds. A sequence to fold has 1 to 256 bases. A fold table is a triangle: the cell of the span from
 * i to j, both included, stands at j(j+1)/2 + i, and n bases use n(n+1)/2 cells. As above, nothing is
 * written before the whole input is judged, and what a buffer has beyond the need is never changed.
 *
 * An edit record: what a fold leaves to edits.
 */
typedef struct {
    size_t length;
    size_t gap;
} ykm_record;

/*
 * The record and the greatest number of pairs, or the refusal. All three numbers are 0 in a fold's
 * refusal. A refused edit gives the record back as it came, and count is 0.
 */
typedef struct {
    uint32_t number;
    size_t place;
    ykm_record record;
    size_t count;
} ykm_counted;

/*
 * The greatest number of pairs that don't cross, each one of the six and with j - i greater than gap,
 * which is any number; and a structure that has it, the ties decided as docs/RULES.md says.
 * Of n bases it writes the kept letters to the first n bytes of bases, the greatest number of pairs
 * of every span to the first n(n+1)/2 cells, and the structure to the first n entries of pairs.
 * record: n and gap. What the three buffers hold before plays no part, so none needs clearing.
 * Refusals: 3; 1 if the sequence is empty; 2 at the first byte that is no base; 4 if bases or pairs
 * is shorter than n, or cells than n(n+1)/2.
 *
 *     ykm_nussinov("ggggcccc", 8, 3, bases, 8, cells, 36, pairs, 8)
 *                                           writes GGGGCCCC to bases and .((...)) as a table to pairs:
 *                                           65535 7 6 65535 65535 65535 2 1; count == 2
 */
ykm_counted ykm_nussinov(const uint8_t *seq, size_t seq_length, size_t gap,
                         uint8_t *bases, size_t bases_length, uint16_t *cells, size_t cells_length,
                         uint16_t *pairs, size_t pairs_length);

/*
 * The least energy in thousandths of kcal/mol, or the refusal. energy is 0 in a refusal.
 */
typedef struct {
    uint32_t number;
    size_t place;
    int32_t energy;
} ykm_least;

/*
 * The least energy that any structure of the sequence has by the loop rules of docs/RULES.md, and the
 * structure that has it, the ties decided as docs/RULES.md says. It is never above 0.
 * Of n bases it writes the kept letters to the first n bytes of bases, the structure to the first n
 * entries of pairs, and to the first n(n+1)/2 cells of the three tables the least energy of every span:
 * paired: with its two ends paired; any: of any structure; arms: as one or more arms of a many-armed
 * loop at 400 each. A cell with no such structure holds YKM_NO_STRUCTURE. What the buffers hold before
 * plays no part.
 * Refusals: 3; 1 if the sequence is empty; 2 at the first byte that is no base; 4 if bases or pairs is
 * shorter than n, or one of the tables than n(n+1)/2.
 *
 *     ykm_zuker_mfe("gggaaaaccc", 10, bases, 10, paired, 55, any, 55, arms, 55, pairs, 10)
 *                                           writes GGGAAAACCC to bases and (((....))) as a table to pairs;
 *                                           energy == -1800
 */
#define YKM_NO_STRUCTURE 1000000000
ykm_least ykm_zuker_mfe(const uint8_t *seq, size_t seq_length, uint8_t *bases, size_t bases_length,
                        int32_t *paired, size_t paired_length, int32_t *any, size_t any_length,
                        int32_t *arms, size_t arms_length, uint16_t *pairs, size_t pairs_length);

/*
 * Edits. They are lent what a fold or the edit before it left: the record, the kept letters in the first
 * n bytes of bases and the first n(n+1)/2 cells, n being the record's length. An edit brings these to
 * what a fold of the edited sequence writes, keeps the gap, and answers with the new record and count.
 * It makes no structure: ykm_traceback does, when asked.
 * Refusals of all four calls, before their own: 11 if n is 0 or above 256; 4 if bases is shorter than n,
 * or cells than n(n+1)/2; 11 if one of the n bytes isn't A, C, G or U in upper case, or a used cell is
 * above half its span's length, (j - i + 1)/2 rounded down. Other wrong cells aren't found: from them
 * each call still writes what docs/RULES.md says, which needn't be what a fold writes.
 *
 * Replaces the base at position by that of byte. Writes that one byte of bases, and of the used cells
 * those of the spans that hold position. record: as it came. Its own refusals: 10 if position is not
 * below n; 2 at place 0 if byte is no base.
 *
 *     ykm_replace(record, bases, 10, cells, 55, 8, 'a')      after a fold of GGGAAACCC with gap 3:
 *                                           writes A to bases[8]; record 9 and 3, count == 2
 */
ykm_counted ykm_replace(ykm_record record, uint8_t *bases, size_t bases_length,
                        uint16_t *cells, size_t cells_length, size_t position, uint8_t byte);

/*
 * Adds the base of byte behind the last. Writes bases[n] and the n + 1 cells from n(n+1)/2 on. record:
 * n + 1 and the gap. Its own refusals: 2 at place 0 if byte is no base; 3 if n is 256; 4 if bases or
 * cells has no room for n + 1 bases.
 *
 *     ykm_add(record, bases, 10, cells, 55, 'C')      after that replace:
 *                                           writes C to bases[9]; record 10 and 3, count == 3
 */
ykm_counted ykm_add(ykm_record record, uint8_t *bases, size_t bases_length,
                    uint16_t *cells, size_t cells_length, uint8_t byte);

/*
 * Erases the last base. Writes nothing: the byte and the cells of the lost end stay as spare memory.
 * record: n - 1 and the gap. Its own refusal: 1 if n is 1.
 *
 *     ykm_erase(record, bases, 10, cells, 55)      after that add: record 9 and 3, count == 2
 */
ykm_counted ykm_erase(ykm_record record, const uint8_t *bases, size_t bases_length,
                      const uint16_t *cells, size_t cells_length);

/*
 * The structure that the cells lead to, the ties decided as in the fold: it writes it to the first n
 * entries of pairs, which need no clearing. value: the count, the cell of the whole span, which is the
 * number of pairs written wherever the cells are as a fold or an edit left them. Its own refusal: 4 if
 * pairs is shorter than n.
 *
 *     ykm_traceback(record, bases, 10, cells, 55, pairs, 9)      after that erase:
 *                                           writes .((...)). as a table; value == 2
 */
ykm_answer ykm_traceback(ykm_record record, const uint8_t *bases, size_t bases_length,
                         const uint16_t *cells, size_t cells_length, uint16_t *pairs, size_t pairs_length);

#ifdef __cplusplus
}
#endif

#endif
