/*
 * Dirmoog: least moves for marker strips. Link with libdirmoog_c.a (x86-64 Linux; needs memcpy and memset
 * alone).
 *
 * A list is a pointer and a count of entries. The pointer must be valid for that many entries, aligned, and
 * not NULL even where the count is 0. A list that is written may overlap no other list of the call. Nothing
 * else is asked: any lengths and any contents may be lent, and every call returns. The calls keep no state,
 * so threads may call them at once.
 *
 * The caller sees to the stack: nothing checks that there is enough. Arguments and return address included,
 * dirmoog_layout needs at most 18,840 bytes, dirmoog_read 5,848, dirmoog_listing 24,880, dirmoog_slack 56,
 * dirmoog_round 24, dirmoog_round_half_up 16. What memcpy and memset need comes on top: a first call that has
 * them looked up took at most 2,232 bytes more on one machine and 3,152 on another. 32 KiB are enough.
 *
 * Every call returns 0, or the number of a refusal. A refused call writes nothing but what its comment names.
 *
 *   no.  trade's word  met if                                                                   place
 *    1   crowded       more than 48 labels                                                      0
 *    2   over-gapped   more than 192 gaps                                                       0
 *    3   ragged        lists that belong together differ in length                              0
 *    4   short room    a list that is written, other than out, is too short                     0
 *    5   off plate     a wanted place outside -200,000 to 200,000                               label
 *    6   bad weight    a weight outside 1 to 100                                                label
 *    7   stranger      left or right is no label of the sheet                                   gap
 *    8   bad gap       a distance outside -20,000 to 20,000                                     gap
 *    9   ring          no placement meets all gaps, as where exact gaps contradict              0
 *   10   bad line      a line without four fields                                               line, from 1
 *   11   long text     the text is above 16,384 bytes                                           0
 *   12   bad fraction  a denominator outside 1 to 4,800, or a numerator beyond +-5,472,000,000  0
 *   13   unknown word  the first field is none of label, gap and same                           line, from 1
 *   14   bad number    a number breaks its rule, which dirmoog_read's comment has               line, from 1
 *   15   out of turn   a label's number is not the count of labels before it                    line, from 1
 *   23   unknown kind  a kind that is neither 0 (at least) nor 1 (exactly)                      gap
 *
 * The checks run in this order: 11; then 10, 13, 14 and 15 line by line, where the first bad line wins; then
 * 1 to 8, 23 and 9, each over the whole sheet before the next. Within a line the order is 10, 13, 14 at its
 * first bad field, 15. The place is the first offender. Labels and gaps count from 0.
 *
 * 13, 14 and 15 have a field beside the place, the bad field of the line, from 1: that is 1 for 13, 2 to 4
 * for 14 and 2 for 15. With every other number the field is 0.
 *
 * dirmoog_layout gives 1 to 9 and 23, dirmoog_read 11, 10, 13, 14, 15, 1, 2 and 4, and dirmoog_listing 1 to
 * 4. The kinds that dirmoog_read writes are 0 and 1, so a sheet that comes from a text never meets 23. 12
 * belongs to the calls over single fractions: dirmoog_round and dirmoog_round_half_up give 12, and
 * dirmoog_slack 12, then 8. These three and dirmoog_listing tell no place: it is always 0.
 */
#ifndef DIRMOOG_H
#define DIRMOOG_H

#include <stddef.h>
#include <stdint.h>

#ifdef __cplusplus
extern "C" {
#endif

/*
 * Lays out a sheet: finds the places that meet every gap, with the least sum of weight x (place - wanted)^2.
 * A gap asks that its right label stand at least its distance to the right of its left label,
 * place(left) + distance <= place(right); an exact gap that it stand exactly there,
 * place(left) + distance = place(right). It gives the same places, or 9, as the two opposite gaps that it
 * replaces, where both sheets pass all other checks, and counts once towards the 192 gaps. Refused with 1 to
 * 8, 23 or 9.
 *
 * To read, one entry per label (their count is wanted_len):
 *   wanted     wanted place, in hundredths of a millimetre
 *   weight     weight; as many entries
 * To read, one entry per gap (their count is left_len):
 *   left       number of the left label
 *   right      number of the right label; as many entries
 *   distance   distance; as many entries
 *   kind       0 for at least, 1 for exactly; as many entries
 * To read and write:
 *   carried    one byte per gap; as many entries. Any bytes may come in, and they never change a place.
 *              Lending what the last call on a like sheet left here saves work.
 * To write, with at least as many entries as there are labels or gaps:
 *   place_num  numerators of the places, one per label
 *   place_den  denominators of the places, one per label
 *   mult_num   numerators of the multipliers, one per gap
 *   mult_den   denominators of the multipliers, one per gap
 *   ring       room for gap numbers; at least as many entries as there are labels
 *   back       room for a byte beside each of them; at least as many entries as there are labels
 *   out        the answer's place, then the ring's length. What fits is written: an out of 1 entry loses the
 *              ring's length, and an empty one the place too. Entries beyond the second stay.
 *
 * 0, placed: the first entries of place_num, place_den, mult_num and mult_den hold fractions in lowest terms
 *   with a denominator above zero, and carried holds 1 for marked gaps, else 0. Entries beyond stay, and so
 *   do ring and back. out is 0, 0.
 *   A place has a denominator of at most 4,800 and lies within 1,140,000 of zero, so that dirmoog_round,
 *   dirmoog_round_half_up and dirmoog_slack refuse none.
 *   Multipliers show that no other places cost less: that of an exact gap may have either sign, and no other
 *   is negative; one is 0 where its gap is not tight, and an exact gap is always tight; and for each label
 *   2 x weight x (place - wanted) is the sum over the gaps with it on the right less that over those with it
 *   on the left. Marked gaps are tight, no ring can be walked along them, and an unmarked gap has multiplier
 *   0. So an exact gap may be unmarked too; of exact gaps that close a ring at least one is.
 * 9, ring: the first entries of ring, out[1] many, hold gap numbers, and those of back beside each 0 where
 *   the gap is passed forwards, from its left label to its right, or 1 where it is passed backwards, which an
 *   exact gap alone may be. As they are walked, each gap ends where the next one starts, the last joins the
 *   first, no label is started from twice, and the distances, negated where a gap is passed backwards, sum
 *   above zero. out is 0 and the ring's length. All else stays, the rest of ring and back too.
 * 1 to 8, and 23: out is the place and 0. All else stays.
 *
 * Of two placed sheets that differ in wants only, with the same weights and gaps, whatever the two calls were
 * lent to write: no place moves further than the want that moves furthest, and where no want moves every
 * place is the same numerator over the same denominator; if no want goes down no place goes down, and if no
 * want goes up no place goes up; and the sum over all labels of weight x (change of place)^2 is at most that
 * of weight x change of place x change of want. This is promised of the fractions, not of whole units.
 * Multipliers and marks may differ even where no want moves.
 */
uint64_t dirmoog_layout(const int64_t *wanted, size_t wanted_len,
                        const int64_t *weight, size_t weight_len,
                        const uint64_t *left, size_t left_len,
                        const uint64_t *right, size_t right_len,
                        const int64_t *distance, size_t distance_len,
                        const uint8_t *kind, size_t kind_len,
                        uint8_t *carried, size_t carried_len,
                        int64_t *place_num, size_t place_num_len,
                        int64_t *place_den, size_t place_den_len,
                        int64_t *mult_num, size_t mult_num_len,
                        int64_t *mult_den, size_t mult_den_len,
                        uint64_t *ring, size_t ring_len,
                        uint8_t *back, size_t back_len,
                        uint64_t *out, size_t out_len);

/*
 * Rounds num/den to the nearest whole number, halves away from zero: -3/2 to -2, 9/2 to 5. Refused with 12,
 * whose place is 0. Places rounded so may break a gap by one unit; the listing goes by dirmoog_round_half_up.
 *
 *   out        the whole number, or 0 where it is refused. An empty out loses it. Entries beyond the first
 *              stay.
 */
uint64_t dirmoog_round(int64_t num, int64_t den, int64_t *out, size_t out_len);

/*
 * Rounds num/den to the nearest whole number, halves to the larger one: -3/2 to -1, -1/2 to 0, 9/2 to 5.
 * Refused with 12 as dirmoog_round is. Places that meet a gap meet it when rounded so, too: left + distance
 * <= right in whole numbers, and left + distance = right where the gap is exact.
 *
 *   out        as that of dirmoog_round
 */
uint64_t dirmoog_round_half_up(int64_t num, int64_t den, int64_t *out, size_t out_len);

/*
 * Tells how far a gap is from closing: its slack, the right place less the left place less the distance, in
 * lowest terms with a denominator above zero. It is negative where the gap is broken, and 0/1 where it is
 * tight; an exact gap is broken, too, where its slack is above zero. Refused with 12 for either place, then
 * with 8 for the distance; the place of both is 0.
 *
 *   left_num, left_den        the left label's place; it need not be in lowest terms
 *   right_num, right_den      the right label's place; nor need this
 *   distance   the gap's distance
 *   out        the slack's numerator, then its denominator; 0, 1 where it is refused. What fits is written:
 *              an out of 1 entry loses the denominator, and an empty one the numerator too. Entries beyond
 *              the second stay.
 */
uint64_t dirmoog_slack(int64_t left_num, int64_t left_den,
                       int64_t right_num, int64_t right_den,
                       int64_t distance,
                       int64_t *out, size_t out_len);

/*
 * Reads a sheet's text into lists. Refused with 11, 10, 13, 14, 15, 1, 2 or 4.
 *
 * The text is comma-separated records, each ended by CRLF or LF; the last end may lack. A record has four
 * fields: "label", its number, wanted place, weight; or "gap", left, right, distance; or "same", left, right,
 * distance, for an exact gap. A number is 1 to 9 digits, leading zeros allowed, with a minus sign in front
 * only in a wanted place or a distance. A blank weight is 10. Label numbers run 0, 1, 2; gaps of both kinds
 * are numbered together in their order, and a gap may come before the labels it names. The first field is
 * compared byte for byte. Every byte but a comma, a LF and a CR just before a LF belongs to its field, also a
 * quote; no field but a weight may be blank, and a blank line has one field.
 *
 *   text       the bytes of the text; none are a sheet of no labels
 *   wanted, weight            one entry per label is written
 *   left, right, distance     one entry per gap is written
 *   kind       one entry per gap is written: 0 for "gap", 1 for "same". 48 entries per label list and 192 per
 *              gap list are room for every sheet.
 *   out        0: the count of labels, then the count of gaps. Refused: the place, then the bad field of the
 *              line, from 1, for 13 to 15, else 0. What fits is written: an out of 1 entry loses the count of
 *              gaps, or the field, and an empty one the count of labels, or the place, too.
 *
 * Entries beyond stay. Where it is refused, out alone is written. What is read may break rules 5 to 9, which
 * dirmoog_layout checks.
 */
uint64_t dirmoog_read(const uint8_t *text, size_t text_len,
                      int64_t *wanted, size_t wanted_len,
                      int64_t *weight, size_t weight_len,
                      uint64_t *left, size_t left_len,
                      uint64_t *right, size_t right_len,
                      int64_t *distance, size_t distance_len,
                      uint8_t *kind, size_t kind_len,
                      uint64_t *out, size_t out_len);

/*
 * Writes the listing of an answer: for placed "place", label, numerator, denominator, whole unit for each
 * label, and after these "slack", gap, numerator, denominator for each gap of either kind, all in the order
 * of their numbers; else "refused", number, place, field alone. Every record is ended by CRLF. The whole
 * units of the places that dirmoog_layout writes meet every gap of the sheet. The call is refused with 1
 * (more than 48 labels), 2 (more than 192 gaps), 3 or 4, in this order, all at place 0.
 *
 *   number     the answer's number: 0 for placed. Where it is not 0, the five lists below are without effect.
 *   place      the answer's place; without effect where number is 0
 *   field      the bad field that dirmoog_read tells, or 0 for an answer of dirmoog_layout, whose out has the
 *              ring's length there. The record shows it as it is; without effect where number is 0.
 * To read, one entry per label (their count is place_num_len):
 *   place_num  numerators of the places
 *   place_den  denominators of the places; as many entries. The whole unit of a place is what
 *              dirmoog_round_half_up gives, so 0 where that is refused.
 * To read, one entry per gap (their count is left_len):
 *   left       number of the left label
 *   right      number of the right label; as many entries
 *   distance   distance; as many entries. The slack of a gap is what dirmoog_slack gives, so 0/1 where that
 *              is refused; it is 0/1 too where an end is no label.
 * To write:
 *   text       the listing is written to its front. 24,576 bytes are room for every listing.
 *   out        the count of bytes written, or 0 where it is refused. An empty out loses it. Entries beyond
 *              the first stay.
 *
 * The bytes beyond stay. Where it is refused, out alone is written.
 */
uint64_t dirmoog_listing(uint64_t number, uint64_t place, uint64_t field,
                         const int64_t *place_num, size_t place_num_len,
                         const int64_t *place_den, size_t place_den_len,
                         const uint64_t *left, size_t left_len,
                         const uint64_t *right, size_t right_len,
                         const int64_t *distance, size_t distance_len,
                         uint8_t *text, size_t text_len,
                         uint64_t *out, size_t out_len);

#ifdef __cplusplus
}
#endif

#endif
