/* The C interface. Every function is proved, in the crate capi, to answer what its definition says, for all input.
 *
 * A function returns 0 or more, which is its value, or minus the number of the refusal (the table in README.md).
 * Any value of a number may come in: what is out of range is refused, and nothing is undefined. A pointer goes with
 * the number of its elements, points to that many, and does not overlap a buffer that is written. Buffers are written
 * only where the value is 0 or more; the one exception is zov_ride, which writes its counts with -8 and -11 too. */
#ifndef ZOVUNELITH_H
#define ZOVUNELITH_H

#include <stddef.h>
#include <stdint.h>

#ifdef __cplusplus
extern "C" {
#endif

/* An element of a field, of any width. */
typedef uint16_t zov_elem;

/* The field of 2^m elements, m from 2 to 16. Refused by 1 (m), then 3 (an element of 2^m or more). All products of a
 * width take the same number of instructions, whatever the elements are; this is counted, for many pairs, and not
 * proved (docs/PERFORMANCE.md). */
int32_t zov_field_sum(uint32_t m, uint32_t a, uint32_t b);
int32_t zov_field_product(uint32_t m, uint32_t a, uint32_t b);

/* The element whose product with a is 1; for 0, which has none, it is 0. Refused by 1, 3. */
int32_t zov_field_inverse(uint32_t m, uint32_t a);

/* Dyadic blocks: signatures of s elements, s a power of two from 1 to 512; `out` has s elements too. The value is 0.
 * Refused by 1, 2 (lengths), 3, and the inverse by 9 (the elements sum to zero). All products of a width and a length
 * take the same number of instructions; this is counted, for many pairs of length 16, and not proved. */
int32_t zov_block_sum(uint32_t m, const zov_elem *a, size_t a_length, const zov_elem *b, size_t b_length,
                      zov_elem *out, size_t out_length);
int32_t zov_block_product(uint32_t m, const zov_elem *a, size_t a_length, const zov_elem *b, size_t b_length,
                          zov_elem *out, size_t out_length);
int32_t zov_block_inverse(uint32_t m, const zov_elem *a, size_t a_length, zov_elem *out, size_t out_length);

/* The block that a formula such as A+B*C' stands for, into `out`, which has s elements as above. The letters A to D are
 * the blocks a to d, of s elements each; one of length 0 is not lent. The pointer with a length of 0 may be null. The
 * value is 0.
 *
 *     formula: a product, or a formula + a product
 *     product: a term, or a product * a term, or a product / a term (X/Y is X times the inverse of Y)
 *     term: a letter, or a formula in round brackets, or a term with ' after it (its inverse)
 *
 * A text has 1 to 128 bytes and no blanks, and its brackets nest at most eight deep. Refused by 1, 2 (lengths of `out`
 * and of the lent blocks), 3 (in a lent block, named in the text or not), 16 (a text outside these rules, or a letter
 * with no block lent), then 9 (an inverse that the text asks for does not exist). */
int32_t zov_formula(uint32_t m, const uint8_t *text, size_t text_length, const zov_elem *a, size_t a_length,
                    const zov_elem *b, size_t b_length, const zov_elem *c, size_t c_length,
                    const zov_elem *d, size_t d_length, zov_elem *out, size_t out_length);

/* A code's parameters: width m, from 2 to 16; length n, a power of two from 2 to 512; t roots, a power of two from 1 to
 * n / 2; offset omega; signature h of n elements; and the marks `hidden`, for senders with fewer bits than n. These are
 * a byte for each of the n places: 0 where it is sent and 1 where it is hidden. A hidden place must be a message column
 * (zov_roles tells which are), always holds 0 and is not transmitted. With n zeros nothing is hidden.
 *
 * Refused by 1 to 7, with 2 for h_length and hidden_length other than n too; then by 20: a mark that is neither 0 nor
 * 1, or a hidden check column. 4 is a zero in h, and given for signatures alone. zov_check writes n roots and n support
 * elements, whatever is hidden; the value is 0. */
int32_t zov_check(uint32_t m, uint32_t n, uint32_t t, uint32_t omega, const zov_elem *h, size_t h_length,
                  const uint8_t *hidden, size_t hidden_length, zov_elem *roots, size_t roots_length,
                  zov_elem *support, size_t support_length);

/* 1 if two codes are the same, their m, n, t, omega, h and marks being equal, and 0 if not; refused by the lower number
 * of both codes. Two accepted codes that differ in omega alone have other roots and another support; the functions for
 * words, for repair, for rows, for rides and for senders, and those for selections, give the same values for both and
 * write the same. */
int32_t zov_same(uint32_t m1, uint32_t n1, uint32_t t1, uint32_t omega1, const zov_elem *h1, size_t h1_length,
                 const uint8_t *hidden1, size_t hidden1_length,
                 uint32_t m2, uint32_t n2, uint32_t t2, uint32_t omega2, const zov_elem *h2, size_t h2_length,
                 const uint8_t *hidden2, size_t hidden2_length);

/* The essence is the short form of a signature h of n = 2^e elements, from which h comes back: e + 1 values, 2 to 10 of
 * them. Value s, for each s below e, is 1/h[2^s] + 1/h[0], and the last is 1/h[0]. The value of both functions is 0.
 *
 * zov_essence is refused by 1, 2 (h_length a power of two from 2 to 512, essence_length e + 1), 3, then as a code's
 * signature is: 4, 5, 6. zov_signature is refused by 1, 2 (essence_length e + 1, from 2 to 10, and h_length 2^e), 3,
 * then 17 (some of the values, one or more, sum to zero); what it writes is accepted as a code's signature. */
int32_t zov_essence(uint32_t m, const zov_elem *h, size_t h_length, zov_elem *essence, size_t essence_length);
int32_t zov_signature(uint32_t m, const zov_elem *essence, size_t essence_length, zov_elem *h, size_t h_length);

/* Words of the code with these parameters: a byte for each sent place, in the order of the places, each 0 or 1. A word
 * is a code word if, with 0 at the hidden places, it is one of the code that hides nothing. The number k is that of the
 * message columns that are sent, and a message has a byte for each of them.
 *
 * Refused by 1 to 7 for the code and the lengths of `roles` (n) and of a syndrome (t), then by 20, then by 2 for a word
 * of another length than the number of sent places, and a message of another length than k, then by 8 (a byte that is
 * neither 0 nor 1).
 *
 * zov_roles writes 1 for each message column and 0 for each check column, a byte for each of the n places, be they sent
 * or hidden; the roles are the same whatever is hidden. The value is k. The value of the others is 0. */
int32_t zov_roles(uint32_t m, uint32_t n, uint32_t t, uint32_t omega, const zov_elem *h, size_t h_length,
                  const uint8_t *hidden, size_t hidden_length, uint8_t *roles, size_t roles_length);
int32_t zov_syndrome(uint32_t m, uint32_t n, uint32_t t, uint32_t omega, const zov_elem *h, size_t h_length,
                     const uint8_t *hidden, size_t hidden_length, const uint8_t *word, size_t word_length,
                     zov_elem *out, size_t out_length);
int32_t zov_encode(uint32_t m, uint32_t n, uint32_t t, uint32_t omega, const zov_elem *h, size_t h_length,
                   const uint8_t *hidden, size_t hidden_length, const uint8_t *message, size_t message_length,
                   uint8_t *word, size_t word_length);
int32_t zov_message(uint32_t m, uint32_t n, uint32_t t, uint32_t omega, const zov_elem *h, size_t h_length,
                    const uint8_t *hidden, size_t hidden_length, const uint8_t *word, size_t word_length,
                    uint8_t *message, size_t message_length);

/* The code word that differs from the word received in at most t places, into `repaired`; the value is the number of
 * those places. Both words have a byte for each sent place. Refused by 1 to 7, 20, 2 (the length of either), 8, then 10
 * (no code word is that near). */
int32_t zov_repair(uint32_t m, uint32_t n, uint32_t t, uint32_t omega, const zov_elem *h, size_t h_length,
                   const uint8_t *hidden, size_t hidden_length, const uint8_t *received, size_t received_length,
                   uint8_t *repaired, size_t repaired_length);

/* Gear rows: a gear from 0 (neutral) to 7 (high neutral) and a lamp, 0 dark, 1 green (with 0 and 7 only) or 2 amber.
 *
 * zov_write_row writes the word of a row; the value is 0. Refused by 1 to 7, 20, 2 (the length of the word), 12 (k is
 * below 5), 11 (no such row).
 * zov_read_row repairs the word received into `repaired` and reads the row that it carries; the value is
 * gear + 8 * lamp + 32 * count, where count is the number of places repaired. Refused by 1 to 7, 20, 2 (the length of
 * either word), 12, 8, 10, 11. */
int32_t zov_write_row(uint32_t m, uint32_t n, uint32_t t, uint32_t omega, const zov_elem *h, size_t h_length,
                      const uint8_t *hidden, size_t hidden_length, uint32_t gear, uint32_t lamp,
                      uint8_t *word, size_t word_length);
int32_t zov_read_row(uint32_t m, uint32_t n, uint32_t t, uint32_t omega, const zov_elem *h, size_t h_length,
                     const uint8_t *hidden, size_t hidden_length, const uint8_t *received, size_t received_length,
                     uint8_t *repaired, size_t repaired_length);

/* A ride of at most 1,000 steps. Each step writes the row of a gear and a lamp, turns the marked places of its word and
 * reads the row. `gears` and `lamps` have a byte for each step, so that gears_length is the number of steps; `turned`
 * has a byte for each sent place and each step, step after step, 1 for a place that is turned and 0 for another. Four
 * numbers go into `counts`: the steps, and of these the ones that were right (read as the row that was sent), held
 * (refused by reading: 10 or 11) and wrong (read as another row). The last three add up to the first. Where no step
 * turns more than t places, held and wrong are 0. With no steps the lists `gears`, `lamps` and `turned` may be null
 * pointers. The value is 0.
 *
 * Refused by 1 to 7, with 2 for more than 1,000 steps, for another length of `lamps` and for counts_length other than
 * 4; then by 20, and by 2 for another length of `turned`; then by 12, before the ride starts and with no steps too;
 * then, step by step, by 8 (a mark in `turned` that is neither 0 nor 1) and by 11 (no such row), 8 being first in one
 * step. 8 and 11 end the ride, and the counts of the steps before that one are written all the same. With every other
 * refusal `counts` is left alone. */
int32_t zov_ride(uint32_t m, uint32_t n, uint32_t t, uint32_t omega, const zov_elem *h, size_t h_length,
                 const uint8_t *hidden, size_t hidden_length, const uint8_t *gears, size_t gears_length,
                 const uint8_t *lamps, size_t lamps_length, const uint8_t *turned, size_t turned_length,
                 uint32_t *counts, size_t counts_length);

/* Turns for several senders on one code. A dash listens to `senders` of them, 1 to 8, numbered from 0, and a round
 * repairs at most `repairs` words, 1 to 8; both numbers and the code, with its marks, are to stay as they were at the
 * start. The state is lent: `waiting` has a byte for each sender, 1 where a word of that sender waits and 0 where none
 * does; `words` has a word for each sender, one after the other, each of a byte for each sent place; `next` has one
 * number, the sender whose turn it is. The value is 0.
 *
 * zov_senders_start has no word wait and gives sender 0 the turn. zov_senders_offer has a sender's word wait; a sender
 * has at most one word waiting.
 *
 * zov_senders_round hands out every waiting word that is a code word, and repairs the first `repairs` of the others in
 * turn, or all of them if fewer wait. Turns go up by number and round again; they begin at the sender in `next`, where
 * the one after the sender last tried is put. Handing out a code word doesn't move the turn. A word that was handed
 * out, repaired or found too far has left, and no longer waits. The answer for sender p stands in answers[p]: what
 * zov_repair returns for that word alone, a count, which is 0 for a code word, or -10; ZOV_NONE where no word of p
 * left. `handed` has as many bytes as `words`: where the answer is 0 or more the repaired word stands in part p, and
 * every other part is left alone.
 *
 * In every state that offers and rounds make from the start, a word leaves within senders / repairs rounds, rounded up,
 * the round after its arrival being the first, whatever the others send.
 *
 * Refused by 1 to 7, with 2 for another length of `waiting` and `answers` than `senders` and of `next` than 1; then by
 * 20; by 2 for another length of the word than the number of sent places, and of `words` and `handed` than `senders`
 * times that, which does not wrap around; by 18 (`senders` or `repairs` not from 1 to 8, `sender` or the number in
 * `next` not below `senders`), 19 (the byte of `sender` in `waiting` is not 0), and 8: a byte of the word that is
 * neither 0 nor 1 and, in a round, such a byte in `waiting` or in a word that waits. Where no word waits, anything may
 * stand in `words`. */
#define ZOV_NONE INT32_MIN
int32_t zov_senders_start(uint32_t m, uint32_t n, uint32_t t, uint32_t omega, const zov_elem *h, size_t h_length,
                          const uint8_t *hidden, size_t hidden_length, uint32_t senders, uint32_t repairs,
                          uint8_t *waiting, size_t waiting_length, uint32_t *next, size_t next_length);
int32_t zov_senders_offer(uint32_t m, uint32_t n, uint32_t t, uint32_t omega, const zov_elem *h, size_t h_length,
                          const uint8_t *hidden, size_t hidden_length, uint32_t senders, uint32_t repairs,
                          uint32_t sender, const uint8_t *word, size_t word_length,
                          uint8_t *waiting, size_t waiting_length, uint8_t *words, size_t words_length);
int32_t zov_senders_round(uint32_t m, uint32_t n, uint32_t t, uint32_t omega, const zov_elem *h, size_t h_length,
                          const uint8_t *hidden, size_t hidden_length, uint32_t senders, uint32_t repairs,
                          uint8_t *waiting, size_t waiting_length, const uint8_t *words, size_t words_length,
                          uint32_t *next, size_t next_length, int32_t *answers, size_t answers_length,
                          uint8_t *handed, size_t handed_length);

/* Selections: words over some blocks of a code, a block being t columns in a row. `blocks` names 1 to n / t blocks, by
 * numbers below n / t, in any order and each at most once; `shifts` has a number below t for each of them. Place
 * b * t + r is column blocks[b] * t + (r XOR shifts[b]) of the code, so that there are blocks_length * t places. A
 * selection has marks of its own, as above but one for each of its places, and its code has none. Message columns are
 * those of the chosen columns: one is a message column if it is a sum of columns at places before it. The rest of the
 * parameters and the value are those of the function of that name for the whole code.
 *
 * Refused by 1 to 7 for the code and the length of a syndrome (t), then by 2 (blocks_length, shifts_length,
 * hidden_length, and roles_length other than blocks_length * t), 14 (a block of n / t or more, or one named twice), 15
 * (a shift of t or more) and 20, then by what refuses the function for the whole code after these: 2 (the lengths of
 * words and of a message), 12, 8, 10, 11. */
int32_t zov_selection_roles(uint32_t m, uint32_t n, uint32_t t, uint32_t omega, const zov_elem *h, size_t h_length,
                            const uint32_t *blocks, size_t blocks_length, const uint32_t *shifts, size_t shifts_length,
                            const uint8_t *hidden, size_t hidden_length, uint8_t *roles, size_t roles_length);
int32_t zov_selection_syndrome(uint32_t m, uint32_t n, uint32_t t, uint32_t omega, const zov_elem *h, size_t h_length,
                               const uint32_t *blocks, size_t blocks_length,
                               const uint32_t *shifts, size_t shifts_length,
                               const uint8_t *hidden, size_t hidden_length, const uint8_t *word, size_t word_length,
                               zov_elem *out, size_t out_length);
int32_t zov_selection_encode(uint32_t m, uint32_t n, uint32_t t, uint32_t omega, const zov_elem *h, size_t h_length,
                             const uint32_t *blocks, size_t blocks_length, const uint32_t *shifts, size_t shifts_length,
                             const uint8_t *hidden, size_t hidden_length, const uint8_t *message, size_t message_length,
                             uint8_t *word, size_t word_length);
int32_t zov_selection_message(uint32_t m, uint32_t n, uint32_t t, uint32_t omega, const zov_elem *h, size_t h_length,
                              const uint32_t *blocks, size_t blocks_length,
                              const uint32_t *shifts, size_t shifts_length,
                              const uint8_t *hidden, size_t hidden_length, const uint8_t *word, size_t word_length,
                              uint8_t *message, size_t message_length);
int32_t zov_selection_repair(uint32_t m, uint32_t n, uint32_t t, uint32_t omega, const zov_elem *h, size_t h_length,
                             const uint32_t *blocks, size_t blocks_length, const uint32_t *shifts, size_t shifts_length,
                             const uint8_t *hidden, size_t hidden_length,
                             const uint8_t *received, size_t received_length,
                             uint8_t *repaired, size_t repaired_length);
int32_t zov_selection_write_row(uint32_t m, uint32_t n, uint32_t t, uint32_t omega, const zov_elem *h, size_t h_length,
                                const uint32_t *blocks, size_t blocks_length,
                                const uint32_t *shifts, size_t shifts_length,
                                const uint8_t *hidden, size_t hidden_length, uint32_t gear, uint32_t lamp,
                                uint8_t *word, size_t word_length);
int32_t zov_selection_read_row(uint32_t m, uint32_t n, uint32_t t, uint32_t omega, const zov_elem *h, size_t h_length,
                               const uint32_t *blocks, size_t blocks_length,
                               const uint32_t *shifts, size_t shifts_length,
                               const uint8_t *hidden, size_t hidden_length,
                               const uint8_t *received, size_t received_length,
                               uint8_t *repaired, size_t repaired_length);

/* The bench sheet: a code that hides nothing, as text of two lines, each number in six columns. The listing of that
 * code goes to the front of `out`; the value is its length, at most 12837. Refused by 13 (no sheet, or an n above 512
 * on it), 1 to 7 (its code), 2 (no room in `out`). */
int32_t zov_sheet(const uint8_t *text, size_t text_length, uint8_t *out, size_t out_length);

#ifdef __cplusplus
}
#endif

#endif
