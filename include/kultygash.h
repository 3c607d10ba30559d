/*
 * Kultygash: cosine and sine transforms of types 2, 3 and 4, and the MDCT, on whole numbers modulo p = 998244353, where they are exact
 * and have windows of their own, and on doubles, where they have the bits of rustdct 0.7.1.
 *
 * Link with libexports.a for residues, with libexports_float.a for doubles, or with both. They are for x86-64 and need nothing beside the
 * C library:
 *
 *     cc -I include program.c target/staticlib/libexports.a target/staticlib/libexports_float.a
 *
 * What follows is said of residues; "ON DOUBLES" below says what differs there.
 *
 * NUMBERS. A residue is a whole number from 0 to p - 1. All sums below are sums of residues, taken modulo p, so they are exact:
 * nothing is rounded. Let g = 3^121856 mod p, so that g^8192 = 1 and g^4096 = p - 1, and let j = g^2048. The cosine and the sine at
 * k/8192 of a turn are
 *
 *     cos = (g^k + g^-k) / 2        sin = (g^k - g^-k) / (2 j)
 *
 * where dividing is dividing modulo p. An angle of pi is half a turn, so an angle of pi a / (2 N) is a / (4 N) of a turn, and one of
 * pi a / (4 N) is a / (8 N) of a turn. sqrt2 means g^1024 + g^-1024, whose square is 2.
 *
 * ARGUMENTS. Every call takes the size n and then what is lent to it, each slice as a pointer and the number of entries behind it.
 *
 *   n         a power of two: from 1 to 1024 for types 2 and 3, from 2 to 1024 for type 4, windows, MDCT and IMDCT
 *   buffer    n residues: the input, and after the call the output
 *   window    2 n residues for MDCT and IMDCT, which only read them; 2 n entries with any contents for a call that fills it
 *   first, second, input, output
 *             n entries each, and all of them residues but for the output of the MDCT, which is overwritten whatever it holds
 *   scratch   with any contents: n entries or more for types 2, 3 and 4, 2 n or more for the fast MDCT and IMDCT, and for the naive
 *             ones as many as you like, none among them
 *
 * ANSWERS. Every call has an answer for any n, any lengths and any entries. It gives the first of these that applies:
 *
 *   KULTYGASH_NO_SIZE      1   n is not a size of this call
 *   KULTYGASH_NO_LENGTH    2   a length is not the one above, or scratch_length is less than what is needed
 *   KULTYGASH_NO_RESIDUE   3   an entry that the call reads or adds to is p or more: one of the buffer, of the MDCT's two segments, of
 *                              the IMDCT's input and its two outputs, or of a window that is not being filled
 *   KULTYGASH_NO_WINDOW    4   the window is not accepted for blocks of n (MDCT, IMDCT and the test of a window)
 *   KULTYGASH_DONE         0   none of these: the call was done
 *
 * After an answer of 1, 2, 3 or 4 every lent entry is as it was. After an answer of 0 what the call stores to holds what is said at the
 * call, the entries of the scratch that were needed are zero, and the rest of the scratch is as it was.
 *
 * WHAT THE CALLER SEES TO. No test inside a call can find these, so they are the caller's: each pointer is not null, not even where
 * its length is 0, is aligned for its entries and has as many entries behind it as the length says; what is lent without const overlaps
 * nothing else that is lent to the same call; and nothing else uses it until the call returns, nor changes what is lent with const.
 *
 * NAIVE AND FAST. The two calls of a pair make the same promise, but for the scratch that MDCT and IMDCT need. The naive one works out
 * the sums term by term, in time that grows with the square of n. The fast one uses split radix, and for the MDCT type 4, in time that
 * grows little faster than n. docs/SPEED.md says how they compare.
 *
 * ON DOUBLES. Every call is lent tables of cosines and sines, right after n, and is not told where they come from: it multiplies by what
 * they hold. With tables captured from rustdct the outputs have the bits of rustdct's own, but that a NaN may be any NaN
 * (docs/DIFFERENCES.md). So the sums below are rounded, term by term, in rustdct's order of operations.
 *
 *   n         naive types 2 and 3: from 1 to 1024; naive MDCT and IMDCT: even, from 2 to 1024; fast calls: as for residues
 *   cosines, sines
 *             naive types 2 and 3: 4 n entries each, entry k at k/(4 n) of a turn; fast calls: 8192 entries each, entry k at k/8192 of one
 *   table     naive MDCT and IMDCT: 4 n cosines, entry k at (2 k + 1)/(8 n) of a turn
 *   the rest  as for residues, with any doubles as entries; a window is not tested
 *
 * The answers are KULTYGASH_NO_SIZE, KULTYGASH_NO_LENGTH, to which a table of a wrong length belongs, and KULTYGASH_DONE. The scratch that
 * was needed is +0.0 after an answer of 0.
 */
#ifndef KULTYGASH_H
#define KULTYGASH_H

#include <stddef.h>
#include <stdint.h>

#ifdef __cplusplus
extern "C" {
#endif

/* p: a residue is less than this. */
#define KULTYGASH_MODULUS 998244353u

/* The greatest size. */
#define KULTYGASH_GREATEST_SIZE 1024u

/* The answers. */
#define KULTYGASH_DONE 0u
#define KULTYGASH_NO_SIZE 1u
#define KULTYGASH_NO_LENGTH 2u
#define KULTYGASH_NO_RESIDUE 3u
#define KULTYGASH_NO_WINDOW 4u

/* ---- in place ---- */

/* In the formulas N is n, x is what the buffer holds before the call, and i and k run from 0 to N - 1. */

/* DCT-II:  X_k = sum over i of x_i cos(pi k (2 i + 1) / (2 N)). */
uint32_t kultygash_residue_dct2_naive(size_t n, uint32_t *buffer, size_t buffer_length, uint32_t *scratch, size_t scratch_length);
uint32_t kultygash_residue_dct2_fast(size_t n, uint32_t *buffer, size_t buffer_length, uint32_t *scratch, size_t scratch_length);

/* DST-II:  X_k = sum over i of x_i sin(pi (k + 1) (2 i + 1) / (2 N)). */
uint32_t kultygash_residue_dst2_naive(size_t n, uint32_t *buffer, size_t buffer_length, uint32_t *scratch, size_t scratch_length);
uint32_t kultygash_residue_dst2_fast(size_t n, uint32_t *buffer, size_t buffer_length, uint32_t *scratch, size_t scratch_length);

/* DCT-III:  X_k = x_0 / 2 + sum over i from 1 of x_i cos(pi i (2 k + 1) / (2 N)).
   After DCT-II it gives N/2 times what DCT-II was given. */
uint32_t kultygash_residue_dct3_naive(size_t n, uint32_t *buffer, size_t buffer_length, uint32_t *scratch, size_t scratch_length);
uint32_t kultygash_residue_dct3_fast(size_t n, uint32_t *buffer, size_t buffer_length, uint32_t *scratch, size_t scratch_length);

/* DST-III:  X_k = sum over i below N - 1 of x_i sin(pi (i + 1) (2 k + 1) / (2 N)), plus x_(N-1) / 2 times sin(pi (2 k + 1) / 2).
   After DST-II it gives N/2 times what DST-II was given. */
uint32_t kultygash_residue_dst3_naive(size_t n, uint32_t *buffer, size_t buffer_length, uint32_t *scratch, size_t scratch_length);
uint32_t kultygash_residue_dst3_fast(size_t n, uint32_t *buffer, size_t buffer_length, uint32_t *scratch, size_t scratch_length);

/* DCT-IV:  X_k = sum over i of x_i cos(pi (2 i + 1) (2 k + 1) / (4 N)).
   Done twice it gives N/2 times what it was given. */
uint32_t kultygash_residue_dct4_fast(size_t n, uint32_t *buffer, size_t buffer_length, uint32_t *scratch, size_t scratch_length);

/* DST-IV:  X_k = sum over i of x_i sin(pi (2 i + 1) (2 k + 1) / (4 N)).
   Done twice it gives N/2 times what it was given. */
uint32_t kultygash_residue_dst4_fast(size_t n, uint32_t *buffer, size_t buffer_length, uint32_t *scratch, size_t scratch_length);

/* ---- windows of 2 N entries, w_0 to w_(2N-1), for blocks of N = 2^m. i runs from 0 to 2 N - 1. ---- */

/* The flat window:  w_i = sqrt2^-m. It is accepted. */
uint32_t kultygash_residue_flat_window(size_t n, uint32_t *window, size_t window_length);

/* The sine window:  w_i = sin(pi (2 i + 1) / (4 N)) sqrt2^(1-m). It is accepted. */
uint32_t kultygash_residue_sine_window(size_t n, uint32_t *window, size_t window_length);

/* Done exactly if the window is accepted, whoever made it:  w_i = w_(2N-1-i), and for i below N also
   N (w_i^2 + w_(N+i)^2) = 2 modulo p. Nothing is stored. */
uint32_t kultygash_residue_test_window(size_t n, const uint32_t *window, size_t window_length);

/* ---- the MDCT. w is the window, i runs from 0 to 2 N - 1 and k from 0 to N - 1. ---- */

/* MDCT of two segments of N, which follow each other as x_0 to x_(2N-1):
   X_k = sum over i of w_i x_i cos(pi (2 i + 1 + N) (2 k + 1) / (4 N)). The output is overwritten with X. */
uint32_t kultygash_residue_mdct_naive(size_t n, const uint32_t *first, size_t first_length, const uint32_t *second,
                                      size_t second_length, uint32_t *output, size_t output_length, const uint32_t *window,
                                      size_t window_length, uint32_t *scratch, size_t scratch_length);
uint32_t kultygash_residue_mdct_fast(size_t n, const uint32_t *first, size_t first_length, const uint32_t *second,
                                     size_t second_length, uint32_t *output, size_t output_length, const uint32_t *window,
                                     size_t window_length, uint32_t *scratch, size_t scratch_length);

/* IMDCT of N entries X to two segments of N, which follow each other as y_0 to y_(2N-1):
   y_i = w_i times the sum over k of X_k cos(pi (2 i + 1 + N) (2 k + 1) / (4 N)). It adds y to what first and second hold.
   So a segment that is the second of one block and the first of the next comes back, once both blocks are added to zeros. */
uint32_t kultygash_residue_imdct_naive(size_t n, const uint32_t *input, size_t input_length, uint32_t *first, size_t first_length,
                                       uint32_t *second, size_t second_length, const uint32_t *window, size_t window_length,
                                       uint32_t *scratch, size_t scratch_length);
uint32_t kultygash_residue_imdct_fast(size_t n, const uint32_t *input, size_t input_length, uint32_t *first, size_t first_length,
                                      uint32_t *second, size_t second_length, const uint32_t *window, size_t window_length,
                                      uint32_t *scratch, size_t scratch_length);

/* ---- on doubles ---- */

/* DCT-II, in place. */
uint32_t kultygash_float_dct2_naive(size_t n, const double *cosines, size_t cosines_length, const double *sines,
                                    size_t sines_length, double *buffer, size_t buffer_length, double *scratch,
                                    size_t scratch_length);
uint32_t kultygash_float_dct2_fast(size_t n, const double *cosines, size_t cosines_length, const double *sines, size_t sines_length,
                                   double *buffer, size_t buffer_length, double *scratch, size_t scratch_length);

/* DST-II, in place. */
uint32_t kultygash_float_dst2_naive(size_t n, const double *cosines, size_t cosines_length, const double *sines,
                                    size_t sines_length, double *buffer, size_t buffer_length, double *scratch,
                                    size_t scratch_length);
uint32_t kultygash_float_dst2_fast(size_t n, const double *cosines, size_t cosines_length, const double *sines, size_t sines_length,
                                   double *buffer, size_t buffer_length, double *scratch, size_t scratch_length);

/* DCT-III, in place. */
uint32_t kultygash_float_dct3_naive(size_t n, const double *cosines, size_t cosines_length, const double *sines,
                                    size_t sines_length, double *buffer, size_t buffer_length, double *scratch,
                                    size_t scratch_length);
uint32_t kultygash_float_dct3_fast(size_t n, const double *cosines, size_t cosines_length, const double *sines, size_t sines_length,
                                   double *buffer, size_t buffer_length, double *scratch, size_t scratch_length);

/* DST-III, in place. */
uint32_t kultygash_float_dst3_naive(size_t n, const double *cosines, size_t cosines_length, const double *sines,
                                    size_t sines_length, double *buffer, size_t buffer_length, double *scratch,
                                    size_t scratch_length);
uint32_t kultygash_float_dst3_fast(size_t n, const double *cosines, size_t cosines_length, const double *sines, size_t sines_length,
                                   double *buffer, size_t buffer_length, double *scratch, size_t scratch_length);

/* DCT-IV, in place. */
uint32_t kultygash_float_dct4_fast(size_t n, const double *cosines, size_t cosines_length, const double *sines, size_t sines_length,
                                   double *buffer, size_t buffer_length, double *scratch, size_t scratch_length);

/* DST-IV, in place. */
uint32_t kultygash_float_dst4_fast(size_t n, const double *cosines, size_t cosines_length, const double *sines, size_t sines_length,
                                   double *buffer, size_t buffer_length, double *scratch, size_t scratch_length);

/* MDCT. The output is overwritten. */
uint32_t kultygash_float_mdct_naive(size_t n, const double *table, size_t table_length, const double *first, size_t first_length,
                                    const double *second, size_t second_length, double *output, size_t output_length,
                                    const double *window, size_t window_length, double *scratch, size_t scratch_length);
uint32_t kultygash_float_mdct_fast(size_t n, const double *cosines, size_t cosines_length, const double *sines, size_t sines_length,
                                   const double *first, size_t first_length, const double *second, size_t second_length,
                                   double *output, size_t output_length, const double *window, size_t window_length,
                                   double *scratch, size_t scratch_length);

/* IMDCT. It adds to what first and second hold. */
uint32_t kultygash_float_imdct_naive(size_t n, const double *table, size_t table_length, const double *input, size_t input_length,
                                     double *first, size_t first_length, double *second, size_t second_length, const double *window,
                                     size_t window_length, double *scratch, size_t scratch_length);
uint32_t kultygash_float_imdct_fast(size_t n, const double *cosines, size_t cosines_length, const double *sines,
                                    size_t sines_length, const double *input, size_t input_length, double *first,
                                    size_t first_length, double *second, size_t second_length, const double *window,
                                    size_t window_length, double *scratch, size_t scratch_length);

#ifdef __cplusplus
}
#endif

#endif
