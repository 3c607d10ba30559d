/*
 * Tests the library through its C interface, include/kultygash.h: what every call answers and what every lent entry then holds.
 * The sums are worked out here again, term by term, from document 01's formulas with arithmetic of this file's own.
 * Prints what was compared and ends with 1 if anything differs.
 */
#include <kultygash.h>

#include <stdbool.h>
#include <stdio.h>
#include <stdlib.h>
#include <string.h>

/* ---- residues, after document 01, "Two arithmetics" ---- */

static const uint64_t p = 119 * (UINT64_C(1) << 23) + 1;

enum { TURN = 8192 };

static uint32_t cosines[TURN], sines[TURN];

static uint64_t power(uint64_t base, uint64_t exponent) {
    uint64_t result = 1;
    for (; exponent; exponent >>= 1) {
        if (exponent & 1) result = result * base % p;
        base = base * base % p;
    }
    return result;
}

/* p is prime, so x^(p-2) is 1/x. */
static uint64_t inverse(uint64_t x) { return power(x, p - 2); }

static void make_angles(void) {
    uint64_t g = power(3, 121856), j = power(g, 2048);
    if (p != KULTYGASH_MODULUS || power(g, 4096) != p - 1) {
        printf("the modulus or the root is not document 01's\n");
        exit(1);
    }
    for (uint64_t k = 0; k < TURN; k++) {
        uint64_t up = power(g, k), down = inverse(up);
        cosines[k] = (uint32_t)((up + down) % p * inverse(2) % p);
        sines[k] = (uint32_t)((up + p - down) % p * inverse(2 * j % p) % p);
    }
}

/* cos and sin at a/b of a turn, where b divides 8192 */
static uint64_t cosine(uint64_t a, uint64_t b) { return cosines[a * (TURN / b) % TURN]; }
static uint64_t sine(uint64_t a, uint64_t b) { return sines[a * (TURN / b) % TURN]; }

/*
 * ---- the defining sums, after document 01, "The sums" ----
 * An angle pi a/(2N) is a/(4N) of a turn, pi a/(4N) is a/(8N) of one, and pi a/2 is a/4 of one.
 */

typedef void sums(size_t n, const uint32_t *x, uint32_t *result);

static void dct2_sums(size_t n, const uint32_t *x, uint32_t *result) {
    for (size_t k = 0; k < n; k++) {
        uint64_t sum = 0;
        for (size_t i = 0; i < n; i++) sum = (sum + x[i] * cosine(k * (2 * i + 1), 4 * n)) % p;
        result[k] = (uint32_t)sum;
    }
}

static void dst2_sums(size_t n, const uint32_t *x, uint32_t *result) {
    for (size_t k = 0; k < n; k++) {
        uint64_t sum = 0;
        for (size_t i = 0; i < n; i++) sum = (sum + x[i] * sine((k + 1) * (2 * i + 1), 4 * n)) % p;
        result[k] = (uint32_t)sum;
    }
}

static void dct3_sums(size_t n, const uint32_t *x, uint32_t *result) {
    uint64_t half = inverse(2);
    for (size_t k = 0; k < n; k++) {
        uint64_t sum = x[0] * half % p;
        for (size_t i = 1; i < n; i++) sum = (sum + x[i] * cosine(i * (2 * k + 1), 4 * n)) % p;
        result[k] = (uint32_t)sum;
    }
}

static void dst3_sums(size_t n, const uint32_t *x, uint32_t *result) {
    uint64_t half = inverse(2);
    for (size_t k = 0; k < n; k++) {
        uint64_t sum = 0;
        for (size_t i = 0; i < n - 1; i++) sum = (sum + x[i] * sine((i + 1) * (2 * k + 1), 4 * n)) % p;
        result[k] = (uint32_t)((sum + x[n - 1] * half % p * sine(2 * k + 1, 4)) % p);
    }
}

static void dct4_sums(size_t n, const uint32_t *x, uint32_t *result) {
    for (size_t k = 0; k < n; k++) {
        uint64_t sum = 0;
        for (size_t i = 0; i < n; i++) sum = (sum + x[i] * cosine((2 * i + 1) * (2 * k + 1), 8 * n)) % p;
        result[k] = (uint32_t)sum;
    }
}

static void dst4_sums(size_t n, const uint32_t *x, uint32_t *result) {
    for (size_t k = 0; k < n; k++) {
        uint64_t sum = 0;
        for (size_t i = 0; i < n; i++) sum = (sum + x[i] * sine((2 * i + 1) * (2 * k + 1), 8 * n)) % p;
        result[k] = (uint32_t)sum;
    }
}

/* The MDCT of the segments first and second under the window w. */
static void mdct_sums(size_t n, const uint32_t *first, const uint32_t *second, const uint32_t *w, uint32_t *result) {
    for (size_t k = 0; k < n; k++) {
        uint64_t sum = 0;
        for (size_t i = 0; i < 2 * n; i++) {
            uint64_t x = i < n ? first[i] : second[i - n];
            sum = (sum + w[i] * x % p * cosine((2 * i + 1 + n) * (2 * k + 1), 8 * n)) % p;
        }
        result[k] = (uint32_t)sum;
    }
}

/* Entry i of the IMDCT, not yet added to anything. */
static uint64_t imdct_sum(size_t n, size_t i, const uint32_t *input, const uint32_t *w) {
    uint64_t sum = 0;
    for (size_t k = 0; k < n; k++) sum = (sum + input[k] * cosine((2 * i + 1 + n) * (2 * k + 1), 8 * n)) % p;
    return sum * w[i] % p;
}

/* What the two outputs hold once the IMDCT is added to what they held. */
static void imdct_sums(size_t n, const uint32_t *input, const uint32_t *first, const uint32_t *second, const uint32_t *w,
                       uint32_t *first_result, uint32_t *second_result) {
    for (size_t i = 0; i < n; i++) {
        first_result[i] = (uint32_t)((first[i] + imdct_sum(n, i, input, w)) % p);
        second_result[i] = (uint32_t)((second[i] + imdct_sum(n, n + i, input, w)) % p);
    }
}

/* ---- windows for blocks of n = 2^m ---- */

/* sqrt2^m */
static uint64_t root_power(size_t n, uint64_t root) {
    uint64_t result = 1;
    for (; n > 1; n /= 2) result = result * root % p;
    return result;
}

static uint64_t root_of_two(void) {
    uint64_t up = power(power(3, 121856), 1024);
    return (up + inverse(up)) % p;
}

typedef void window_rule(size_t n, uint32_t *w);

static void flat_rule(size_t n, uint32_t *w) {
    uint64_t height = inverse(root_power(n, root_of_two()));
    for (size_t i = 0; i < 2 * n; i++) w[i] = (uint32_t)height;
}

static void sine_rule(size_t n, uint32_t *w) {
    uint64_t height = root_of_two() * inverse(root_power(n, root_of_two())) % p;
    for (size_t i = 0; i < 2 * n; i++) w[i] = (uint32_t)(sine(2 * i + 1, 8 * n) * height % p);
}

/* When a window is accepted. */
static bool accepted_window(size_t n, const uint32_t *w) {
    for (size_t i = 0; i < 2 * n; i++)
        if (w[i] != w[2 * n - 1 - i]) return false;
    for (size_t i = 0; i < n; i++) {
        uint64_t a = w[i], b = w[n + i];
        if (n * ((a * a % p + b * b % p) % p) % p != 2) return false;
    }
    return true;
}

/* ---- the calls ---- */

typedef uint32_t in_place(size_t n, uint32_t *buffer, size_t buffer_length, uint32_t *scratch, size_t scratch_length);
typedef uint32_t filling(size_t n, uint32_t *window, size_t window_length);
typedef uint32_t testing(size_t n, const uint32_t *window, size_t window_length);
typedef uint32_t forth(size_t n, const uint32_t *first, size_t first_length, const uint32_t *second, size_t second_length,
                       uint32_t *output, size_t output_length, const uint32_t *window, size_t window_length, uint32_t *scratch,
                       size_t scratch_length);
typedef uint32_t back(size_t n, const uint32_t *input, size_t input_length, uint32_t *first, size_t first_length, uint32_t *second,
                      size_t second_length, const uint32_t *window, size_t window_length, uint32_t *scratch, size_t scratch_length);

enum { MOST_SLICES = 5 };

/* A call by its shape, of which it has one. `slices` are lent to it, and `least` is its least size. */
typedef struct {
    const char *name;
    size_t least, slices;
    in_place *transform;
    filling *fill;
    testing *test;
    forth *mdct;
    back *imdct;
} function;

static uint32_t make_call(const function *f, size_t n, uint32_t *const *at, const size_t *length) {
    if (f->transform) return f->transform(n, at[0], length[0], at[1], length[1]);
    if (f->fill) return f->fill(n, at[0], length[0]);
    if (f->test) return f->test(n, at[0], length[0]);
    if (f->mdct)
        return f->mdct(n, at[0], length[0], at[1], length[1], at[2], length[2], at[3], length[3], at[4], length[4]);
    return f->imdct(n, at[0], length[0], at[1], length[1], at[2], length[2], at[3], length[3], at[4], length[4]);
}

#define TRANSFORM(name, least) {#name, least, 2, .transform = kultygash_residue_##name}

enum { PAIRED = 8, TRANSFORMS = 10 };

/* The naive call and the fast one of a kind stand together, and type 3 stands two kinds after the type 2 that it undoes. Type 4 is fast
   alone and undoes itself. */
static const function transforms[TRANSFORMS] = {
    TRANSFORM(dct2_naive, 1), TRANSFORM(dct2_fast, 1),  TRANSFORM(dst2_naive, 1), TRANSFORM(dst2_fast, 1), TRANSFORM(dct3_naive, 1),
    TRANSFORM(dct3_fast, 1),  TRANSFORM(dst3_naive, 1), TRANSFORM(dst3_fast, 1),  TRANSFORM(dct4_fast, 2), TRANSFORM(dst4_fast, 2),
};

static sums *const transform_sums[TRANSFORMS] = {
    dct2_sums, dct2_sums, dst2_sums, dst2_sums, dct3_sums, dct3_sums, dst3_sums, dst3_sums, dct4_sums, dst4_sums,
};

static const size_t undoes[TRANSFORMS] = {4, 5, 6, 7, TRANSFORMS, TRANSFORMS, TRANSFORMS, TRANSFORMS, 8, 9};

enum { RULES = 2, BLOCKS = 2 };

static const function fillings[RULES] = {
    {"flat_window", 2, 1, .fill = kultygash_residue_flat_window},
    {"sine_window", 2, 1, .fill = kultygash_residue_sine_window},
};

static window_rule *const rules[RULES] = {flat_rule, sine_rule};

static const function window_test = {"test_window", 2, 1, .test = kultygash_residue_test_window};

/* Naive, and fast, which needs scratch of 2n. */
static const function mdcts[BLOCKS] = {
    {"mdct_naive", 2, 5, .mdct = kultygash_residue_mdct_naive},
    {"mdct_fast", 2, 5, .mdct = kultygash_residue_mdct_fast},
};

static const function imdcts[BLOCKS] = {
    {"imdct_naive", 2, 5, .imdct = kultygash_residue_imdct_naive},
    {"imdct_fast", 2, 5, .imdct = kultygash_residue_imdct_fast},
};

static const size_t parts[BLOCKS] = {0, 2};

enum { FUNCTIONS = TRANSFORMS + RULES + 1 + 2 * BLOCKS };

/* ---- what is counted ---- */

static unsigned long accepted, refused, entries, pairs, undone, curves, differences;

static void differs(const function *f, size_t n, const char *what) {
    if (differences++ < 20) printf("%s, n = %zu: %s\n", f->name, n, what);
}

/* ---- pseudo-random words, the same at every run ---- */

static uint64_t state = 1;

static uint32_t word(void) {
    state = state * UINT64_C(6364136223846793005) + UINT64_C(1442695040888963407);
    return (uint32_t)(state >> 32);
}

static void random_residues(size_t n, uint32_t *x) {
    for (size_t i = 0; i < n; i++) x[i] = (uint32_t)(word() % p);
}

/* ---- one call on marked memory ---- */

/* What is lent lies in one stretch of memory, with guard words before, between and after. */
enum {
    GREATEST = 1024,
    LONGEST = 4 * GREATEST,
    GUARD = 24,
    MEMORY = MOST_SLICES * LONGEST + (MOST_SLICES + 2) * GUARD,
};

static uint32_t memory[MEMORY], wanted[MEMORY];

/* A slice: what it holds before the call (NULL: marks), and what its first `stored` entries hold after it where the call is done
   (NULL: zeros). What is there after the call goes to `left` where that is given. */
typedef struct {
    const uint32_t *holds;
    size_t length;
    const uint32_t *then;
    size_t stored;
    uint32_t *left;
} slice;

static void say_answer(const function *f, size_t n, uint32_t given, uint32_t answer) {
    char what[64];
    snprintf(what, sizeof what, "answers %lu, not %lu", (unsigned long)given, (unsigned long)answer);
    differs(f, n, what);
}

/* The word i of the memory differs. It is in one of the slices or a guard. */
static void say_word(const function *f, size_t n, size_t i, const size_t *place, const slice *lent) {
    char what[128];
    for (size_t s = 0; s < f->slices; s++)
        if (place[s] <= i && i < place[s] + lent[s].length) {
            snprintf(what, sizeof what, "slice %zu, entry %zu is %lu, not %lu", s + 1, i - place[s], (unsigned long)memory[i],
                     (unsigned long)wanted[i]);
            differs(f, n, what);
            return;
        }
    snprintf(what, sizeof what, "guard word %zu is %lu, not %lu", i, (unsigned long)memory[i], (unsigned long)wanted[i]);
    differs(f, n, what);
}

/* Makes the call and compares the answer and every word of the memory with what is to be there: after a refusal what was there, after a
   call that was done what is to be stored. */
static void one_call(const function *f, size_t n, const slice *lent, uint32_t answer) {
    size_t place[MOST_SLICES], length[MOST_SLICES], end = 0;
    uint32_t *at[MOST_SLICES];
    /* The places change, so that no call can count on more than the alignment of a word. */
    for (size_t s = 0; s < f->slices; s++) {
        place[s] = end + GUARD / 2 + word() % (GUARD / 2);
        length[s] = lent[s].length;
        at[s] = memory + place[s];
        end = place[s] + length[s];
    }
    end += GUARD;
    if (end > MEMORY) {
        printf("the test lends more than it has\n");
        exit(1);
    }
    /* Marks are words of any size, p and more among them, and never zero: a scratch entry is not tested, and zeroing it shows. */
    for (size_t i = 0; i < end; i++) memory[i] = word() | 1;
    for (size_t s = 0; s < f->slices; s++)
        if (lent[s].holds && length[s]) memcpy(at[s], lent[s].holds, length[s] * sizeof *memory);
    memcpy(wanted, memory, end * sizeof *memory);
    if (answer == KULTYGASH_DONE) {
        for (size_t s = 0; s < f->slices; s++) {
            size_t bytes = lent[s].stored * sizeof *wanted;
            if (lent[s].then) {
                memcpy(wanted + place[s], lent[s].then, bytes);
                entries += lent[s].stored;
            } else {
                memset(wanted + place[s], 0, bytes);
            }
        }
        accepted++;
    } else {
        refused++;
    }

    uint32_t given = make_call(f, n, at, length);

    if (given != answer) say_answer(f, n, given, answer);
    for (size_t i = 0; i < end; i++) {
        if (memory[i] == wanted[i]) continue;
        say_word(f, n, i, place, lent);
        break;
    }
    for (size_t s = 0; s < f->slices; s++)
        if (lent[s].left) memcpy(lent[s].left, at[s], length[s] * sizeof *memory);
}

/* A transform of a buffer that holds x, which is to leave the result. */
static void one_transform(const function *f, size_t n, const uint32_t *x, size_t buffer_length, size_t scratch_length, uint32_t answer,
                          const uint32_t *result, uint32_t *output) {
    slice lent[2] = {{x, buffer_length, result, result ? n : 0, output}, {NULL, scratch_length, NULL, n, NULL}};
    one_call(f, n, lent, answer);
}

/* ---- what is tested of all calls ---- */

static bool allowed(const function *f, size_t n) { return n >= f->least && n <= GREATEST && (n & (n - 1)) == 0; }

/* Slices of residues that fit a size, with as much scratch as the call could need; `window` in its place if it is given. */
static void fitting(const function *f, size_t n, const uint32_t *residues, const uint32_t *window, slice *lent) {
    bool block = f->slices == MOST_SLICES;
    for (size_t s = 0; s < f->slices; s++) lent[s] = (slice){residues + 7 * s, n, NULL, 0, NULL};
    if (block) lent[3].length = lent[4].length = 2 * n;
    if (f->slices == 1) lent[0].length = 2 * n;
    if (window) lent[block ? 3 : 0].holds = window;
}

/* Refusal 1, with lengths that fit n wherever so much can be lent. */
static void test_sizes(const function *f) {
    static uint32_t x[2 * LONGEST];
    slice lent[MOST_SLICES];
    random_residues(2 * LONGEST, x);
    for (size_t n = 0; n <= 2 * GREATEST; n++) {
        if (allowed(f, n)) continue;
        fitting(f, n, x, NULL, lent);
        one_call(f, n, lent, KULTYGASH_NO_SIZE);
    }
    /* Sizes whose lower half is an allowed size, powers of two beyond memory, and the greatest of all. */
    size_t beyond[] = {LONGEST,
                       (size_t)1 << 31,
                       (size_t)1 << 32,
                       ((size_t)1 << 32) + 1,
                       ((size_t)1 << 32) + 1024,
                       ((size_t)1 << 62) + 4,
                       (size_t)1 << 63,
                       ((size_t)1 << 63) + 4,
                       SIZE_MAX / 4 + 1 + 1024,
                       SIZE_MAX - 1023,
                       SIZE_MAX - 1,
                       SIZE_MAX};
    size_t lengths[] = {0, 1, 4, 1024};
    for (size_t i = 0; i < sizeof beyond / sizeof *beyond; i++)
        for (size_t l = 0; l < sizeof lengths / sizeof *lengths; l++) {
            fitting(f, lengths[l], x, NULL, lent);
            one_call(f, beyond[i], lent, KULTYGASH_NO_SIZE);
            /* A window and a scratch of 2n entries, where twice the size wraps to so few. */
            if (2 * beyond[i] > LONGEST) continue;
            for (size_t s = 0; s < f->slices; s++)
                if (s == 0 || s >= 3) lent[s].length = 2 * beyond[i];
            one_call(f, beyond[i], lent, KULTYGASH_NO_SIZE);
        }
}

/* Refusal 2 at an allowed size: one slice after the other is too short or too long, and two at once. */
static void test_lengths(const function *f, size_t n, size_t needed, const uint32_t *window) {
    static uint32_t x[2 * LONGEST];
    slice right[MOST_SLICES], lent[MOST_SLICES];
    size_t scratch = f->slices == 1 ? 1 : f->slices - 1;
    random_residues(2 * LONGEST, x);
    fitting(f, n, x, window, right);
    for (size_t s = 0; s < f->slices; s++) {
        size_t fits = s == scratch ? needed : right[s].length;
        size_t wrong[] = {0, fits / 2, fits - 1, fits + 1, 2 * fits, fits == n ? 4 * n : n};
        for (size_t w = 0; w < sizeof wrong / sizeof *wrong; w++) {
            /* More scratch than is needed will do, and none can be too little where none is needed. */
            if (s == scratch && (needed == 0 || wrong[w] >= needed)) continue;
            if (wrong[w] > LONGEST) continue;
            memcpy(lent, right, sizeof lent);
            lent[s].length = wrong[w];
            /* The window is one where it has its length, and else so many residues. */
            if (lent[s].holds == window) lent[s].holds = x;
            one_call(f, n, lent, KULTYGASH_NO_LENGTH);
            size_t other = (s + 1) % f->slices;
            if (other == s) continue;
            lent[other].length = 0;
            one_call(f, n, lent, KULTYGASH_NO_LENGTH);
        }
    }
}

/* Several at once: the first in the order 1, 2, 3 is given. */
static void test_order(const function *f, size_t n, size_t needed) {
    static uint32_t bad[2 * LONGEST];
    slice lent[MOST_SLICES];
    size_t bad_sizes[] = {0, 3 * n, n + 2 * GREATEST, SIZE_MAX};
    for (size_t i = 0; i < 2 * LONGEST; i++) bad[i] = UINT32_MAX;
    bad[0] = (uint32_t)p;
    for (size_t s = 0; s < 4; s++)
        for (size_t length = n - 1; length <= n + 1; length++) {
            fitting(f, length, bad, NULL, lent);
            one_call(f, bad_sizes[s], lent, KULTYGASH_NO_SIZE);
            for (size_t i = 0; i < f->slices; i++) lent[i].length = 0;
            one_call(f, bad_sizes[s], lent, KULTYGASH_NO_SIZE);
        }
    for (size_t s = 0; s < f->slices; s++) {
        bool scratch = s > 0 && s + 1 == f->slices;
        fitting(f, n, bad, NULL, lent);
        if (!scratch) {
            lent[s].length++;
            one_call(f, n, lent, KULTYGASH_NO_LENGTH);
            lent[s].length -= 2;
            one_call(f, n, lent, KULTYGASH_NO_LENGTH);
        } else if (needed) {
            lent[s].length = needed - 1;
            one_call(f, n, lent, KULTYGASH_NO_LENGTH);
        }
    }
    fitting(f, n, bad, NULL, lent);
    if (!f->fill) one_call(f, n, lent, KULTYGASH_NO_RESIDUE);
}

static const uint32_t no_residues[] = {998244353, 998244354, 2 * 998244353u, UINT32_C(1) << 31, UINT32_MAX - 1, UINT32_MAX};

enum { NO_RESIDUES = sizeof no_residues / sizeof *no_residues };

/* ---- what is tested of the transforms in place ---- */

/* Document 01's figures (a) to (j) hold of the sums of this file, and (k) and (l) of its windows. */
static void test_figures(void) {
    static const struct {
        sums *first, *then;
        size_t n;
        uint32_t x[4], result[4];
    } figures[] = {
        {dct2_sums, NULL, 1, {5}, {5}},
        {dct3_sums, NULL, 1, {1}, {499122177}},
        {dct2_sums, NULL, 2, {1, 1}, {2, 0}},
        {dct2_sums, NULL, 4, {3, 3, 3, 3}, {12, 0, 0, 0}},
        {dct3_sums, NULL, 4, {2, 0, 0, 0}, {1, 1, 1, 1}},
        {dst2_sums, NULL, 2, {1, 998244352}, {0, 2}},
        {dst3_sums, NULL, 2, {0, 2}, {1, 998244352}},
        {dct2_sums, dct3_sums, 4, {1, 2, 3, 4}, {2, 4, 6, 8}},
        {dct4_sums, dct4_sums, 4, {1, 2, 3, 4}, {2, 4, 6, 8}},
        {dct4_sums, dct4_sums, 2, {1, 0}, {1, 0}},
    };
    size_t count = sizeof figures / sizeof *figures;
    for (size_t f = 0; f < count; f++) {
        uint32_t one[4], two[4];
        figures[f].first(figures[f].n, figures[f].x, one);
        if (figures[f].then) figures[f].then(figures[f].n, one, two);
        if (memcmp(figures[f].then ? two : one, figures[f].result, figures[f].n * sizeof *one) != 0) {
            printf("the sums of this test miss document 01's figure (%c)\n", (char)('a' + f));
            exit(1);
        }
    }
    uint32_t halves[8], ones[8];
    for (size_t i = 0; i < 8; i++) halves[i] = 499122177, ones[i] = 1;
    if (!accepted_window(4, halves) || accepted_window(4, ones)) {
        printf("the windows of this test miss document 01's figure (k) or (l)\n");
        exit(1);
    }
    one_call(&window_test, 4, &(slice){halves, 8, NULL, 0, NULL}, KULTYGASH_DONE);
    one_call(&window_test, 4, &(slice){ones, 8, NULL, 0, NULL}, KULTYGASH_NO_WINDOW);
    printf("figures: all %zu hold of this test's own sums and windows\n", count + 2);
}

/* All calls on one input of a size: the sums, naive against fast, and the way back, which gives N/2 times the input. */
static void test_input(size_t n, const uint32_t *x) {
    static uint32_t result[GREATEST], outputs[TRANSFORMS][GREATEST], back[GREATEST], scaled[GREATEST];
    for (size_t c = 0; c < TRANSFORMS; c++) {
        const function *f = &transforms[c];
        if (!allowed(f, n)) continue;
        transform_sums[c](n, x, result);
        one_transform(f, n, x, n, n, KULTYGASH_DONE, result, outputs[c]);
        one_transform(f, n, x, n, n + 5, KULTYGASH_DONE, result, NULL);
        if (c % 2 == 0 || c >= PAIRED) continue;
        if (memcmp(outputs[c - 1], outputs[c], n * sizeof *result) != 0) differs(f, n, "differs from naive");
        pairs += n;
    }
    for (size_t i = 0; i < n; i++) scaled[i] = (uint32_t)(x[i] * (n * inverse(2) % p) % p);
    for (size_t c = 0; c < TRANSFORMS; c++) {
        if (undoes[c] == TRANSFORMS || !allowed(&transforms[c], n)) continue;
        one_transform(&transforms[undoes[c]], n, outputs[c], n, n, KULTYGASH_DONE, scaled, back);
        if (memcmp(back, scaled, n * sizeof *back) != 0) differs(&transforms[c], n, "is not undone up to N/2");
        undone += n;
    }
}

/* Inputs of a size: zeros, the greatest residues, one entry alone at either end, and pseudo-random residues. */
static void test_sums(size_t n) {
    static uint32_t x[GREATEST];
    memset(x, 0, sizeof x);
    test_input(n, x);
    x[0] = 1;
    test_input(n, x);
    x[0] = 0;
    x[n - 1] = (uint32_t)p - 1;
    test_input(n, x);
    for (size_t i = 0; i < n; i++) x[i] = (uint32_t)p - 1;
    test_input(n, x);
    for (int round = 0; round < 4; round++) {
        random_residues(n, x);
        test_input(n, x);
    }
    /* At small sizes every entry alone, so that a wrong term is found by its place. */
    for (size_t i = 0; n <= 32 && i < n; i++) {
        memset(x, 0, sizeof x);
        x[i] = 1;
        test_input(n, x);
    }
}

/* Refusal 3 at an allowed size: a bad entry at the first, the last and middle places; and the greatest residue there, which passes. */
static void test_residues(size_t c, size_t n) {
    static uint32_t x[GREATEST], result[GREATEST];
    const function *f = &transforms[c];
    size_t places[] = {0, n - 1, n / 2, n / 3, n > 1 ? n - 2 : 0};
    random_residues(n, x);
    for (size_t place = 0; place < sizeof places / sizeof *places; place++) {
        uint32_t kept = x[places[place]];
        for (size_t b = 0; b < NO_RESIDUES; b++) {
            x[places[place]] = no_residues[b];
            one_transform(f, n, x, n, n, KULTYGASH_NO_RESIDUE, NULL, NULL);
            one_transform(f, n, x, n, n + 5, KULTYGASH_NO_RESIDUE, NULL, NULL);
        }
        x[places[place]] = (uint32_t)p - 1;
        transform_sums[c](n, x, result);
        one_transform(f, n, x, n, n + 5, KULTYGASH_DONE, result, NULL);
        x[places[place]] = kept;
    }
    for (size_t i = 0; i < n; i++) x[i] = UINT32_MAX;
    one_transform(f, n, x, n, n, KULTYGASH_NO_RESIDUE, NULL, NULL);
}

/* ---- what is tested of windows ---- */

/* A window that is neither flat nor sine and yet accepted: the cosine and the sine of any angle stand at i and N - 1 - i. */
static void random_window(size_t n, uint32_t *w) {
    uint64_t height = root_of_two() * inverse(root_power(n, root_of_two())) % p;
    for (size_t i = 0; i < n / 2; i++) {
        uint64_t angle = word() % TURN;
        w[i] = w[2 * n - 1 - i] = (uint32_t)(cosines[angle] * height % p);
        w[n - 1 - i] = w[n + i] = (uint32_t)(sines[angle] * height % p);
    }
}

/* The answer of the test, and of MDCT and IMDCT, to residues of the right length. */
static uint32_t window_answer(size_t n, const uint32_t *w) { return accepted_window(n, w) ? KULTYGASH_DONE : KULTYGASH_NO_WINDOW; }

static void one_window(size_t n, const uint32_t *w) {
    one_call(&window_test, n, &(slice){w, 2 * n, NULL, 0, NULL}, window_answer(n, w));
}

/* Places of a window at which one entry is changed: both ends, both sides of the middle, and others. */
enum { WINDOW_PLACES = 6 };

static void window_places(size_t n, size_t *places) {
    size_t at[WINDOW_PLACES] = {0, 2 * n - 1, n - 1, n, n / 2, n + n / 3};
    memcpy(places, at, sizeof at);
}

static void test_windows(size_t n) {
    static uint32_t w[2 * GREATEST], changed[2 * GREATEST];
    size_t places[WINDOW_PLACES];
    window_places(n, places);
    for (size_t rule = 0; rule <= RULES; rule++) {
        if (rule < RULES) {
            rules[rule](n, w);
            /* What the slice held is not looked at: once it is marks, and once residues. */
            one_call(&fillings[rule], n, &(slice){NULL, 2 * n, w, 2 * n, NULL}, KULTYGASH_DONE);
            one_call(&fillings[rule], n, &(slice){w, 2 * n, w, 2 * n, NULL}, KULTYGASH_DONE);
        } else {
            random_window(n, w);
        }
        if (!accepted_window(n, w)) differs(&window_test, n, "should be given a window that is accepted");
        one_window(n, w);
        for (size_t i = 0; i < WINDOW_PLACES; i++) {
            size_t place = places[i], mirrored = 2 * n - 1 - place;
            memcpy(changed, w, 2 * n * sizeof *w);
            changed[place] = (uint32_t)((w[place] + 1) % p);
            one_window(n, changed);
            changed[mirrored] = changed[place];
            one_window(n, changed);
            /* The negative keeps the second rule: on both sides it is accepted, on one side it breaks the first rule alone. */
            changed[place] = changed[mirrored] = (uint32_t)((p - w[place]) % p);
            one_window(n, changed);
            changed[mirrored] = w[mirrored];
            one_window(n, changed);
            changed[mirrored] = changed[place];
            changed[place] = (uint32_t)p - 1;
            one_window(n, changed);
            for (size_t b = 0; b < NO_RESIDUES; b++) {
                changed[place] = no_residues[b];
                one_call(&window_test, n, &(slice){changed, 2 * n, NULL, 0, NULL}, KULTYGASH_NO_RESIDUE);
            }
        }
    }
    for (size_t i = 0; i < 2 * n; i++) changed[i] = 1;
    one_window(n, changed);
    memset(changed, 0, sizeof changed);
    one_window(n, changed);
}

/* ---- what is tested of MDCT and IMDCT ---- */

/* What is lent to an MDCT or an IMDCT of n: three slices of n, which are first, second and output or input, first and second; a window;
   and what the two ways are to leave. */
typedef struct {
    size_t n;
    uint32_t a[GREATEST], b[GREATEST], c[GREATEST], w[2 * GREATEST];
    uint32_t forth[GREATEST], first[GREATEST], second[GREATEST];
} block;

static void work_out(block *it) {
    mdct_sums(it->n, it->a, it->b, it->w, it->forth);
    imdct_sums(it->n, it->a, it->b, it->c, it->w, it->first, it->second);
}

/* What the calls left, by their ways. */
static uint32_t forth_left[BLOCKS][GREATEST], first_left[BLOCKS][GREATEST], second_left[BLOCKS][GREATEST];

static void one_mdct(size_t way, const block *it, size_t scratch_length, uint32_t answer) {
    size_t n = it->n;
    slice lent[MOST_SLICES] = {{it->a, n, NULL, 0, NULL},
                               {it->b, n, NULL, 0, NULL},
                               {it->c, n, it->forth, n, forth_left[way]},
                               {it->w, 2 * n, NULL, 0, NULL},
                               {NULL, scratch_length, NULL, parts[way] * n, NULL}};
    one_call(&mdcts[way], n, lent, answer);
}

static void one_imdct(size_t way, const block *it, size_t scratch_length, uint32_t answer) {
    size_t n = it->n;
    slice lent[MOST_SLICES] = {{it->a, n, NULL, 0, NULL},
                               {it->b, n, it->first, n, first_left[way]},
                               {it->c, n, it->second, n, second_left[way]},
                               {it->w, 2 * n, NULL, 0, NULL},
                               {NULL, scratch_length, NULL, parts[way] * n, NULL}};
    one_call(&imdcts[way], n, lent, answer);
}

/* Both calls, by both ways, with just the scratch that is needed and with more. */
static void test_block(block *it) {
    work_out(it);
    for (size_t way = 0; way < BLOCKS; way++)
        for (size_t more = 0; more <= 5; more += 5) {
            one_mdct(way, it, parts[way] * it->n + more, KULTYGASH_DONE);
            one_imdct(way, it, parts[way] * it->n + more, KULTYGASH_DONE);
        }
    size_t bytes = it->n * sizeof it->a[0];
    if (memcmp(forth_left[0], forth_left[1], bytes) != 0) differs(&mdcts[1], it->n, "differs from naive");
    if (memcmp(first_left[0], first_left[1], bytes) != 0 || memcmp(second_left[0], second_left[1], bytes) != 0)
        differs(&imdcts[1], it->n, "differs from naive");
    pairs += 3 * it->n;
}

static void random_block(block *it) {
    random_residues(it->n, it->a);
    random_residues(it->n, it->b);
    random_residues(it->n, it->c);
}

/* Under the flat, the sine and another window: zeros, one entry alone, the greatest residues, and pseudo-random residues. */
static void test_blocks(size_t n) {
    static block it;
    it.n = n;
    for (size_t rule = 0; rule <= RULES; rule++) {
        if (rule < RULES) rules[rule](n, it.w);
        else random_window(n, it.w);
        for (size_t i = 0; i < n; i++) it.a[i] = it.b[i] = it.c[i] = 0;
        test_block(&it);
        it.a[0] = 1;
        it.b[n - 1] = (uint32_t)p - 1;
        test_block(&it);
        for (size_t i = 0; i < n; i++) it.a[i] = it.b[i] = it.c[i] = (uint32_t)p - 1;
        test_block(&it);
        random_block(&it);
        test_block(&it);
        /* At small sizes every entry alone, so that a wrong term is found by its place. */
        for (size_t i = 0; n <= 16 && i < 3 * n; i++) {
            for (size_t k = 0; k < n; k++) {
                it.a[k] = i == k;
                it.b[k] = i == n + k;
                it.c[k] = i == 2 * n + k;
            }
            test_block(&it);
        }
    }
}

/* Refusal 3, one slice after the other, and then p - 1 at the same place, which passes. The MDCT's output is not looked at: whatever
   it holds passes. In the window p - 1 is a residue, but the window is then not accepted. */
static void test_block_residues(size_t n) {
    static block it, changed;
    it.n = n;
    random_block(&it);
    sine_rule(n, it.w);
    size_t places[] = {0, n - 1, n / 2};
    for (size_t s = 0; s < 4; s++)
        for (size_t i = 0; i < 3; i++) {
            memcpy(&changed, &it, sizeof it);
            uint32_t *slices[] = {changed.a, changed.b, changed.c, changed.w};
            uint32_t *entry = &slices[s][s == 3 && i > 0 ? n + places[i] : places[i]];
            for (size_t b = 0; b < NO_RESIDUES; b++) {
                *entry = no_residues[b];
                if (s == 2 && b == 0) work_out(&changed);
                for (size_t way = 0; way < BLOCKS; way++) {
                    one_mdct(way, &changed, parts[way] * n, s == 2 ? KULTYGASH_DONE : KULTYGASH_NO_RESIDUE);
                    one_imdct(way, &changed, parts[way] * n, KULTYGASH_NO_RESIDUE);
                }
            }
            *entry = (uint32_t)p - 1;
            uint32_t answer = window_answer(n, changed.w);
            if ((answer == KULTYGASH_DONE) != (s != 3)) differs(&window_test, n, "should be given another window");
            if (answer == KULTYGASH_DONE) work_out(&changed);
            for (size_t way = 0; way < BLOCKS; way++) {
                one_mdct(way, &changed, parts[way] * n + 1, answer);
                one_imdct(way, &changed, parts[way] * n + 1, answer);
            }
        }
}

/* Refusal 4: one entry of the window is off by one, or it is the negative of itself, or all are ones; and before it 3, 2 and 1, where
   these apply too. */
static void test_block_windows(size_t n) {
    static block it, changed;
    size_t places[WINDOW_PLACES];
    it.n = n;
    random_block(&it);
    flat_rule(n, it.w);
    window_places(n, places);
    for (size_t i = 0; i < WINDOW_PLACES + 2; i++) {
        memcpy(&changed, &it, sizeof it);
        if (i < WINDOW_PLACES) changed.w[places[i]]++;
        else if (i == WINDOW_PLACES) changed.w[n / 2] = (uint32_t)p - it.w[n / 2];
        else
            for (size_t k = 0; k < 2 * n; k++) changed.w[k] = 1;
        for (size_t way = 0; way < BLOCKS; way++) {
            size_t needed = parts[way] * n;
            one_mdct(way, &changed, needed, KULTYGASH_NO_WINDOW);
            one_imdct(way, &changed, needed, KULTYGASH_NO_WINDOW);
            uint32_t kept = changed.b[n / 2];
            changed.b[n / 2] = (uint32_t)p;
            one_mdct(way, &changed, needed, KULTYGASH_NO_RESIDUE);
            one_imdct(way, &changed, needed, KULTYGASH_NO_RESIDUE);
            if (needed) {
                one_mdct(way, &changed, needed - 1, KULTYGASH_NO_LENGTH);
                one_imdct(way, &changed, needed - 1, KULTYGASH_NO_LENGTH);
            }
            if (n < GREATEST) {
                changed.n = n + 1;
                one_mdct(way, &changed, needed, KULTYGASH_NO_SIZE);
                one_imdct(way, &changed, needed, KULTYGASH_NO_SIZE);
                changed.n = n;
            }
            changed.b[n / 2] = kept;
        }
    }
}

/* A curve of several segments, there and back: the MDCTs of neighbouring segments, with zeros before the first and after the last, and
   the IMDCTs of all of them added up. The segments come back as they were. */
enum { SEGMENTS = 5 };

static void test_curve(size_t n) {
    static uint32_t curve[(SEGMENTS + 2) * GREATEST], sum[(SEGMENTS + 2) * GREATEST + 2 * GUARD], coefficients[GREATEST];
    static uint32_t w[2 * GREATEST], scratch[2 * GREATEST];
    for (size_t rule = 0; rule <= RULES; rule++)
        for (size_t way = 0; way < BLOCKS; way++) {
            if (rule < RULES) {
                uint32_t answer = fillings[rule].fill(n, w, 2 * n);
                if (answer != KULTYGASH_DONE) say_answer(&fillings[rule], n, answer, KULTYGASH_DONE);
            } else {
                random_window(n, w);
            }
            memset(curve, 0, sizeof curve);
            random_residues(SEGMENTS * n, curve + n);
            size_t whole = (SEGMENTS + 2) * n;
            for (size_t i = 0; i < whole + 2 * GUARD; i++) sum[i] = GUARD <= i && i < GUARD + whole ? 0 : 7;
            for (size_t s = 0; s <= SEGMENTS; s++) {
                uint32_t *first = sum + GUARD + s * n;
                uint32_t answer = mdcts[way].mdct(n, curve + s * n, n, curve + (s + 1) * n, n, coefficients, n, w, 2 * n, scratch, 2 * n);
                if (answer != KULTYGASH_DONE) say_answer(&mdcts[way], n, answer, KULTYGASH_DONE);
                answer = imdcts[way].imdct(n, coefficients, n, first, n, first + n, n, w, 2 * n, scratch, 2 * n);
                if (answer != KULTYGASH_DONE) say_answer(&imdcts[way], n, answer, KULTYGASH_DONE);
            }
            bool same = memcmp(sum + GUARD + n, curve + n, SEGMENTS * n * sizeof *sum) == 0;
            for (size_t i = 0; i < GUARD; i++) same = same && sum[i] == 7 && sum[GUARD + whole + i] == 7;
            if (!same) differs(&imdcts[way], n, "does not give the curve back");
            curves += SEGMENTS * n;
        }
}

/* ---- all of it ---- */

static void test_refusals(const function *f, size_t needed_parts) {
    static uint32_t w[2 * GREATEST];
    test_sizes(f);
    for (size_t n = f->least; n <= GREATEST; n *= 2) {
        if (n >= 2) sine_rule(n, w);
        test_lengths(f, n, needed_parts * n, f->slices != 2 ? w : NULL);
        test_order(f, n, needed_parts * n);
    }
}

int main(void) {
    make_angles();
    test_figures();
    size_t sizes = 0;
    for (size_t n = 1; n <= GREATEST; n *= 2, sizes++) test_sums(n);
    for (size_t n = 2; n <= GREATEST; n *= 2) {
        test_windows(n);
        test_blocks(n);
        test_block_residues(n);
        test_block_windows(n);
        test_curve(n);
    }
    for (size_t c = 0; c < TRANSFORMS; c++) {
        test_refusals(&transforms[c], 1);
        for (size_t n = transforms[c].least; n <= GREATEST; n *= 2) test_residues(c, n);
    }
    for (size_t rule = 0; rule < RULES; rule++) test_refusals(&fillings[rule], 0);
    test_refusals(&window_test, 0);
    for (size_t way = 0; way < BLOCKS; way++) {
        test_refusals(&mdcts[way], parts[way]);
        test_refusals(&imdcts[way], parts[way]);
    }
    printf("sums: %lu accepted calls of %d functions at %zu sizes, %lu output entries against the defining sums\n", accepted,
           (int)FUNCTIONS, sizes, entries);
    printf("naive against fast: %lu entries; type 3 of type 2, and type 4 twice, against N/2 times the input: %lu entries\n", pairs,
           undone);
    printf("overlapped curves, there and back: %lu entries\n", curves);
    printf("refusals: %lu refused calls; after each call every lent entry and the words around them were compared\n", refused);
    printf("differences: %lu\n", differences);
    return differences != 0;
}
