/*
 * Tests the float library through its C interface, include/kultygash.h: what every call answers and what every lent entry then holds.
 * The naive calls are held to sums worked out here in the same order, bit by bit; the fast calls to the naive ones, within rounding:
 * their bits are held to rustdct's own by harness/differences. Prints what was compared and ends with 1 if anything differs.
 */
#include <kultygash.h>

#include <math.h>
#include <stdbool.h>
#include <stdio.h>
#include <stdlib.h>
#include <string.h>

enum { TURN = 8192, MOST = 1024, SPARE = 3 };

static const double PI = 3.14159265358979323846;
static double cosines[TURN], sines[TURN];
static unsigned long accepted, refused, compared, differences;

static void differs(const char *call, size_t n, const char *what) {
    if (differences++ < 20) printf("%s, n = %zu: %s\n", call, n, what);
}

/* ---- entries and tables ---- */

static uint64_t state = 1;

static double entry(void) {
    state = state * UINT64_C(6364136223846793005) + UINT64_C(1442695040888963407);
    return (double)(int64_t)(state >> 11) / 4503599627370496.0 - 1.0;
}

static double *fresh(size_t n) {
    double *x = malloc((n + SPARE) * sizeof *x);
    if (!x) exit(2);
    for (size_t i = 0; i < n + SPARE; i++) x[i] = entry();
    return x;
}

static double *copy(const double *x, size_t n) {
    double *y = malloc((n + SPARE) * sizeof *y);
    if (!y) exit(2);
    memcpy(y, x, (n + SPARE) * sizeof *y);
    return y;
}

/* entry k at (k + shift) / parts of a turn */
static double *table(double (*f)(double), size_t entries, double shift, double parts) {
    double *t = malloc((entries + SPARE) * sizeof *t);
    if (!t) exit(2);
    for (size_t k = 0; k < entries + SPARE; k++) t[k] = f(2 * PI * ((double)k + shift) / parts);
    return t;
}

static bool same_bits(const double *x, const double *y, size_t n) { return !memcmp(x, y, n * sizeof *x); }

static bool near(const double *x, const double *y, size_t n) {
    for (size_t i = 0; i < n; i++)
        if (!(fabs(x[i] - y[i]) < 1e-9)) return false;
    return true;
}

/* of scratch that had so many entries: those that were needed are +0.0, the others as they were */
static bool cleared(const double *now, const double *before, size_t needed) {
    for (size_t i = 0; i < needed; i++)
        if (now[i] != 0 || signbit(now[i])) return false;
    return same_bits(now + needed, before + needed, SPARE);
}

/* ---- in place ---- */

typedef uint32_t in_place(size_t, const double *, size_t, const double *, size_t, double *, size_t, double *, size_t);

struct pair {
    const char *name;
    in_place *naive, *fast;
    /* of output k: the first angle, and what it grows by with each term, in units of 1/(4 n) of a turn */
    size_t first, first_more, step, step_more;
    bool sine;
    /* which entry is halved: none, the first, with which the sum begins, or the last */
    enum { NONE, FIRST, LAST } halved;
};

static const struct pair pairs[] = {
    {"dct2", kultygash_float_dct2_naive, kultygash_float_dct2_fast, 0, 1, 0, 2, false, NONE},
    {"dst2", kultygash_float_dst2_naive, kultygash_float_dst2_fast, 1, 1, 2, 2, true, NONE},
    {"dct3", kultygash_float_dct3_naive, kultygash_float_dct3_fast, 0, 0, 1, 2, false, FIRST},
    {"dst3", kultygash_float_dst3_naive, kultygash_float_dst3_fast, 1, 2, 1, 2, true, LAST},
};

static void sums(const struct pair *pair, size_t n, const double *t, const double *x, double *out) {
    for (size_t k = 0; k < n; k++) {
        double sum = pair->halved == FIRST ? 0.5 * x[0] : 0.0;
        for (size_t i = pair->halved == FIRST ? 1 : 0; i < n; i++) {
            size_t place = (pair->first + k * pair->first_more + i * (pair->step + k * pair->step_more)) % (4 * n);
            double term = pair->halved == LAST && i == n - 1 ? 0.5 * x[i] : x[i];
            sum = sum + term * t[place];
        }
        out[k] = sum;
    }
}

/* a call with these sizes and lengths must be refused by `number` and leave everything as it was */
static void refuse_in_place(const char *name, in_place *call, uint32_t number, size_t n, size_t c, size_t s, size_t b, size_t z) {
    double *x = fresh(2 * MOST), *w = fresh(2 * MOST);
    double *x0 = copy(x, 2 * MOST), *w0 = copy(w, 2 * MOST);
    if (call(n, cosines, c, sines, s, x, b, w, z) != number) differs(name, n, "another answer");
    if (!same_bits(x, x0, 2 * MOST) || !same_bits(w, w0, 2 * MOST)) differs(name, n, "refused, and something changed");
    refused++;
    free(x), free(w), free(x0), free(w0);
}

static void refusals_in_place(const char *name, in_place *call, size_t n, size_t bad, size_t entries) {
    refuse_in_place(name, call, KULTYGASH_NO_SIZE, 0, 0, 0, 0, 0);
    refuse_in_place(name, call, KULTYGASH_NO_SIZE, bad, entries, entries, bad, bad);
    refuse_in_place(name, call, KULTYGASH_NO_SIZE, SIZE_MAX, entries, entries, n, n);
    refuse_in_place(name, call, KULTYGASH_NO_LENGTH, n, entries - 1, entries, n, n);
    refuse_in_place(name, call, KULTYGASH_NO_LENGTH, n, entries, entries - 1, n, n);
    refuse_in_place(name, call, KULTYGASH_NO_LENGTH, n, entries, entries, n - 1, n);
    refuse_in_place(name, call, KULTYGASH_NO_LENGTH, n, entries, entries, n + 1, n);
    refuse_in_place(name, call, KULTYGASH_NO_LENGTH, n, entries, entries, n, n - 1);
}

/* the result in a slice of its own */
static double *accept_in_place(const char *name, in_place *call, size_t n, const double *c, const double *s, size_t entries, const double *x) {
    double *y = copy(x, n), *w = fresh(n), *w0 = copy(w, n);
    if (call(n, c, entries, s, entries, y, n, w, n + SPARE) != KULTYGASH_DONE) differs(name, n, "refused");
    if (!same_bits(y + n, x + n, SPARE)) differs(name, n, "an entry past the buffer changed");
    if (!cleared(w, w0, n)) differs(name, n, "scratch is not zero where needed, or changed beyond");
    accepted++, compared += n;
    free(w), free(w0);
    return y;
}

static bool power_of_two(size_t n) { return (n & (n - 1)) == 0; }

static void test_pair(const struct pair *pair) {
    for (size_t n = 1; n <= MOST; n = n < 20 ? n + 1 : n < 64 ? 64 : n * 2) {
        double *c = table(cos, 4 * n, 0, 4.0 * (double)n), *s = table(sin, 4 * n, 0, 4.0 * (double)n);
        double *x = fresh(n), *expected = fresh(n);
        sums(pair, n, pair->sine ? s : c, x, expected);
        double *naive = accept_in_place(pair->name, pair->naive, n, c, s, 4 * n, x);
        if (!same_bits(naive, expected, n)) differs(pair->name, n, "naive: another sum");
        if (power_of_two(n)) {
            double *fast = accept_in_place(pair->name, pair->fast, n, cosines, sines, TURN, x);
            if (!near(fast, naive, n)) differs(pair->name, n, "fast and naive differ by more than rounding");
            free(fast);
        }
        free(c), free(s), free(x), free(expected), free(naive);
    }
    refusals_in_place(pair->name, pair->naive, 1023, 1025, 4 * 1023);
    refusals_in_place(pair->name, pair->fast, 64, 96, TURN);
    refuse_in_place(pair->name, pair->fast, KULTYGASH_NO_SIZE, 2048, TURN, TURN, 2048, 2048);
}

/* type 4 is its own inverse up to n/2 */
static void test_four(const char *name, in_place *call) {
    for (size_t n = 2; n <= MOST; n *= 2) {
        double *x = fresh(n);
        double *once = accept_in_place(name, call, n, cosines, sines, TURN, x);
        double *twice = accept_in_place(name, call, n, cosines, sines, TURN, once);
        for (size_t i = 0; i < n; i++) twice[i] *= 2.0 / (double)n;
        if (!near(twice, x, n)) differs(name, n, "twice is not n/2 times");
        if (near(once, x, n)) differs(name, n, "a copy");
        free(x), free(once), free(twice);
    }
    refusals_in_place(name, call, 64, 1, TURN);
    refuse_in_place(name, call, KULTYGASH_NO_SIZE, 2048, TURN, TURN, 2048, 2048);
}

/* ---- MDCT and IMDCT ---- */

/* Slices of n, n, n and 2 n entries and scratch. IMDCT writes to the second and the third, MDCT to the third. */
struct block {
    double *a, *b, *c, *w, *z;
};

static struct block make(size_t n) {
    struct block k = {fresh(n), fresh(n), fresh(n), fresh(2 * n), fresh(2 * n)};
    return k;
}

static struct block again(const struct block *k, size_t n) {
    struct block l = {copy(k->a, n), copy(k->b, n), copy(k->c, n), copy(k->w, 2 * n), copy(k->z, 2 * n)};
    return l;
}

static void drop(struct block *k) { free(k->a), free(k->b), free(k->c), free(k->w), free(k->z); }

static bool unchanged(const struct block *k, const struct block *l, size_t n) {
    return same_bits(k->a, l->a, n + SPARE) && same_bits(k->b, l->b, n + SPARE) && same_bits(k->c, l->c, n + SPARE) &&
           same_bits(k->w, l->w, 2 * n + SPARE) && same_bits(k->z, l->z, 2 * n + SPARE);
}

typedef uint32_t one_table(size_t, const double *, size_t, const struct block *, const size_t *);

static uint32_t mdct_naive(size_t n, const double *t, size_t tl, const struct block *k, const size_t *l) {
    return kultygash_float_mdct_naive(n, t, tl, k->a, l[0], k->b, l[1], k->c, l[2], k->w, l[3], k->z, l[4]);
}
static uint32_t imdct_naive(size_t n, const double *t, size_t tl, const struct block *k, const size_t *l) {
    return kultygash_float_imdct_naive(n, t, tl, k->a, l[0], k->b, l[1], k->c, l[2], k->w, l[3], k->z, l[4]);
}
/* the tables of the fast ones are the two of the whole turn, of which `tl` entries are lent */
static uint32_t mdct_fast(size_t n, const double *t, size_t tl, const struct block *k, const size_t *l) {
    return kultygash_float_mdct_fast(n, cosines, tl, t, TURN, k->a, l[0], k->b, l[1], k->c, l[2], k->w, l[3], k->z, l[4]);
}
static uint32_t imdct_fast(size_t n, const double *t, size_t tl, const struct block *k, const size_t *l) {
    return kultygash_float_imdct_fast(n, cosines, TURN, t, tl, k->a, l[0], k->b, l[1], k->c, l[2], k->w, l[3], k->z, l[4]);
}

static void refuse_block(const char *name, one_table *call, uint32_t number, size_t n, const double *t, size_t tl, const size_t *l) {
    struct block k = make(MOST), before = again(&k, MOST);
    if (call(n, t, tl, &k, l) != number) differs(name, n, "another answer");
    if (!unchanged(&k, &before, MOST)) differs(name, n, "refused, and something changed");
    refused++;
    drop(&k), drop(&before);
}

static void refusals_block(const char *name, one_table *call, size_t n, size_t bad, const double *t, size_t entries, size_t scratch) {
    size_t right[5] = {n, n, n, 2 * n, scratch}, wrong[5];
    refuse_block(name, call, KULTYGASH_NO_SIZE, 0, t, entries, right);
    refuse_block(name, call, KULTYGASH_NO_SIZE, bad, t, entries, right);
    refuse_block(name, call, KULTYGASH_NO_SIZE, SIZE_MAX, t, entries, right);
    refuse_block(name, call, KULTYGASH_NO_LENGTH, n, t, entries - 1, right);
    for (size_t i = 0; i < 5; i++) {
        if (i == 4 && !scratch) continue;
        memcpy(wrong, right, sizeof wrong), wrong[i]--;
        refuse_block(name, call, KULTYGASH_NO_LENGTH, n, t, entries, wrong);
        if (i == 4) continue;
        wrong[i] += 2;
        refuse_block(name, call, KULTYGASH_NO_LENGTH, n, t, entries, wrong);
    }
}

static void test_blocks(void) {
    for (size_t n = 2; n <= MOST; n = n < 20 ? n + 2 : n < 64 ? 64 : n * 2) {
        double *t = table(cos, 4 * n, 0.5, 4.0 * (double)n), *out = fresh(n);
        size_t l[5] = {n, n, n, 2 * n, 0}, lengths[5] = {n, n, n, 2 * n, 2 * n + SPARE};
        struct block k = make(n), before = again(&k, n), fast = again(&k, n);
        for (size_t j = 0; j < n; j++) {
            double sum = 0.0;
            for (size_t i = 0; i < 2 * n; i++)
                sum = sum + (i < n ? k.a[i] : k.b[i - n]) * k.w[i] * t[(n / 2 + j * (n + 1) + i * (2 * j + 1)) % (4 * n)];
            out[j] = sum;
        }
        if (mdct_naive(n, t, 4 * n, &k, l) != KULTYGASH_DONE) differs("mdct_naive", n, "refused");
        if (!same_bits(k.c, out, n)) differs("mdct_naive", n, "another sum");
        memcpy(before.c, out, n * sizeof *out);
        if (!unchanged(&k, &before, n)) differs("mdct_naive", n, "something else changed");
        accepted++, compared += n;
        if (power_of_two(n)) {
            if (mdct_fast(n, sines, TURN, &fast, lengths) != KULTYGASH_DONE) differs("mdct_fast", n, "refused");
            if (!near(fast.c, k.c, n)) differs("mdct_fast", n, "fast and naive differ by more than rounding");
            if (!cleared(fast.z, before.z, 2 * n)) differs("mdct_fast", n, "scratch is not zero where needed, or changed beyond");
            accepted++, compared += n;
        }
        drop(&k), drop(&before), drop(&fast);

        k = make(n), before = again(&k, n), fast = again(&k, n);
        for (size_t j = 0; j < 2 * n; j++) {
            double sum = 0.0;
            size_t m = j < n ? j : j - n < n / 2 ? j - n : 2 * n - 1 - j;
            size_t first = j < n ? n / 2 + m : 2 * n + n / 2 - 1 - m, step = j < n ? n + 2 * m + 1 : n - 1 - 2 * m;
            for (size_t i = 0; i < n; i++) sum = sum + k.a[i] * t[(first + i * step) % (4 * n)];
            double *held = j < n ? before.b + j : before.c + (j - n);
            *held = *held + sum * k.w[j];
        }
        if (imdct_naive(n, t, 4 * n, &k, l) != KULTYGASH_DONE) differs("imdct_naive", n, "refused");
        if (!unchanged(&k, &before, n)) differs("imdct_naive", n, "another sum, or something else changed");
        accepted++, compared += 2 * n;
        if (power_of_two(n)) {
            if (imdct_fast(n, sines, TURN, &fast, lengths) != KULTYGASH_DONE) differs("imdct_fast", n, "refused");
            if (!near(fast.b, k.b, n) || !near(fast.c, k.c, n)) differs("imdct_fast", n, "fast and naive differ by more than rounding");
            if (!cleared(fast.z, before.z, 2 * n)) differs("imdct_fast", n, "scratch is not zero where needed, or changed beyond");
            accepted++, compared += 2 * n;
        }
        drop(&k), drop(&before), drop(&fast), free(t), free(out);
    }
    double *t = table(cos, 4 * 22, 0.5, 4.0 * 22);
    refusals_block("mdct_naive", mdct_naive, 22, 23, t, 4 * 22, 0);
    refusals_block("imdct_naive", imdct_naive, 22, 1026, t, 4 * 22, 0);
    refusals_block("mdct_fast", mdct_fast, 64, 96, sines, TURN, 128);
    refusals_block("imdct_fast", imdct_fast, 64, 2048, sines, TURN, 128);
    free(t);
}

int main(void) {
    double *c = table(cos, TURN, 0, TURN), *s = table(sin, TURN, 0, TURN);
    memcpy(cosines, c, sizeof cosines), memcpy(sines, s, sizeof sines);
    free(c), free(s);
    for (size_t i = 0; i < sizeof pairs / sizeof *pairs; i++) test_pair(&pairs[i]);
    test_four("dct4", kultygash_float_dct4_fast);
    test_four("dst4", kultygash_float_dst4_fast);
    test_blocks();
    printf("floats: %lu accepted and %lu refused calls, %lu outputs compared, %lu differences\n", accepted, refused, compared, differences);
    return differences != 0;
}
