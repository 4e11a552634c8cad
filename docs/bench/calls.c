/* Each call of the C interface in a loop, for an instruction count: `docs/bench/compare calls OLD.a NEW.a` runs it under valgrind with either
 * archive and reads the inclusive cost of each function case_*. A line for each case: its name, how many calls, and a sum of what they
 * answered. Sketches are from a fixed row of numbers, half of them near one of 64 others, so that two runs do the same. */
#include <inttypes.h>
#include <stdio.h>
#include <stdlib.h>
#include <string.h>

#include "vetchdawn.h"

#define APART __attribute__((noinline))

enum { PAGES = 4000, NODES = 60000, QUERIES = 20, READER = 7 };

struct index {
    uint32_t b, m, q;
    uint32_t settings_len, nodes_len, pages_len, sketches_len, working_len;
    uint32_t *settings, *nodes, *pages, *working;
    uint8_t *sketches, *given, *queries;
};

static uint16_t thresholds[VETCH_THRESHOLDS], output[PAGES], distances[PAGES];

static uint64_t state = 88172645463325252u;

static uint32_t next(void)
{
    state ^= state << 13;
    state ^= state >> 7;
    state ^= state << 17;
    return (uint32_t)(state >> 16);
}

static void need(int holds, const char *what)
{
    if (!holds) {
        fprintf(stderr, "%s\n", what);
        exit(1);
    }
}

static void told(const char *name, uint32_t b, int calls, uint64_t sum)
{
    printf("%s_%" PRIu32 " %d %" PRIu64 "\n", name, b, calls, sum);
}

/* A random sketch; every other one a copy of an earlier one with few symbols changed. */
static void draw(const struct index *x, uint8_t *all, uint32_t i, uint32_t from)
{
    uint8_t *sketch = all + (size_t)i * x->m;
    uint32_t k;
    for (k = 0; k < x->m; k++) sketch[k] = (uint8_t)(next() & ((1u << x->b) - 1));
    if (i % 2 == 1 && from > 0) {
        memcpy(sketch, x->given + (size_t)(next() % from) * x->m, x->m);
        for (k = next() % 5; k > 0; k--) sketch[next() % x->m] = (uint8_t)(next() & ((1u << x->b) - 1));
    }
    sketch[0] |= 1;
}

static struct index make(uint32_t b, uint32_t m, uint32_t q)
{
    struct index x = {0};
    uint32_t i;
    x.b = b;
    x.m = m;
    x.q = q;
    need(vetch_lengths(b, m, q, PAGES, NODES, &x.settings_len, &x.nodes_len, &x.pages_len, &x.sketches_len, &x.working_len) == 0, "lengths");
    x.settings = calloc(x.settings_len, 4);
    x.nodes = calloc(x.nodes_len, 4);
    x.pages = calloc(x.pages_len, 4);
    x.working = calloc(x.working_len, 4);
    x.sketches = calloc(x.sketches_len, 1);
    x.given = calloc(PAGES, m);
    x.queries = calloc(QUERIES, m);
    for (i = 0; i < PAGES; i++) draw(&x, x.given, i, i < 64 ? i : 64);
    for (i = 0; i < QUERIES; i++) draw(&x, x.queries, i, 64);
    return x;
}

static uint32_t open_it(struct index *x)
{
    return vetch_open(x->settings, x->settings_len, x->nodes, x->nodes_len, x->pages, x->pages_len, x->sketches, x->sketches_len, x->working,
                      x->working_len, x->b, x->m, x->q, PAGES, NODES, thresholds, VETCH_THRESHOLDS);
}

#define STORE x->settings, x->settings_len, x->nodes, x->nodes_len, x->pages, x->pages_len, x->sketches, x->sketches_len

static uint64_t add_from(struct index *x, uint32_t first, uint32_t end)
{
    uint64_t sum = 0;
    uint32_t p;
    for (p = first; p < end; p++) sum = sum * 3 + vetch_add(STORE, p, p % 64, x->given + (size_t)p * x->m, x->m);
    return sum;
}

static uint64_t drop_from(struct index *x, uint32_t first, uint32_t end)
{
    uint64_t sum = 0;
    uint32_t p;
    for (p = first; p < end; p++) sum = sum * 3 + vetch_drop(STORE, p);
    return sum;
}

static uint64_t search_all(struct index *x, uint32_t radius)
{
    uint64_t sum = 0;
    uint32_t i, k, count;
    for (i = 0; i < QUERIES; i++) {
        sum = sum * 31 + vetch_search(STORE, x->working, x->working_len, READER, radius, x->queries + (size_t)i * x->m, x->m, output, PAGES,
                                      distances, PAGES, &count);
        sum = sum * 31 + count;
        for (k = 0; k < count; k += 7) sum = sum * 31 + output[k] * 65u + distances[k];
    }
    return sum;
}

static uint64_t change_all(struct index *x, uint32_t (*call)(uint32_t *, size_t, uint32_t, uint32_t), uint32_t firsts, uint32_t seconds)
{
    uint64_t sum = 0;
    uint32_t i;
    for (i = 0; i < 1000; i++) sum = sum * 3 + call(x->settings, x->settings_len, i * 7 % firsts, i * 5 % seconds);
    return sum;
}

/* The cases of an index of b bits: the functions' names end in b. */
#define CASES(B)                                                                                                                     \
    static APART uint64_t case_open_##B(struct index *x) { uint64_t s = 0; int i; for (i = 0; i < 10; i++) s += open_it(x); return s; } \
    static APART uint64_t case_add_##B(struct index *x) { return add_from(x, 0, PAGES); }                                            \
    static APART uint64_t case_add_live_##B(struct index *x) { return add_from(x, 0, 1000); }                                        \
    static APART uint64_t case_drop_##B(struct index *x) { return drop_from(x, 0, 2000); }                                           \
    static APART uint64_t case_drop_missing_##B(struct index *x) { return drop_from(x, 0, 1000); }                                   \
    static APART uint64_t case_search_zero_##B(struct index *x) { return search_all(x, 0); }                                         \
    static APART uint64_t case_search_exact_##B(struct index *x) { return search_all(x, x->q - 1); }                                 \
    static APART uint64_t case_search_one_##B(struct index *x) { return search_all(x, x->q); }                                       \
    static APART uint64_t case_search_two_##B(struct index *x) { return search_all(x, 2 * x->q); }                                   \
    static APART uint64_t case_search_whole_##B(struct index *x) { return search_all(x, x->m); }                                     \
    static APART uint64_t case_check_##B(struct index *x)                                                                            \
    {                                                                                                                                \
        uint64_t s = 0;                                                                                                              \
        uint32_t sound;                                                                                                              \
        int i;                                                                                                                       \
        for (i = 0; i < 2; i++) s = s * 31 + vetch_check(STORE, x->working, x->working_len, &sound) * 2 + sound;                     \
        return s;                                                                                                                    \
    }                                                                                                                                \
    static APART uint64_t case_show_##B(struct index *x)                                                                             \
    {                                                                                                                                \
        uint64_t s = 0;                                                                                                              \
        uint32_t p, start, length;                                                                                                   \
        for (p = 0; p < 1000; p++) {                                                                                                 \
            s = s * 31 + vetch_show(x->settings, x->settings_len, x->pages, x->pages_len, x->sketches, x->sketches_len, READER,      \
                                    p * 4, &start, &length);                                                                         \
            s = s * 31 + start + length;                                                                                             \
        }                                                                                                                            \
        return s;                                                                                                                    \
    }                                                                                                                                \
    static APART uint64_t case_measure_##B(struct index *x)                                                                          \
    {                                                                                                                                \
        uint64_t s = 0;                                                                                                              \
        uint32_t p, d;                                                                                                               \
        for (p = 0; p < 1000; p++) {                                                                                                 \
            s = s * 3 + vetch_measure(x->b, x->m, x->given + (size_t)p * x->m, x->m, x->given + (size_t)(p + 1) * x->m, x->m, &d);   \
            s = s * 31 + d;                                                                                                          \
        }                                                                                                                            \
        return s;                                                                                                                    \
    }                                                                                                                                \
    static APART uint64_t case_pack_##B(struct index *x, uint8_t *out)                                                               \
    {                                                                                                                                \
        uint64_t s = 0;                                                                                                              \
        uint32_t p, length;                                                                                                          \
        for (p = 0; p < 1000; p++) {                                                                                                 \
            s = s * 3 + vetch_pack(x->b, x->m, x->given + (size_t)p * x->m, x->m, out, 64, &length);                                 \
            s = s * 31 + length + out[p % length];                                                                                   \
        }                                                                                                                            \
        return s;                                                                                                                    \
    }                                                                                                                                \
    static APART uint64_t case_unpack_##B(struct index *x, const uint8_t *bytes, uint8_t *out)                                       \
    {                                                                                                                                \
        uint64_t s = 0;                                                                                                              \
        uint32_t p, length;                                                                                                          \
        for (p = 0; p < 1000; p++) {                                                                                                 \
            s = s * 3 + vetch_unpack(x->b, x->m, bytes, x->m * x->b / 8, out, 64, &length);                                          \
            s = s * 31 + length + out[p % x->m];                                                                                     \
        }                                                                                                                            \
        return s;                                                                                                                    \
    }                                                                                                                                \
    static void run_##B(uint32_t m, uint32_t q)                                                                                      \
    {                                                                                                                                \
        struct index it = make(B, m, q), *x = &it;                                                                                   \
        uint8_t bytes[64], out[64];                                                                                                  \
        uint32_t g, c, length;                                                                                                       \
        told("open", B, 10, case_open_##B(x));                                                                                       \
        for (g = 0; g < 8; g++) vetch_join(x->settings, x->settings_len, READER, g);                                                 \
        for (c = 0; c < 36; c++) vetch_grant(x->settings, x->settings_len, c % 8, c);                                                \
        told("add", B, PAGES, case_add_##B(x));                                                                                      \
        told("add_live", B, 1000, case_add_live_##B(x));                                                                             \
        told("search_zero", B, QUERIES, case_search_zero_##B(x));                                                                    \
        told("search_exact", B, QUERIES, case_search_exact_##B(x));                                                                  \
        told("search_one", B, QUERIES, case_search_one_##B(x));                                                                      \
        told("search_two", B, QUERIES, case_search_two_##B(x));                                                                      \
        told("search_whole", B, QUERIES, case_search_whole_##B(x));                                                                  \
        told("check", B, 2, case_check_##B(x));                                                                                      \
        told("show", B, 1000, case_show_##B(x));                                                                                     \
        told("measure", B, 1000, case_measure_##B(x));                                                                               \
        told("pack", B, 1000, case_pack_##B(x, out));                                                                                \
        vetch_pack(B, m, x->given, m, bytes, 64, &length);                                                                           \
        told("unpack", B, 1000, case_unpack_##B(x, bytes, out));                                                                     \
        told("drop", B, 2000, case_drop_##B(x));                                                                                     \
        told("drop_missing", B, 1000, case_drop_missing_##B(x));                                                                     \
    }

CASES(1)
CASES(2)
CASES(4)
CASES(8)

/* The register is the same for any b. */
static APART uint64_t case_join_0(struct index *x) { return change_all(x, vetch_join, VETCH_READERS, VETCH_GROUPS); }
static APART uint64_t case_grant_0(struct index *x) { return change_all(x, vetch_grant, VETCH_GROUPS, VETCH_CLASSES); }
static APART uint64_t case_revoke_0(struct index *x) { return change_all(x, vetch_revoke, VETCH_GROUPS, VETCH_CLASSES); }
static APART uint64_t case_leave_0(struct index *x) { return change_all(x, vetch_leave, VETCH_READERS, VETCH_GROUPS); }
static APART uint64_t case_join_refused_0(struct index *x) { return change_all(x, vetch_join, 1000, VETCH_GROUPS); }

static APART uint64_t case_form_0(void)
{
    static const uint8_t letters[] = "IADJLGRSX";
    uint8_t bytes[80] = {0};
    uint64_t sum = 0;
    int i;
    for (i = 0; i < 900; i++) {
        bytes[0] = letters[i % 9];
        sum = sum * 5 + vetch_form(64, i % 9 == 0, bytes, sizeof bytes);
    }
    return sum;
}

static APART uint64_t case_lengths_0(void)
{
    uint32_t s, n, p, k, w, i;
    uint64_t sum = 0;
    for (i = 0; i < 1000; i++) {
        sum = sum * 3 + vetch_lengths(1 + i % 9, 64, 4, PAGES, NODES, &s, &n, &p, &k, &w);
        sum = sum * 31 + s + n + p + k + w;
    }
    return sum;
}

int main(void)
{
    struct index it, *x = &it;
    int i;
    for (i = 0; i < VETCH_THRESHOLDS; i++) thresholds[i] = 16;
    run_1(64, 8);
    run_2(64, 4);
    run_4(32, 4);
    run_8(32, 4);
    it = make(4, 32, 4);
    open_it(x);
    told("join", 0, 1000, case_join_0(x));
    told("grant", 0, 1000, case_grant_0(x));
    told("join_refused", 0, 1000, case_join_refused_0(x));
    told("revoke", 0, 1000, case_revoke_0(x));
    told("leave", 0, 1000, case_leave_0(x));
    told("form", 0, 900, case_form_0());
    told("lengths", 0, 1000, case_lengths_0());
    return 0;
}
