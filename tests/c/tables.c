/* vetchdawn_tables.h: each call on the struct against the plain call on tables of its own, which must give the same and leave the same;
 * memory that cannot be had; lists that grow; views. */
#define _POSIX_C_SOURCE 200809L
#include <stdlib.h>
#include <string.h>
#include <unistd.h>

#include "assert.h"

/* So many allocations succeed, then one does not, and those behind it do. */
static int allocations = -1;
static void *(*volatile zeros)(size_t, size_t) = calloc; /* volatile: a compiler leaves out an allocation that is not used */

static void *scarce(size_t count, size_t size)
{
    return allocations-- == 0 ? NULL : zeros(count, size);
}

#define calloc scarce
#include "vetchdawn_tables.h"
#include "vetchdawn.h"
#include "vetchdawn_tables.h"

enum { SYMBOLS = 6, PAGES = 40, NODES = 200, ROUNDS = 20000 };

static uint32_t below(uint32_t limit)
{
    static uint32_t x = 2463534242u;
    x ^= x << 13;
    x ^= x >> 17;
    x ^= x << 5;
    return x % limit;
}

static struct vetch_settings small(void)
{
    return vetch_settings_make(2, SYMBOLS, 2, PAGES, NODES, 2);
}

static void same_words(const uint32_t *one, size_t one_len, const uint32_t *other, size_t other_len)
{
    ASSERT_EQ(one_len, other_len);
    ASSERT(memcmp(one, other, one_len * sizeof *one) == 0);
}

static void same(const struct vetch_tables *one, const struct vetch_tables *other)
{
    same_words(one->settings, one->settings_len, other->settings, other->settings_len);
    same_words(one->nodes, one->nodes_len, other->nodes, other->nodes_len);
    same_words(one->pages, one->pages_len, other->pages, other->pages_len);
    same_words(one->working, one->working_len, other->working, other->working_len);
    ASSERT_EQ(one->sketches_len, other->sketches_len);
    ASSERT(memcmp(one->sketches, other->sketches, one->sketches_len) == 0);
}

/* An index by the struct, its twin by plain calls, and the lists of a search. */
struct twins {
    struct vetch_tables t, u;
    struct vetch_hits hits;
    uint16_t output[PAGES], distances[PAGES];
    uint8_t sketch[SYMBOLS];
};

static void draw(struct twins *w)
{
    for (int i = 0; i < SYMBOLS; i++)
        w->sketch[i] = (uint8_t)below(below(20) == 0 ? 5 : 3);
}

static void add(struct twins *w)
{
    struct vetch_tables *u = &w->u;
    uint32_t page = below(PAGES + 2), class_number = below(66);
    size_t length = SYMBOLS - (below(20) == 0);
    draw(w);
    ASSERT_EQ(vetch_tables_add(&w->t, page, class_number, w->sketch, length),
              vetch_add(u->settings, u->settings_len, u->nodes, u->nodes_len, u->pages, u->pages_len, u->sketches, u->sketches_len, page,
                        class_number, w->sketch, length));
}

static void drop(struct twins *w)
{
    struct vetch_tables *u = &w->u;
    uint32_t page = below(PAGES + 2);
    ASSERT_EQ(vetch_tables_drop(&w->t, page), vetch_drop(u->settings, u->settings_len, u->nodes, u->nodes_len, u->pages, u->pages_len,
                                                         u->sketches, u->sketches_len, page));
}

static void rights(struct twins *w)
{
    uint32_t reader = below(4), group = below(4), class_number = below(66), wide = below(34);
    uint32_t *settings = w->u.settings;
    size_t length = w->u.settings_len;
    ASSERT_EQ(vetch_tables_join(&w->t, reader, wide), vetch_join(settings, length, reader, wide));
    ASSERT_EQ(vetch_tables_join(&w->t, reader, group), vetch_join(settings, length, reader, group));
    ASSERT_EQ(vetch_tables_grant(&w->t, group, class_number), vetch_grant(settings, length, group, class_number));
    if (below(8) == 0)
        ASSERT_EQ(vetch_tables_leave(&w->t, reader, group), vetch_leave(settings, length, reader, group));
    if (below(8) == 0)
        ASSERT_EQ(vetch_tables_revoke(&w->t, group, class_number), vetch_revoke(settings, length, group, class_number));
}

/* The same lists, by the struct with lists lent and with lists that grow. */
static void search(struct twins *w)
{
    struct vetch_tables *u = &w->u;
    uint32_t reader = below(5), radius = below(6), count, counted;
    uint16_t output[PAGES], distances[PAGES];
    size_t places = below(PAGES), others = below(PAGES);
    uint32_t number;
    draw(w);
    memset(output, 0, sizeof output);
    memset(distances, 0, sizeof distances);
    memset(w->output, 0, sizeof w->output);
    memset(w->distances, 0, sizeof w->distances);
    number = vetch_search(u->settings, u->settings_len, u->nodes, u->nodes_len, u->pages, u->pages_len, u->sketches, u->sketches_len,
                          u->working, u->working_len, reader, radius, w->sketch, SYMBOLS, output, places, distances, others, &count);
    ASSERT_EQ(vetch_tables_search(&w->t, reader, radius, w->sketch, SYMBOLS, w->output, places, w->distances, others, &counted), number);
    ASSERT_EQ(counted, count);
    ASSERT(memcmp(output, w->output, sizeof output) == 0 && memcmp(distances, w->distances, sizeof distances) == 0);
    ASSERT_EQ(vetch_tables_search_all(&w->t, reader, radius, w->sketch, SYMBOLS, &w->hits), number == 13 ? 0 : number);
    ASSERT_EQ(w->hits.count, count);
    ASSERT(w->hits.places >= count);
    if (number == 0 && count != 0)
        ASSERT(memcmp(output, w->hits.pages, 2 * count) == 0 && memcmp(distances, w->hits.distances, 2 * count) == 0);
}

static void show(struct twins *w)
{
    struct vetch_tables *u = &w->u;
    uint32_t reader = below(5), page = below(PAGES + 2), start, length;
    const uint8_t *row = w->sketch;
    size_t row_len = 99;
    uint32_t number = vetch_show(u->settings, u->settings_len, u->pages, u->pages_len, u->sketches, u->sketches_len, reader, page, &start,
                                 &length);
    ASSERT_EQ(vetch_tables_show(&w->t, reader, page, &row, &row_len), number);
    ASSERT_EQ(row_len, number == 0 ? SYMBOLS : 0);
    ASSERT(row == (number == 0 ? w->t.sketches + SYMBOLS * page : NULL));
}

/* The working table need not be zero. The state of a root, word N of the nodes, is never 0. */
static void check(struct twins *w)
{
    struct vetch_tables *u = &w->u;
    uint32_t sound = 9, said = 9, root = w->t.nodes[NODES];
    memset(w->t.working, 1, w->t.working_len * sizeof *w->t.working);
    ASSERT_EQ(vetch_tables_check(&w->t, &sound),
              vetch_check(u->settings, u->settings_len, u->nodes, u->nodes_len, u->pages, u->pages_len, u->sketches, u->sketches_len,
                          u->working, u->working_len, &said));
    ASSERT(sound == 1 && said == 1);
    w->t.nodes[NODES] = 0;
    ASSERT_EQ(vetch_tables_check(&w->t, &sound), VETCH_ACCEPTED);
    ASSERT_EQ(sound, 0);
    w->t.nodes[NODES] = root;
}

/* Opening anew by the struct and by the plain call. */
static void reopen(struct twins *w)
{
    struct vetch_settings s = small();
    struct vetch_tables *u = &w->u;
    s.thresholds[0] = (uint16_t)below(4);
    s.thresholds[1] = (uint16_t)below(4);
    ASSERT_EQ(vetch_tables_open(&w->t, &s),
              vetch_open(u->settings, u->settings_len, u->nodes, u->nodes_len, u->pages, u->pages_len, u->sketches, u->sketches_len, u->working,
                         u->working_len, s.b, s.m, s.q, s.page_capacity, s.node_capacity, s.thresholds, VETCH_THRESHOLDS));
}

static void calls_as_plain(void)
{
    void (*const calls[])(struct twins *) = { add, add, add, add, drop, rights, search, search, show, check };
    struct vetch_settings s = small();
    static struct twins w;
    ASSERT_EQ(vetch_tables_new(&w.t, &s), VETCH_ACCEPTED);
    ASSERT_EQ(vetch_tables_alloc(&w.u, &s), VETCH_ACCEPTED);
    reopen(&w);
    for (int round = 0; round < ROUNDS; round++) {
        if (round % 1000 == 999)
            reopen(&w);
        else
            calls[below(sizeof calls / sizeof *calls)](&w);
        same(&w.t, &w.u);
    }
    vetch_hits_free(&w.hits);
    vetch_tables_free(&w.t);
    vetch_tables_free(&w.u);
}

static int has_none(const struct vetch_tables *t)
{
    static const struct vetch_tables none = { NULL, 0, NULL, 0, NULL, 0, NULL, 0, NULL, 0 };
    return memcmp(t, &none, sizeof none) == 0;
}

static void refused_settings(void)
{
    struct vetch_settings s = small();
    struct vetch_tables t;
    s.q = 0;
    memset(&t, 1, sizeof t);
    ASSERT_EQ(vetch_tables_new(&t, &s), VETCH_BAD_SETTINGS);
    ASSERT(has_none(&t));
    vetch_tables_free(&t);
}

/* The first of five tables that cannot be had, the second, .. */
static void no_memory_for_tables(void)
{
    struct vetch_settings s = small();
    for (int had = 0; had < 5; had++) {
        struct vetch_tables t;
        allocations = had;
        ASSERT_EQ(vetch_tables_new(&t, &s), VETCH_NO_MEMORY);
        ASSERT(has_none(&t));
    }
    allocations = -1;
}

/* Ten equal pages, then lists without memory, with memory for one list, and with enough. */
static void lists(void)
{
    struct vetch_settings s = small();
    struct vetch_tables t;
    struct vetch_hits hits = { 0 };
    const uint8_t sketch[SYMBOLS] = { 1, 2, 3, 3, 2, 1 };
    ASSERT_EQ(vetch_tables_new(&t, &s), VETCH_ACCEPTED);
    ASSERT_EQ(vetch_tables_join(&t, 1, 2), VETCH_ACCEPTED);
    ASSERT_EQ(vetch_tables_grant(&t, 2, 3), VETCH_ACCEPTED);
    for (uint32_t page = 0; page < 10; page++)
        ASSERT_EQ(vetch_tables_add(&t, page, 3, sketch, SYMBOLS), VETCH_ACCEPTED);
    for (int had = 0; had < 2; had++) {
        allocations = had;
        ASSERT_EQ(vetch_tables_search_all(&t, 1, 0, sketch, SYMBOLS, &hits), VETCH_NO_MEMORY);
        ASSERT_EQ(hits.count, 0);
    }
    allocations = -1;
    ASSERT_EQ(vetch_tables_search_all(&t, 1, 0, sketch, SYMBOLS, &hits), VETCH_ACCEPTED);
    ASSERT_EQ(hits.count, 10);
    ASSERT_EQ(hits.places, 10);
    ASSERT_EQ(vetch_tables_add(&t, 10, 3, sketch, SYMBOLS), VETCH_ACCEPTED);
    ASSERT_EQ(vetch_tables_search_all(&t, 1, 0, sketch, SYMBOLS, &hits), VETCH_ACCEPTED);
    ASSERT_EQ(hits.count, 11);
    ASSERT_EQ(hits.places, 20);
    ASSERT_EQ(vetch_tables_search_all(&t, 1, 65, sketch, SYMBOLS, &hits), VETCH_OUT_OF_RANGE);
    ASSERT_EQ(hits.count, 0);
    allocations = 1;
    ASSERT_EQ(vetch_hits_replace(&hits, 30), VETCH_NO_MEMORY);
    ASSERT_EQ(hits.places, 20);
    hits.count = 1;
    ASSERT_EQ(vetch_hits_replace(&hits, 30), VETCH_ACCEPTED);
    ASSERT(hits.places == 30 && hits.count == 0);
    vetch_hits_free(&hits);
    ASSERT(hits.pages == NULL && hits.distances == NULL && hits.places == 0 && hits.count == 0);
    vetch_tables_free(&t);
}

/* A view has the tables and a working table of its own. */
static void views(void)
{
    struct vetch_settings s = small();
    struct vetch_tables t, view, other;
    uint32_t sound;
    ASSERT_EQ(vetch_tables_new(&t, &s), VETCH_ACCEPTED);
    allocations = 0;
    ASSERT_EQ(vetch_tables_view(&view, &t), VETCH_NO_MEMORY);
    ASSERT(has_none(&view));
    allocations = -1;
    ASSERT_EQ(vetch_tables_view(&view, &t), VETCH_ACCEPTED);
    ASSERT(view.working != t.working);
    other = view;
    other.working = t.working;
    ASSERT(memcmp(&other, &t, sizeof t) == 0);
    memset(t.working, 1, t.working_len * sizeof *t.working);
    ASSERT_EQ(vetch_tables_check(&view, &sound), VETCH_ACCEPTED);
    ASSERT_EQ(sound, 1);
    ASSERT_EQ(t.working[0], 0x01010101);
    vetch_tables_view_free(&view);
    ASSERT(has_none(&view));
    vetch_tables_free(&t);
    ASSERT(has_none(&t));
}

/* What is asked for, and tables as long as vetch_lengths says. */
static void settings_and_lengths(void)
{
    struct vetch_settings s = vetch_settings_make(2, 6, 3, 40, 200, 7);
    struct vetch_tables t;
    uint32_t settings, nodes, pages, sketches, working;
    ASSERT(s.b == 2 && s.m == 6 && s.q == 3 && s.page_capacity == 40 && s.node_capacity == 200);
    for (int level = 0; level < VETCH_THRESHOLDS; level++)
        ASSERT_EQ(s.thresholds[level], 7);
    ASSERT_EQ(vetch_lengths(2, 6, 3, 40, 200, &settings, &nodes, &pages, &sketches, &working), VETCH_ACCEPTED);
    ASSERT_EQ(vetch_tables_alloc(&t, &s), VETCH_ACCEPTED);
    ASSERT(t.settings_len == settings && t.nodes_len == nodes && t.pages_len == pages && t.sketches_len == sketches && t.working_len == working);
    vetch_tables_free(&t);
}

/* Each call hands on the length of each table: one table too short is refused by 5 or 6 where the call is lent it. */
static void short_tables(void)
{
    struct vetch_settings s = small();
    struct vetch_tables t;
    struct vetch_hits hits = { 0 };
    const uint8_t sketch[SYMBOLS] = { 1 };
    uint32_t count;
    ASSERT_EQ(vetch_tables_new(&t, &s), VETCH_ACCEPTED);
    for (int table = 0; table < 5; table++) {
        struct vetch_tables u = t;
        size_t *const lengths[] = { &u.settings_len, &u.nodes_len, &u.pages_len, &u.sketches_len, &u.working_len };
        const uint32_t refused = table == 0 ? VETCH_SHORT_TABLE : VETCH_NO_OPENING;
        const uint32_t settings = table == 0 ? VETCH_SHORT_TABLE : VETCH_ACCEPTED;
        const uint8_t *row;
        size_t row_len;
        uint32_t sound;
        --*lengths[table];
        ASSERT_EQ(vetch_tables_open(&u, &s), VETCH_SHORT_TABLE);
        ASSERT_EQ(vetch_tables_join(&u, 0, 0), settings);
        ASSERT_EQ(vetch_tables_leave(&u, 0, 0), settings);
        ASSERT_EQ(vetch_tables_grant(&u, 0, 0), settings);
        ASSERT_EQ(vetch_tables_revoke(&u, 0, 0), settings);
        ASSERT_EQ(vetch_tables_add(&u, PAGES, 0, sketch, SYMBOLS), table == 4 ? VETCH_NO_SUCH_PAGE : refused);
        ASSERT_EQ(vetch_tables_drop(&u, PAGES), table == 4 ? VETCH_NO_SUCH_PAGE : refused);
        ASSERT_EQ(vetch_tables_show(&u, 0, PAGES, &row, &row_len), table == 1 || table == 4 ? VETCH_NO_SUCH_PAGE : refused);
        ASSERT_EQ(vetch_tables_search_all(&u, 0, 0, sketch, SYMBOLS, &hits), refused);
        ASSERT_EQ(vetch_tables_check(&u, &sound), refused);
    }
    ASSERT_EQ(vetch_tables_search(&t, 0, 0, sketch, SYMBOLS - 1, NULL, 0, NULL, 0, &count), VETCH_BAD_LENGTH);
    ASSERT_EQ(vetch_tables_search_all(&t, 0, 0, sketch, SYMBOLS - 1, &hits), VETCH_BAD_LENGTH);
    vetch_tables_free(&t);
}

int main(void)
{
    alarm(60); /* a list that grows without end fails too */
    settings_and_lengths();
    short_tables();
    calls_as_plain();
    refused_settings();
    no_memory_for_tables();
    lists();
    views();
    return 0;
}
