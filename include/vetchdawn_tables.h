/* Vetchdawn with the five tables in one struct. A C99 header over vetchdawn.h,
 * with nothing of its own to link. vetchdawn.h says what the calls do and what
 * they answer; the calls on sketches alone and on the form of a journal command
 * take no tables, and are called as they stand there.
 *
 *     struct vetch_settings s = vetch_settings_make(4, 32, 4, 5000, 40000, 8);
 *     struct vetch_tables t;
 *     struct vetch_hits hits = { 0 };
 *     uint32_t number = vetch_tables_new(&t, &s);
 *     ..
 *     number = vetch_tables_search_all(&t, reader, 3, sketch, 32, &hits);
 *     ..
 *     vetch_hits_free(&hits);
 *     vetch_tables_free(&t);
 */
#ifndef VETCHDAWN_TABLES_H
#define VETCHDAWN_TABLES_H

#if !defined(__cplusplus) && !(defined(__STDC_VERSION__) && __STDC_VERSION__ >= 199901L)
#error "vetchdawn_tables.h is for C99 and later, and for C++; vetchdawn.h for C89 too"
#endif

#include <stdlib.h>
#include <string.h>

#include "vetchdawn.h"

/* ---- Settings of an opening */

struct vetch_settings {
    uint32_t b; /* bits a symbol */
    uint32_t m; /* symbols a sketch */
    uint32_t q; /* blocks */
    uint32_t page_capacity;
    uint32_t node_capacity;
    uint16_t thresholds[VETCH_THRESHOLDS]; /* by level */
};

/* Settings with one threshold for all levels. */
static inline struct vetch_settings
vetch_settings_make(uint32_t b, uint32_t m, uint32_t q, uint32_t page_capacity,
                    uint32_t node_capacity, uint16_t threshold)
{
    struct vetch_settings s;
    s.b = b;
    s.m = m;
    s.q = q;
    s.page_capacity = page_capacity;
    s.node_capacity = node_capacity;
    for (int level = 0; level < VETCH_THRESHOLDS; level++)
        s.thresholds[level] = threshold;
    return s;
}

/* ---- The tables, each with its count of elements. The fields may be read, and
 * set to memory of another kind, shared or mapped from a file. */

struct vetch_tables {
    uint32_t *settings;
    size_t settings_len;
    uint32_t *nodes;
    size_t nodes_len;
    uint32_t *pages;
    size_t pages_len;
    uint8_t *sketches;
    size_t sketches_len;
    uint32_t *working;
    size_t working_len;
};

/* Frees tables that vetch_tables_alloc or vetch_tables_new has given; the struct
 * has no tables then. */
static inline void vetch_tables_free(struct vetch_tables *t)
{
    free(t->settings);
    free(t->nodes);
    free(t->pages);
    free(t->sketches);
    free(t->working);
    memset(t, 0, sizeof *t);
}

/* Tables of zeros, as long as these settings need them. They show no opening:
 * open them, or load into them what was saved. What the struct held before is not
 * freed. 4, or VETCH_NO_MEMORY; the struct has no tables then. */
static inline uint32_t vetch_tables_alloc(struct vetch_tables *t,
                                          const struct vetch_settings *s)
{
    uint32_t settings, nodes, pages, sketches, working, number;
    memset(t, 0, sizeof *t);
    (void)vetch_version(); /* another major version does not link */
    number = vetch_lengths(s->b, s->m, s->q, s->page_capacity, s->node_capacity,
                           &settings, &nodes, &pages, &sketches, &working);
    if (number != VETCH_ACCEPTED)
        return number;
    t->settings = (uint32_t *)calloc(settings, sizeof *t->settings);
    t->nodes = (uint32_t *)calloc(nodes, sizeof *t->nodes);
    t->pages = (uint32_t *)calloc(pages, sizeof *t->pages);
    t->sketches = (uint8_t *)calloc(sketches, sizeof *t->sketches);
    t->working = (uint32_t *)calloc(working, sizeof *t->working);
    if (!t->settings || !t->nodes || !t->pages || !t->sketches || !t->working) {
        vetch_tables_free(t);
        return VETCH_NO_MEMORY;
    }
    t->settings_len = settings;
    t->nodes_len = nodes;
    t->pages_len = pages;
    t->sketches_len = sketches;
    t->working_len = working;
    return VETCH_ACCEPTED;
}

/* Opens an index in these tables, whatever they held. */
static inline uint32_t vetch_tables_open(struct vetch_tables *t,
                                         const struct vetch_settings *s)
{
    return vetch_open(t->settings, t->settings_len, t->nodes, t->nodes_len,
                      t->pages, t->pages_len, t->sketches, t->sketches_len,
                      t->working, t->working_len, s->b, s->m, s->q,
                      s->page_capacity, s->node_capacity, s->thresholds,
                      VETCH_THRESHOLDS);
}

/* An index in tables of its own: vetch_tables_alloc and vetch_tables_open. */
static inline uint32_t vetch_tables_new(struct vetch_tables *t,
                                        const struct vetch_settings *s)
{
    uint32_t number = vetch_tables_alloc(t, s);
    return number != VETCH_ACCEPTED ? number : vetch_tables_open(t, s);
}

/* The same tables with a working table of its own: one for each thread that
 * searches while others do. VETCH_NO_MEMORY; the view has no tables then. Free it
 * before the tables, by vetch_tables_view_free. */
static inline uint32_t vetch_tables_view(struct vetch_tables *view,
                                         const struct vetch_tables *t)
{
    *view = *t;
    view->working = (uint32_t *)calloc(t->working_len, sizeof *view->working);
    if (view->working)
        return VETCH_ACCEPTED;
    memset(view, 0, sizeof *view);
    return VETCH_NO_MEMORY;
}

static inline void vetch_tables_view_free(struct vetch_tables *view)
{
    free(view->working);
    memset(view, 0, sizeof *view);
}

/* ---- Calls that may change the index */

static inline uint32_t vetch_tables_add(struct vetch_tables *t, uint32_t page,
                                        uint32_t class_number,
                                        const uint8_t *sketch, size_t sketch_len)
{
    return vetch_add(t->settings, t->settings_len, t->nodes, t->nodes_len,
                     t->pages, t->pages_len, t->sketches, t->sketches_len, page,
                     class_number, sketch, sketch_len);
}

static inline uint32_t vetch_tables_drop(struct vetch_tables *t, uint32_t page)
{
    return vetch_drop(t->settings, t->settings_len, t->nodes, t->nodes_len,
                      t->pages, t->pages_len, t->sketches, t->sketches_len,
                      page);
}

static inline uint32_t vetch_tables_join(struct vetch_tables *t,
                                         uint32_t reader, uint32_t group)
{
    return vetch_join(t->settings, t->settings_len, reader, group);
}

static inline uint32_t vetch_tables_leave(struct vetch_tables *t,
                                          uint32_t reader, uint32_t group)
{
    return vetch_leave(t->settings, t->settings_len, reader, group);
}

static inline uint32_t vetch_tables_grant(struct vetch_tables *t,
                                          uint32_t group,
                                          uint32_t class_number)
{
    return vetch_grant(t->settings, t->settings_len, group, class_number);
}

static inline uint32_t vetch_tables_revoke(struct vetch_tables *t,
                                           uint32_t group,
                                           uint32_t class_number)
{
    return vetch_revoke(t->settings, t->settings_len, group, class_number);
}

/* ---- Calls that change the working table alone, or nothing */

static inline uint32_t
vetch_tables_search(struct vetch_tables *t, uint32_t reader, uint32_t radius,
                    const uint8_t *sketch, size_t sketch_len, uint16_t *output,
                    size_t output_len, uint16_t *distances,
                    size_t distances_len, uint32_t *count)
{
    return vetch_search(t->settings, t->settings_len, t->nodes, t->nodes_len,
                        t->pages, t->pages_len, t->sketches, t->sketches_len,
                        t->working, t->working_len, reader, radius, sketch,
                        sketch_len, output, output_len, distances,
                        distances_len, count);
}

/* The lists of a search, with room for so many places each: of the first count
 * places pages[i] is a page and distances[i] how far it is. All zero at first, by
 * { 0 } or in C++ {}; one serves any number of searches, of one thread. */
struct vetch_hits {
    uint16_t *pages;
    uint16_t *distances;
    size_t places;
    uint32_t count;
};

static inline void vetch_hits_free(struct vetch_hits *hits)
{
    free(hits->pages);
    free(hits->distances);
    memset(hits, 0, sizeof *hits);
}

/* Empty lists of so many places, at least 1, for those of before, which are freed.
 * VETCH_NO_MEMORY; the lists stay then. */
static inline uint32_t vetch_hits_replace(struct vetch_hits *hits, size_t places)
{
    uint16_t *pages = (uint16_t *)calloc(places, sizeof *pages);
    uint16_t *distances = (uint16_t *)calloc(places, sizeof *distances);
    if (!pages || !distances) {
        free(pages);
        free(distances);
        return VETCH_NO_MEMORY;
    }
    vetch_hits_free(hits);
    hits->pages = pages;
    hits->distances = distances;
    hits->places = places;
    return VETCH_ACCEPTED;
}

/* A search whose lists grow: where they are too short, it takes longer ones and
 * searches again, so 13 is no answer of it. With a refusal, or VETCH_NO_MEMORY,
 * the count is 0. Where other threads write to the index, hold one lock over the
 * whole of it. */
static inline uint32_t
vetch_tables_search_all(struct vetch_tables *t, uint32_t reader,
                        uint32_t radius, const uint8_t *sketch,
                        size_t sketch_len, struct vetch_hits *hits)
{
    for (;;) {
        size_t places = 2 * hits->places;
        uint32_t number = vetch_tables_search(
            t, reader, radius, sketch, sketch_len, hits->pages, hits->places,
            hits->distances, hits->places, &hits->count);
        if (number != VETCH_SHORT_OUTPUT)
            return number;
        if (places < hits->count)
            places = hits->count;
        hits->count = 0;
        number = vetch_hits_replace(hits, places);
        if (number != VETCH_ACCEPTED)
            return number;
    }
}

/* The page's row of the sketch table itself, m symbols; null and 0 with a
 * refusal. It is the page's until the next call that writes. */
static inline uint32_t vetch_tables_show(const struct vetch_tables *t,
                                         uint32_t reader, uint32_t page,
                                         const uint8_t **row, size_t *row_len)
{
    uint32_t start, length;
    uint32_t number =
        vetch_show(t->settings, t->settings_len, t->pages, t->pages_len,
                   t->sketches, t->sketches_len, reader, page, &start, &length);
    *row = number == VETCH_ACCEPTED ? t->sketches + start : NULL;
    *row_len = length;
    return number;
}

static inline uint32_t vetch_tables_check(struct vetch_tables *t,
                                          uint32_t *sound)
{
    return vetch_check(t->settings, t->settings_len, t->nodes, t->nodes_len,
                       t->pages, t->pages_len, t->sketches, t->sketches_len,
                       t->working, t->working_len, sound);
}

#endif
