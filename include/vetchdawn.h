/* Vetchdawn: an index for archives. For Linux on x86-64.
 *
 * A call puts questions to its input, in a fixed order. It returns 0 where all are
 * passed and it is carried out, else the number of the first that fails: enum
 * vetch_refusal. A refused call changes nothing but the working table; only 14, in
 * an add or a drop, may have changed more. docs/OPERATING.md says what to do about
 * each number, and how to choose settings. vetchdawn_tables.h has the same calls
 * with the five tables in one struct.
 *
 * What is lent
 *
 * - Any numbers and any contents may be handed over. A slice or table is a
 *   pointer and a length, counted in its elements. Where the length is 0 the
 *   pointer is not read, and may be null. A longer table, and an output, keeps
 *   its rest as it was.
 * - A result, as *count or *distance, is written to memory of the caller. Its
 *   pointer must be valid, and those of one call distinct. A null one is no
 *   refusal but a fault.
 * - Words of 32 bits lie at addresses that 4 divides, those of 16 bits at even
 *   ones, as from malloc.
 * - What a call writes must not overlap what else it is lent. What it only reads
 *   may.
 * - The tables are the caller's. The library allocates and frees nothing, keeps
 *   no pointer when a call returns, and no table holds an address: tables may be
 *   copied, moved, saved and loaded between calls.
 * - The working table need not be zero at first. Several indexes may use one,
 *   each in turn.
 * - The calls take no lock: see to it that none runs on tables that another one
 *   writes. A search and a check write their working table, and it alone.
 * - A search takes up to 8 kB of stack, any other call up to 2 kB; no call
 *   recurses. Where symbols are bound lazily, a first call takes 3 kB more.
 */
#ifndef VETCHDAWN_H
#define VETCHDAWN_H

#include <stddef.h>
#include <stdint.h>

/* ---- Versions: the major one changes where a call is declared otherwise or the
 * tables are laid out otherwise, and is that of the shared library. CHANGELOG.md
 * has what changed. */

#define VETCHDAWN_VERSION_MAJOR 3
#define VETCHDAWN_VERSION_MINOR 0
#define VETCHDAWN_VERSION_PATCH 0
#define VETCHDAWN_VERSION                                                    \
    (VETCHDAWN_VERSION_MAJOR * 10000 + VETCHDAWN_VERSION_MINOR * 100 +       \
     VETCHDAWN_VERSION_PATCH)

#define VETCHDAWN_VERSION_TEXT                                               \
    VETCH_TEXT(VETCHDAWN_VERSION_MAJOR)                                      \
    "." VETCH_TEXT(VETCHDAWN_VERSION_MINOR) "." VETCH_TEXT(VETCHDAWN_VERSION_PATCH)
#define VETCH_TEXT(number) VETCH_TEXT_OF(number)
#define VETCH_TEXT_OF(number) #number

/* The first word of a settings table that was opened. Tables with another mark
 * are laid out otherwise, and every call on them but an opening gives 6, or 5 where
 * the settings table is too short for this layout. All versions 3 have this one. */
#define VETCHDAWN_LAYOUT_MARK 0x56440004u

/* ---- Limits */

#define VETCH_MAX_BITS 8       /* b, from 1 */
#define VETCH_MAX_SYMBOLS 64   /* m, from 1 */
#define VETCH_MAX_BLOCKS 8     /* q, from 1, and at most m */
#define VETCH_MAX_PAGES 65535  /* page capacity, from 1 */
#define VETCH_MAX_NODES 262144 /* node capacity, from q */
#define VETCH_THRESHOLDS 64    /* as many, one for each level */
#define VETCH_MAX_RADIUS 64    /* of a search, from 0 */
#define VETCH_READERS 256      /* readers are 0 to 255 */
#define VETCH_GROUPS 32        /* groups are 0 to 31 */
#define VETCH_CLASSES 64       /* classes are 0 to 63 */

/* ---- Refusals, in the order in which the questions are asked; but 15 and then 14
 * are asked between 11 and 12 */

enum vetch_refusal {
    VETCH_ACCEPTED = 0,
    /* Of a journal command: its byte is unknown; it is I but not the first, or
     * the first but not I; operands are missing. */
    VETCH_UNKNOWN_COMMAND = 1,
    VETCH_MISPLACED_COMMAND = 2,
    VETCH_CUT_COMMAND = 3,
    /* Settings, capacities or the count of thresholds are out of their limits. */
    VETCH_BAD_SETTINGS = 4,
    /* The settings table is too short or, on opening, any other table. */
    VETCH_SHORT_TABLE = 5,
    /* The settings table shows no opening, or a table is too short for it. */
    VETCH_NO_OPENING = 6,
    /* Reader, group, class or radius is out of range. */
    VETCH_OUT_OF_RANGE = 7,
    /* The page number is not below the capacity. */
    VETCH_NO_SUCH_PAGE = 8,
    /* Add: the page is live. Drop: it is not. Show: it is not live, or not open
     * to this reader; which of the two is not told. */
    VETCH_PAGE_STATE = 9,
    /* A sketch has not m symbols, or a packing not the bytes that m needs. */
    VETCH_BAD_LENGTH = 10,
    /* A symbol is not below 2^b, or a byte is none that packing gives. */
    VETCH_BAD_SYMBOL = 11,
    /* The trees would have more nodes than the capacity. */
    VETCH_NO_ROOM = 12,
    /* The output is too short; of a search, either list. */
    VETCH_SHORT_OUTPUT = 13,
    /* The tables are damaged: a link that was followed leads outside its table
     * or to a free node, an inner node stands where no byte is left, or more
     * nodes or pages were passed than a sound store has. Drop: the page is in no
     * leaf on its path. Add: a leaf to be split has a child, which is no leaf, or
     * the free nodes ran out after all. Add and drop may have changed words of
     * the trees, and add the page's row. It never occurs on tables that only
     * these calls have written. */
    VETCH_DAMAGED = 14,
    /* Add: the page is blank, every symbol of its sketch is 0. A search for such
     * a sketch is not refused for that; blank pages that tables hold from before
     * stay. */
    VETCH_BLANK_PAGE = 15,
    /* No question, and no answer of a call here: vetchdawn_tables.h alone
     * allocates memory. */
    VETCH_NO_MEMORY = 1000
};

#if defined(__cplusplus)
#define VETCH_INLINE static inline
#elif defined(__STDC_VERSION__) && __STDC_VERSION__ >= 199901L
#define VETCH_INLINE static inline
#elif defined(__GNUC__)
#define VETCH_INLINE static __inline__
#else
#define VETCH_INLINE static
#endif

/* A refusal in words, for a log. */
VETCH_INLINE const char *vetch_refusal_text(uint32_t number)
{
    switch (number) {
    case VETCH_ACCEPTED: return "accepted";
    case VETCH_UNKNOWN_COMMAND: return "unknown journal command";
    case VETCH_MISPLACED_COMMAND: return "journal command out of place";
    case VETCH_CUT_COMMAND: return "journal command cut short";
    case VETCH_BAD_SETTINGS: return "settings or capacities out of limits";
    case VETCH_SHORT_TABLE: return "table too short";
    case VETCH_NO_OPENING: return "no opening, or a table too short for it";
    case VETCH_OUT_OF_RANGE: return "reader, group, class or radius out of range";
    case VETCH_NO_SUCH_PAGE: return "page number not below the capacity";
    case VETCH_PAGE_STATE: return "page live, missing or closed";
    case VETCH_BAD_LENGTH: return "wrong number of symbols or bytes";
    case VETCH_BAD_SYMBOL: return "symbol or packed byte out of range";
    case VETCH_NO_ROOM: return "too few nodes";
    case VETCH_SHORT_OUTPUT: return "output too short";
    case VETCH_DAMAGED: return "damaged tables";
    case VETCH_BLANK_PAGE: return "blank page";
    case VETCH_NO_MEMORY: return "no memory";
    default: return "unknown number";
    }
}

#ifdef __cplusplus
extern "C" {
#endif

/* VETCHDAWN_VERSION of the library that is linked. Its name ends in the major
 * version: a program that calls it does not link with a library of another. */
uint32_t vetch_version_3(void);
#define vetch_version vetch_version_3

/* ---- Sketches: m symbols, a byte each, each below 2^b */

/* The number of places where two sketches differ, in *distance; 0 there with a
 * refusal. x and y may be one sketch or overlap. 10 and 11 do not tell which of
 * the two failed. */
uint32_t vetch_measure(uint32_t b, uint32_t m, const uint8_t *x, size_t x_len,
                       const uint8_t *y, size_t y_len, uint32_t *distance);

/* Packs m symbols, 8 / b to a byte, the first lowest. *length is the count of
 * bytes written, or with 13 the count needed, or 0. */
uint32_t vetch_pack(uint32_t b, uint32_t m, const uint8_t *x, size_t x_len,
                    uint8_t *out, size_t out_len, uint32_t *length);

/* Unpacks m symbols. *length is m, with 13 too, or 0. */
uint32_t vetch_unpack(uint32_t b, uint32_t m, const uint8_t *bytes,
                      size_t bytes_len, uint8_t *out, size_t out_len,
                      uint32_t *length);

/* ---- The journal */

/* Questions 1 to 3 of the command that the bytes begin with, for sketches of m
 * symbols, any m; first is not 0 where it is the first command of its journal. */
uint32_t vetch_form(uint8_t m, uint8_t first, const uint8_t *bytes,
                    size_t bytes_len);

/* ---- The tables of an index; docs/LAYOUT.md says what they hold
 *
 * A sketch is cut into q blocks, and each block is packed to bytes. For each block
 * there is a tree of nodes over these bytes, one level for each byte. A leaf with
 * more pages than the threshold of its level is split. A search with radius r goes
 * into each tree within r / q: with q above r it is fastest. An index opened by
 * this library with q + pages * (packed bytes of all blocks) nodes refuses no add
 * by 12; most sketches need far fewer. */

/* How long the tables must be: words of 32 bits, of the sketch table bytes. With
 * a refusal (4) all are 0. b is bits a symbol, m symbols a sketch, q blocks. */
uint32_t vetch_lengths(uint32_t b, uint32_t m, uint32_t q,
                       uint32_t page_capacity, uint32_t node_capacity,
                       uint32_t *settings, uint32_t *nodes, uint32_t *pages,
                       uint32_t *sketches, uint32_t *working);

/* Sets up an index, whatever the tables held, with VETCH_THRESHOLDS split
 * thresholds, by level. Of the sketch and the working table only the length is
 * asked. */
uint32_t vetch_open(uint32_t *settings, size_t settings_len, uint32_t *nodes,
                    size_t nodes_len, uint32_t *pages, size_t pages_len,
                    const uint8_t *sketches, size_t sketches_len,
                    const uint32_t *working, size_t working_len, uint32_t b,
                    uint32_t m, uint32_t q, uint32_t page_capacity,
                    uint32_t node_capacity, const uint16_t *thresholds,
                    size_t thresholds_len);

/* Adds a page, of a class and with a sketch of m symbols, not all of them 0. */
uint32_t vetch_add(uint32_t *settings, size_t settings_len, uint32_t *nodes,
                   size_t nodes_len, uint32_t *pages, size_t pages_len,
                   uint8_t *sketches, size_t sketches_len, uint32_t page,
                   uint32_t class_number, const uint8_t *sketch,
                   size_t sketch_len);

/* Drops a page. A leaf that loses its last page by this, and then each inner
 * node that loses its last child, is free for later adds; a root becomes an
 * empty leaf instead. */
uint32_t vetch_drop(uint32_t *settings, size_t settings_len, uint32_t *nodes,
                    size_t nodes_len, uint32_t *pages, size_t pages_len,
                    const uint8_t *sketches, size_t sketches_len,
                    uint32_t page);

/* Readers are 0 to 255, groups 0 to 31, classes 0 to 63. A class is open to a
 * reader if some group has him as a member and is granted it. The settings table
 * keeps for each reader his entry, the set of the classes open to him; a search and
 * a show read it alone. A join or a leave writes the reader's entry anew from the
 * memberships and grants, a grant or a revoke the one class in the entry of each
 * member, for which it goes over all readers. */
uint32_t vetch_join(uint32_t *settings, size_t settings_len, uint32_t reader,
                    uint32_t group);
uint32_t vetch_leave(uint32_t *settings, size_t settings_len, uint32_t reader,
                     uint32_t group);
uint32_t vetch_grant(uint32_t *settings, size_t settings_len, uint32_t group,
                     uint32_t class_number);
uint32_t vetch_revoke(uint32_t *settings, size_t settings_len, uint32_t group,
                      uint32_t class_number);

/* All pages within the radius (0 to 64) of a sketch, of the classes open to the
 * reader now, in output, and how far each is from the sketch, in the same place
 * of distances: the nearest first, and those at one distance by rising page
 * number. On damaged tables some of them may be missing. *count is how many
 * there are, with 13 too: so many places each of the two lists needs, and where
 * either has fewer both keep their contents. With any other refusal it is 0. With
 * as many places as the page capacity in both, 13 never occurs; neither list can
 * be left out, and they must not overlap. A distance is at most the radius and at
 * most m. The needed part of the working table holds zeros afterwards, unless 5
 * or 6 refused the call. */
uint32_t vetch_search(const uint32_t *settings, size_t settings_len,
                      const uint32_t *nodes, size_t nodes_len,
                      const uint32_t *pages, size_t pages_len,
                      const uint8_t *sketches, size_t sketches_len,
                      uint32_t *working, size_t working_len, uint32_t reader,
                      uint32_t radius, const uint8_t *sketch,
                      size_t sketch_len, uint16_t *output, size_t output_len,
                      uint16_t *distances, size_t distances_len,
                      uint32_t *count);

/* The page's row of the sketch table, for a reader: its start and length there;
 * 0 and 0 with a refusal. */
uint32_t vetch_show(const uint32_t *settings, size_t settings_len,
                    const uint32_t *pages, size_t pages_len,
                    const uint8_t *sketches, size_t sketches_len,
                    uint32_t reader, uint32_t page, uint32_t *start,
                    uint32_t *length);

/* *sound is 1 if the store is sound and 0 if not, or with a refusal: each live page
 * has a class and symbols in range and stands once in each tree, where its row
 * belongs, no other page stands there, each leaf has the number of its pages, no
 * node is lost, and each reader's entry is what the memberships and grants say.
 * Then searches list all that they must.
 * Whether the tables are those that were last written is not told: with the
 * memberships, grants and entries of another moment, with a membership or a grant
 * more or less that alters no reader's open classes, with other thresholds or
 * classes, and with some other rows, they are sound as well. The working table is
 * left as by a search. */
uint32_t vetch_check(const uint32_t *settings, size_t settings_len,
                     const uint32_t *nodes, size_t nodes_len,
                     const uint32_t *pages, size_t pages_len,
                     const uint8_t *sketches, size_t sketches_len,
                     uint32_t *working, size_t working_len, uint32_t *sound);

#ifdef __cplusplus
}
#endif

#endif
