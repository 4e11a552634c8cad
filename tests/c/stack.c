/* How much stack each call takes: it runs on a stack of its own that was filled with one byte, and what is still so filled was not used.
 * Prints the greatest count of bytes by call; fails where it is above what vetchdawn.h says. */
#define _XOPEN_SOURCE 700
#include <string.h>
#include <ucontext.h>

#include "assert.h"
#include "vetchdawn_tables.h"

enum { STACK = 32 * 1024, FILLED = 0xa5, SEARCH = 8 * 1024, OTHER = 2 * 1024 };
enum { SYMBOLS = 64, PAGES = 400, NODES = 40000 };

static unsigned char stack[STACK];
static ucontext_t caller, callee;
static struct vetch_tables t;
static struct vetch_settings settings;
static struct vetch_hits hits;
static uint8_t sketch[SYMBOLS], packed[SYMBOLS];
static uint32_t page, radius;

static void nothing(void) {}
static void open_index(void) { vetch_tables_open(&t, &settings); }
static void add(void) { vetch_tables_add(&t, page, page % 64, sketch, SYMBOLS); }
static void drop(void) { vetch_tables_drop(&t, page); }
static void join(void) { vetch_tables_join(&t, page % 256, page % 32); }
static void leave(void) { vetch_tables_leave(&t, page % 256, 31 - page % 32); }
static void grant(void) { vetch_tables_grant(&t, page % 32, page % 64); }
static void revoke(void) { vetch_tables_revoke(&t, page % 32, 63 - page % 64); }
static void version(void) { ASSERT_EQ(vetch_version(), VETCHDAWN_VERSION); }

static void search(void)
{
    vetch_tables_search(&t, page % 256, radius, sketch, SYMBOLS, hits.pages, hits.places, hits.distances, hits.places, &hits.count);
}

static void show(void)
{
    const uint8_t *row;
    size_t length;
    vetch_tables_show(&t, page % 256, page, &row, &length);
}

static void check(void)
{
    uint32_t sound;
    vetch_tables_check(&t, &sound);
    ASSERT_EQ(sound, 1);
}

static void lengths(void)
{
    uint32_t s, n, p, k, w;
    ASSERT_EQ(vetch_lengths(settings.b, SYMBOLS, settings.q, PAGES, NODES, &s, &n, &p, &k, &w), VETCH_ACCEPTED);
}

static void measure(void)
{
    uint32_t distance;
    ASSERT_EQ(vetch_measure(settings.b, SYMBOLS, sketch, SYMBOLS, sketch, SYMBOLS, &distance), VETCH_ACCEPTED);
}

static void pack(void)
{
    uint32_t length;
    ASSERT_EQ(vetch_pack(settings.b, SYMBOLS, sketch, SYMBOLS, packed, SYMBOLS, &length), VETCH_ACCEPTED);
    ASSERT_EQ(vetch_unpack(settings.b, SYMBOLS, packed, length, sketch, SYMBOLS, &length), VETCH_ACCEPTED);
}

static void form(void) { ASSERT_EQ(vetch_form(SYMBOLS, 0, sketch, SYMBOLS) > 3, 0); }

/* The bytes of stack that a function takes. */
static size_t used_by(void (*call)(void))
{
    size_t left = 0;
    memset(stack, FILLED, STACK);
    ASSERT(getcontext(&callee) == 0);
    callee.uc_stack.ss_sp = stack;
    callee.uc_stack.ss_size = STACK;
    callee.uc_link = &caller;
    makecontext(&callee, call, 0);
    ASSERT(swapcontext(&caller, &callee) == 0);
    while (stack[left] == FILLED)
        left++;
    return STACK - left;
}

struct call {
    const char *name;
    void (*function)(void);
    size_t limit, most;
};

static struct call calls[] = {
    { "open", open_index, OTHER, 0 }, { "add", add, OTHER, 0 },       { "drop", drop, OTHER, 0 },       { "add", add, OTHER, 0 },
    { "join", join, OTHER, 0 },       { "leave", leave, OTHER, 0 },   { "grant", grant, OTHER, 0 },     { "revoke", revoke, OTHER, 0 },
    { "search", search, SEARCH, 0 },  { "show", show, OTHER, 0 },     { "check", check, OTHER, 0 },     { "lengths", lengths, OTHER, 0 },
    { "measure", measure, OTHER, 0 }, { "pack, unpack", pack, OTHER, 0 }, { "form", form, OTHER, 0 }, { "version", version, OTHER, 0 },
};
enum { CALLS = sizeof calls / sizeof *calls };

/* Each call with page after page, and all radii; the opening once. */
static void measure_all(size_t frame)
{
    for (page = 0; page < PAGES; page++)
        for (int i = page == 0 ? 0 : 1; i < CALLS; i++) {
            size_t used;
            radius = page % 65;
            for (int k = 0; k < SYMBOLS; k++)
                sketch[k] = (uint8_t)(page * 2654435761u >> (k % 32) & ((1u << settings.b) - 1));
            used = used_by(calls[i].function) - frame;
            if (used > calls[i].most)
                calls[i].most = used;
        }
}

int main(void)
{
    const size_t frame = used_by(nothing);
    ASSERT_EQ(vetch_hits_replace(&hits, PAGES), VETCH_ACCEPTED);
    for (uint32_t b = 1; b <= VETCH_MAX_BITS; b += 3)
        for (uint32_t q = 1; q <= VETCH_MAX_BLOCKS; q += 7) {
            settings = vetch_settings_make(b, SYMBOLS, q, PAGES, NODES, 1);
            ASSERT_EQ(vetch_tables_new(&t, &settings), VETCH_ACCEPTED);
            measure_all(frame);
            vetch_tables_free(&t);
        }
    vetch_hits_free(&hits);
    for (int i = 0; i < CALLS; i++) {
        printf("%-12s %5lu\n", calls[i].name, (unsigned long)calls[i].most);
        ASSERT(calls[i].most <= calls[i].limit);
    }
    return 0;
}
