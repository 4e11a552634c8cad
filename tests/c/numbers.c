/* The names that vetchdawn.h gives to numbers, held against what the calls do: the version, the layout mark, every limit, every refusal,
 * and the words for them. In C89, as the header is. */
#include <string.h>

#include "assert.h"
#include "vetchdawn.h"

/* Two pages, 16 nodes, and tables as long as any index of that size may need. */
enum { B = VETCH_MAX_BITS, M = VETCH_MAX_SYMBOLS, Q = VETCH_MAX_BLOCKS, PAGES = 2, NODES = 16 };

static uint32_t settings[1024], nodes[12 * NODES], pages[12 * PAGES], working[2048];
static uint8_t sketches[M * PAGES], sketch[M];
static uint16_t thresholds[VETCH_THRESHOLDS + 1];

static uint32_t limits(uint32_t b, uint32_t m, uint32_t q, uint32_t page_capacity, uint32_t node_capacity)
{
    uint32_t s, n, p, k, w;
    return vetch_lengths(b, m, q, page_capacity, node_capacity, &s, &n, &p, &k, &w);
}

static uint32_t open_with(size_t settings_len, size_t thresholds_len)
{
    return vetch_open(settings, settings_len, nodes, sizeof nodes / 4, pages, sizeof pages / 4, sketches, sizeof sketches, working,
                      sizeof working / 4, B, M, Q, PAGES, NODES, thresholds, thresholds_len);
}

static uint32_t add(uint32_t page, size_t length)
{
    return vetch_add(settings, 1024, nodes, sizeof nodes / 4, pages, sizeof pages / 4, sketches, sizeof sketches, page, 0, sketch, length);
}

static uint32_t search(uint32_t radius)
{
    uint32_t count;
    return vetch_search(settings, 1024, nodes, sizeof nodes / 4, pages, sizeof pages / 4, sketches, sizeof sketches, working,
                        sizeof working / 4, 0, radius, sketch, M, NULL, 0, NULL, 0, &count);
}

static void versions(void)
{
    char text[32];
    ASSERT_EQ(vetch_version(), VETCHDAWN_VERSION);
    ASSERT_EQ(VETCHDAWN_VERSION / 10000, VETCHDAWN_VERSION_MAJOR);
    ASSERT_EQ(VETCHDAWN_VERSION / 100 % 100, VETCHDAWN_VERSION_MINOR);
    ASSERT_EQ(VETCHDAWN_VERSION % 100, VETCHDAWN_VERSION_PATCH);
    sprintf(text, "%d.%d.%d", VETCHDAWN_VERSION_MAJOR, VETCHDAWN_VERSION_MINOR, VETCHDAWN_VERSION_PATCH);
    ASSERT(strcmp(text, VETCHDAWN_VERSION_TEXT) == 0);
    ASSERT_EQ(open_with(1024, VETCH_THRESHOLDS), VETCH_ACCEPTED);
    ASSERT_EQ(settings[0], VETCHDAWN_LAYOUT_MARK);
}

static void limits_of_settings(void)
{
    ASSERT_EQ(limits(VETCH_MAX_BITS, VETCH_MAX_SYMBOLS, VETCH_MAX_BLOCKS, VETCH_MAX_PAGES, VETCH_MAX_NODES), VETCH_ACCEPTED);
    ASSERT_EQ(limits(1, 1, 1, 1, 1), VETCH_ACCEPTED);
    ASSERT_EQ(limits(VETCH_MAX_BITS + 1, 64, 8, 1, 8), VETCH_BAD_SETTINGS);
    ASSERT_EQ(limits(8, VETCH_MAX_SYMBOLS + 1, 8, 1, 8), VETCH_BAD_SETTINGS);
    ASSERT_EQ(limits(8, 64, VETCH_MAX_BLOCKS + 1, 1, 9), VETCH_BAD_SETTINGS);
    ASSERT_EQ(limits(8, 64, 8, VETCH_MAX_PAGES + 1, 8), VETCH_BAD_SETTINGS);
    ASSERT_EQ(limits(8, 64, 8, 1, VETCH_MAX_NODES + 1), VETCH_BAD_SETTINGS);
    ASSERT_EQ(limits(8, 7, 8, 1, 8), VETCH_BAD_SETTINGS);
    ASSERT_EQ(limits(8, 64, 8, 1, 7), VETCH_BAD_SETTINGS);
    ASSERT_EQ(open_with(1024, VETCH_THRESHOLDS - 1), VETCH_BAD_SETTINGS);
    ASSERT_EQ(open_with(1024, VETCH_THRESHOLDS + 1), VETCH_BAD_SETTINGS);
}

static void limits_of_calls(void)
{
    ASSERT_EQ(open_with(1024, VETCH_THRESHOLDS), VETCH_ACCEPTED);
    ASSERT_EQ(vetch_join(settings, 1024, VETCH_READERS - 1, VETCH_GROUPS - 1), VETCH_ACCEPTED);
    ASSERT_EQ(vetch_join(settings, 1024, VETCH_READERS, 0), VETCH_OUT_OF_RANGE);
    ASSERT_EQ(vetch_leave(settings, 1024, 0, VETCH_GROUPS), VETCH_OUT_OF_RANGE);
    ASSERT_EQ(vetch_grant(settings, 1024, 0, VETCH_CLASSES - 1), VETCH_ACCEPTED);
    ASSERT_EQ(vetch_revoke(settings, 1024, 0, VETCH_CLASSES), VETCH_OUT_OF_RANGE);
    ASSERT_EQ(search(VETCH_MAX_RADIUS), VETCH_ACCEPTED);
    ASSERT_EQ(search(VETCH_MAX_RADIUS + 1), VETCH_OUT_OF_RANGE);
}

static void refusals_of_forms(void)
{
    ASSERT_EQ(vetch_form(4, 1, (const uint8_t *)"?", 1), VETCH_UNKNOWN_COMMAND);
    ASSERT_EQ(vetch_form(4, 1, (const uint8_t *)"D", 1), VETCH_MISPLACED_COMMAND);
    ASSERT_EQ(vetch_form(4, 0, (const uint8_t *)"D", 1), VETCH_CUT_COMMAND);
    ASSERT_EQ(vetch_form(4, 0, (const uint8_t *)"D12", 3), VETCH_ACCEPTED);
}

static void refusals_of_calls(void)
{
    ASSERT_EQ(open_with(0, VETCH_THRESHOLDS), VETCH_SHORT_TABLE);
    memset(settings, 0, sizeof settings);
    ASSERT_EQ(search(0), VETCH_NO_OPENING);
    ASSERT_EQ(open_with(1024, VETCH_THRESHOLDS), VETCH_ACCEPTED);
    ASSERT_EQ(vetch_join(settings, 1024, 0, 0), VETCH_ACCEPTED);
    ASSERT_EQ(vetch_grant(settings, 1024, 0, 0), VETCH_ACCEPTED);
    memset(sketch, 0, M);
    ASSERT_EQ(add(PAGES, M), VETCH_NO_SUCH_PAGE);
    ASSERT_EQ(add(0, M), VETCH_BLANK_PAGE);
    sketch[0] = 1;
    ASSERT_EQ(add(0, M - 1), VETCH_BAD_LENGTH);
    ASSERT_EQ(add(0, M), VETCH_ACCEPTED);
    ASSERT_EQ(add(0, M), VETCH_PAGE_STATE);
    ASSERT_EQ(search(0), VETCH_SHORT_OUTPUT);
    memset(sketch, 2, M);
    ASSERT_EQ(add(1, M), VETCH_NO_ROOM);
    memset(nodes, 255, sizeof nodes);
    ASSERT_EQ(search(0), VETCH_DAMAGED);
}

static void refusals_of_sketches(void)
{
    const uint8_t four = 4, three = 3;
    uint32_t distance;
    ASSERT_EQ(vetch_measure(2, 1, &four, 1, &four, 1, &distance), VETCH_BAD_SYMBOL);
    ASSERT_EQ(vetch_measure(2, 1, &three, 1, &three, 1, &distance), VETCH_ACCEPTED);
}

/* The words for each number. */
static void words(void)
{
    static const char *const texts[] = {
        "accepted",
        "unknown journal command",
        "journal command out of place",
        "journal command cut short",
        "settings or capacities out of limits",
        "table too short",
        "no opening, or a table too short for it",
        "reader, group, class or radius out of range",
        "page number not below the capacity",
        "page live, missing or closed",
        "wrong number of symbols or bytes",
        "symbol or packed byte out of range",
        "too few nodes",
        "output too short",
        "damaged tables",
        "blank page",
        "unknown number"
    };
    uint32_t i;
    for (i = 0; i < sizeof texts / sizeof *texts; i++)
        ASSERT(strcmp(vetch_refusal_text(i), texts[i]) == 0);
    ASSERT(strcmp(vetch_refusal_text(VETCH_NO_MEMORY), "no memory") == 0);
    ASSERT(strcmp(vetch_refusal_text(UINT32_MAX), "unknown number") == 0);
}

int main(void)
{
    versions();
    limits_of_settings();
    limits_of_calls();
    refusals_of_forms();
    refusals_of_calls();
    refusals_of_sketches();
    words();
    return 0;
}
