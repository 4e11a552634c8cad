/* A small catalogue server's use of the index: it opens an index, loads pages, changes rights between searches, and prints what
 * each reader gets. Build: cc -std=c99 server.c $(pkg-config --cflags --libs vetchdawn) */
#include <stdio.h>
#include <stdlib.h>

#include "vetchdawn_tables.h"

enum { BITS = 4, SYMBOLS = 8, BLOCKS = 2, PAGES = 100, NODES = 400, THRESHOLD = 4 };
enum { DONORS = 1, VISITORS = 2 };    /* classes: a donor's sealed file, and open stacks */
enum { STAFF = 0, READING_ROOM = 1 }; /* groups */
enum { ANNA = 5, BORIS = 6 };         /* readers: Anna is staff */

static void must(const char *call, uint32_t number)
{
    if (number != VETCH_ACCEPTED) {
        fprintf(stderr, "%s: refused by question %u: %s\n", call, (unsigned)number, vetch_refusal_text(number));
        exit(1);
    }
}

static void search(struct vetch_tables *index, const char *name, uint32_t reader, uint32_t radius, const uint8_t *sketch)
{
    struct vetch_hits hits = { 0 };
    must("search", vetch_tables_search_all(index, reader, radius, sketch, SYMBOLS, &hits));
    printf("%s, within %u:", name, (unsigned)radius);
    for (uint32_t i = 0; i < hits.count; i++)
        printf(" %u:%u", (unsigned)hits.pages[i], (unsigned)hits.distances[i]);
    printf("%s\n", hits.count == 0 ? " none" : "");
    vetch_hits_free(&hits);
}

static void check(struct vetch_tables *index)
{
    uint32_t sound = 0;
    must("check", vetch_tables_check(index, &sound));
    printf("the store is %s\n", sound ? "sound" : "damaged");
}

int main(void)
{
    struct vetch_tables index;
    const struct vetch_settings settings = vetch_settings_make(BITS, SYMBOLS, BLOCKS, PAGES, NODES, THRESHOLD);
    const uint8_t charter[SYMBOLS] = { 1, 2, 3, 4, 5, 6, 7, 8 };
    uint8_t sketch[SYMBOLS];
    uint32_t number;
    must("new", vetch_tables_new(&index, &settings));

    /* forty pages, ever more like the charter; every third belongs to the donor's file */
    for (uint32_t page = 0; page < 40; page++) {
        for (uint32_t i = 0; i < SYMBOLS; i++)
            sketch[i] = (uint8_t)(i < (39 - page) / 6 ? charter[i] ^ 8 : charter[i]);
        must("add", vetch_tables_add(&index, page, page % 3 == 0 ? DONORS : VISITORS, sketch, SYMBOLS));
    }
    number = vetch_tables_add(&index, 7, VISITORS, charter, SYMBOLS);
    printf("page 7 again: refused by question %u\n", (unsigned)number);

    must("join", vetch_tables_join(&index, ANNA, STAFF));
    must("join", vetch_tables_join(&index, BORIS, READING_ROOM));
    must("grant", vetch_tables_grant(&index, STAFF, DONORS));
    must("grant", vetch_tables_grant(&index, STAFF, VISITORS));
    must("grant", vetch_tables_grant(&index, READING_ROOM, VISITORS));
    search(&index, "Anna", ANNA, 1, charter);
    search(&index, "Boris", BORIS, 1, charter);

    /* the donor seals the file: rights act from the next call */
    must("revoke", vetch_tables_revoke(&index, STAFF, DONORS));
    search(&index, "Anna, the file sealed", ANNA, 1, charter);
    must("leave", vetch_tables_leave(&index, BORIS, READING_ROOM));
    search(&index, "Boris, no longer in the reading room", BORIS, 1, charter);

    /* pages go */
    for (uint32_t page = 34; page < 40; page++)
        must("drop", vetch_tables_drop(&index, page));
    search(&index, "Anna, the nearest six dropped", ANNA, 2, charter);
    check(&index);

    vetch_tables_free(&index);
    return 0;
}
