/* An index saved to a file and loaded again: the settings, node, page and sketch tables, one behind the other; the working table
 * holds nothing to keep. What is loaded is checked before it is used. Build: cc -std=c99 saving.c $(pkg-config --cflags --libs
 * vetchdawn); run: ./a.out save FILE, then ./a.out load FILE */
#define _POSIX_C_SOURCE 200809L
#include <errno.h>
#include <stdio.h>
#include <stdlib.h>
#include <unistd.h>

#include "vetchdawn_tables.h"

enum { SYMBOLS = 8, READER = 5, GROUP = 1, CLASS = 3 };

static void stop(const char *what, const char *why)
{
    fprintf(stderr, "%s: %s\n", what, why);
    exit(1);
}

static void must(const char *call, uint32_t number)
{
    if (number != VETCH_ACCEPTED)
        stop(call, vetch_refusal_text(number));
}

/* All of it or none: to a new file, which takes the old one's place when it is on the disk. Where threads write to the index, hold the
 * writers' lock: a file with tables of two moments is damaged, and one with an old settings table has old rights. */
static int save(const struct vetch_tables *t, const char *name)
{
    char new_name[4096];
    FILE *file;
    int whole;
    if (snprintf(new_name, sizeof new_name, "%s.new", name) >= (int)sizeof new_name)
        return 0;
    file = fopen(new_name, "wb");
    if (file == NULL)
        stop(new_name, strerror(errno));
    whole = fwrite(t->settings, sizeof *t->settings, t->settings_len, file) == t->settings_len &&
            fwrite(t->nodes, sizeof *t->nodes, t->nodes_len, file) == t->nodes_len &&
            fwrite(t->pages, sizeof *t->pages, t->pages_len, file) == t->pages_len &&
            fwrite(t->sketches, sizeof *t->sketches, t->sketches_len, file) == t->sketches_len &&
            fflush(file) == 0 && fsync(fileno(file)) == 0;
    whole = fclose(file) == 0 && whole;
    return whole && rename(new_name, name) == 0;
}

static int load(struct vetch_tables *t, const char *name)
{
    FILE *file = fopen(name, "rb");
    int whole;
    if (file == NULL)
        stop(name, strerror(errno));
    whole = fread(t->settings, sizeof *t->settings, t->settings_len, file) == t->settings_len &&
            fread(t->nodes, sizeof *t->nodes, t->nodes_len, file) == t->nodes_len &&
            fread(t->pages, sizeof *t->pages, t->pages_len, file) == t->pages_len &&
            fread(t->sketches, sizeof *t->sketches, t->sketches_len, file) == t->sketches_len && fgetc(file) == EOF;
    fclose(file);
    return whole;
}

/* Eight pages in a class open to the reader; of page p the first p symbols are 1. */
static void fill(struct vetch_tables *t)
{
    uint8_t sketch[SYMBOLS] = { 0 };
    for (uint32_t page = 1; page <= SYMBOLS; page++) {
        sketch[page - 1] = 1;
        must("add", vetch_tables_add(t, page, CLASS, sketch, SYMBOLS));
    }
    must("join", vetch_tables_join(t, READER, GROUP));
    must("grant", vetch_tables_grant(t, GROUP, CLASS));
}

static void show_near(struct vetch_tables *t)
{
    const uint8_t sketch[SYMBOLS] = { 1, 1, 1, 1 };
    struct vetch_hits hits = { 0 };
    must("search", vetch_tables_search_all(t, READER, 1, sketch, SYMBOLS, &hits));
    for (uint32_t i = 0; i < hits.count; i++)
        printf("page %u at distance %u\n", (unsigned)hits.pages[i], (unsigned)hits.distances[i]);
    vetch_hits_free(&hits);
}

static void fill_and_save(const struct vetch_settings *settings, const char *name)
{
    struct vetch_tables t;
    must("new", vetch_tables_new(&t, settings));
    fill(&t);
    if (!save(&t, name))
        stop(name, "not saved");
    vetch_tables_free(&t);
}

static void load_and_search(const struct vetch_settings *settings, const char *name)
{
    struct vetch_tables t;
    uint32_t sound;
    must("alloc", vetch_tables_alloc(&t, settings));
    if (!load(&t, name))
        stop(name, "not as long as these settings need it, or of another layout");
    must("check", vetch_tables_check(&t, &sound)); /* 6: another byte order, or another layout of this length */
    if (!sound)
        stop(name, "damaged");
    show_near(&t);
    vetch_tables_free(&t);
}

int main(int count, char **words)
{
    const struct vetch_settings settings = vetch_settings_make(4, SYMBOLS, 2, 100, 400, 4);
    if (count != 3)
        stop(words[0], "save FILE, or load FILE");
    if (strcmp(words[1], "save") == 0)
        fill_and_save(&settings, words[2]);
    else if (strcmp(words[1], "load") == 0)
        load_and_search(&settings, words[2]);
    else
        stop(words[1], "save or load");
    return 0;
}
