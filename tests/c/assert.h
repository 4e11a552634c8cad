/* Assertions of these programs: the first that fails is printed, and ends the program with 1. */
#ifndef ASSERT_H
#define ASSERT_H

#include <stdio.h>
#include <stdlib.h>

#define ASSERT(fact) ((fact) ? (void)0 : failed(#fact, __FILE__, __LINE__))
#define ASSERT_EQ(one, other) equal((unsigned long)(one), (unsigned long)(other), #one, __FILE__, __LINE__)

static void failed(const char *fact, const char *file, int line)
{
    fprintf(stderr, "%s:%d: not so: %s\n", file, line, fact);
    exit(1);
}

static void equal(unsigned long one, unsigned long other, const char *what, const char *file, int line)
{
    if (one != other) {
        fprintf(stderr, "%s:%d: %s is %lu and not %lu\n", file, line, what, one, other);
        exit(1);
    }
}

#endif
