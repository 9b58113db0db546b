/* Memory to lend, between two pages that can't be read: who reads there ends the program. */
#ifndef PAGES_H
#define PAGES_H

#include <stdint.h>
#include <stdio.h>
#include <stdlib.h>
#include <sys/mman.h>

enum { PAGE = 4096 };

static void ended(const char *why) {
    fprintf(stderr, "%s\n", why);
    exit(2);
}

/* `length` bytes, a multiple of PAGE. */
static uint8_t *pages(size_t length) {
    uint8_t *memory = mmap(NULL, length + 2 * PAGE, PROT_NONE, MAP_PRIVATE | MAP_ANONYMOUS, -1, 0);
    if (memory == MAP_FAILED || mprotect(memory + PAGE, length, PROT_READ | PROT_WRITE) != 0)
        ended("no memory");
    return memory + PAGE;
}

#endif
