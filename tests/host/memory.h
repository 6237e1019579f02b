/* Memory with a page before and after it that may not be touched: the library is compiled without the sanitizers, so a read
 * or write past what it is lent must hit such a page to be found. */
#ifndef MEMORY_H
#define MEMORY_H

#include <stddef.h>
#include <stdint.h>
#include <stdio.h>
#include <stdlib.h>
#include <string.h>
#include <sys/mman.h>
#include <unistd.h>

struct lent {
    uint8_t *pages;
    size_t size;
};

static inline struct lent lent_pages(size_t most)
{
    size_t page = (size_t)sysconf(_SC_PAGESIZE);
    struct lent lent;
    lent.size = (most + page - 1) / page * page + page;
    lent.pages = mmap(NULL, lent.size + 2 * page, PROT_READ | PROT_WRITE, MAP_PRIVATE | MAP_ANONYMOUS, -1, 0);
    if (lent.pages == MAP_FAILED || mprotect(lent.pages, page, PROT_NONE) != 0 ||
        mprotect(lent.pages + page + lent.size, page, PROT_NONE) != 0) {
        perror("pages");
        exit(1);
    }
    lent.pages += page;
    return lent;
}

/* `length` bytes that end at the page after, or begin at the page before. */
static inline uint8_t *lent_bytes(struct lent lent, size_t length, int at_end)
{
    return at_end ? lent.pages + lent.size - length : lent.pages;
}

#endif
