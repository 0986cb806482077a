/* Memory that ends where a page begins that cannot be touched. */
#ifndef FENCE_H
#define FENCE_H

#include <stdint.h>
#include <stdlib.h>
#include <string.h>
#include <sys/mman.h>
#include <unistd.h>

/* The `size` bytes from `at` on are the caller's; up to them, and in them at first, all bytes are 0x5a. */
struct fenced { uint8_t *pages, *at; size_t size, room, page; };

static inline void clear(struct fenced it) { memset(it.pages, 0x5a, it.room); }

static inline struct fenced fence(size_t size, size_t align) {
    struct fenced it;
    it.page = (size_t)sysconf(_SC_PAGESIZE);
    it.size = size;
    it.room = (size + it.page - 1) / it.page * it.page + it.page;
    it.pages = (uint8_t *)mmap(NULL, it.room + it.page, PROT_READ | PROT_WRITE, MAP_PRIVATE | MAP_ANONYMOUS, -1, 0);
    if (it.pages == MAP_FAILED || mprotect(it.pages + it.room, it.page, PROT_NONE) != 0) abort();
    it.at = it.pages + it.room - (size + align - 1) / align * align;
    clear(it);
    return it;
}

static inline void read_only(struct fenced it) {
    if (mprotect(it.pages, it.room, PROT_READ) != 0) abort();
}

static inline void drop(struct fenced it) { munmap(it.pages, it.room + it.page); }

/* Whether the bytes from number `from` of the caller's on, and those before all of them, are 0x5a. */
static inline int is_clear_from(struct fenced it, size_t from) {
    const uint8_t *k;
    for (k = it.pages; k < it.at; k++)
        if (*k != 0x5a) return 0;
    for (k = it.at + from; k < it.pages + it.room; k++)
        if (*k != 0x5a) return 0;
    return 1;
}

static inline int is_clear(struct fenced it) { return is_clear_from(it, 0); }

#endif
