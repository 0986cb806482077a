/* The functions by which the library takes memory, in place of heap.c: they count the requests, and refuse one of them. */
#ifndef COUNTED_H
#define COUNTED_H

#include <stdbool.h>
#include <stdlib.h>

struct tried { bool ok; unsigned char *at; };
static unsigned char nothing;

/* how many requests were made, the number of the one that is refused, and how many blocks are held */
static long asked, refused, held;

static struct tried tried(void *at) {
    struct tried it = {at != NULL, at != NULL ? (unsigned char *)at : &nothing};
    return it;
}
struct tried rattle_alloc(size_t size, size_t align) {
    void *at = ++asked == refused ? NULL : malloc(size != 0 ? size : align);
    held += at != NULL;
    return tried(at);
}
struct tried rattle_realloc(unsigned char *at, size_t kept, size_t size, size_t align) {
    (void)kept;
    return tried(++asked == refused ? NULL : realloc(at, size != 0 ? size : align));
}
void rattle_dealloc(unsigned char *at) { held--; free(at); }

#endif
