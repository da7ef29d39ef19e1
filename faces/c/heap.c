/*
 * The calls of heap.h over malloc, realloc and free. A system with an allocator of its own writes these three anew and links
 * them in place of this file.
 */
#include "heap.h"

#include <stdlib.h>

/* malloc(0) may give null, which is no refusal. */
static size_t some(size_t size, size_t align) {
    return size != 0 ? size : align;
}

struct pfair_heap_tried pfair_heap_alloc(size_t size, size_t align) {
    return pfair_heap_tried_at(malloc(some(size, align)));
}

struct pfair_heap_tried pfair_heap_realloc(void *at, size_t kept, size_t size, size_t align) {
    (void)kept;
    return pfair_heap_tried_at(realloc(at, some(size, align)));
}

void pfair_heap_dealloc(void *at) {
    free(at);
}
