/*
 * The three calls by which the library takes memory and gives it back. libpf_face.a needs them by these names, and
 * libpfair.so keeps its own to itself. What the library rests on:
 *
 * - A block that was given is the library's alone until it is freed or moved, and has at least size bytes.
 * - It is aligned to align, which is a power of two, at most 16. (malloc does so; FreeRTOS's heaps need
 *   portBYTE_ALIGNMENT 16.)
 * - pfair_heap_realloc keeps the first kept bytes, or as many as the new size; where it gives nothing, the old block stays.
 * - `at` is never null, also where there was no memory: `ok` alone tells.
 * - Where desks are used in several threads, or a shared one (pfair_shared.h), they are called from several at once.
 */
#ifndef PFAIR_HEAP_H
#define PFAIR_HEAP_H

#include <stdbool.h>
#include <stddef.h>

struct pfair_heap_tried {
    bool ok;
    void *at;
};

struct pfair_heap_tried pfair_heap_alloc(size_t size, size_t align);
struct pfair_heap_tried pfair_heap_realloc(void *at, size_t kept, size_t size, size_t align);
void pfair_heap_dealloc(void *at);

/* The answer of a call that found this block, or null. */
static inline struct pfair_heap_tried pfair_heap_tried_at(void *at) {
    static char nothing;
    struct pfair_heap_tried answer = {at != NULL, at != NULL ? at : &nothing};
    return answer;
}

#endif
