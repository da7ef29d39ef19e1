/*
 * Memory that is refused: one plan is made again and again, each time with another of its allocations refused, and so at a
 * shared desk. A call that tells so has left the desk as it was, and no block of memory is lost. It takes the place of heap.c.
 */
#include "heap.h"
#include "pfair_shared.h"

#include <stdio.h>
#include <stdlib.h>
#include <string.h>

static long asked, refused, living;

struct pfair_heap_tried pfair_heap_alloc(size_t size, size_t align) {
    void *at = ++asked == refused ? NULL : malloc(size != 0 ? size : align);
    living += at != NULL;
    return pfair_heap_tried_at(at);
}

struct pfair_heap_tried pfair_heap_realloc(void *at, size_t kept, size_t size, size_t align) {
    (void)kept;
    return pfair_heap_tried_at(++asked == refused ? NULL : realloc(at, size != 0 ? size : align));
}

void pfair_heap_dealloc(void *at) {
    living--;
    free(at);
}

static void fail(const char *what) {
    printf("refuse: %s, allocation %ld refused\n", what, refused);
    exit(1);
}

/* The report, with no allocation refused. */
static size_t report(pfair_desk *desk, char *text, size_t length) {
    long kept = refused;
    size_t count = 0;
    refused = 0;
    if (pfair_text(desk, PFAIR_JSON, text, length, &count) != PFAIR_OK) fail("no report");
    refused = kept;
    return count;
}

static pfair_change change_of(uint64_t k) {
    pfair_change change;
    memset(&change, 0, sizeof change);
    change.kind = k % 7 == 6 ? PFAIR_STRIKE : PFAIR_INSERT;
    change.id = k / 2;
    change.event.kind = k % 5 == 4 ? PFAIR_DELAY : PFAIR_JOIN;
    change.event.slot = k % 9;
    change.event.task = 1 + k % 5;
    change.event.cost = 1 + k % 3;
    change.event.period = 4;
    change.event.by = 2;
    return change;
}

/* A text, and what is wrong with records, for which a room of one byte is too short: whether memory was refused to them. */
static int tell(pfair_desk *desk, uint64_t kind, const char *records, size_t length) {
    char room = 77;
    size_t count = 0;
    int told = pfair_text(desk, kind, &room, 1, &count) == PFAIR_NO_MEMORY;
    told |= pfair_record_faults(records, length, &room, 1, &count) == PFAIR_NO_MEMORY;
    if (room != 77) fail("a changed room");
    return told;
}

/* Makes the plan, and tells whether a call told of refused memory. */
static int plan(void) {
    static char before[1 << 14], after[1 << 14];
    static const char records[] = "delay,3,1,1\nstep\n", bad_records[] = "step,none\n";
    pfair_desk desk = PFAIR_NO_DESK;
    int told = 0;
    if (pfair_open(&desk, 2, 12, 30, 3) == PFAIR_NO_MEMORY) {
        if (desk.inner != NULL || living != 0) fail("a desk that was not opened");
        return 1;
    }
    for (uint64_t k = 0; k < 30; k++) {
        pfair_change change = change_of(k);
        pfair_reply reply = {77, 77};
        pfair_fit fit = {77, 77, 77};
        pfair_bad_record bad = {77, 77, 77};
        pfair_lag lags[8];
        uint64_t taken = 0;
        size_t count = 0, bytes = report(&desk, before, sizeof before);
        memset(lags, 0, sizeof lags);
        if (pfair_edit(&desk, 1, &change, k % 3 == 0, &reply) == PFAIR_NO_MEMORY) {
            told = 1;
            if (report(&desk, after, sizeof after) != bytes || memcmp(before, after, bytes) != 0) fail("a changed desk");
            if (reply.event != 77 || reply.reason != 77) fail("a changed reply");
        }
        told |= pfair_advance(&desk, 1, 1, &taken) == PFAIR_NO_MEMORY;
        if (pfair_run(&desk, 1, records, sizeof records - 1, &bad) == PFAIR_NO_MEMORY) {
            told = 1;
            if (bad.number != 77) fail("a changed place");
        }
        told |= pfair_lags(&desk, lags, 8, &count) == PFAIR_NO_MEMORY;
        if (k % 6 == 0) told |= tell(&desk, PFAIR_CHART + k / 6, bad_records, sizeof bad_records - 1);
        if (pfair_fits(&desk, &fit) == PFAIR_NO_MEMORY) {
            told = 1;
            if (fit.first != 77 || fit.overload_high != 77 || fit.overload_low != 77) fail("a changed fit");
        }
    }
    pfair_close(&desk);
    if (living != 0) fail("blocks are left");
    return told;
}

/* Opens all handles of a shared desk. One allocation is refused, so a call that is made again succeeds. */
static int open_all(pfair_shared *desk, pfair_caller *caller, pfair_reader *reader) {
    int told = 0;
    while (pfair_caller_open(desk, caller) == PFAIR_NO_MEMORY) told = 1;
    while (pfair_reader_open(desk, reader) == PFAIR_NO_MEMORY) told = 1;
    pfair_shared_close(desk);
    if (caller->inner == NULL || reader->inner == NULL) fail("no place");
    return told;
}

/* A change and a step, with its quanta taken: where memory is refused there is no entry. */
static int command(pfair_caller *caller, uint64_t k) {
    pfair_change change = change_of(k);
    pfair_reply reply = {77, 77};
    pfair_pick row[2];
    uint64_t slot = 77, before = 0, after = 0;
    uint32_t processor = 0;
    pfair_quantum quantum;
    int told = 0;
    pfair_caller_look(caller, &before);
    while (pfair_caller_edit(caller, &change, k % 3 == 0, &reply) == PFAIR_NO_MEMORY) {
        told = 1;
        if (reply.event != 77 || reply.reason != 77) fail("a changed reply");
        if (pfair_caller_look(caller, &after) != PFAIR_OK || after != before) fail("an entry");
    }
    while (pfair_caller_step(caller, &slot, &processor, row, 2) == PFAIR_NO_MEMORY) {
        told = 1;
        if (slot != 77 || pfair_caller_look(caller, &after) != PFAIR_OK || after != before + 1) fail("a step");
    }
    for (processor = 0; processor < 2; processor++)
        if ((row[processor].task != 0) != (pfair_caller_take(caller, processor, &quantum) == PFAIR_OK)) fail("another row");
    return told;
}

/* The same plan at a shared desk, and whether a call told of refused memory. */
static int share(void) {
    pfair_shared desk = PFAIR_NONE;
    pfair_caller caller = PFAIR_NONE;
    pfair_reader reader = PFAIR_NONE;
    pfair_snapshot snapshot = PFAIR_NONE, again = PFAIR_NONE;
    int told = 0;
    if (pfair_shared_open(&desk, 2, 12, 30, 3, 1, 1) == PFAIR_NO_MEMORY) {
        if (desk.inner != NULL || living != 0) fail("a shared desk that was not opened");
        return 1;
    }
    told |= open_all(&desk, &caller, &reader);
    for (uint64_t k = 0; k < 30; k++) {
        uint64_t entries = 0, slots = 0;
        told |= command(&caller, k);
        while (pfair_reader_read(&reader, &snapshot) == PFAIR_NO_MEMORY) told = 1;
        while (pfair_snapshot_again(&snapshot, &again) == PFAIR_NO_MEMORY) told = 1;
        if (pfair_snapshot_now(&again, &entries, &slots) != PFAIR_OK || entries != 2 * k + 2 || slots != k + 1) fail("a snapshot");
    }
    pfair_caller_close(&caller);
    pfair_snapshot_close(&snapshot);
    pfair_snapshot_close(&again);
    pfair_reader_close(&reader);
    if (living != 0) fail("blocks of a shared desk are left");
    return told;
}

/* Runs this once with each of its allocations refused. */
static void refuse_each(const char *what, int (*run)(void)) {
    long most, told = 0;
    asked = refused = 0;
    run();
    most = asked;
    for (refused = 1; refused <= most; refused++) {
        asked = 0;
        told += run();
    }
    if (told == 0) fail("no call told");
    printf("%s: %ld allocations, each refused once; %ld runs had a call that told so\n", what, most, told);
}

int main(void) {
    refuse_each("plan", plan);
    refuse_each("shared desk", share);
    return 0;
}
