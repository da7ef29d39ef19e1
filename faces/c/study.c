/*
 * A what-if study: which of some changes could a running plan take? Two processors serve three tasks of 1/2, 2/3 and 1/4,
 * and twelve slots are done. Each change is tried at slot 4, in the past, and none is made.
 */
#include "pfair.h"

#include <inttypes.h>
#include <stdio.h>

#define MOST_BYTES 4096

static const char plan[] = "join,0,1,1,2,0\njoin,0,2,2,3,0\njoin,0,3,1,4,0\nstep,12\n";

/* What is tried, and what it is called. */
struct trial {
    const char *name;
    pfair_event event;
};

static const struct trial trials[] = {
    {"join 4 of 1/3", {.kind = PFAIR_JOIN, .slot = 4, .task = 4, .cost = 1, .period = 3}},
    {"join 4 of 2/3", {.kind = PFAIR_JOIN, .slot = 4, .task = 4, .cost = 2, .period = 3}},
    {"join 4 of 2/5", {.kind = PFAIR_JOIN, .slot = 4, .task = 4, .cost = 2, .period = 5}},
    {"leave 1", {.kind = PFAIR_LEAVE, .slot = 4, .task = 1}},
    {"limit 1", {.kind = PFAIR_LIMIT, .slot = 4, .count = 1}},
};

/* Prints what the library says of a status or a reason. */
static void print_sentence(uint64_t number) {
    char said[PFAIR_SAID];
    puts(pfair_say((uint32_t)number, said, sizeof said));
}

/* The missed windows of a table: its lines behind the heading. */
static size_t lines_behind_heading(const char *table, size_t length) {
    size_t lines = 0;
    for (size_t k = 0; k < length; k++) lines += table[k] == '\n';
    return lines - 1;
}

/* Tries a change, strictly, and prints what would come of it. */
static pfair_status try_event(pfair_desk *desk, const struct trial *trial) {
    pfair_change change = {PFAIR_INSERT, 0, trial->event};
    pfair_reply reply = {0, 0};
    char table[MOST_BYTES];
    size_t count = 0;
    pfair_status status = pfair_what_if(desk, 1, &change, true, &reply, PFAIR_MISSES, table, sizeof table, &count);
    printf("%s: ", trial->name);
    if (status == PFAIR_OK) {
        printf("%zu windows missed\n", lines_behind_heading(table, count));
        return PFAIR_OK;
    }
    if (status >= PFAIR_NOT_OPEN) return status;
    print_sentence(reply.reason != 0 ? reply.reason : status);
    return PFAIR_OK;
}

int main(void) {
    pfair_desk desk = PFAIR_NO_DESK;
    pfair_bad_record bad = {0, 0, 0};
    bool never = false;
    pfair_status status = pfair_open(&desk, 2, 60, 120, 64);
    if (status == PFAIR_OK) status = pfair_run(&desk, 1, plan, sizeof plan - 1, &bad);
    if (status == PFAIR_BAD_RECORD) fprintf(stderr, "line %" PRIu64 " of the plan is bad\n", bad.line);
    for (size_t k = 0; status == PFAIR_OK && k < sizeof trials / sizeof trials[0]; k++) status = try_event(&desk, &trials[k]);
    if (status == PFAIR_OK) status = pfair_never_misses(&desk, &never);
    if (status == PFAIR_OK) printf("as it stands the plan can %s\n", never ? "never miss a window" : "miss windows");
    if (status != PFAIR_OK) print_sentence(status);
    pfair_close(&desk);
    return status != PFAIR_OK;
}
