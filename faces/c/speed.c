/* What a call costs beside the work of the desk: slots taken by a call each, and by one call for all; and the least call. */
#include "pfair.h"

#include <inttypes.h>
#include <stdio.h>
#include <time.h>

enum { PROCESSORS = 8, TASKS = 32, BASE = 64 };

static double seconds(void) {
    struct timespec now;
    timespec_get(&now, TIME_UTC);
    return (double)now.tv_sec + 1e-9 * (double)now.tv_nsec;
}

/* A desk of 8 processors that 32 tasks of 1/4 fill. */
static int open_full(pfair_desk *desk) {
    if (pfair_open(desk, PROCESSORS, BASE, PROCESSORS * BASE, 64) != PFAIR_OK) return 0;
    for (uint64_t task = 1; task <= TASKS; task++) {
        pfair_change change = {PFAIR_INSERT, 0, {.kind = PFAIR_JOIN, .task = task, .cost = 4, .period = 16}};
        pfair_reply reply = {0, 0};
        if (pfair_edit(desk, 0, &change, false, &reply) != PFAIR_OK) return 0;
    }
    return 1;
}

int main(void) {
    const uint64_t slots = 500000, calls = 50000000;
    for (int round = 0; round < 5; round++) {
        pfair_desk desk = PFAIR_NO_DESK;
        uint64_t taken = 0, now = 0;
        double began, steps, advance, least;
        if (!open_full(&desk)) return 1;
        began = seconds();
        for (uint64_t slot = 0; slot < slots; slot++) {
            if (pfair_step(&desk, 0) != PFAIR_OK) return 2;
        }
        steps = (seconds() - began) / (double)slots;
        began = seconds();
        for (uint64_t call = 0; call < calls; call++) {
            if (pfair_now(&desk, &now) != PFAIR_OK) return 3;
        }
        least = (seconds() - began) / (double)calls;
        pfair_close(&desk);
        if (!open_full(&desk)) return 4;
        began = seconds();
        if (pfair_advance(&desk, 0, slots, &taken) != PFAIR_OK || taken != slots) return 5;
        advance = (seconds() - began) / (double)slots;
        pfair_close(&desk);
        printf("pfair_step %.1f ns, pfair_advance %.1f ns a slot, ", 1e9 * steps, 1e9 * advance);
        printf("pfair_now %.1f ns\n", 1e9 * least);
    }
    return 0;
}
