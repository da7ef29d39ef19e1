/* Three tasks that each ask for two quanta in three slots, on two processors. */
#include "pfair.h"

#include <inttypes.h>
#include <stdio.h>

int main(void) {
    pfair_desk desk = PFAIR_NO_DESK;
    if (pfair_open(&desk, 2, 3, 6, 64) != PFAIR_OK) return 1;
    for (uint64_t task = 1; task <= 3; task++) {
        pfair_change change = {PFAIR_INSERT, 0, {.kind = PFAIR_JOIN, .task = task, .cost = 2, .period = 3}};
        pfair_reply reply = {0, 0};
        if (pfair_edit(&desk, 0, &change, false, &reply) != PFAIR_OK) return 2;
    }
    for (uint64_t slot = 0; slot < 3; slot++) {
        pfair_pick row[2] = {{0, 0}, {0, 0}};
        if (pfair_step(&desk, 0) != PFAIR_OK || pfair_row(&desk, slot, row, 2) != PFAIR_OK) return 3;
        printf("slot %" PRIu64 ": %" PRIu32 "/%" PRIu32 " %" PRIu32 "/%" PRIu32 "\n", slot, row[0].task, row[0].sub,
               row[1].task, row[1].sub);
    }
    pfair_close(&desk);
    return 0;
}
