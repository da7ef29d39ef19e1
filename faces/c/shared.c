/* The shared desk: each call once, with values worked out by hand from docs/RULES.md, then two dispatchers, two planners
 * and two readers at one desk. It writes nothing; its status is the line of the first check that fails, or 0. */
#define _POSIX_C_SOURCE 200809L
#include "pfair_shared.h"

#include <pthread.h>
#include <sched.h>
#include <stdatomic.h>
#include <string.h>

#define CHECK(fact)                                                                                                    \
    do {                                                                                                               \
        if (!(fact)) return __LINE__ % 251 + 1;                                                                        \
    } while (0)

enum { PROCESSORS = 4, TASKS = 8, BASE = 64, SLOTS = 20000, FAR = 4000000, DISPATCHERS = 2, PLANNERS = 2, READERS = 2 };

static pfair_change join(uint64_t slot, uint64_t task, uint64_t cost, uint64_t period) {
    pfair_change change;
    memset(&change, 0, sizeof change);
    change.kind = PFAIR_INSERT;
    change.event.kind = PFAIR_JOIN;
    change.event.slot = slot;
    change.event.task = task;
    change.event.cost = cost;
    change.event.period = period;
    return change;
}

/* Handles that have nothing answer so, and leave what they would write to. */
static int closed(void) {
    pfair_shared desk = PFAIR_NONE;
    pfair_caller caller = PFAIR_NONE;
    pfair_reader reader = PFAIR_NONE;
    pfair_snapshot snapshot = PFAIR_NONE, again = PFAIR_NONE;
    pfair_change change = join(0, 1, 2, 3);
    pfair_reply reply = {7, 8};
    pfair_pick row[2] = {{5, 5}, {5, 5}};
    pfair_quantum quantum = {1, 2, 3, 4};
    uint64_t slot = 9, entries = 9;
    uint32_t processor = 9;
    CHECK(pfair_caller_open(&desk, &caller) == PFAIR_NOT_OPEN && pfair_reader_open(&desk, &reader) == PFAIR_NOT_OPEN);
    CHECK(pfair_caller_edit(&caller, &change, false, &reply) == PFAIR_NOT_OPEN);
    CHECK(reply.event == 7 && reply.reason == 8);
    CHECK(pfair_caller_step(&caller, &slot, &processor, row, 2) == PFAIR_NOT_OPEN);
    CHECK(slot == 9 && processor == 9 && row[0].task == 5);
    CHECK(pfair_caller_take(&caller, 0, &quantum) == PFAIR_NOT_OPEN && quantum.sub == 4);
    CHECK(pfair_caller_take_in(&caller, 0, 0, &quantum) == PFAIR_NOT_OPEN && quantum.sub == 4);
    CHECK(pfair_caller_stepped(&caller, &slot) == PFAIR_NOT_OPEN && slot == 9);
    CHECK(pfair_caller_look(&caller, &entries) == PFAIR_NOT_OPEN && entries == 9);
    CHECK(pfair_reader_read(&reader, &snapshot) == PFAIR_NOT_OPEN);
    CHECK(pfair_snapshot_again(&snapshot, &again) == PFAIR_NOT_OPEN);
    CHECK(pfair_snapshot_now(&snapshot, &entries, &slot) == PFAIR_NOT_OPEN && entries == 9 && slot == 9);
    CHECK(pfair_snapshot_row(&snapshot, 0, row, 2) == PFAIR_NOT_OPEN && row[1].sub == 5);
    CHECK(pfair_snapshot_rows(&snapshot, 0, 0, row, 2) == PFAIR_NOT_OPEN && row[1].sub == 5);
    CHECK(!desk.inner && !caller.inner && !reader.inner && !snapshot.inner && !again.inner);
    return 0;
}

/* A desk of 2 processors with two callers and a reader; the numbers that no desk has; and each place once. */
static int opened(pfair_shared *desk, pfair_caller callers[2], pfair_reader *reader) {
    pfair_caller third = PFAIR_NONE;
    pfair_reader second = PFAIR_NONE;
    CHECK(pfair_shared_open(desk, 0, 3, 6, 64, 2, 1) == PFAIR_BAD_SETTINGS);
    CHECK(pfair_shared_open(desk, 2, 3, 6, 0, 2, 1) == PFAIR_BAD_SETTINGS);
    CHECK(pfair_shared_open(desk, 2, 3, 6, 64, 0, 1) == PFAIR_BAD_SETTINGS);
    CHECK(pfair_shared_open(desk, 2, 3, 6, 64, 129, 1) == PFAIR_BAD_SETTINGS);
    CHECK(pfair_shared_open(desk, 2, 3, 6, 64, 2, 65) == PFAIR_BAD_SETTINGS && !desk->inner);
    CHECK(pfair_shared_open(desk, 2, 3, 6, 64, 2, 1) == PFAIR_OK);
    CHECK(pfair_shared_open(desk, 2, 3, 6, 64, 2, 1) == PFAIR_ALREADY_OPEN);
    CHECK(pfair_caller_open(desk, &callers[0]) == PFAIR_OK);
    CHECK(pfair_caller_open(desk, &callers[0]) == PFAIR_ALREADY_OPEN);
    CHECK(pfair_caller_open(desk, &callers[1]) == PFAIR_OK && pfair_caller_open(desk, &third) == PFAIR_NO_PLACE);
    CHECK(pfair_reader_open(desk, reader) == PFAIR_OK && pfair_reader_open(desk, reader) == PFAIR_ALREADY_OPEN);
    CHECK(pfair_reader_open(desk, &second) == PFAIR_NO_PLACE && !third.inner && !second.inner);
    return 0;
}

/* Three tasks of 2/3 on two processors: slot 0 has 1/1 and 2/1, slot 1 has 1/2 and 3/1 (docs/FACES.md). */
static int commands(pfair_caller callers[2]) {
    pfair_reply reply = {0, 0};
    pfair_pick row[3] = {{5, 5}, {5, 5}, {5, 5}};
    pfair_quantum quantum = {0, 0, 0, 0};
    uint64_t slot = 9, entries = 0;
    uint32_t processor = 9;
    for (uint64_t task = 1; task <= 3; task++) {
        pfair_change change = join(0, task, 2, 3);
        CHECK(pfair_caller_edit(&callers[0], &change, true, &reply) == PFAIR_OK && reply.event == task);
    }
    pfair_change bad = join(0, 4, 4, 3), unknown = join(0, 4, 1, 3);
    CHECK(pfair_caller_edit(&callers[1], &bad, false, &reply) == PFAIR_BAD_WEIGHT);
    CHECK(reply.reason == PFAIR_COST_ABOVE_PERIOD);
    unknown.kind = 3;
    CHECK(pfair_caller_edit(&callers[1], &unknown, false, &reply) == PFAIR_UNKNOWN_KIND);
    CHECK(pfair_caller_look(&callers[1], &entries) == PFAIR_OK && entries == 4);
    CHECK(pfair_caller_take(&callers[0], 0, &quantum) == PFAIR_NOTHING && quantum.task == 0);
    CHECK(pfair_caller_take_in(&callers[0], 0, 0, &quantum) == PFAIR_NOT_YET);
    CHECK(pfair_caller_step(&callers[0], &slot, &processor, row, 3) == PFAIR_OK && slot == 0 && processor == 9);
    CHECK(row[0].task == 1 && row[0].sub == 1 && row[1].task == 2 && row[1].sub == 1 && row[2].task == 5);
    CHECK(pfair_caller_stepped(&callers[1], &slot) == PFAIR_OK && slot == 1);
    CHECK(pfair_caller_take(&callers[1], 2, &quantum) == PFAIR_OUT_OF_RANGE);
    CHECK(pfair_caller_take_in(&callers[1], 0, 0, &quantum) == PFAIR_OK);
    CHECK(quantum.slot == 0 && quantum.processor == 0 && quantum.task == 1 && quantum.sub == 1);
    CHECK(pfair_caller_step(&callers[1], &slot, &processor, row, 2) == PFAIR_PENDING && processor == 1 && slot == 1);
    CHECK(pfair_caller_take(&callers[0], 1, &quantum) == PFAIR_OK && quantum.task == 2);
    CHECK(pfair_caller_take(&callers[1], 1, &quantum) == PFAIR_NOTHING && quantum.task == 2);
    CHECK(pfair_caller_step(&callers[1], &slot, &processor, row, 1) == PFAIR_OK && slot == 1);
    CHECK(row[0].task == 1 && row[0].sub == 2 && row[1].task == 2);
    CHECK(pfair_caller_take_in(&callers[0], 0, 0, &quantum) == PFAIR_NOTHING);
    CHECK(pfair_caller_look(&callers[0], &entries) == PFAIR_OK && entries == 6);
    return 0;
}

/* What the reader reads of it, also once all else is closed. */
static int reading(pfair_shared *desk, pfair_caller callers[2], pfair_reader *reader) {
    pfair_snapshot snapshot = PFAIR_NONE, again = PFAIR_NONE;
    pfair_pick row[2] = {{5, 5}, {5, 5}}, rows[5];
    uint64_t entries = 0, slots = 0;
    memset(rows, 5, sizeof rows);
    CHECK(pfair_reader_read(reader, &snapshot) == PFAIR_OK);
    CHECK(pfair_snapshot_now(&snapshot, &entries, &slots) == PFAIR_OK && entries == 6 && slots == 2);
    CHECK(pfair_snapshot_row(&snapshot, 1, row, 2) == PFAIR_OK);
    CHECK(row[0].task == 1 && row[0].sub == 2 && row[1].task == 3 && row[1].sub == 1);
    CHECK(pfair_snapshot_row(&snapshot, 2, row, 2) == PFAIR_OUT_OF_RANGE);
    CHECK(pfair_snapshot_row(&snapshot, 1, row, 1) == PFAIR_TOO_SHORT && row[0].task == 1);
    CHECK(pfair_snapshot_rows(&snapshot, 0, 3, rows, 5) == PFAIR_OUT_OF_RANGE);
    CHECK(pfair_snapshot_rows(&snapshot, 2, 1, rows, 5) == PFAIR_OUT_OF_RANGE);
    CHECK(pfair_snapshot_rows(&snapshot, 0, 2, rows, 3) == PFAIR_TOO_SHORT);
    CHECK(pfair_snapshot_rows(&snapshot, 1, 1, rows, 0) == PFAIR_OK && rows[0].task == 0x05050505);
    CHECK(pfair_snapshot_rows(&snapshot, 0, 2, rows, 5) == PFAIR_OK && rows[4].task == 0x05050505);
    CHECK(rows[0].task == 1 && rows[1].task == 2 && rows[2].task == 1 && rows[2].sub == 2 && rows[3].task == 3);
    pfair_shared_close(desk);
    pfair_caller_close(&callers[1]);
    pfair_caller_close(&callers[0]);
    CHECK(pfair_reader_read(reader, &snapshot) == PFAIR_OK && pfair_snapshot_again(&snapshot, &again) == PFAIR_OK);
    pfair_reader_close(reader);
    pfair_reader_close(reader);
    pfair_snapshot_close(&snapshot);
    entries = slots = 0;
    CHECK(pfair_snapshot_now(&again, &entries, &slots) == PFAIR_OK && entries == 6 && slots == 2);
    CHECK(pfair_snapshot_row(&again, 0, row, 2) == PFAIR_OK && row[0].task == 1 && row[1].task == 2);
    pfair_snapshot_close(&again);
    CHECK(!desk->inner && !callers[0].inner && !callers[1].inner && !reader->inner && !snapshot.inner && !again.inner);
    return 0;
}

static int calls(void) {
    pfair_shared desk = PFAIR_NONE;
    pfair_caller callers[2] = {PFAIR_NONE, PFAIR_NONE};
    pfair_reader reader = PFAIR_NONE;
    int line = closed();
    if (!line) line = opened(&desk, callers, &reader);
    if (!line) line = commands(callers);
    if (!line) line = reading(&desk, callers, &reader);
    return line;
}

/* What the threads share beside the desk: for each slot a bit for each quantum that was taken, and where a check failed. */
static atomic_uint taken[SLOTS];
static atomic_int failed;
static atomic_bool done;

struct worker {
    pthread_t thread;
    pfair_caller caller;
    pfair_reader reader;
    uint32_t number;
    uint64_t count;
};

/* Notes a quantum: nobody had it before, and it is of a slot and a processor that there are. */
static int note(const pfair_quantum *quantum) {
    uint32_t bit = 1u << quantum->processor;
    CHECK(quantum->processor < PROCESSORS && quantum->slot < SLOTS && quantum->task >= 1 && quantum->task <= TASKS);
    CHECK(!(atomic_fetch_or(&taken[quantum->slot], bit) & bit));
    return 0;
}

/* Takes what lies on the processors, from its own on, and steps where nothing does, until there are enough slots. */
static int dispatched(struct worker *worker) {
    pfair_quantum quantum;
    bool any = true;
    while (any || !atomic_load(&done)) {
        any = false;
        for (uint32_t k = 0; k < PROCESSORS; k++) {
            uint32_t processor = (worker->number + k) % PROCESSORS;
            if (pfair_caller_take(&worker->caller, processor, &quantum) != PFAIR_OK) continue;
            int line = note(&quantum);
            if (line) return line;
            any = true, worker->count++;
        }
        if (any) continue;
        uint64_t slot = 0;
        uint32_t processor = PROCESSORS;
        pfair_pick row[PROCESSORS];
        if (pfair_caller_stepped(&worker->caller, &slot) != PFAIR_OK) return __LINE__ % 251 + 1;
        if (slot + DISPATCHERS > SLOTS) {
            atomic_store(&done, true);
            continue;
        }
        pfair_status status = pfair_caller_step(&worker->caller, &slot, &processor, row, PROCESSORS);
        CHECK(status == PFAIR_OK || status == PFAIR_BUSY || (status == PFAIR_PENDING && processor < PROCESSORS));
        if (status != PFAIR_OK) sched_yield();
    }
    return 0;
}

/* Alters a join that is far off. */
static int planned(struct worker *worker) {
    while (!atomic_load(&done)) {
        pfair_change change = join(FAR + worker->count % 1000, 100 + worker->number, 1, BASE);
        pfair_reply reply = {0, 0};
        change.kind = PFAIR_ALTER;
        change.id = TASKS + 1 + worker->number;
        pfair_status status = pfair_caller_edit(&worker->caller, &change, false, &reply);
        CHECK((status == PFAIR_OK && reply.event == change.id) || status == PFAIR_BUSY);
        if (status == PFAIR_OK) worker->count++;
        sched_yield();
    }
    return 0;
}

/* Reads: no history is shorter than the one before, and in the last slot each processor has a task of its own. */
static int read(struct worker *worker) {
    pfair_snapshot snapshot = PFAIR_NONE;
    uint64_t last = 0, entries = 0, slots = 0;
    while (!atomic_load(&done)) {
        pfair_pick row[PROCESSORS];
        pfair_status status = pfair_reader_read(&worker->reader, &snapshot);
        CHECK(status == PFAIR_OK || status == PFAIR_BUSY);
        if (status != PFAIR_OK) continue;
        CHECK(pfair_snapshot_now(&snapshot, &entries, &slots) == PFAIR_OK && entries >= last && slots <= SLOTS);
        last = entries, worker->count++;
        if (!slots) continue;
        CHECK(pfair_snapshot_row(&snapshot, slots - 1, row, PROCESSORS) == PFAIR_OK);
        for (int k = 0; k < PROCESSORS; k++)
            for (int j = 0; j <= k; j++) CHECK(row[k].task && (j == k || row[j].task != row[k].task));
    }
    pfair_snapshot_close(&snapshot);
    return 0;
}

static void *end_with(int line) {
    int none = 0;
    if (line) atomic_compare_exchange_strong(&failed, &none, line), atomic_store(&done, true);
    return NULL;
}

static void *dispatch(void *at) { return end_with(dispatched(at)); }
static void *plan(void *at) { return end_with(planned(at)); }
static void *follow(void *at) { return end_with(read(at)); }

/* A desk whose tasks fill its processors, with all its places. */
static int prepare(pfair_caller *first, struct worker *workers) {
    pfair_shared desk = PFAIR_NONE;
    pfair_reply reply = {0, 0};
    uint64_t cap = (PROCESSORS + 1) * BASE, callers = 1 + DISPATCHERS + PLANNERS;
    CHECK(pfair_shared_open(&desk, PROCESSORS, BASE, cap, 64, callers, READERS) == PFAIR_OK);
    CHECK(pfair_caller_open(&desk, first) == PFAIR_OK);
    for (uint64_t task = 1; task <= TASKS; task++) {
        pfair_change change = join(0, task, 1, 2);
        CHECK(pfair_caller_edit(first, &change, true, &reply) == PFAIR_OK);
    }
    for (uint64_t k = 0; k < PLANNERS; k++) {
        pfair_change change = join(FAR, 100 + k, 1, BASE);
        CHECK(pfair_caller_edit(first, &change, true, &reply) == PFAIR_OK && reply.event == TASKS + 1 + k);
    }
    for (int k = 0; k < DISPATCHERS + PLANNERS; k++) CHECK(pfair_caller_open(&desk, &workers[k].caller) == PFAIR_OK);
    for (int k = 0; k < READERS; k++)
        CHECK(pfair_reader_open(&desk, &workers[DISPATCHERS + PLANNERS + k].reader) == PFAIR_OK);
    pfair_shared_close(&desk);
    return 0;
}

/* Each quantum of each slot stepped was taken, once, and each entry is in the history. */
static int accounted(pfair_caller *first, const struct worker *workers) {
    uint64_t slots = 0, quanta = 0, entries = 0;
    CHECK(pfair_caller_stepped(first, &slots) == PFAIR_OK && slots + DISPATCHERS > SLOTS && slots <= SLOTS);
    for (uint64_t slot = 0; slot < SLOTS; slot++)
        CHECK(atomic_load(&taken[slot]) == (slot < slots ? (1u << PROCESSORS) - 1 : 0));
    for (int k = 0; k < DISPATCHERS; k++) quanta += workers[k].count;
    CHECK(quanta == slots * PROCESSORS);
    CHECK(pfair_caller_look(first, &entries) == PFAIR_OK);
    for (int k = 0; k < PLANNERS; k++) slots += workers[DISPATCHERS + k].count;
    CHECK(entries == TASKS + PLANNERS + slots);
    return 0;
}

static int threads(void) {
    static struct worker workers[DISPATCHERS + PLANNERS + READERS];
    pfair_caller first = PFAIR_NONE;
    int line = prepare(&first, workers), started = 0;
    for (uint32_t k = 0; !line && k < DISPATCHERS + PLANNERS + READERS; k++) {
        void *(*job)(void *) = k < DISPATCHERS ? dispatch : k < DISPATCHERS + PLANNERS ? plan : follow;
        workers[k].number = k < DISPATCHERS ? k : k - DISPATCHERS;
        if (pthread_create(&workers[k].thread, NULL, job, &workers[k])) {
            line = __LINE__ % 251 + 1;
            atomic_store(&done, true);
        } else {
            started++;
        }
    }
    for (int k = 0; k < started; k++) pthread_join(workers[k].thread, NULL);
    if (!line) line = atomic_load(&failed);
    if (!line) line = accounted(&first, workers);
    for (int k = 0; k < started; k++) pfair_caller_close(&workers[k].caller), pfair_reader_close(&workers[k].reader);
    pfair_caller_close(&first);
    return line;
}

int main(void) {
    int line = calls();
    return line ? line : threads();
}
