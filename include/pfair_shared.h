/*
 * pfair_shared.h: one desk of Zuthlemyr for many threads, in C and C++. It is part of the library of pfair.h.
 *
 * Callers are planners and dispatchers: they change the plan, step, and take the quanta of the processors, all with one history.
 * Readers read snapshots of it, which never change. No call waits for another: where a caller is at the desk, an edit or a
 * step of another answers PFAIR_BUSY and did nothing, and that caller yields, sleeps or tries again as it likes. Takes and
 * reads go on meanwhile. The library holds no lock and starts no thread.
 *
 * What is proved: each change and each step is an entry of one history, answered as one desk would answer it; each quantum of
 * a step is handed out at most once, to one caller; a snapshot stands for a history that the desk had, and no reader reads a
 * shorter one than before. That a call ends with something other than PFAIR_BUSY is not promised: who tries most gets in.
 *
 * The duties at the end of pfair.h hold for each handle here: it is in one call at a time. Handles of one desk may be in calls
 * at once, in different threads; that is what they are for. The calls of heap.h may then come from many threads at once.
 */
#ifndef PFAIR_SHARED_H
#define PFAIR_SHARED_H

#include "pfair.h"

#ifdef __cplusplus
extern "C" {
#endif

/*
 * The handles. All zero bits are none, as PFAIR_NONE is. Each owns what it names and keeps the desk alive, so they are closed
 * in any order, and the last one gives the desk's memory back. Each may be moved to another place or to another thread; of two
 * copies only one may be used from then on. A handle of another kind is answered PFAIR_NOT_OPEN.
 */
typedef struct pfair_shared {
    void *inner;
} pfair_shared; /* the desk: the callers and readers that were not opened yet */

typedef struct pfair_caller {
    void *inner;
} pfair_caller; /* a planner or a dispatcher */

typedef struct pfair_reader {
    void *inner;
} pfair_reader;

typedef struct pfair_snapshot {
    void *inner;
} pfair_snapshot; /* the desk as it stood after some entry */

/* clang-format off */
#define PFAIR_NONE {NULL}
/* clang-format on */

/* One slot of one processor, for one subtask. */
typedef struct pfair_quantum {
    uint64_t slot;
    uint32_t processor; /* from 0 */
    uint32_t task;      /* from 1 */
    uint64_t sub;       /* the subtask, from 1 */
} pfair_quantum;

/* ---- Opening and closing ---- */

/*
 * Opens a desk at a handle that has none: processors, base, cap and every as for pfair_open, with 2^22 slots; 1 to 128
 * callers, and at most 64 readers, are there to be opened. The plan is empty and no slot was stepped. The handle is as before
 * at every status but PFAIR_OK: PFAIR_ALREADY_OPEN, PFAIR_BAD_SETTINGS, PFAIR_NO_MEMORY.
 */
pfair_status pfair_shared_open(pfair_shared *desk, uint64_t processors, uint64_t base, uint64_t cap, uint64_t every,
                               uint64_t callers, uint64_t readers);

/*
 * Opens the next caller, whose number in the history is 0 for the first; the next reader. PFAIR_NO_PLACE: as many as there
 * are were opened, and a place is not given twice. PFAIR_NOT_OPEN: the desk's handle has none. PFAIR_ALREADY_OPEN: the other handle has
 * something. PFAIR_NO_MEMORY. At these both handles are as before.
 */
pfair_status pfair_caller_open(pfair_shared *desk, pfair_caller *caller);
pfair_status pfair_reader_open(pfair_shared *desk, pfair_reader *reader);

/* Closes a handle; one that has nothing stays as it is. */
void pfair_shared_close(pfair_shared *desk);
void pfair_caller_close(pfair_caller *caller);
void pfair_reader_close(pfair_reader *reader);
void pfair_snapshot_close(pfair_snapshot *snapshot);

/* ---- Callers ---- */

/*
 * Asks for a change of the plan, as pfair_edit does; the answer is an entry of the one history, with the caller's number, and
 * is shown to readers before another caller is at the desk. PFAIR_BUSY, PFAIR_NO_MEMORY, PFAIR_NOT_OPEN, PFAIR_UNKNOWN_KIND: there
 * is no entry, and all is as before, *reply too.
 */
pfair_status pfair_caller_edit(pfair_caller *caller, const pfair_change *change, bool strict, pfair_reply *reply);

/*
 * Asks for the next slot, as an entry of the one history. PFAIR_OK: *slot is its number, each of its quanta lies on its
 * processor for someone to take, and the room has who runs on each processor, 0 and 0 where nobody does; of a shorter room,
 * of length 0 too, on as many as it has places for. PFAIR_PENDING: a quantum of the slot before was not taken, there is no
 * entry, and *processor is the lowest on which one lies. PFAIR_BUSY, PFAIR_NO_MEMORY, PFAIR_NOT_OPEN: there is no entry.
 * PFAIR_AT_HORIZON: no slot is left. What is not told is as before.
 */
pfair_status pfair_caller_step(pfair_caller *caller, uint64_t *slot, uint32_t *processor, pfair_pick *room,
                               size_t length);

/*
 * Takes the quantum that lies on a processor. PFAIR_OK hands *quantum to this caller, and to no other, ever.
 * PFAIR_NOTHING: none lay there. PFAIR_OUT_OF_RANGE: there is no such processor. PFAIR_NOT_OPEN. It takes no memory.
 */
pfair_status pfair_caller_take(pfair_caller *caller, uint32_t processor, pfair_quantum *quantum);

/*
 * The same for a worker that is on time: it takes only where the slot is the last one that was stepped. PFAIR_NOT_YET: the
 * slot is not stepped yet, so try again. PFAIR_NOTHING: the processor is idle in it, or a later slot is stepped already, which
 * pfair_caller_stepped tells. Where several callers take from one processor, see quantum->slot: it may be a later one.
 */
pfair_status pfair_caller_take_in(pfair_caller *caller, uint32_t processor, uint64_t slot, pfair_quantum *quantum);

/* How many slots were stepped: slots below *slots have their quanta on the processors, or had. PFAIR_NOT_OPEN. */
pfair_status pfair_caller_stepped(pfair_caller *caller, uint64_t *slots);

/* How many entries the history has: changes and steps, refused ones too. PFAIR_NOT_OPEN. */
pfair_status pfair_caller_look(pfair_caller *caller, uint64_t *entries);

/* ---- Readers and snapshots ---- */

/*
 * Puts the desk as it stands into a snapshot's handle, in place of what was there. PFAIR_BUSY: there was nothing to read just
 * now, as it was changed under each of many tries. PFAIR_NO_MEMORY, PFAIR_NOT_OPEN. At these the handle is as before.
 */
pfair_status pfair_reader_read(pfair_reader *reader, pfair_snapshot *snapshot);

/* Puts the same snapshot into another handle, for another thread, in place of what was there. PFAIR_NO_MEMORY, PFAIR_NOT_OPEN. */
pfair_status pfair_snapshot_again(pfair_snapshot *snapshot, pfair_snapshot *again);

/* How many entries its history has, and how many slots were stepped. PFAIR_NOT_OPEN. */
pfair_status pfair_snapshot_now(pfair_snapshot *snapshot, uint64_t *entries, uint64_t *slots);

/* Who runs where in a slot, with the statuses of pfair_row. */
pfair_status pfair_snapshot_row(pfair_snapshot *snapshot, uint64_t slot, pfair_pick *room, size_t length);

/*
 * The same of the slots from `from` on and below `to`, one slot behind the other: (to - from) times the number of processors.
 * PFAIR_OUT_OF_RANGE: from is above to, or to above the slots stepped. PFAIR_TOO_SHORT: which no count tells. PFAIR_NOT_OPEN.
 */
pfair_status pfair_snapshot_rows(pfair_snapshot *snapshot, uint64_t from, uint64_t to, pfair_pick *room, size_t length);

#ifdef __cplusplus
}
#endif
#endif
