/*
 * pfair.h: the planner's desk of Zuthlemyr for C and C++.
 *
 * A desk keeps a plan of a multiprocessor real-time system: which periodic tasks join, leave, are delayed, and how many
 * processors are in use. Slot by slot it tells who runs where, by the rules of PD2 (docs/RULES.md), and any change to the
 * plan, in the past too, is made as though it had always stood there. Each call is proved to do what is said of it here,
 * for all numbers that its types can hold, provided that the caller keeps the four duties at the end of this file.
 *
 * Units: a slot is one quantum of time; slots, periods and deadlines are counted in slots from 0, costs in quanta. A weight
 * cost/period is a part of one processor. The base h is a number that each period divides, and loads are counted in 1/h.
 *
 * Link with libpfair.a or libpfair.so. They take memory by malloc, realloc and free; faces/c/heap.h tells how another
 * allocator takes their place.
 */
#ifndef PFAIR_H
#define PFAIR_H

#include <stdbool.h>
#include <stddef.h>
#include <stdint.h>

#ifdef __cplusplus
extern "C" {
#endif

/* Semantic versioning of this header: a caller that was compiled against one major version, or before 1.0 one minor
 * version, works with each library of that version. */
#define PFAIR_VERSION_MAJOR 0
#define PFAIR_VERSION_MINOR 4
#define PFAIR_VERSION_PATCH 0
#define PFAIR_VERSION "0.4.0"

/* What pfair_abi gives of a library that goes with this header: another number where a program would call it wrongly. */
#define PFAIR_ABI 1

/*
 * A desk, or none. All zero bits are none, as PFAIR_NO_DESK is. It owns memory, which pfair_close gives back. It may be
 * moved to another place; of two copies only one may be used from then on.
 */
typedef struct pfair_desk {
    void *inner;
} pfair_desk;

/* clang-format off */
#define PFAIR_NO_DESK {NULL}
/* clang-format on */

/*
 * What a call answers. From 10 to 31 the desk has refused a command: nothing changed but its history, which keeps each
 * command with its answer. pfair_say tells it to people.
 */
typedef enum pfair_status {
    PFAIR_OK = 0,
    PFAIR_EVENT_NOT_FOUND = 10,    /* an alter or a strike of a number that is not held */
    PFAIR_SLOT_OUT_OF_RANGE = 11,  /* the slot is not below the horizon */
    PFAIR_TASK_OUT_OF_RANGE = 12,  /* the task is not 1 to 4,095 */
    PFAIR_EARLY_OUT_OF_RANGE = 13, /* a join with early above 2^20 */
    PFAIR_DELAY_OUT_OF_RANGE = 14, /* a delay that is not by 1 to 2^20 slots */
    PFAIR_BAD_WEIGHT = 15,         /* a join whose weight is refused: reply.reason tells why */
    PFAIR_JOIN_TWICE = 16,         /* another event joins the task */
    PFAIR_LEAVE_TWICE = 17,        /* another event leaves the task */
    PFAIR_TOO_MANY_EVENTS = 18,    /* 65,535 events are held */
    PFAIR_NUMBERS_SPENT = 19,      /* the event number 1,048,575 was given */
    PFAIR_COUNT_OUT_OF_RANGE = 24, /* a limit whose count is not 1 to the number of processors */
    PFAIR_AT_HORIZON = 30,         /* a step with no slot left */
    PFAIR_WOULD_DENY = 31,         /* a strict change would leave a denial: reply tells the first one */
    PFAIR_BAD_SETTINGS = 33,       /* the numbers of a desk are out of their limits */
    PFAIR_NOT_OPEN = 64,           /* the handle has no desk */
    PFAIR_ALREADY_OPEN = 65,       /* the handle has a desk already */
    PFAIR_NO_MEMORY = 66,          /* memory was refused: all is as before, but the first of several commands may be answered */
    PFAIR_UNKNOWN_KIND = 67,       /* a kind that is none of those below, or a number that tells nothing */
    PFAIR_OUT_OF_RANGE = 68,       /* a slot that was not stepped, a range, a page or a look that cannot be shown */
    PFAIR_TOO_SHORT = 69,          /* the caller's room is too short: *count tells how long it must be */
    PFAIR_BAD_RECORD = 70,         /* a record is bad: pfair_bad_record tells where, pfair_script_faults why */
    PFAIR_BUSY = 71,               /* of pfair_shared.h: another caller is at the desk: nothing was done, try again */
    PFAIR_PENDING = 72,            /* a quantum lies untaken: no step was taken */
    PFAIR_NOTHING = 73,            /* there is no quantum to take */
    PFAIR_NOT_YET = 74,            /* the slot is not stepped yet */
    PFAIR_NO_PLACE = 75,           /* each caller, or reader, was opened */
    PFAIR_NO_STATUS = INT32_MAX    /* none: it gives the type 32 bits with each compiler */
} pfair_status;

/* Why an event of the plan is denied in a run, and why a weight is refused: the values of a reason. */
enum {
    PFAIR_ZERO_COST = 2,          /* a weight without cost */
    PFAIR_COST_ABOVE_PERIOD = 3,  /* a cost above the period */
    PFAIR_PERIOD_NOT_IN_BASE = 4, /* a period that does not divide the base */
    PFAIR_OVER_CAPACITY = 20,     /* a join after which the load would be above the cap */
    PFAIR_NOT_INSIDE = 21,        /* a leave or a delay of a task that is not inside */
    PFAIR_TOO_EARLY = 22,         /* a leave before the task's share is free */
    PFAIR_RELEASED = 23           /* a delay of a subtask that was released already */
};

/* The kinds of an event, in the order in which those of one slot are taken. */
enum {
    PFAIR_LIMIT = 0, /* from the slot on the processors below count are in use, until the next limit */
    PFAIR_LEAVE = 1, /* the task leaves */
    PFAIR_JOIN = 2,  /* the task joins with the weight cost/period; a subtask may run early slots before its release */
    PFAIR_DELAY = 3  /* the task's subtasks that did not run are held back by `by` slots */
};

/* The kinds of a change. */
enum {
    PFAIR_INSERT = 0, /* a new event, which gets the next number, from 1 on */
    PFAIR_ALTER = 1,  /* the event takes the place of the one of a number */
    PFAIR_STRIKE = 2  /* the event of a number is taken out */
};

/*
 * The texts that a desk has of itself: each is what the program pfair writes in a format (docs/TABLES.md), without reply
 * lines, which pfair_replies gives. pfair_part gives a part of those with a star. pfair_svg gives the picture. Of a
 * desk that a plan opened they tell what the script named its tasks and how long a slot is.
 */
enum {
    PFAIR_SCHEDULE = 0,   /* CSV: the slots stepped, with a column for each processor (*) */
    PFAIR_LAGS = 1,       /* CSV: how far each task inside is from its fair share */
    PFAIR_MISSES = 2,     /* CSV: the missed windows */
    PFAIR_DENIALS = 3,    /* CSV: the denials */
    PFAIR_EVENTS = 4,     /* CSV: the events held */
    PFAIR_SCRIPT = 5,     /* a script that opens a desk as this one stands, for the program pfair */
    PFAIR_JSON = 6,       /* the report as a line of JSON, one object: the format report */
    PFAIR_PROCESSORS = 7, /* CSV: how the processors were used */
    PFAIR_STATS = 8,      /* CSV: the figures of each task */
    PFAIR_CHART = 9,      /* the schedule as a chart in characters, at most 80 wide (*) */
    PFAIR_WINDOWS = 10,   /* CSV: the windows of each task (*) */
    PFAIR_JOBS = 11,      /* CSV: the jobs of each task */
    PFAIR_LOAD = 12,      /* CSV: load and room, where they change (*) */
    PFAIR_QUANTA = 13,    /* CSV: the schedule with a line for each quantum (*) */
    PFAIR_TRACE = 14,     /* JSON: the run as trace events, for Perfetto and chrome://tracing */
    PFAIR_C = 15,         /* the schedule as a C header; its PFAIR_PROCESSORS keeps it out of files with this header */
    PFAIR_FULL = 16,      /* the report with settings, events, figures and refused commands, as a line of JSON */
    PFAIR_HTML = 17,      /* a page to look around in, one file, of at most 65,536 slots */
    PFAIR_TABLES = 18     /* the tables schedule, lags, misses and denials, each after a line with its name */
};

/* How the tasks of a picture are drawn. */
enum {
    PFAIR_STRIPS = 0, /* a task's windows in two rows in turn, over a strip of its lag */
    PFAIR_STAIRS = 1  /* a task's windows one below the other */
};

/* An event. Only the slot and the fields that its kind has are read. */
typedef struct pfair_event {
    uint64_t kind;   /* PFAIR_LIMIT, PFAIR_LEAVE, PFAIR_JOIN or PFAIR_DELAY */
    uint64_t slot;   /* below the horizon, 2^20, or 2^22 of a wide desk */
    uint64_t task;   /* 1 to 4,095; not of a limit */
    uint64_t cost;   /* of a join: 1 to the period, in quanta */
    uint64_t period; /* of a join: in slots; it divides the base */
    uint64_t early;  /* of a join: 0 to 2^20 slots */
    uint64_t by;     /* of a delay: 1 to 2^20 slots */
    uint64_t count;  /* of a limit: 1 to the number of processors */
} pfair_event;

/* An event that is held, with its number. What the event's kind does not have is 0. */
typedef struct pfair_numbered {
    uint64_t id;
    pfair_event event;
} pfair_numbered;

/* A change. An insert has no number, a strike no event: these are not read. */
typedef struct pfair_change {
    uint64_t kind; /* PFAIR_INSERT, PFAIR_ALTER or PFAIR_STRIKE */
    uint64_t id;   /* the event's number */
    pfair_event event;
} pfair_change;

/* What a status alone does not tell of a reply; 0 where there is nothing to tell. */
typedef struct pfair_reply {
    uint64_t event;  /* PFAIR_OK: the number of the event concerned. PFAIR_WOULD_DENY: of the event that would be denied */
    uint64_t reason; /* PFAIR_WOULD_DENY, PFAIR_BAD_WEIGHT: why */
} pfair_reply;

/* Who runs on a processor; 0 and 0 where it is idle or out of use. */
typedef struct pfair_pick {
    uint32_t task; /* from 1 */
    uint32_t sub;  /* the subtask, from 1: subtask i asks for the task's i-th quantum */
} pfair_pick;

/* How far a task is from its fair share. */
typedef struct pfair_lag {
    uint64_t task;
    uint64_t cost;     /* in quanta */
    uint64_t period;   /* in slots */
    uint64_t received; /* in quanta */
    int64_t scaled;    /* the lag times the period; above 0 the task is behind its share */
} pfair_lag;

/* A missed window: the subtask did not run before its deadline. */
typedef struct pfair_miss {
    uint64_t task;
    uint64_t sub;
    uint64_t deadline; /* in slots */
    uint64_t ran;      /* the slot in which it ran late, or PFAIR_NEVER */
} pfair_miss;

#define PFAIR_NEVER UINT64_MAX

/* An event of the plan that has no effect, since a rule of admission fails in its slot. */
typedef struct pfair_denial {
    uint64_t slot;
    uint64_t event;  /* its number */
    uint64_t reason; /* PFAIR_OVER_CAPACITY to PFAIR_RELEASED */
} pfair_denial;

/* What every simulator tells of a task (docs/RULES.md, "Figures"). */
typedef struct pfair_task_figures {
    uint64_t task;
    uint64_t cost;             /* in quanta */
    uint64_t period;           /* in slots */
    uint64_t quanta;           /* that it received */
    uint64_t migrations;       /* quanta on another processor than the quantum before */
    uint64_t preemptions;      /* quanta after a pause inside a job */
    uint64_t jobs;             /* done, of cost quanta each */
    int64_t response_least;    /* of a job, from its release, in slots; 0 where jobs is 0 */
    int64_t response_greatest; /* the same */
    uint64_t missed;           /* windows */
    uint64_t tardiness;        /* the most slots by which a missed subtask ran late */
    int64_t scaled_least;      /* the least lag times the period, while the task was inside */
    int64_t scaled_greatest;   /* the greatest */
} pfair_task_figures;

/* Whether the loads of the slots stepped were within the processors in use. */
typedef struct pfair_fit {
    uint64_t first;         /* the first slot whose load was above the processors in use, or PFAIR_NEVER */
    uint64_t overload_high; /* the loads above them of all slots together, in 1/base: times 2^64 */
    uint64_t overload_low;  /* and times 1 */
} pfair_fit;

/* What a desk was opened with. */
typedef struct pfair_setup {
    uint64_t processors;
    uint64_t base;
    uint64_t cap;     /* in 1/base */
    uint64_t every;   /* the distance of checkpoints in slots */
    uint64_t horizon; /* 2^20, or 2^22 of a wide desk */
} pfair_setup;

/* How a picture looks. PFAIR_USUAL_LOOK does for most. */
typedef struct pfair_picture_look {
    uint64_t cell;  /* how wide each slot is, 6 to 40 */
    uint64_t wrap;  /* how many slots stand side by side, 1 to 4,096 */
    uint64_t style; /* PFAIR_STRIPS or PFAIR_STAIRS */
} pfair_picture_look;

/* clang-format off */
#define PFAIR_USUAL_LOOK {20, 4096, PFAIR_STRIPS}
/* clang-format on */

/* Where a record is that is none of a script's. All are counted from 1. */
typedef struct pfair_bad_record {
    uint64_t number; /* its number */
    uint64_t line;   /* the line on which it begins */
    uint64_t field;  /* its field at fault; the first one names the record */
} pfair_bad_record;

/* ---- Opening and closing ---- */

/*
 * Opens a desk at a handle that has none: processors 1 to 64; base 1 to 2^30; cap, the most load, 1 to 2^44 in 1/base,
 * where processors * base fills the processors; every, the distance of checkpoints in slots, 1 to 4,096 (64 does for most).
 * It has 2^20 slots. The plan is empty and no slot was stepped. The handle is as before at every status but PFAIR_OK:
 * PFAIR_ALREADY_OPEN, PFAIR_BAD_SETTINGS, PFAIR_NO_MEMORY.
 */
pfair_status pfair_open(pfair_desk *desk, uint64_t processors, uint64_t base, uint64_t cap, uint64_t every);

/* The same with 2^22 slots. */
pfair_status pfair_open_wide(pfair_desk *desk, uint64_t processors, uint64_t base, uint64_t cap, uint64_t every);

/*
 * Opens a desk with the settings of a whole script of any version (docs/SCRIPTS.md) at a handle that has none, and asks it for
 * what the records after them say, as pfair_run does, with the same statuses. The names of a plan and the
 * length of its slot stay with the desk until pfair_close, for its texts; labels do not, and no call gives a name or takes one.
 * PFAIR_BAD_RECORD: *bad tells where it is; where the settings were read the desk is open, and the records before it were
 * carried out, else the handle has no desk. PFAIR_NO_MEMORY: no desk, or one that answered the first commands.
 * PFAIR_ALREADY_OPEN. With these two *bad is as before.
 */
pfair_status pfair_open_script(pfair_desk *desk, uint32_t caller, const char *script, size_t length, pfair_bad_record *bad);

/* Closes the desk and gives its memory back. A handle without a desk stays as it is. */
void pfair_close(pfair_desk *desk);

/* ---- Commands: caller is a number of the caller's own, which the history keeps ---- */

/*
 * Asks for a change of the plan. PFAIR_OK: it is made, and *reply has the number of the event concerned. A change of the
 * past is replayed from the last checkpoint before it. A strict one is refused, with PFAIR_WOULD_DENY, where the slots
 * stepped so far would then have any denial, old or new. PFAIR_NOT_OPEN, PFAIR_NO_MEMORY, PFAIR_UNKNOWN_KIND: all is as
 * before, *reply too.
 */
pfair_status pfair_edit(pfair_desk *desk, uint32_t caller, const pfair_change *change, bool strict, pfair_reply *reply);

/*
 * Tells what a change would be answered, as pfair_edit does, without making it: the desk is as before. Where it would be
 * made, the room gets the text of this kind, PFAIR_SCHEDULE to PFAIR_TABLES, of the desk as it would then be, with *count as
 * for pfair_text. PFAIR_TOO_SHORT, PFAIR_OUT_OF_RANGE: *reply is told. PFAIR_NOT_OPEN, PFAIR_NO_MEMORY, PFAIR_UNKNOWN_KIND:
 * *reply is as before. The room is as before at every status but PFAIR_OK.
 */
pfair_status pfair_what_if(pfair_desk *desk, uint32_t caller, const pfair_change *change, bool strict, pfair_reply *reply,
                           uint64_t kind, char *room, size_t length, size_t *count);

/* Asks for the next slot: PFAIR_AT_HORIZON where none is left. PFAIR_NOT_OPEN, PFAIR_NO_MEMORY: all is as before. */
pfair_status pfair_step(pfair_desk *desk, uint32_t caller);

/*
 * Asks for slots until count were taken, or one was not: the status is that of the last one asked for, and *taken tells how
 * many were taken, 0 with PFAIR_NOT_OPEN.
 */
pfair_status pfair_advance(pfair_desk *desk, uint32_t caller, uint64_t count, uint64_t *taken);

/*
 * Asks for what records say, one after another, as they stand after the settings in a script of version 2
 * (docs/SCRIPTS.md): "join,0,1,2,3,0\nstrict,alter,1,join,4,1,2,3,0\nstep,8\n". Tasks and events go by number, of a desk that
 * a plan opened too: there are no names, labels, comments or blanks. PFAIR_OK where each of them is a record:
 * whether the desk refused what it asks for, pfair_replies tells. PFAIR_BAD_RECORD at the first one that is none: *bad tells
 * where it is, and those before it were carried out. PFAIR_NO_MEMORY: it answered the first commands. PFAIR_NOT_OPEN. With
 * these two *bad is as before.
 */
pfair_status pfair_run(pfair_desk *desk, uint32_t caller, const char *records, size_t length, pfair_bad_record *bad);

/*
 * ---- What the desk tells: it stays as it is, and what is written to is as before at every status but PFAIR_OK ----
 *
 * Where a call takes room, length and *count, it writes all there is, *count values at the front of the room, or nothing.
 * *count is how many there are, with PFAIR_OK and with PFAIR_TOO_SHORT; so a first call with length 0 tells how much room a
 * second one takes.
 */

/* What the desk was opened with. PFAIR_NOT_OPEN. */
pfair_status pfair_settings(pfair_desk *desk, pfair_setup *setup);

/* How many commands the desk has answered: changes and steps, refused ones too. PFAIR_NOT_OPEN. */
pfair_status pfair_entries(pfair_desk *desk, size_t *count);

/*
 * The reply lines (docs/COMMANDS.md) of the commands that the desk has answered, from the `first` on, counted from 0: *count
 * bytes. What pfair_entries tells before a pfair_run is the first of that run. PFAIR_TOO_SHORT, PFAIR_NO_MEMORY,
 * PFAIR_NOT_OPEN.
 */
pfair_status pfair_replies(pfair_desk *desk, size_t first, char *room, size_t length, size_t *count);

/* How many slots were stepped. PFAIR_NOT_OPEN. */
pfair_status pfair_now(pfair_desk *desk, uint64_t *now);

/*
 * Who runs where in a slot: a pick for each processor. PFAIR_OUT_OF_RANGE where the slot was not stepped; PFAIR_TOO_SHORT
 * where length is below the number of processors, which no count tells; PFAIR_NOT_OPEN.
 */
pfair_status pfair_row(pfair_desk *desk, uint64_t slot, pfair_pick *room, size_t length);

/* How far each task inside is from its fair share, by task. PFAIR_TOO_SHORT, PFAIR_NO_MEMORY, PFAIR_NOT_OPEN. */
pfair_status pfair_lags(pfair_desk *desk, pfair_lag *room, size_t length, size_t *count);

/* The missed windows, by deadline, then by task. PFAIR_TOO_SHORT, PFAIR_NO_MEMORY, PFAIR_NOT_OPEN. */
pfair_status pfair_misses(pfair_desk *desk, pfair_miss *room, size_t length, size_t *count);

/* The denials of the slots stepped, in the order in which the events were taken. PFAIR_TOO_SHORT, PFAIR_NOT_OPEN. */
pfair_status pfair_denials(pfair_desk *desk, pfair_denial *room, size_t length, size_t *count);

/* The figures of each task admitted in a slot stepped, by task. PFAIR_TOO_SHORT, PFAIR_NO_MEMORY, PFAIR_NOT_OPEN. */
pfair_status pfair_figures(pfair_desk *desk, pfair_task_figures *room, size_t length, size_t *count);

/* The events held, by number. PFAIR_TOO_SHORT, PFAIR_NO_MEMORY, PFAIR_NOT_OPEN. */
pfair_status pfair_events(pfair_desk *desk, pfair_numbered *room, size_t length, size_t *count);

/*
 * Whether no window can ever be missed, whatever joins, leaves, is delayed and runs early: the processors carry the cap, and
 * with each limit held those that it leaves in use do. So it stays until a limit comes that leaves fewer. PFAIR_NOT_OPEN.
 */
pfair_status pfair_never_misses(pfair_desk *desk, bool *never);

/*
 * Whether the loads of the slots stepped were within the processors in use. Where first is PFAIR_NEVER they were, and no
 * window was missed; and base times the tardiness of each task is at most the overload. PFAIR_NO_MEMORY, PFAIR_NOT_OPEN.
 */
pfair_status pfair_fits(pfair_desk *desk, pfair_fit *fit);

/*
 * A text of a kind, PFAIR_SCHEDULE to PFAIR_TABLES: *count bytes, all of them ASCII, with no byte 0 after them. Each call
 * makes the whole text, a call with length 0 too. PFAIR_FULL and PFAIR_HTML tell of refused commands as of records: each by
 * its number among those that the desk has answered, from 1 on. PFAIR_UNKNOWN_KIND; PFAIR_OUT_OF_RANGE: a page of more than
 * 65,536 slots; PFAIR_TOO_SHORT, PFAIR_NO_MEMORY, PFAIR_NOT_OPEN.
 */
pfair_status pfair_text(pfair_desk *desk, uint64_t kind, char *room, size_t length, size_t *count);

/*
 * The part of a text that has the slots from `from` on and below `to`, of the kinds PFAIR_SCHEDULE, PFAIR_CHART,
 * PFAIR_WINDOWS (the windows that lie in them), PFAIR_LOAD and PFAIR_QUANTA. PFAIR_UNKNOWN_KIND: a kind that is none of
 * these. PFAIR_OUT_OF_RANGE: from is above to, or to above the slots stepped. PFAIR_TOO_SHORT, PFAIR_NO_MEMORY,
 * PFAIR_NOT_OPEN.
 */
pfair_status pfair_part(pfair_desk *desk, uint64_t kind, uint64_t from, uint64_t to, char *room, size_t length,
                        size_t *count);

/*
 * A picture of these slots as SVG, at most 4,096 of them. PFAIR_OUT_OF_RANGE: as for pfair_part, or there are more, or a
 * number of the look is out of its limits.
 */
pfair_status pfair_svg(pfair_desk *desk, uint64_t from, uint64_t to, const pfair_picture_look *look, char *room,
                       size_t length, size_t *count);

/*
 * ---- What is wrong with records: no desk is needed ----
 *
 * The lines that the program's `check` writes of bad records, as "line 3, record 2, field 2: 0 is not within 1 to 64": of a
 * whole script of any version, as pfair_open_script takes it, and of records, as pfair_run does. *count bytes, all of them
 * ASCII, and none where no record is bad. PFAIR_TOO_SHORT, PFAIR_NO_MEMORY.
 */
pfair_status pfair_script_faults(const char *script, size_t script_length, char *room, size_t length, size_t *count);
pfair_status pfair_record_faults(const char *records, size_t records_length, char *room, size_t length, size_t *count);

/* ---- The library ---- */

/* PFAIR_ABI of the header that the library was made with. Who loads a library compares the two before another call. */
uint32_t pfair_abi(void);

/* The version of the header that the library was made with, as PFAIR_VERSION: *count bytes. PFAIR_TOO_SHORT. */
pfair_status pfair_version(char *room, size_t length, size_t *count);

/*
 * The name of a status or a reason, as the table of refusals has it, and what it says, for people to read: of 16 "JoinTwice"
 * and "another event joins the task". *count bytes, all of them ASCII, with no byte 0 after them. PFAIR_UNKNOWN_KIND where
 * neither a status nor a reason has this number: *count is as before; PFAIR_TOO_SHORT.
 */
pfair_status pfair_name(uint32_t number, char *room, size_t length, size_t *count);
pfair_status pfair_sentence(uint32_t number, char *room, size_t length, size_t *count);

/* A room for each text of pfair_say. */
#define PFAIR_SAID 96

/*
 * What a status or a reason says, as a text of C, which ends with a byte 0: it is put into the room, whose length is at least
 * 1, and cut where it is longer. It is empty where neither has this number. The answer is the room.
 *
 *     char said[PFAIR_SAID];
 *     puts(pfair_say(status, said, sizeof said));
 */
static inline char *pfair_say(uint32_t number, char *room, size_t length) {
    char said[PFAIR_SAID];
    size_t count = 0, k = 0;
    if (pfair_sentence(number, said, sizeof said, &count) != PFAIR_OK) count = 0;
    for (; k < count && k + 1 < length; k++) room[k] = said[k];
    room[k] = 0;
    return room;
}

/*
 * ---- The four duties of a caller, which no call can check ----
 *
 * 1. A pointer is aligned and not null, of a room of length 0 too. It points to as much initialized memory as its type and
 *    its length say, and nothing else reads or writes that memory during the call: no two arguments overlap.
 * 2. A handle is all zero bits or what a call left there, and no copy of it was used since. A bool is 0 or 1.
 * 3. A handle is in one call at a time. Another thread may have it next, after a lock, a thread's start or end, or a
 *    sequentially consistent atomic. Two handles know nothing of each other.
 * 4. No call is made from a signal handler, nor in the child of a fork of a process with threads.
 */

#ifdef __cplusplus
}
#endif
#endif
