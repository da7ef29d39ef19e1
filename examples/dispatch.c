/*
 * dispatch [--plain] [QUANTUM_US [SECONDS]]: runs a plan on threads, by the clock. One thread steps the desk a little before
 * each slot begins; a thread for each processor sleeps until it begins, takes its quantum and calls the task's function. The
 * threads have real-time priorities where these are allowed, and with --plain none. Linux: cc -pthread dispatch.c -lpfair
 */
#define _GNU_SOURCE
#include "pfair_shared.h"

#include <inttypes.h>
#include <pthread.h>
#include <sched.h>
#include <stdatomic.h>
#include <stdio.h>
#include <stdlib.h>
#include <string.h>
#include <time.h>

enum { PROCESSORS = 2, BASE = 400, TASKS = 8 };

static int64_t quantum, begin, slots; /* in nanoseconds; in nanoseconds by the clock; how many */
static bool is_plain;
static atomic_bool stop;

static int64_t now(void) {
    struct timespec t;
    clock_gettime(CLOCK_MONOTONIC, &t);
    return t.tv_sec * INT64_C(1000000000) + t.tv_nsec;
}

static void sleep_until(int64_t at) {
    struct timespec t = {at / 1000000000, at % 1000000000};
    while (clock_nanosleep(CLOCK_MONOTONIC, TIMER_ABSTIME, &t, NULL)) {}
}

/* What the tasks do: here each works for a fifth of a quantum. `sub` counts the quanta of the task, from 1. */
static void work(uint64_t sub) {
    (void)sub;
    for (int64_t end = now() + quantum / 5; now() < end;) {}
}

static const struct {
    const char *name;
    uint64_t cost, period;
    void (*run)(uint64_t sub);
} tasks[TASKS] = {
    {"rates", 1, 2, work},     {"attitude", 2, 8, work},   {"estimator", 3, 10, work},   {"mixer", 1, 4, work},
    {"airspeed", 2, 20, work}, {"guidance", 16, 80, work}, {"telemetry", 13, 100, work}, {"battery", 3, 200, work},
};

struct worker {
    pthread_t thread;
    pfair_caller caller;
    uint32_t processor;
    uint64_t ran, late, overran;
    int64_t worst, behind;
};

/* A priority among real-time threads, where it is allowed. */
static void make_real_time(pthread_t thread, int priority) {
    struct sched_param of = {.sched_priority = priority};
    if (is_plain) return;
    if (pthread_setschedparam(thread, SCHED_FIFO, &of)) fprintf(stderr, "SCHED_FIFO is not allowed\n");
}

/* A processor: from slot to slot it takes its quantum when the slot begins, or idles. */
static void *run_processor(void *at) {
    struct worker *worker = at;
    for (int64_t slot = 0; slot < slots && !atomic_load(&stop); slot++) {
        pfair_quantum taken;
        pfair_status status;
        int64_t start = begin + slot * quantum;
        sleep_until(start);
        for (;;) {
            status = pfair_caller_take_in(&worker->caller, worker->processor, (uint64_t)slot, &taken);
            if (status != PFAIR_NOT_YET || atomic_load(&stop)) break;
            sleep_until(now() + quantum / 50); /* the step is late */
        }
        if (status != PFAIR_OK) continue; /* idle in this slot */
        int64_t behind = now() - start;
        worker->behind += behind;
        tasks[taken.task - 1].run(taken.sub);
        worker->ran++;
        worker->late += behind > quantum / 10;
        worker->overran += now() > start + quantum;
        if (behind > worker->worst) worker->worst = behind;
    }
    return NULL;
}

/* The clock: it steps each slot a fifth of a quantum before that begins. How many steps came after it began, or -1. */
static int64_t run_clock(pfair_caller *caller) {
    int64_t after = 0;
    for (int64_t slot = 0; slot < slots; slot++) {
        pfair_pick row[PROCESSORS];
        uint64_t stepped;
        uint32_t processor;
        pfair_status status;
        int64_t start = begin + slot * quantum;
        sleep_until(start - quantum / 5);
        while ((status = pfair_caller_step(caller, &stepped, &processor, row, PROCESSORS)) != PFAIR_OK) {
            if (status != PFAIR_BUSY && status != PFAIR_PENDING) return -1;
            sleep_until(now() + quantum / 50); /* a planner is at the desk, or a worker is late */
        }
        after += now() > start;
    }
    return after;
}

int main(int argc, char **argv) {
    static struct worker workers[PROCESSORS];
    pfair_shared desk = PFAIR_NONE;
    pfair_caller clock = PFAIR_NONE;
    if (argc > 1 && !strcmp(argv[1], "--plain")) is_plain = true, argc--, argv++;
    quantum = (argc > 1 ? atoll(argv[1]) : 2000) * 1000;
    slots = (argc > 2 ? atoll(argv[2]) : 2) * 1000000000 / (quantum > 0 ? quantum : 1);
    if (quantum <= 0 || slots <= 0) return 1;
    if (pfair_shared_open(&desk, PROCESSORS, BASE, PROCESSORS * BASE, 64, PROCESSORS + 1, 0)) return 2;
    if (pfair_caller_open(&desk, &clock)) return 2;
    for (uint64_t k = 0; k < TASKS; k++) {
        pfair_event event = {.kind = PFAIR_JOIN, .task = k + 1, .cost = tasks[k].cost, .period = tasks[k].period};
        pfair_change join = {PFAIR_INSERT, 0, event};
        pfair_reply reply;
        if (pfair_caller_edit(&clock, &join, true, &reply)) return 3;
    }
    begin = now() + 20000000;
    make_real_time(pthread_self(), 51);
    for (uint32_t p = 0; p < PROCESSORS; p++) {
        workers[p].processor = p;
        if (pfair_caller_open(&desk, &workers[p].caller)) return 4;
        if (pthread_create(&workers[p].thread, NULL, run_processor, &workers[p])) return 4;
        make_real_time(workers[p].thread, 50);
    }
    int64_t after = run_clock(&clock);
    if (after < 0) atomic_store(&stop, true);
    for (uint32_t p = 0; p < PROCESSORS; p++) {
        pthread_join(workers[p].thread, NULL);
        struct worker *it = &workers[p];
        printf("p%" PRIu32 ": %" PRIu64 " quanta, %" PRIu64 " late, %" PRIu64 " overran, ", p, it->ran, it->late, it->overran);
        printf("%.1f us behind, at worst %.1f\n", (double)it->behind / 1e3 / (double)(it->ran + !it->ran), (double)it->worst / 1e3);
        pfair_caller_close(&workers[p].caller);
    }
    printf("%" PRId64 " slots, %" PRId64 " steps after their slot began\n", slots, after);
    pfair_caller_close(&clock);
    pfair_shared_close(&desk);
    return after < 0 ? 5 : 0;
}
