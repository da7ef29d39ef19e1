/*
 * job-threads [QUANTUM_US [SECONDS]]: runs threads one quantum at a time. Each task has a thread of its own, which works
 * without knowing of quanta. When a slot begins, the worker of a processor takes its quantum, gives that task's thread a
 * real-time priority there, and takes it from the one that ran before: so the kernel runs what the desk says. It needs SCHED_FIFO,
 * and a limit of real-time work (sched_rt_runtime_us) above what the tasks ask for. Linux: cc -pthread job-threads.c -lpfair
 */
#define _GNU_SOURCE
#include "pfair_shared.h"

#include <inttypes.h>
#include <pthread.h>
#include <sched.h>
#include <stdatomic.h>
#include <stdio.h>
#include <stdlib.h>
#include <time.h>

enum { PROCESSORS = 2, BASE = 400, TASKS = 8 };

static int64_t quantum, begin, slots; /* in nanoseconds; in nanoseconds by the clock; how many */
static atomic_bool stop;

static const struct {
    const char *name;
    uint64_t cost, period;
} tasks[TASKS] = {{"rates", 1, 2},     {"attitude", 2, 8},   {"estimator", 3, 10},   {"mixer", 1, 4},
                  {"airspeed", 2, 20}, {"guidance", 16, 80}, {"telemetry", 13, 100}, {"battery", 3, 200}};

/* A task's thread, and how many quanta it was given. */
static struct job {
    pthread_t thread;
    clockid_t clock;
    atomic_ullong worked, quanta;
} jobs[TASKS];

struct worker {
    pthread_t thread;
    pfair_caller caller;
    uint32_t processor;
    int64_t worst;
};

static int64_t read_clock(clockid_t clock) {
    struct timespec t;
    clock_gettime(clock, &t);
    return t.tv_sec * INT64_C(1000000000) + t.tv_nsec;
}

static int64_t now(void) { return read_clock(CLOCK_MONOTONIC); }

static void sleep_until(int64_t at) {
    struct timespec t = {at / 1000000000, at % 1000000000};
    while (clock_nanosleep(CLOCK_MONOTONIC, TIMER_ABSTIME, &t, NULL)) {}
}

static void set_priority(pthread_t thread, int policy, int priority) {
    struct sched_param of = {.sched_priority = priority};
    if (!pthread_setschedparam(thread, policy, &of)) return;
    fprintf(stderr, "SCHED_FIFO is not allowed\n");
    exit(77);
}

static void set_processor(pthread_t thread, uint32_t processor) {
    cpu_set_t set;
    CPU_ZERO(&set);
    CPU_SET(processor, &set);
    pthread_setaffinity_np(thread, sizeof set, &set);
}

/* A task's thread: it works on and on, and is stopped and let go by priorities alone. */
static void *run_job(void *at) {
    struct job *job = at;
    while (!atomic_load(&stop)) atomic_fetch_add(&job->worked, 1);
    return NULL;
}

/* Gives a processor to a task's thread, and takes it from the one before; 0 is nobody. */
static void hand_over(uint32_t before, uint32_t task, uint32_t processor) {
    if (before && before != task) set_priority(jobs[before - 1].thread, SCHED_IDLE, 0);
    if (!task) return;
    atomic_fetch_add(&jobs[task - 1].quanta, 1);
    set_processor(jobs[task - 1].thread, processor);
    if (before != task) set_priority(jobs[task - 1].thread, SCHED_FIFO, 40);
}

/* A processor: from slot to slot it runs the thread whose quantum it takes. */
static void *run_processor(void *at) {
    struct worker *worker = at;
    uint32_t before = 0;
    set_processor(pthread_self(), worker->processor);
    for (int64_t slot = 0; slot < slots && !atomic_load(&stop); slot++) {
        pfair_quantum taken;
        pfair_status status;
        sleep_until(begin + slot * quantum);
        for (;;) {
            status = pfair_caller_take_in(&worker->caller, worker->processor, (uint64_t)slot, &taken);
            if (status != PFAIR_NOT_YET || atomic_load(&stop)) break;
            sleep_until(now() + 20000);
        }
        uint32_t task = status == PFAIR_OK ? taken.task : 0;
        hand_over(before, task, worker->processor);
        before = task;
        int64_t behind = now() - begin - slot * quantum;
        if (behind > worker->worst) worker->worst = behind;
    }
    hand_over(before, 0, worker->processor);
    return NULL;
}

/* The clock: it steps each slot a tenth of a quantum before that begins. */
static pfair_status run_clock(pfair_caller *caller) {
    for (int64_t slot = 0; slot < slots; slot++) {
        pfair_pick row[PROCESSORS];
        pfair_status status;
        uint64_t stepped;
        uint32_t processor;
        sleep_until(begin + slot * quantum - quantum / 10);
        while ((status = pfair_caller_step(caller, &stepped, &processor, row, PROCESSORS)) != PFAIR_OK) {
            if (status != PFAIR_BUSY && status != PFAIR_PENDING) return status;
            sleep_until(now() + 20000);
        }
    }
    sleep_until(begin + slots * quantum);
    return PFAIR_OK;
}

/* Lets the task join, and starts its thread, which runs where nothing else does. */
static bool start_job(pfair_caller *planner, uint64_t k) {
    pfair_event event = {.kind = PFAIR_JOIN, .task = k + 1, .cost = tasks[k].cost, .period = tasks[k].period};
    pfair_change join = {PFAIR_INSERT, 0, event};
    pfair_reply reply;
    if (pfair_caller_edit(planner, &join, true, &reply)) return false;
    if (pthread_create(&jobs[k].thread, NULL, run_job, &jobs[k])) return false;
    set_priority(jobs[k].thread, SCHED_IDLE, 0);
    set_processor(jobs[k].thread, (uint32_t)k % PROCESSORS);
    return !pthread_getcpuclockid(jobs[k].thread, &jobs[k].clock);
}

static void report(const int64_t *worked) {
    printf("%-10s %8s %8s %10s\n", "task", "share", "quanta", "processor");
    for (int k = 0; k < TASKS; k++) {
        double share = (double)tasks[k].cost / (double)tasks[k].period;
        double given = (double)atomic_load(&jobs[k].quanta) / (double)slots;
        printf("%-10s %8.4f %8.4f %10.4f\n", tasks[k].name, share, given, (double)worked[k] / (double)(slots * quantum));
    }
}

int main(int argc, char **argv) {
    static struct worker workers[PROCESSORS];
    int64_t worked[TASKS];
    pfair_shared desk = PFAIR_NONE;
    pfair_caller clock = PFAIR_NONE;
    quantum = (argc > 1 ? atoll(argv[1]) : 2000) * 1000;
    slots = (argc > 2 ? atoll(argv[2]) : 2) * 1000000000 / (quantum > 0 ? quantum : 1);
    if (quantum <= 0 || slots <= 0) return 1;
    if (pfair_shared_open(&desk, PROCESSORS, BASE, PROCESSORS * BASE, 64, PROCESSORS + 1, 0)) return 2;
    if (pfair_caller_open(&desk, &clock)) return 2;
    set_priority(pthread_self(), SCHED_FIFO, 61);
    for (uint64_t k = 0; k < TASKS; k++)
        if (!start_job(&clock, k)) return 3;
    begin = now() + 20000000;
    for (uint32_t p = 0; p < PROCESSORS; p++) {
        workers[p].processor = p;
        if (pfair_caller_open(&desk, &workers[p].caller)) return 4;
        if (pthread_create(&workers[p].thread, NULL, run_processor, &workers[p])) return 4;
        set_priority(workers[p].thread, SCHED_FIFO, 60);
    }
    for (int k = 0; k < TASKS; k++) worked[k] = -read_clock(jobs[k].clock);
    pfair_status status = run_clock(&clock);
    for (int k = 0; k < TASKS; k++) worked[k] += read_clock(jobs[k].clock);
    if (status) atomic_store(&stop, true);
    for (uint32_t p = 0; p < PROCESSORS; p++) {
        pthread_join(workers[p].thread, NULL);
        printf("p%" PRIu32 ": a thread began at worst %" PRId64 " us after its slot\n", p, workers[p].worst / 1000);
        pfair_caller_close(&workers[p].caller);
    }
    report(worked);
    for (int k = 0; k < TASKS; k++) set_priority(jobs[k].thread, SCHED_OTHER, 0);
    atomic_store(&stop, true);
    for (int k = 0; k < TASKS; k++) pthread_join(jobs[k].thread, NULL);
    pfair_caller_close(&clock);
    pfair_shared_close(&desk);
    return status ? 5 : 0;
}
