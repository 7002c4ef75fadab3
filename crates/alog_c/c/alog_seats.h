/* The workers of a host of alog_host.h, each in its seat: what its thread does, and how it is started. A program includes alog_host.h, which includes
   this. */
#ifndef ALOG_SEATS_H
#define ALOG_SEATS_H

#include "alog_files.h"

#ifdef __cplusplus
extern "C" {
#endif

/* Gives a producer or a worker back, also where others do so at this moment. */
static inline enum alog_answer alog_give_back(void *part)
{
    enum alog_answer answer = alog_answer_of(alog_c_give(part));
    while (answer == ALOG_BUSY_PART) {
        sched_yield();
        answer = alog_answer_of(alog_c_give(part));
    }
    return answer;
}

/* How many turns at sinks were faults since the start, of all workers, at most 2^64 - 1; by any thread, also while the host ends. Above 0 a sink is
   broken, as one that found no empty area, and its lines are missing from then on. The number stays there when the host was stopped, until a next
   start; the report has these, too, and the faults of the end itself. A host that was never started has none. */
static inline uint64_t alog_faults(const alog_host *host)
{
    uint64_t sum = 0;
    size_t number;
    for (number = 0; number < ALOG_WORKERS_MAX; number++) {
        const uint64_t own = __atomic_load_n(&host->seats[number].faults, __ATOMIC_ACQUIRE);
        sum = own < UINT64_MAX - sum ? sum + own : UINT64_MAX;
    }
    return sum;
}

/* Tells all threads how many faults a worker met so far. */
static inline void alog_seat_tell(alog_seat *seat)
{
    uint64_t faults = 0;
    alog_worker_faults(&seat->worker, &faults);
    __atomic_store_n(&seat->faults, faults, __ATOMIC_RELEASE);
}

/* Lets a worker write, and takes what it wrote. It rings for the room that it made, which it may have made though it ended nothing: behind
   many messages, and whenever it found no more. */
static inline enum alog_answer alog_seat_work(alog_seat *seat)
{
    size_t ended = 0;
    const enum alog_answer answer = alog_work(&seat->worker, seat->host->batch, &ended);
    alog_seat_tell(seat);
    seat->ended += ended;
    seat->found += ended;
    if (ended > 0)
        seat->pauses = 0;
    if (answer != ALOG_DONE || seat->ended >= seat->host->ring_behind) {
        alog_bell_ring(&seat->host->room, UINT32_MAX);
        seat->ended = 0;
    }
    alog_host_drain(seat->host);
    return answer;
}

/* What a worker's thread does: it works, and sleeps when there is nothing and nothing comes soon, until its host ends. */
static inline void *alog_seat_run(void *at)
{
    alog_seat *seat = ALOG_CAST(alog_seat *, at);
    alog_bell *bell = &seat->host->work;
    unsigned yields = 0;
    uint32_t is_ending;
    for (;;) {
        enum alog_answer answer = alog_seat_work(seat);
        if (answer == ALOG_SOON || answer == ALOG_HELD) {
            alog_seat_rest(&yields);
            continue;
        }
        yields = 0;
        if (answer == ALOG_DONE || alog_seat_pauses(seat, seat->host->pause_most))
            continue;
        alog_bell_enter(bell);
        is_ending = __atomic_load_n(&seat->host->is_ending, __ATOMIC_SEQ_CST);
        answer = alog_seat_work(seat);
        if (answer == ALOG_IDLE && !is_ending) {
            alog_bell_sleep(bell);
            continue;
        }
        alog_bell_leave(bell);
        if (answer == ALOG_IDLE)
            return NULL;
    }
}

/* The signals that a worker's thread holds back, which are the program's: all but those by which a fault of the thread itself is told. */
static inline void alog_signals_of_worker(sigset_t *to)
{
    static const int own[] = {SIGSEGV, SIGBUS, SIGFPE, SIGILL, SIGTRAP, SIGSYS, SIGABRT};
    size_t number;
    sigfillset(to);
    for (number = 0; number < sizeof own / sizeof own[0]; number++)
        sigdelset(to, own[number]);
}

/* Starts the thread of a worker. */
static inline enum alog_answer alog_seat_start(alog_host *host, alog_seat *seat)
{
    sigset_t back, before;
    int failed;
    enum alog_answer answer = alog_make_worker(&host->pool, &seat->worker);
    if (answer != ALOG_DONE)
        return answer;
    seat->host = host;
    seat->ended = 0;
    seat->pauses = 0;
    seat->pause = ALOG_PAUSE_MIN;
    seat->found = 0;
    alog_signals_of_worker(&back);
    pthread_sigmask(SIG_SETMASK, &back, &before);
    failed = pthread_create(&seat->thread, NULL, alog_seat_run, seat);
    pthread_sigmask(SIG_SETMASK, &before, NULL);
    if (failed) {
        alog_give_back(&seat->worker);
        return ALOG_NO_THREAD;
    }
    host->workers++;
    return ALOG_DONE;
}

#ifdef __cplusplus
}
#endif

#endif
