/* What a host of alog_host.h is: its options, its workers' seats, its clients and the bells by which threads wake each other. A program includes
   alog_host.h, which includes this. */
#ifndef ALOG_PARTS_H
#define ALOG_PARTS_H

#include "alog.h"

#include <dirent.h>
#include <errno.h>
#include <fcntl.h>
#include <pthread.h>
#include <sched.h>
#include <signal.h>
#include <stdarg.h>
#include <stdio.h>
#include <stdlib.h>
#include <sys/file.h>
#include <sys/stat.h>
#include <sys/types.h>
#include <time.h>
#include <unistd.h>

#if !defined(CLOCK_REALTIME) || !defined(O_NOFOLLOW) || !defined(AT_FDCWD)
#error "alog_host.h needs POSIX: define _POSIX_C_SOURCE as 200809L before the first include"
#endif

/* a function that formats as printf does: the compiler looks at its values */
#ifdef __GNUC__
#define ALOG_PRINTS(words, values) __attribute__((__format__(__printf__, words, values)))
#else
#define ALOG_PRINTS(words, values)
#endif

/* a function that is kept out of its callers, so that what they do most times is short; and one that is called rarely, too. A program may use none
   of them (in C gcc takes no `inline` beside that). */
#ifdef __GNUC__
#define ALOG_APART __attribute__((__noinline__, __unused__))
#define ALOG_RARE __attribute__((__noinline__, __unused__, __cold__))
#else
#define ALOG_APART
#define ALOG_RARE
#endif

/* tells the processor that a thread only waits (the library is for x86-64) */
#ifdef __x86_64__
#define ALOG_PAUSE() __builtin_ia32_pause()
#else
#define ALOG_PAUSE() ((void)0)
#endif

#ifdef __cplusplus
extern "C" {
#endif

/* The most workers of a pool, the most producers in the life of one, the areas of each sink for each worker where the options do not say and
   at the least, and the files that are open at once. */
enum { ALOG_WORKERS_MAX = 64, ALOG_PRODUCERS_MAX = 4096, ALOG_AREAS = 16, ALOG_AREAS_MIN = 3, ALOG_OPEN_FILES = 16 };

/* The most messages that a worker ends before it takes what it wrote, and how many all workers of a host end before one rings for room, if they
   find so many: to wake those who wait takes a call of the system, so they are to find room for many. */
enum { ALOG_BATCH = 16, ALOG_ROOM = 2048 };

/* How often a log is tried, and a worker yields, before they rest, and the nanoseconds that a worker rests which waits for another. */
enum { ALOG_TRIES = 8, ALOG_YIELDS = 64, ALOG_REST = 100000 };

/* How often a worker that finds nothing pauses, before it sleeps; for how many nanoseconds at the least, at the most, and at the most for each place of
   the queue; below how many messages from one pause to the next are few, and from how many on they are enough. */
enum { ALOG_PAUSES = 4, ALOG_PAUSE_MIN = 1500, ALOG_PAUSE_MAX = 24000, ALOG_PAUSE_PLACE = 6, ALOG_FEW = 4, ALOG_ENOUGH = 128 };

/* What a look at a clock and the pause instruction before it take at the least, in nanoseconds. */
enum { ALOG_LOOK_LEAST = 4 };

/* The file by which a folder is held, which no sink may have, the longest name that a configuration gives a file, and the most sinks that it has. */
#define ALOG_LOCK ".alog.lock"
enum { ALOG_FOUND_MAX = 64, ALOG_SINKS_MAX = 256 };

/* What a host may be told. */
typedef struct alog_options {
    /* how many workers, 1 to ALOG_WORKERS_MAX, and at most as many as the configuration says */
    size_t workers;
    /* how many clients may be open at once, at most ALOG_PRODUCERS_MAX; 0 for so many */
    size_t producers;
    /* how many areas each sink has, at least ALOG_AREAS_MIN for each worker; 0 for ALOG_AREAS for each */
    size_t areas;
    /* whether a flush waits until the disk has what was written */
    uint32_t sync;
} alog_options;

/* What threads sleep at: how many are to be woken yet, and how many wake-ups were not taken yet. */
typedef struct alog_bell {
    pthread_mutex_t lock;
    pthread_cond_t rung;
    uint32_t sleepers;
    uint32_t wakes;
} alog_bell;

struct alog_host;

/* A worker and its thread. */
typedef struct alog_seat {
    struct alog_host *host;
    alog_worker worker;
    pthread_t thread;
    /* how many messages it ended since it rang for room, and how often it paused since it ended one */
    size_t ended;
    unsigned pauses;
    /* how many nanoseconds its last pause took, and how many messages it ended since then */
    unsigned pause;
    size_t found;
    /* how many of its turns at sinks were faults, for any thread; it stays there when the worker was given back */
    uint64_t faults;
} alog_seat;

/* A file that is open, where its name has some bytes, when it was used last, and whether something was written that was not brought to the
   disk since. */
typedef struct alog_open_file {
    uint64_t used;
    size_t name_length;
    int descriptor;
    uint32_t is_dirty;
    char name[ALOG_NAME_MAX];
} alog_open_file;

/* What a host remembers of a sink: the name of its file, without a number or a date, and, where its rotation stopped, the number that no file could
   get, or 0 where it only is not to go on. */
typedef struct alog_note {
    uint32_t number;
    uint32_t length;
    char name[ALOG_FOUND_MAX];
} alog_note;

/* Notes of some sinks, each of another one: there is room for all that a configuration may have. */
typedef struct alog_notes {
    size_t count;
    alog_note all[ALOG_SINKS_MAX];
} alog_notes;

/* A producer of a client that was closed, for the next one that is opened. */
typedef struct alog_spare {
    struct alog_spare *next;
    alog_producer producer;
} alog_spare;

/* A pool with its workers' threads and its files. */
typedef struct alog_host {
    alog_pool pool;
    /* one call at a time uses the pool's handle */
    pthread_mutex_t lock;
    /* rung for workers by who logs, and for who waits for room by workers */
    alog_bell work;
    alog_bell room;
    /* one thread at a time takes what is to be done to the files, into `area`, and does it */
    pthread_mutex_t files_lock;
    alog_files files;
    char *area;
    /* the folder, the file by which it is held, and its open files, of which the one that was used last has the greatest `used` */
    int folder;
    int held;
    uint64_t uses;
    alog_open_file open[ALOG_OPEN_FILES];
    /* the sinks whose rotation stopped at a file that kept its name, and those by days whose last line could not be written */
    alog_notes stopped;
    alog_notes unwritten;
    /* whether a flush goes to the disk, and whether a file was made, renamed or removed since the names of the folder were brought there */
    uint32_t sync;
    uint32_t is_changed;
    size_t workers;
    /* how many messages a worker ends at most before it takes what it wrote, and before it rings for room */
    size_t batch;
    size_t ring_behind;
    /* for how many nanoseconds a worker pauses at most */
    unsigned pause_most;
    /* how many clients are open, and the producers of those that were closed */
    size_t clients;
    alog_spare *spares;
    uint32_t is_open;
    /* the process that started it, whose child has none of its threads */
    pid_t process;
    uint32_t is_ending;
    alog_seat seats[ALOG_WORKERS_MAX];
    /* how many calls on files failed, and the errno of the first, which stay there when the host was stopped */
    uint64_t failures;
    int failed_errno;
    /* why alog_start was refused, in words */
    char told[512];
} alog_host;

/* What a thread logs with. */
typedef struct alog_client {
    alog_host *host;
    alog_producer producer;
} alog_client;

/* What a client logs: a text of so many bytes in UTF-8, its time in nanoseconds since 1970, UTC, and where it comes from, or null. */
typedef struct alog_message {
    uint32_t logger;
    enum alog_level level;
    int64_t time;
    const char *text;
    size_t length;
    const alog_source *source;
} alog_message;

/* The time in nanoseconds since 1970, UTC. */
static inline int64_t alog_now(void)
{
    struct timespec now;
    int64_t seconds;
    clock_gettime(CLOCK_REALTIME, &now);
    seconds = now.tv_sec;
    return seconds * 1000000000 + now.tv_nsec;
}

static inline void alog_bell_open(alog_bell *bell)
{
    pthread_mutex_init(&bell->lock, NULL);
    pthread_cond_init(&bell->rung, NULL);
    bell->sleepers = 0;
    bell->wakes = 0;
}

static inline void alog_bell_close(alog_bell *bell)
{
    pthread_cond_destroy(&bell->rung);
    pthread_mutex_destroy(&bell->lock);
}

/* Says that this thread is about to sleep. It looks once more then, and sleeps or leaves. */
static inline void alog_bell_enter(alog_bell *bell)
{
    pthread_mutex_lock(&bell->lock);
    __atomic_add_fetch(&bell->sleepers, 1, __ATOMIC_SEQ_CST);
    pthread_mutex_unlock(&bell->lock);
}

/* Sleeps until there is a wake-up, and takes it. */
static inline void alog_bell_sleep(alog_bell *bell)
{
    pthread_mutex_lock(&bell->lock);
    while (bell->wakes == 0)
        pthread_cond_wait(&bell->rung, &bell->lock);
    bell->wakes--;
    pthread_mutex_unlock(&bell->lock);
}

/* Goes on without sleeping, and leaves a wake-up to those that sleep, as long as there is one for each of them. */
static inline void alog_bell_leave(alog_bell *bell)
{
    pthread_mutex_lock(&bell->lock);
    if (bell->sleepers > 0)
        __atomic_sub_fetch(&bell->sleepers, 1, __ATOMIC_SEQ_CST);
    else
        bell->wakes--;
    pthread_mutex_unlock(&bell->lock);
}

/* Wakes up to so many of those that sleep or are about to, under the lock. */
ALOG_RARE
static void alog_bell_wake(alog_bell *bell, uint32_t most)
{
    uint32_t count;
    pthread_mutex_lock(&bell->lock);
    count = bell->sleepers < most ? bell->sleepers : most;
    __atomic_sub_fetch(&bell->sleepers, count, __ATOMIC_SEQ_CST);
    bell->wakes += count;
    if (count == 1)
        pthread_cond_signal(&bell->rung);
    else if (count > 1)
        pthread_cond_broadcast(&bell->rung);
    pthread_mutex_unlock(&bell->lock);
}

/* The same: where there are none, it is one read. */
static inline void alog_bell_ring(alog_bell *bell, uint32_t most)
{
    if (__atomic_load_n(&bell->sleepers, __ATOMIC_SEQ_CST) != 0)
        alog_bell_wake(bell, most);
}

/* Makes room for others: it yields, and behind many yields in a row it rests. */
static inline void alog_seat_rest(unsigned *yields)
{
    struct timespec rest = {0, ALOG_REST};
    if (*yields < ALOG_YIELDS) {
        ++*yields;
        sched_yield();
    } else {
        nanosleep(&rest, NULL);
    }
}

/* For how many nanoseconds the workers of a queue of so many places pause at the most: so many for each place, so that a queue of few places does not
   fill up meanwhile, and as many as the bounds allow. */
static inline unsigned alog_pause_most(size_t places)
{
    const unsigned least = ALOG_PAUSE_MIN, most = ALOG_PAUSE_MAX;
    const size_t each = ALOG_PAUSE_PLACE;
    if (places > most / each)
        return most;
    return places * each < least ? least : ALOG_CAST(unsigned, places * each);
}

/* Pauses until so many nanoseconds have passed. What a pause instruction takes is the processor's own, 5 ns on some and 60 on others, so it is the
   clock that ends this. By one that stands still it looks once for every four of the nanoseconds, and by one that fails no more. */
static inline void alog_pause_for(unsigned nanos)
{
    struct timespec start, now;
    unsigned looks = nanos / ALOG_LOOK_LEAST;
    if (clock_gettime(CLOCK_MONOTONIC, &start) != 0)
        return;
    for (; looks > 0; looks--) {
        int64_t seconds;
        ALOG_PAUSE();
        if (clock_gettime(CLOCK_MONOTONIC, &now) != 0)
            return;
        seconds = now.tv_sec - start.tv_sec;
        if (seconds * 1000000000 + now.tv_nsec - start.tv_nsec >= ALOG_CAST(int64_t, nanos))
            return;
    }
}

/* Sets how long the next pause of a worker is: the shortest where few messages came since its last one, else twice as long as that as long as not
   enough come, up to so many nanoseconds. For a worker that is quicker than those who log finds nothing again and again, and one that looked again
   at once would be right behind them: both would wait for the same lines of the cache, message by message. Behind a longer pause many messages lie
   there, and those who log are as far ahead. */
static inline void alog_seat_pace(alog_seat *seat, unsigned most)
{
    const unsigned least = ALOG_PAUSE_MIN;
    const size_t few = ALOG_FEW, enough = ALOG_ENOUGH;
    if (seat->found < few)
        seat->pause = least;
    else if (seat->found < enough)
        seat->pause = seat->pause < most / 2 ? seat->pause * 2 : most;
    seat->found = 0;
}

/* Lets a worker that found nothing pause, in place of sleeping, as often as it may: while messages come in a row the next ones come meanwhile, and
   whoever logs them need not wake it, which would take a call of the system each time. Answers 0 where it is to sleep. */
static inline int alog_seat_pauses(alog_seat *seat, unsigned most)
{
    const unsigned pauses_most = ALOG_PAUSES;
    if (seat->pauses == pauses_most)
        return 0;
    seat->pauses++;
    alog_seat_pace(seat, most);
    alog_pause_for(seat->pause);
    return 1;
}

#ifdef __cplusplus
}
#endif

#endif
