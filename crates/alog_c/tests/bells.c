/* That workers sleep until something is logged, and wake then, and that a log that waits for room is woken: bells FOLDER. */
#include "alog_host.h"
#include "trial.h"

/* While it walks, a clock shows so many nanoseconds more at each look as a step has, counts the looks, and fails behind the last one. */
static int is_walking;
static long step = 100, looks, looks_most;

int __real_clock_gettime(clockid_t clock, struct timespec *now);
int __wrap_clock_gettime(clockid_t clock, struct timespec *now);
int __wrap_clock_gettime(clockid_t clock, struct timespec *now)
{
    if (!is_walking || clock != CLOCK_MONOTONIC)
        return __real_clock_gettime(clock, now);
    if (++looks > looks_most)
        return -1;
    /* (it begins at the end of a second) */
    now->tv_sec = 7 + (looks * step + 999999000) / 1000000000;
    now->tv_nsec = (looks * step + 999999000) % 1000000000;
    return 0;
}

enum { ROUNDS = 5000, MANY = 20000, SECONDS = 30 };

static alog_host host;

static int start(const char *folder, unsigned places, const char *policy)
{
    char config[512];
    snprintf(config, sizeof config,
             "queue = %u\nworkers = 2\n[[sink]]\nname = \"file\"\nkind = \"memory\"\nfile = \"log.txt\"\npattern = \"%%v\"\n"
             "[[logger]]\nname = \"net\"\nsinks = [\"file\"]\npolicy = \"%s\"\n",
             places, policy);
    remove(path_of(folder, "log.txt"));
    return EXPECT(alog_start(&host, config, strlen(config), folder, 2), ALOG_DONE);
}

/* Waits until the file has so many bytes. */
static int comes(const char *path, long bytes)
{
    struct stat found;
    int64_t end = alog_now() + SECONDS * (int64_t)1000000000;
    do {
        if (stat(path, &found) == 0 && found.st_size >= bytes)
            return 1;
        sched_yield();
    } while (alog_now() < end);
    return 0;
}

/* Each message is awaited before the next is logged, so the workers go to sleep all the time: one wake-up that is lost, and a line does not
   come. */
static void wake_ups(const char *folder)
{
    alog_client client = {NULL, {0, NULL}};
    alog_report report;
    long round;
    start(folder, 8, "block");
    EXPECT(alog_client_open(&host, &client), ALOG_DONE);
    for (round = 1; round <= ROUNDS; round++) {
        alog_log_wait(&client, 0, ALOG_INFO, "abc", 3);
        if (!comes(path_of(folder, "log.txt"), 4 * round))
            break;
    }
    EXPECT(round, ROUNDS + 1);
    EXPECT(alog_stop(&host, &report), ALOG_PARTS_OUT);
    EXPECT(alog_client_close(&client), ALOG_DONE);
    EXPECT(alog_client_close(&client), ALOG_NO_HANDLE);
    EXPECT(alog_stop(&host, &report), ALOG_DONE);
    EXPECT(report.handled, ROUNDS);
    EXPECT(alog_stop(&host, &report), ALOG_NO_HANDLE);
}

/* Workers that have nothing to do take no time of a processor. */
static void rest(const char *folder)
{
    const struct timespec while_idle = {0, 500000000};
    struct timespec before, behind;
    alog_report report;
    long long spent;
    start(folder, 8, "block");
    nanosleep(&while_idle, NULL);
    clock_gettime(CLOCK_PROCESS_CPUTIME_ID, &before);
    nanosleep(&while_idle, NULL);
    clock_gettime(CLOCK_PROCESS_CPUTIME_ID, &behind);
    spent = (behind.tv_sec - before.tv_sec) * 1000000000LL + behind.tv_nsec - before.tv_nsec;
    /* (the two calls take some microseconds; a worker that looked each millisecond would take thousands) */
    EXPECT(spent < 1000000, 1);
    EXPECT(alog_stop(&host, &report), ALOG_DONE);
    EXPECT(report.asked, 0);
}

/* How long a worker pauses at most, by the places of the queue. */
static void bounds(const char *folder)
{
    static const struct {
        size_t places;
        unsigned wanted;
    } rows[] = {{0, 1500},     {2, 1500},     {128, 1500},   {256, 1536},  {512, 3072},
                {2048, 12288}, {4096, 24000}, {8192, 24000}, {65536, 24000}, {SIZE_MAX, 24000}};
    alog_report report;
    size_t row;
    for (row = 0; row < sizeof rows / sizeof rows[0]; row++)
        EXPECT(alog_pause_most(rows[row].places), rows[row].wanted);
    start(folder, 1024, "block");
    EXPECT(host.pause_most, 6144);
    EXPECT(alog_stop(&host, &report), ALOG_DONE);
}

/* How long a worker pauses whose last pause was so long, that may pause so long, and ended so many messages since. */
static void paces(void)
{
    static const struct {
        unsigned pause, most;
        size_t found;
        unsigned wanted;
    } rows[] = {
        {1500, 24000, 0, 1500},     {1500, 24000, 3, 1500},    {24000, 24000, 3, 1500},     {1500, 24000, 4, 3000},
        {1500, 24000, 127, 3000},   {12000, 24000, 127, 24000}, {1500, 24000, 128, 1500},    {12000, 24000, 128, 12000},
        {24000, 24000, 127, 24000}, {6144, 6144, 127, 6144},   {24000, 24000, 9999, 24000}, {3000, 6144, 4, 6000},
        {6000, 6144, 4, 6144},      {1500, 1500, 100, 1500},
    };
    static alog_seat seat;
    size_t row;
    for (row = 0; row < sizeof rows / sizeof rows[0]; row++) {
        seat.pause = rows[row].pause;
        seat.found = rows[row].found;
        alog_seat_pace(&seat, rows[row].most);
        EXPECT(seat.pause, rows[row].wanted);
        EXPECT(seat.found, 0);
    }
}

/* How often the clock was looked at behind a pause of so many nanoseconds, in all: at its beginning, and then until its time has passed, the clock
   fails, or it was looked at once for each four nanoseconds. */
static void pauses_by_the_clock(void)
{
    static const struct {
        unsigned nanos;
        long step, wanted;
    } rows[] = {
        {0, 100, 1}, {3, 100, 2}, {4, 100, 4}, {100, 100, 6}, {101, 100, 9}, {40, 0, 20}, {4000, 100, 61}, {9000, 100, 100}, {9000, 100, 101},
    };
    size_t row;
    is_walking = 1;
    looks = 0;
    looks_most = 99;
    for (row = 0; row < sizeof rows / sizeof rows[0]; row++) {
        step = rows[row].step;
        alog_pause_for(rows[row].nanos);
        EXPECT(looks, rows[row].wanted);
    }
    is_walking = 0;
}

/* A worker that finds nothing pauses four times, for the shortest time each, and then is to sleep. */
static void pauses(void)
{
    static alog_seat seat;
    unsigned i;
    is_walking = 1;
    looks = 0;
    looks_most = 1000000;
    for (i = 0; i < ALOG_PAUSES; i++) {
        EXPECT(alog_seat_pauses(&seat, ALOG_PAUSE_MAX), 1);
        EXPECT(looks, 16 * (i + 1));
    }
    EXPECT(alog_seat_pauses(&seat, ALOG_PAUSE_MAX), 0);
    EXPECT(seat.pause, ALOG_PAUSE_MIN);
    seat.pauses = 0;
    seat.found = ALOG_FEW;
    EXPECT(alog_seat_pauses(&seat, ALOG_PAUSE_MAX), 1);
    EXPECT(seat.pause, 2 * ALOG_PAUSE_MIN);
    EXPECT(looks, 64 + 31);
    is_walking = 0;
}

/* What a worker ended since it paused last is counted, and that it paused is forgotten: on a host whose one worker is this thread. */
static void counts(const char *folder)
{
    static const char config[] = "queue = 4\n[[sink]]\nname = \"file\"\nkind = \"memory\"\n[[logger]]\nname = \"net\"\nsinks = [\"file\"]\n";
    static const alog_options options = {1, 1, 0, 0};
    static alog_host own;
    static alog_seat seat;
    alog_client client = {NULL, {0, NULL}};
    alog_report report;
    int i;
    own.folder = own.held = -1;
    EXPECT(alog_host_open(&own, config, sizeof config - 1, folder, &options), ALOG_DONE);
    pthread_mutex_init(&own.lock, NULL);
    pthread_mutex_init(&own.files_lock, NULL);
    alog_bell_open(&own.work);
    alog_bell_open(&own.room);
    own.process = getpid();
    own.is_open = 1;
    EXPECT(alog_make_worker(&own.pool, &seat.worker), ALOG_DONE);
    seat.host = &own;
    seat.found = 7;
    seat.pauses = 3;
    EXPECT(alog_seat_work(&seat), ALOG_IDLE);
    EXPECT(seat.found, 7);
    EXPECT(seat.pauses, 3);
    EXPECT(alog_client_open(&own, &client), ALOG_DONE);
    for (i = 0; i < 3; i++)
        EXPECT(alog_log_now(&client, 0, ALOG_INFO, "abc", 3), ALOG_DONE);
    EXPECT(alog_seat_work(&seat), ALOG_IDLE);
    EXPECT(seat.found, 10);
    EXPECT(seat.pauses, 0);
    EXPECT(alog_client_close(&client), ALOG_DONE);
    EXPECT(alog_give_back(&seat.worker), ALOG_DONE);
    EXPECT(alog_host_end(&own, &report), ALOG_DONE);
    EXPECT(report.handled, 3);
}

static void *log_many(void *at)
{
    alog_client client = {NULL, {0, NULL}};
    unsigned long *done = at;
    int i;
    if (alog_client_open(&host, &client) != ALOG_DONE)
        return NULL;
    for (i = 0; i < MANY; i++)
        *done += alog_log_wait(&client, 0, ALOG_INFO, "abc", 3) == ALOG_DONE;
    alog_client_close(&client);
    return NULL;
}

/* Some threads and a queue of two places, which is full nearly always. One thread alone is woken by workers, or by nobody. */
static void waits_for_room(const char *folder, unsigned count)
{
    pthread_t threads[8];
    unsigned long done[8] = {0}, sum = 0;
    alog_report report;
    start(folder, 2, "block");
    for (unsigned i = 0; i < count; i++)
        EXPECT(pthread_create(&threads[i], NULL, log_many, &done[i]), 0);
    for (unsigned i = 0; i < count; i++) {
        pthread_join(threads[i], NULL);
        sum += done[i];
    }
    EXPECT(alog_stop(&host, &report), ALOG_DONE);
    EXPECT(sum, count * MANY);
    EXPECT(report.handled, count * MANY);
    EXPECT(report.discarded, 0);
}

static void refusals(const char *folder)
{
    static const alog_options many = {1, ALOG_PRODUCERS_MAX + 1, 0, 0}, few = {2, 1, 5, 0};
    static alog_host none;
    alog_client client = {NULL, {0, NULL}};
    alog_report report;
    EXPECT(alog_start(NULL, "", 0, folder, 1), ALOG_NULL);
    EXPECT(alog_start(&none, "queue = 3", 9, folder, 1), ALOG_BAD_CONFIG);
    EXPECT_TEXT(none.told, "queue = 3: a value that its key can not have; it may have a power of two, 2 to 65536");
    EXPECT(alog_start(&none, "", 0, folder, 0), ALOG_TOO_MANY);
    EXPECT_TEXT(none.told, "a host has 1 to 64 workers");
    EXPECT(alog_start(&none, "", 0, folder, 65), ALOG_TOO_MANY);
    EXPECT(alog_start_with(&none, "", 0, folder, &many), ALOG_TOO_MANY);
    EXPECT_TEXT(none.told, "a host has at most 4096 clients at once");
    EXPECT(alog_start_with(&none, "", 0, folder, &few), ALOG_TOO_SHORT);
    EXPECT_TEXT(none.told, "each worker wants 3 areas of each sink or more");
    EXPECT(alog_start(&none, "", 0, NULL, 1), ALOG_NULL);
    EXPECT(alog_start(&none, NULL, 1, folder, 1), ALOG_NULL);
    EXPECT(alog_start_with(&none, "", 0, folder, NULL), ALOG_NULL);
    EXPECT(alog_stop(&none, &report), ALOG_NO_HANDLE);
    EXPECT(alog_client_open(&none, &client), ALOG_NO_HANDLE);
    EXPECT(alog_client_open(NULL, &client), ALOG_NULL);
    EXPECT(alog_client_close(&client), ALOG_NO_HANDLE);
    EXPECT(alog_client_close(NULL), ALOG_NULL);
    EXPECT(alog_log_wait(&client, 0, ALOG_INFO, "", 0), ALOG_NO_HANDLE);
    EXPECT(alog_log_now(NULL, 0, ALOG_INFO, "", 0), ALOG_NULL);
    EXPECT(alog_flush_now(&client, 0), ALOG_NO_HANDLE);
    EXPECT(alog_dump_now(&client, 0), ALOG_NO_HANDLE);
    EXPECT(alog_dump_now(NULL, 0), ALOG_NULL);
    start(folder, 2, "block");
    EXPECT(alog_start(&host, "", 0, folder, 1), ALOG_IN_USE);
    EXPECT(alog_client_open(&host, &client), ALOG_DONE);
    EXPECT(alog_client_open(&host, &client), ALOG_IN_USE);
    EXPECT(alog_log_wait(&client, 0, ALOG_DEBUG, "", 0), ALOG_FILTERED);
    EXPECT(alog_log_wait(&client, 1, ALOG_INFO, "", 0), ALOG_NO_LOGGER);
    EXPECT(alog_client_close(&client), ALOG_DONE);
    EXPECT(alog_stop(&host, NULL), ALOG_NULL);
    EXPECT(alog_stop(&host, &report), ALOG_DONE);
}

/* More workers than the configuration has: those that were started end again, and the folder is free. The least of areas and the most clients
   will do. */
static void too_many_workers(const char *folder)
{
    static const alog_options bounds = {2, ALOG_PRODUCERS_MAX, 2 * ALOG_AREAS_MIN, 0};
    static const char config[] = "queue = 2\nworkers = 2\n[[sink]]\nname = \"file\"\nkind = \"memory\"\n"
                                 "[[logger]]\nname = \"net\"\nsinks = [\"file\"]\n";
    alog_report report;
    EXPECT(alog_start(&host, config, sizeof config - 1, folder, 3), ALOG_TOO_MANY);
    EXPECT_TEXT(host.told, "the configuration says fewer workers");
    EXPECT(alog_start_with(&host, config, sizeof config - 1, folder, &bounds), ALOG_DONE);
    EXPECT(host.batch, 1);
    EXPECT(alog_stop(&host, &report), ALOG_DONE);
    EXPECT(report.faults, 0);
}

int main(int argc, char **argv)
{
    if (argc != 2)
        return 2;
    refusals(argv[1]);
    too_many_workers(argv[1]);
    bounds(argv[1]);
    paces();
    pauses_by_the_clock();
    pauses();
    counts(argv[1]);
    rest(argv[1]);
    wake_ups(argv[1]);
    waits_for_room(argv[1], 1);
    waits_for_room(argv[1], 8);
    return trial_end();
}
