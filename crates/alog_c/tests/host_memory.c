/* Each allocation of a host fails in turn, those of the header and of the library: host_memory FOLDER. It is linked with --wrap for malloc and realloc,
   and for the end of a pool. What is refused leaves nothing, a later try goes, and what was logged is written. */
#define _POSIX_C_SOURCE 200809L
#include "alog_host.h"
#include "trial.h"

static const char config[] = "queue = 8\n[[sink]]\nname = \"a\"\nkind = \"rotating\"\nfile = \"a.txt\"\npattern = \"%v\"\nmax_size = 100\nmax_files = 2\n"
                             "[[logger]]\nname = \"net\"\nsinks = [\"a\"]\n";

enum { CLIENTS = 12 };

/* how many calls took memory, by any thread, and which of them fails, from 1 on */
static long calls, failing;

void *__real_malloc(size_t size);
void *__real_realloc(void *old, size_t size);
void *__wrap_malloc(size_t size);
void *__wrap_realloc(void *old, size_t size);
uint32_t __real_alog_c_shutdown(alog_pool *pool, alog_report *report);
uint32_t __wrap_alog_c_shutdown(alog_pool *pool, alog_report *report);

static int fails(void)
{
    return __atomic_add_fetch(&calls, 1, __ATOMIC_SEQ_CST) == failing;
}

void *__wrap_malloc(size_t size)
{
    return fails() ? NULL : __real_malloc(size);
}

void *__wrap_realloc(void *old, size_t size)
{
    return fails() ? NULL : __real_realloc(old, size);
}

/* whether the next end of a pool finds no memory */
static int is_refused;

uint32_t __wrap_alog_c_shutdown(alog_pool *pool, alog_report *report)
{
    const int is_now = is_refused;
    is_refused = 0;
    return is_now ? ALOG_PARTS_OUT : __real_alog_c_shutdown(pool, report);
}

static alog_host host;
static unsigned long refused;

/* Starts a host; where there was no memory nothing is left of it, and the next try goes. */
static void start(const char *folder)
{
    alog_answer answer = alog_start(&host, config, sizeof config - 1, folder, 1);
    if (answer == ALOG_NO_MEMORY) {
        refused++;
        EXPECT(host.is_open + host.pool.kind + host.files.kind, 0);
        answer = alog_start(&host, config, sizeof config - 1, folder, 1);
    }
    if (!EXPECT(answer, ALOG_DONE))
        printf("told: %s\n", host.told);
}

/* Opens a client and logs by it. */
static void log_by(alog_client *client)
{
    alog_answer answer = alog_client_open(&host, client);
    if (answer == ALOG_NO_MEMORY || answer == ALOG_TOO_MANY) {
        refused++;
        answer = alog_client_open(&host, client);
    }
    EXPECT(answer, ALOG_DONE);
    EXPECT(alog_log_wait(client, 0, ALOG_INFO, "x", 1), ALOG_DONE);
}

static void close_it(alog_client *client)
{
    alog_answer answer = alog_client_close(client);
    if (answer == ALOG_NO_MEMORY || answer == ALOG_PARTS_OUT) {
        refused++;
        answer = alog_client_close(client);
    }
    EXPECT(answer, ALOG_DONE);
}

static void stop(void)
{
    alog_report report;
    EXPECT(alog_stop(&host, &report), ALOG_DONE);
    EXPECT(report.handled, CLIENTS);
    EXPECT(report.faults + host.failures, 0);
    EXPECT(host.is_open + host.pool.kind + host.files.kind, 0);
}

/* Where the library finds no memory to end the pool, the host is open and without workers, no client is opened, and it is stopped again. */
static void stops_again(const char *folder)
{
    alog_client client = {NULL, {0, NULL}};
    alog_report report;
    start(folder);
    log_by(&client);
    close_it(&client);
    is_refused = 1;
    EXPECT(alog_stop(&host, &report), ALOG_PARTS_OUT);
    EXPECT(is_refused, 0);
    EXPECT(host.is_open == 1 && host.workers == 0, 1);
    EXPECT(alog_client_open(&host, &client), ALOG_NO_HANDLE);
    EXPECT(alog_stop(&host, &report), ALOG_DONE);
    EXPECT(report.handled, 1);
}

int main(int argc, char **argv)
{
    static alog_client clients[CLIENTS];
    size_t length = 0;
    if (argc != 2)
        return 2;
    do {
        failing++;
        calls = 0;
        start(argv[1]);
        for (int number = 0; number < CLIENTS; number++)
            log_by(&clients[number]);
        for (int number = 0; number < CLIENTS; number++)
            close_it(&clients[number]);
        stop();
    } while (calls >= failing && trial_failed < 20);
    printf("host_memory: %ld allocations fail in turn, %lu calls are refused\n", failing - 1, refused);
    EXPECT(failing > 100 && refused > 50, 1);
    failing = 0;
    stops_again(argv[1]);
    free(bytes_of(path_of(argv[1], "a.txt"), &length));
    EXPECT(length > 0, 1);
    return trial_end();
}
