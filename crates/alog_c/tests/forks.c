/* What a child of a fork may do with a host of its parent, which is nothing, and what it keeps its parent from, which is nothing either:
   forks FOLDER */
#include "alog_host.h"
#include "trial.h"

#include <sched.h>
#include <signal.h>
#include <sys/wait.h>

static const char config[] = "queue = 8\n[[sink]]\nname = \"file\"\nkind = \"memory\"\nfile = \"log.txt\"\npattern = \"%v\"\n"
                             "[[logger]]\nname = \"net\"\nsinks = [\"file\"]\n";

static alog_host host;
static alog_client client;

static void start(const char *folder)
{
    EXPECT(alog_start(&host, config, sizeof config - 1, folder, 1), ALOG_DONE);
    EXPECT(alog_client_open(&host, &client), ALOG_DONE);
}

static void stop(uint64_t handled)
{
    alog_report report = {0, 0, 0, 0, 0, 0};
    EXPECT(alog_client_close(&client), ALOG_DONE);
    EXPECT(alog_stop(&host, &report), ALOG_DONE);
    EXPECT(report.handled, handled);
    EXPECT(host.failures, 0);
}

/* Waits until the worker sleeps, or is about to and looks for the last time. A child has the locks as they are at its fork, and the memory of some
   sanitizers looks at no fork: where the worker is in malloc then, as while it starts or writes, a child that takes memory waits for ever. (Behind a
   log the worker may find the message in that last look, unless it was about to sleep before: then whoever logs wakes it, and it comes here anew.) */
static void settle(void)
{
    while (__atomic_load_n(&host.work.sleepers, __ATOMIC_SEQ_CST) == 0)
        sched_yield();
}

/* Whether a child starts and stops a host of its own. */
static int has_own(const char *folder)
{
    static alog_host own;
    static alog_client mine;
    alog_report report;
    const char *place = path_of(folder, "own");
    return trial_folder(place) == 0 && alog_start(&own, config, sizeof config - 1, place, 1) == ALOG_DONE &&
           alog_client_open(&own, &mine) == ALOG_DONE && alog_log_wait(&mine, 0, ALOG_INFO, "own", 3) == ALOG_DONE &&
           alog_client_close(&mine) == ALOG_DONE && alog_stop(&own, &report) == ALOG_DONE && report.handled == 1 && own.failures == 0;
}

/* Whether a child is refused whatever it asks of its parent's host and client. */
static int is_refused(const char *folder)
{
    alog_client other = {NULL, {0, NULL}};
    alog_report report;
    uint32_t logger;
    return alog_client_open(&host, &other) == ALOG_NO_HANDLE && alog_host_find(&host, "net", &logger) == ALOG_NO_HANDLE &&
           alog_host_set_level(&host, 0, ALOG_OFF) == ALOG_NO_HANDLE && alog_client_close(&client) == ALOG_NO_HANDLE &&
           alog_stop(&host, &report) == ALOG_NO_HANDLE && alog_start(&host, config, sizeof config - 1, folder, 1) == ALOG_IN_USE;
}

/* A child asks its parent's host, closes and stops what is its parent's, and is refused; it has a host of its own; the parent goes on. */
static void refused(const char *folder)
{
    int status = 0;
    pid_t child;
    start(folder);
    settle();
    EXPECT(alog_log_wait(&client, 0, ALOG_INFO, "before", 6), ALOG_DONE);
    settle();
    child = fork();
    if (child == 0)
        _exit(is_refused(folder) && has_own(folder) ? 0 : 1);
    EXPECT(waitpid(child, &status, 0), child);
    EXPECT(status, 0);
    EXPECT(alog_log_wait(&client, 0, ALOG_INFO, "behind", 6), ALOG_DONE);
    stop(2);
}

/* A child lives on with the descriptor of the folder's lock, while its parent stops the host and starts it again. */
static void outlived(const char *folder)
{
    pid_t child;
    start(folder);
    child = fork();
    if (child == 0) {
        pause();
        _exit(0);
    }
    stop(0);
    start(folder);
    EXPECT(alog_log_wait(&client, 0, ALOG_INFO, "again", 5), ALOG_DONE);
    stop(1);
    EXPECT(kill(child, SIGKILL), 0);
    EXPECT(waitpid(child, NULL, 0), child);
}

int main(int argc, char **argv)
{
    size_t length = 0;
    char *bytes;
    if (argc != 2)
        return 2;
    refused(argv[1]);
    outlived(argv[1]);
    bytes = bytes_of(path_of(argv[1], "log.txt"), &length);
    EXPECT(length, 20);
    EXPECT(memcmp(bytes, "before\nbehind\nagain\n", length < 20 ? length : 20), 0);
    free(bytes);
    return trial_end();
}
