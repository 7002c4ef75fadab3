/* The system gives no thread for a worker: threads FOLDER. It is linked with --wrap for pthread_create. What was started ends again, nothing
   is left of it, and a later start goes. Which signals a worker holds back, and how many clients there may be. */
#define _POSIX_C_SOURCE 200809L
#include "alog_host.h"
#include "trial.h"

enum { WORKERS = 3 };

static const char config[] = "queue = 4\nworkers = 3\n[[sink]]\nname = \"file\"\nkind = \"memory\"\nfile = \"log.txt\"\npattern = \"%v\"\n"
                             "[[logger]]\nname = \"net\"\nsinks = [\"file\"]\n";

/* how many threads were asked for, and which of them there is not, from 1 on */
static int calls, failing;

int __real_pthread_create(pthread_t *made, const pthread_attr_t *attributes, void *(*run)(void *), void *at);
int __wrap_pthread_create(pthread_t *made, const pthread_attr_t *attributes, void *(*run)(void *), void *at);

/* That a signal of the program goes to its own threads, and one of a fault to whoever made it. */
static void expect_signals(void)
{
    sigset_t now;
    EXPECT(pthread_sigmask(SIG_SETMASK, NULL, &now), 0);
    EXPECT(sigismember(&now, SIGTERM) && sigismember(&now, SIGINT) && sigismember(&now, SIGCHLD) && sigismember(&now, SIGUSR1), 1);
    EXPECT(sigismember(&now, SIGSEGV) || sigismember(&now, SIGBUS) || sigismember(&now, SIGFPE) || sigismember(&now, SIGILL), 0);
}

int __wrap_pthread_create(pthread_t *made, const pthread_attr_t *attributes, void *(*run)(void *), void *at)
{
    expect_signals();
    return ++calls == failing ? 11 : __real_pthread_create(made, attributes, run, at);
}

static alog_host host;

/* As many clients are open at once as the options say, and any number one after another. */
static void clients_in_a_row(const char *folder)
{
    const alog_options options = {1, 2, 0, 0};
    alog_client one = {NULL, {0, NULL}}, two = {NULL, {0, NULL}}, three = {NULL, {0, NULL}};
    alog_report report;
    failing = 0;
    EXPECT(alog_start_with(&host, config, sizeof config - 1, folder, &options), ALOG_DONE);
    EXPECT(alog_client_open(&host, &one), ALOG_DONE);
    EXPECT(alog_client_open(&host, &two), ALOG_DONE);
    EXPECT(alog_client_open(&host, &three), ALOG_TOO_MANY);
    EXPECT(alog_client_close(&one), ALOG_DONE);
    EXPECT(one.producer.kind, 0);
    EXPECT(alog_client_close(&one), ALOG_NO_HANDLE);
    EXPECT(alog_client_open(&host, &two), ALOG_IN_USE);
    EXPECT(alog_client_open(&host, &three), ALOG_DONE);
    EXPECT(alog_client_open(&host, &one), ALOG_TOO_MANY);
    EXPECT(alog_client_close(&two), ALOG_DONE);
    EXPECT(alog_stop(&host, &report), ALOG_PARTS_OUT);
    EXPECT(alog_client_close(&three), ALOG_DONE);
    for (int i = 0; i < 2 * ALOG_PRODUCERS_MAX; i++) {
        EXPECT(alog_client_open(&host, &one), ALOG_DONE);
        EXPECT(alog_log_wait(&one, 0, ALOG_INFO, "x", 1), ALOG_DONE);
        EXPECT(alog_client_close(&one), ALOG_DONE);
    }
    EXPECT(alog_stop(&host, &report), ALOG_DONE);
    EXPECT(report.handled, 2 * ALOG_PRODUCERS_MAX);
}

int main(int argc, char **argv)
{
    alog_client client = {NULL, {0, NULL}};
    alog_report report;
    sigset_t mask;
    if (argc != 2)
        return 2;
    for (failing = 1; failing <= WORKERS; failing++) {
        calls = 0;
        EXPECT(alog_start(&host, config, sizeof config - 1, argv[1], WORKERS), ALOG_NO_THREAD);
        EXPECT(calls, failing);
        EXPECT_TEXT(host.told, "");
        EXPECT(host.pool.kind + host.files.kind, 0);
        EXPECT(alog_stop(&host, &report), ALOG_NO_HANDLE);
    }
    calls = 0;
    EXPECT(alog_start(&host, config, sizeof config - 1, argv[1], WORKERS), ALOG_DONE);
    EXPECT(calls, WORKERS);
    EXPECT(alog_client_open(&host, &client), ALOG_DONE);
    EXPECT(alog_log_wait(&client, 0, ALOG_INFO, "x", 1), ALOG_DONE);
    EXPECT(alog_client_close(&client), ALOG_DONE);
    EXPECT(alog_stop(&host, &report), ALOG_DONE);
    EXPECT(report.handled, 1);
    /* the thread that started the host has its own signals again */
    EXPECT(pthread_sigmask(SIG_SETMASK, NULL, &mask), 0);
    EXPECT(sigismember(&mask, SIGTERM), 0);
    clients_in_a_row(argv[1]);
    return trial_end();
}
