/* A server in C: four threads serve requests and log them, and two workers write the lines. server CONFIG FOLDER */
#define _POSIX_C_SOURCE 200809L
#include "alog_host.h"

#include <inttypes.h>
#include <stdio.h>

enum { THREADS = 4, REQUESTS = 1000, WORKERS = 2 };

static alog_host host;

/* What a thread does: it opens a client of its own, and logs each request that it served. */
static void *serve(void *at)
{
    const int *thread = at;
    alog_client client = {NULL, {0, NULL}};
    alog_answer answer = alog_client_open(&host, &client);
    uint32_t net = 0;
    if (answer == ALOG_DONE)
        answer = alog_find(&client.producer, "net", &net);
    for (int request = 0; request < REQUESTS && answer == ALOG_DONE; request++)
        answer = alog_printf(&client, net, ALOG_INFO, "thread %d served request %d", *thread, request);
    if (answer != ALOG_DONE)
        fprintf(stderr, "server: thread %d: %s\n", *thread, alog_says(answer));
    alog_client_close(&client);
    return NULL;
}

static size_t read_file(const char *path, char *bytes, size_t room)
{
    FILE *file = fopen(path, "rb");
    size_t length = file == NULL ? 0 : fread(bytes, 1, room, file);
    if (file != NULL)
        fclose(file);
    return length;
}

int main(int argc, char **argv)
{
    static char config[65536];
    int numbers[THREADS];
    pthread_t threads[THREADS];
    alog_report report = {0, 0, 0, 0, 0, 0};
    alog_answer answer;
    if (argc != 3) {
        fputs("server: wanted are a configuration and a folder\n", stderr);
        return 1;
    }
    answer = alog_start(&host, config, read_file(argv[1], config, sizeof config), argv[2], WORKERS);
    if (answer != ALOG_DONE) {
        fprintf(stderr, "server: %s %s\n", alog_says(answer), host.told);
        return 1;
    }
    int started = 0;
    for (; started < THREADS; started++) {
        numbers[started] = started;
        if (pthread_create(&threads[started], NULL, serve, &numbers[started]) != 0)
            break;
    }
    while (started > 0)
        pthread_join(threads[--started], NULL);
    answer = alog_stop(&host, &report);
    printf("asked %" PRIu64 "\nposted %" PRIu64 "\ndiscarded %" PRIu64 "\n", report.asked, report.posted, report.discarded);
    printf("overrun %" PRIu64 "\nhandled %" PRIu64 "\nfaults %" PRIu64 "\n", report.overrun, report.handled, report.faults);
    printf("failures %" PRIu64 "\n", alog_failures(&host, NULL));
    return answer == ALOG_DONE && report.faults == 0 && host.failures == 0 ? 0 : 1;
}
