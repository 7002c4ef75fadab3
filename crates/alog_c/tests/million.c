/* Four threads log 1,000,000 messages, which workers write to one file: million FOLDER WORKERS POLICY PLACES. Each message that was posted and
   not overrun has its line there once, and with one worker those of each thread stand in their order. */
#include "alog_host.h"
#include "trial.h"

enum { THREADS = 4, EACH = 250000 };

static alog_host host;
/* which messages were posted, by threads and numbers, and which have a line */
static char is_posted[THREADS][EACH], has_line[THREADS][EACH];

struct task {
    pthread_t thread;
    unsigned number;
    unsigned long posted, discarded, others;
};

static void log_all(struct task *task, alog_client *client)
{
    char text[80];
    unsigned i;
    for (i = 0; i < EACH; i++) {
        int length = snprintf(text, sizeof text, "%u %u of a client whose request took some microseconds", task->number, i);
        alog_answer answer = alog_log_wait(client, 0, ALOG_INFO, text, (size_t)length);
        if (answer == ALOG_DONE) {
            task->posted++;
            is_posted[task->number][i] = 1;
        } else if (answer == ALOG_FULL || answer == ALOG_STALLED || answer == ALOG_BUSY) {
            task->discarded++;
        } else {
            task->others++;
        }
    }
}

static void *run(void *at)
{
    struct task *task = at;
    alog_client client = {NULL, {0, NULL}};
    if (alog_client_open(&host, &client) != ALOG_DONE)
        task->others++;
    log_all(task, &client);
    if (alog_client_close(&client) != ALOG_DONE)
        task->others++;
    return NULL;
}

/* Looks at each line of the file; answers how many there are. */
static unsigned long read_lines(const char *folder, int in_order)
{
    size_t length;
    char *bytes = bytes_of(path_of(folder, "log.txt"), &length), *at, *end;
    unsigned long lines = 0, twice = 0, wrong = 0, disordered = 0;
    long last[THREADS] = {-1, -1, -1, -1};
    for (at = bytes; (end = strchr(at, '\n')) != NULL; at = end + 1, lines++) {
        unsigned thread, number;
        char wanted[80];
        *end = 0;
        if (sscanf(at, "%u %u", &thread, &number) != 2 || thread >= THREADS || number >= EACH) {
            wrong++;
            continue;
        }
        snprintf(wanted, sizeof wanted, "%u %u of a client whose request took some microseconds", thread, number);
        wrong += strcmp(at, wanted) != 0;
        twice += has_line[thread][number] != 0;
        has_line[thread][number] = 1;
        disordered += (long)number <= last[thread];
        last[thread] = (long)number;
    }
    EXPECT(at - bytes, length);
    EXPECT(wrong, 0);
    EXPECT(twice, 0);
    if (in_order)
        EXPECT(disordered, 0);
    free(bytes);
    return lines;
}

/* How many messages have a line and were not posted, and how many were posted and have none. */
static unsigned long odd_lines(int has, int was_posted)
{
    unsigned long count = 0;
    for (unsigned thread = 0; thread < THREADS; thread++)
        for (unsigned i = 0; i < EACH; i++)
            count += has_line[thread][i] == has && is_posted[thread][i] == was_posted;
    return count;
}

static int start(char **argv, size_t workers)
{
    char config[512];
    snprintf(config, sizeof config,
             "queue = %s\nworkers = %zu\n[[sink]]\nname = \"file\"\nkind = \"memory\"\nfile = \"log.txt\"\npattern = \"%%v\"\n"
             "[[logger]]\nname = \"net\"\nsinks = [\"file\"]\npolicy = \"%s\"\n",
             argv[4], workers, argv[3]);
    return EXPECT(alog_start(&host, config, strlen(config), argv[1], workers), ALOG_DONE);
}

int main(int argc, char **argv)
{
    struct task tasks[THREADS] = {{0, 0, 0, 0, 0}};
    unsigned long posted = 0, discarded = 0, others = 0;
    alog_report report;
    size_t workers = argc == 5 ? strtoul(argv[2], NULL, 10) : 0;
    if (argc != 5 || !start(argv, workers))
        return 2;
    for (unsigned i = 0; i < THREADS; i++) {
        tasks[i].number = i;
        EXPECT(pthread_create(&tasks[i].thread, NULL, run, &tasks[i]), 0);
    }
    for (unsigned i = 0; i < THREADS; i++) {
        pthread_join(tasks[i].thread, NULL);
        posted += tasks[i].posted;
        discarded += tasks[i].discarded;
        others += tasks[i].others;
    }
    EXPECT(alog_stop(&host, &report), ALOG_DONE);
    EXPECT(others, 0);
    EXPECT(posted + discarded, THREADS * EACH);
    EXPECT(report.asked, THREADS * EACH);
    EXPECT(report.posted, posted);
    EXPECT(report.discarded, discarded);
    EXPECT(report.handled + report.overrun, posted);
    EXPECT(report.faults, 0);
    if (strcmp(argv[3], "block") == 0)
        EXPECT(report.handled, THREADS * EACH);
    EXPECT(read_lines(argv[1], workers == 1), report.handled);
    EXPECT(odd_lines(1, 0), 0);
    EXPECT(odd_lines(0, 1), report.overrun);
    return trial_end();
}
