/* Dumps of a backtrace, call by call, and by threads that log meanwhile: dumps FOLDER */
#include "alog_host.h"
#include "taken.h"

enum { THREADS = 4, EACH = 2000, KEEPS = 5 };

static const char config[] = "queue = 8\n[[sink]]\nname = \"file\"\nkind = \"memory\"\npattern = \"%E %L %v\"\n"
                             "[[logger]]\nname = \"net\"\nsinks = [\"file\"]\nbacktrace = 3\n"
                             "[[logger]]\nname = \"disk\"\nsinks = [\"file\"]\n";
static const char dumped[] = "9 I === backtrace start ===\n3 D two\n4 I three\n5 T four\n9 I === backtrace end ===\n";
static const int64_t second = 1000000000;

static alog_files files;
static alog_pool pool;
static alog_producer producer;
static alog_worker worker;
static struct taken taken;

static void expect_lines(const char *lines)
{
    EXPECT(alog_work(&worker, 100, NULL), ALOG_IDLE);
    EXPECT(take_all(&taken, &files), ALOG_IDLE);
    EXPECT_TEXT(taken_text(&taken, "file"), lines);
    taken_clear(&taken);
}

/* The last three messages, of whichever level, are kept, and one of them was logged, too. */
static void dump_once(void)
{
    size_t posts = 99;
    EXPECT(alog_dump(&producer, 0, 9 * second, &posts), ALOG_DONE);
    EXPECT(posts, 0);
    /* (it is on for what it hides, and keeps) */
    EXPECT(alog_is_on(&producer, 0, ALOG_TRACE), ALOG_DONE);
    EXPECT(alog_log(&producer, 0, ALOG_DEBUG, 2 * second, "one", 3, NULL), ALOG_FILTERED);
    EXPECT(alog_log(&producer, 0, ALOG_DEBUG, 3 * second, "two", 3, NULL), ALOG_FILTERED);
    EXPECT(alog_log(&producer, 0, ALOG_INFO, 4 * second, "three", 5, NULL), ALOG_DONE);
    EXPECT(alog_log(&producer, 0, ALOG_TRACE, 5 * second, "four", 4, NULL), ALOG_FILTERED);
    expect_lines("4 I three\n");
    EXPECT(alog_dump(&producer, 0, 9 * second, &posts), ALOG_DONE);
    EXPECT(posts, 5);
    expect_lines(dumped);
    EXPECT(alog_dump(&producer, 0, 9 * second, &posts), ALOG_DONE);
    EXPECT(posts, 0);
    /* a logger without a backtrace, and none */
    posts = 99;
    EXPECT(alog_dump(&producer, 1, 9 * second, &posts), ALOG_DONE);
    EXPECT(posts, 0);
    EXPECT(alog_dump(&producer, 2, 9 * second, &posts), ALOG_NO_LOGGER);
    EXPECT(posts, 0);
}

/* What has no room is discarded and counted, though the logger blocks. */
static void dump_into_little(void)
{
    size_t posts = 0;
    alog_report report;
    for (int i = 0; i < 6; i++)
        EXPECT(alog_log(&producer, 1, ALOG_INFO, second, "x", 1, NULL), ALOG_DONE);
    for (int i = 0; i < 3; i++)
        EXPECT(alog_log(&producer, 0, ALOG_DEBUG, second, "kept", 4, NULL), ALOG_FILTERED);
    EXPECT(alog_dump(&producer, 0, 9 * second, &posts), ALOG_DONE);
    EXPECT(posts, 5);
    expect_lines("1 I x\n1 I x\n1 I x\n1 I x\n1 I x\n1 I x\n9 I === backtrace start ===\n1 D kept\n");
    EXPECT(alog_give_producer(&producer), ALOG_DONE);
    EXPECT(alog_give_worker(&worker), ALOG_DONE);
    EXPECT(alog_shutdown(&pool, &report), ALOG_DONE);
    EXPECT(report.asked, 1 + 5 + 6 + 5);
    EXPECT(report.discarded, 3);
    EXPECT(report.handled, 1 + 5 + 6 + 2);
    EXPECT(report.faults, 0);
    EXPECT(alog_close(&files), ALOG_DONE);
}

static alog_host host;

struct task {
    pthread_t thread;
    /* the number of its first text */
    int first;
    unsigned long others;
};

static void *run(void *at)
{
    struct task *task = at;
    alog_client client = {NULL, {0, NULL}};
    task->others += alog_client_open(&host, &client) != ALOG_DONE;
    for (int i = 0; i < EACH; i++) {
        task->others += alog_printf(&client, 0, ALOG_DEBUG, "kept %d", task->first + i) != ALOG_FILTERED;
        if (i % KEEPS == 0)
            task->others += alog_dump_now(&client, 0) != ALOG_DONE;
    }
    task->others += alog_client_close(&client) != ALOG_DONE;
    return NULL;
}

/* How often a text stands in a longer one. */
static unsigned long count_of(const char *all, const char *text)
{
    unsigned long count = 0;
    while ((all = strstr(all, text)) != NULL) {
        count++;
        all += strlen(text);
    }
    return count;
}

/* How many of the texts that were kept are in these lines, each at most once. */
static unsigned long kept_in(const char *lines)
{
    static char is_there[THREADS * EACH];
    unsigned long count = 0, again = 0;
    while ((lines = strstr(lines, "kept ")) != NULL) {
        const long number = strtol(lines += 5, NULL, 10);
        const int is_known = number >= 0 && number < THREADS * EACH;
        again += !is_known || is_there[number];
        if (is_known)
            is_there[number] = 1;
        count++;
    }
    EXPECT(again, 0);
    return count;
}

/* Threads keep and dump at once. No message is dumped twice, and what was posted is in the file. */
static void threads(const char *folder)
{
    static const char two_workers[] = "queue = 4096\nworkers = 2\n[[sink]]\nname = \"file\"\nkind = \"memory\"\npattern = \"%v\"\n"
                                      "[[logger]]\nname = \"net\"\nsinks = [\"file\"]\nbacktrace = 5\n";
    struct task tasks[THREADS] = {{0, 0, 0}};
    alog_report report;
    size_t length;
    char *bytes;
    unsigned long kept, starts, ends;
    EXPECT(alog_start(&host, two_workers, strlen(two_workers), folder, 2), ALOG_DONE);
    for (int i = 0; i < THREADS; i++) {
        tasks[i].first = i * EACH;
        EXPECT(pthread_create(&tasks[i].thread, NULL, run, &tasks[i]), 0);
    }
    for (int i = 0; i < THREADS; i++) {
        pthread_join(tasks[i].thread, NULL);
        EXPECT(tasks[i].others, 0);
    }
    EXPECT(alog_stop(&host, &report), ALOG_DONE);
    EXPECT(report.faults + host.failures, 0);
    EXPECT(report.handled, report.posted);
    bytes = bytes_of(path_of(folder, "file"), &length);
    kept = kept_in(bytes);
    starts = count_of(bytes, "=== backtrace start ===\n");
    ends = count_of(bytes, "=== backtrace end ===\n");
    EXPECT(kept + starts + ends, report.handled);
    EXPECT(kept > 0 && starts <= THREADS * EACH / KEEPS && ends <= THREADS * EACH / KEEPS, 1);
    if (report.discarded == 0)
        EXPECT(starts, ends);
    free(bytes);
}

int main(int argc, char **argv)
{
    if (argc != 2)
        return 2;
    EXPECT(alog_open(&pool, &files, config, sizeof config - 1, 1, 4, NULL, 0), ALOG_DONE);
    EXPECT(alog_make_producer(&pool, &producer), ALOG_DONE);
    EXPECT(alog_make_worker(&pool, &worker), ALOG_DONE);
    dump_once();
    dump_into_little();
    threads(argv[1]);
    return trial_end();
}
