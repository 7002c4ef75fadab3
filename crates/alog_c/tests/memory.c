/* Each allocation of the library fails in turn: memory FOLDER. It is linked with --wrap for malloc, realloc and free, so that these are the
   library's alone; the folder is not used. Each answer is then ALOG_NO_MEMORY or what it is otherwise, nothing is lost, and a later try goes. */
#include "alog.h"
#include "trial.h"

static const char config[] = "queue = 8\n"
                             "workers = 1\n"
                             "text = 500\n"
                             "[[sink]]\nname = \"a\"\nkind = \"rotating\"\nfile = \"a.txt\"\npattern = \"%n %v %s\"\nmax_size = 100\nmax_files = 2\n"
                             "[[sink]]\nname = \"b\"\nkind = \"daily\"\nfile = \"b.txt\"\npattern = \"%v\"\n"
                             "[[sink]]\nname = \"fan\"\nkind = \"fan\"\nof = [\"a\", \"b\"]\n"
                             "[[logger]]\nname = \"net\"\nsinks = [\"fan\"]\nbacktrace = 4\n";

/* how many blocks there are, how many calls took memory, and which of them fails, from 1 on */
static long blocks, calls, failing;

void *__real_malloc(size_t size);
void *__real_realloc(void *old, size_t size);
void __real_free(void *old);
void *__wrap_malloc(size_t size);
void *__wrap_realloc(void *old, size_t size);
void __wrap_free(void *old);

void *__wrap_malloc(size_t size)
{
    void *made = ++calls == failing ? NULL : __real_malloc(size);
    blocks += made != NULL;
    return made;
}

void *__wrap_realloc(void *old, size_t size)
{
    void *made = ++calls == failing ? NULL : __real_realloc(old, size);
    blocks += old == NULL && made != NULL;
    return made;
}

void __wrap_free(void *old)
{
    blocks -= old != NULL;
    __real_free(old);
}

/* What a round made of its steps. */
struct round {
    alog_files files;
    alog_pool pool;
    alog_producer producer;
    alog_worker worker;
    unsigned long refused;
};

/* An answer to a step that wants memory: where there was none nothing was done, and the next try goes. */
static int goes(struct round *round, alog_answer answer)
{
    if (answer == ALOG_NO_MEMORY) {
        round->refused++;
        return 0;
    }
    EXPECT(answer, ALOG_DONE);
    return 1;
}

/* Asks which files the sinks have. */
static void name_files(struct round *round)
{
    char names[200];
    size_t length = 99;
    if (!goes(round, alog_file_names(config, sizeof config - 1, names, sizeof names, &length))) {
        EXPECT(length, 0);
        EXPECT(alog_file_names(config, sizeof config - 1, names, sizeof names, &length), ALOG_DONE);
    }
    EXPECT_TEXT(names, "a.txt");
}

/* Asks how many places the queue has. */
static void count_places(struct round *round)
{
    size_t places = 99;
    if (!goes(round, alog_queue_places(config, sizeof config - 1, &places))) {
        EXPECT(places, 0);
        EXPECT(alog_queue_places(config, sizeof config - 1, &places), ALOG_DONE);
    }
    EXPECT(places, 8);
}

/* Tells of two files, of which one is there for a sink. */
static void find_files(struct round *round)
{
    if (!goes(round, alog_found(&round->files, "a.txt", 50)))
        EXPECT(alog_found(&round->files, "a.txt", 50), ALOG_DONE);
    if (!goes(round, alog_found(&round->files, "other.txt", 5000)))
        EXPECT(alog_found(&round->files, "other.txt", 5000), ALOG_DONE);
    EXPECT(round->files.kind, 4);
}

static void open_pool(struct round *round)
{
    char told[100];
    if (!goes(round, alog_open(&round->pool, &round->files, config, sizeof config - 1, 2, 4, told, sizeof told))) {
        EXPECT_TEXT(told, "");
        EXPECT(round->pool.kind, 0);
        EXPECT(round->files.kind, 4);
        EXPECT(alog_open(&round->pool, &round->files, config, sizeof config - 1, 2, 4, told, sizeof told), ALOG_DONE);
    }
}

static void open_all(struct round *round)
{
    name_files(round);
    count_places(round);
    find_files(round);
    open_pool(round);
    if (!goes(round, alog_make_producer(&round->pool, &round->producer))) {
        EXPECT(round->producer.kind, 0);
        EXPECT(alog_make_producer(&round->pool, &round->producer), ALOG_DONE);
    }
    if (!goes(round, alog_make_worker(&round->pool, &round->worker))) {
        EXPECT(round->worker.kind, 0);
        EXPECT(alog_make_worker(&round->pool, &round->worker), ALOG_DONE);
    }
}

/* Takes what is there, and answers how many bytes it is for. */
static size_t take_some(struct round *round)
{
    static char area[ALOG_AREA];
    size_t length, at, bytes = 0;
    alog_record record;
    while (alog_take(&round->files, area, sizeof area, &length) == ALOG_DONE)
        for (at = 0; alog_next_record(area, length, &at, &record) > 0;)
            bytes += record.deed == ALOG_APPEND ? record.rest_length : 0;
    return bytes;
}

/* Logs and writes some, which takes memory for the backtrace alone; answers how many bytes the lines have. */
static size_t log_some(struct round *round)
{
    size_t bytes = 0;
    const alog_source source = {"a.c", 1, "f"};
    char text[400];
    memset(text, 'x', sizeof text);
    for (int i = 0; i < 4; i++) {
        if (!goes(round, alog_log(&round->producer, 0, ALOG_INFO, 0, text, 70, NULL)))
            EXPECT(alog_log(&round->producer, 0, ALOG_INFO, 0, text, 70, NULL), ALOG_DONE);
        if (!goes(round, alog_log_source(&round->producer, 0, ALOG_INFO, 0, text, sizeof text, &source, NULL)))
            EXPECT(alog_log_source(&round->producer, 0, ALOG_INFO, 0, text, sizeof text, &source, NULL), ALOG_DONE);
        EXPECT(alog_work(&round->worker, 100, NULL), ALOG_IDLE);
        bytes += take_some(round);
    }
    return bytes;
}

/* The end of a pool, which may want memory to take its parts back. */
static void end_pool(struct round *round, alog_report *report)
{
    alog_answer answer = alog_shutdown(&round->pool, report);
    if (answer == ALOG_PARTS_OUT) {
        round->refused++;
        answer = alog_shutdown(&round->pool, report);
    }
    EXPECT(answer, ALOG_DONE);
}

/* One round in which this allocation fails; answers whether there was one of this number. */
static int run(long number)
{
    struct round round = {{0, NULL}, {0, NULL}, {0, NULL}, {0, NULL}, 0};
    alog_report report;
    size_t bytes;
    long before = blocks;
    calls = 0;
    failing = number;
    open_all(&round);
    bytes = log_some(&round);
    EXPECT(alog_give_producer(&round.producer), ALOG_DONE);
    EXPECT(alog_give_worker(&round.worker), ALOG_DONE);
    end_pool(&round, &report);
    bytes += take_some(&round);
    EXPECT(alog_close(&round.files), ALOG_DONE);
    EXPECT(report.handled, 8);
    EXPECT(report.faults, 0);
    EXPECT(bytes, 4 * (2 * 70 + 2 * 400) + 4 * (strlen("net  \n") + strlen("net  a.c\n") + 2 * strlen("\n")));
    EXPECT(blocks, before);
    EXPECT(round.refused, calls >= number);
    return calls >= number;
}

int main(int argc, char **argv)
{
    long number = 1;
    (void)argv;
    if (argc != 2)
        return 2;
    while (run(number) && trial_failed < 20)
        number++;
    printf("memory: %ld allocations failed in turn\n", number - 1);
    EXPECT(number > 50, 1);
    return trial_end();
}
