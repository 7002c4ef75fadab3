/* How many areas are enough, and what becomes of a sink that has too few: areas FOLDER. The folder is not used. */
#include "taken.h"

static const char head[] = "queue = 64\ntext = 8191\n[[sink]]\nname = \"file\"\nkind = \"memory\"\nfile = \"log.txt\"\n";
static const char plain[] = "pattern = \"%v\"\n[[logger]]\nname = \"net\"\nsinks = [\"file\"]\n";
/* lines of 65,529 bytes, of which an area takes one */
static const char longest[] = "pattern = \"%v%v%v%v%v%v%v%v\"\n[[logger]]\nname = \"net\"\nsinks = [\"file\"]\n";
static const char flushing[] = "flush_on = \"trace\"\n";

static alog_files files;
static alog_pool pool;
static alog_producer producer;
static alog_worker worker;
static struct taken taken;
static char text[8191];

static void open_all(size_t areas, const char *sink, const char *logger)
{
    char config[1024];
    snprintf(config, sizeof config, "%s%s%s", head, sink, logger);
    taken_clear(&taken);
    EXPECT(alog_open(&pool, &files, config, strlen(config), 1, areas, NULL, 0), ALOG_DONE);
    EXPECT(alog_make_producer(&pool, &producer), ALOG_DONE);
    EXPECT(alog_make_worker(&pool, &worker), ALOG_DONE);
}

/* Ends the pool; answers how many turns were faults. */
static uint64_t end_all(uint64_t messages)
{
    alog_report report;
    EXPECT(alog_give_producer(&producer), ALOG_DONE);
    EXPECT(alog_give_worker(&worker), ALOG_DONE);
    EXPECT(alog_shutdown(&pool, &report), ALOG_DONE);
    EXPECT(report.handled, messages);
    EXPECT(report.discarded + report.overrun, 0);
    EXPECT(take_all(&taken, &files), ALOG_ENDED);
    EXPECT(alog_close(&files), ALOG_DONE);
    return report.faults;
}

/* How many faults the worker tells, which it is asked twice. */
static uint64_t worker_faults(void)
{
    uint64_t told = 99, again = 98;
    EXPECT(alog_worker_faults(&worker, &told), ALOG_DONE);
    EXPECT(alog_worker_faults(&worker, &again), ALOG_DONE);
    EXPECT(again, told);
    return told;
}

/* Logs so many texts of so many bytes, each of a letter of its own. */
static void log_some(size_t count, size_t length)
{
    for (size_t i = 0; i < count; i++) {
        memset(text, 'a' + (int)(i % 26), length);
        EXPECT(alog_log(&producer, 0, ALOG_INFO, 0, text, length, NULL), ALOG_DONE);
    }
}

/* Two areas have room for thirty lines of 8,192 bytes. Nobody takes them while forty are written, and the sink is broken then, also when there
   is room again. The worker tells each line that is missing, and the flush before it rests; the report that of the end, too. */
static void too_few(void)
{
    uint64_t lines, faults;
    open_all(2, plain, "");
    EXPECT(worker_faults(), 0);
    log_some(40, 8191);
    EXPECT(alog_work(&worker, 30, NULL), ALOG_DONE);
    EXPECT(worker_faults(), 0);
    EXPECT(alog_work(&worker, 4, NULL), ALOG_DONE);
    EXPECT(worker_faults(), 4);
    EXPECT(alog_work(&worker, 100, NULL), ALOG_IDLE);
    EXPECT(worker_faults(), 11);
    EXPECT(take_all(&taken, &files), ALOG_IDLE);
    EXPECT(taken.takes, 2);
    EXPECT(taken_length(&taken, "log.txt"), 30 * 8192);
    log_some(5, 8191);
    EXPECT(alog_work(&worker, 100, NULL), ALOG_IDLE);
    EXPECT(worker_faults(), 16);
    faults = end_all(45);
    EXPECT(faults, 17);
    lines = (uint64_t)taken_length(&taken, "log.txt") / 8192;
    EXPECT(lines >= 30, 1);
    /* each line that is missing is a fault, and so may be the flushes of the worker and of the end */
    EXPECT(faults >= 45 - lines, 1);
    EXPECT(faults <= 45 - lines + 4, 1);
    for (size_t i = 0; i < 30; i++)
        if (taken_text(&taken, "log.txt")[i * 8192] != (char)('a' + i % 26) || taken_text(&taken, "log.txt")[i * 8192 + 8191] != '\n')
            EXPECT(i, 30);
}

/* Areas that are taken are empty again: two are enough for any number of lines. */
static void taken_in_time(void)
{
    open_all(2, plain, "");
    for (int round = 0; round < 40; round++) {
        log_some(15, 8191);
        EXPECT(alog_work(&worker, 15, NULL), ALOG_DONE);
        EXPECT(take_all(&taken, &files), ALOG_IDLE);
    }
    EXPECT(worker_faults(), 0);
    EXPECT(end_all(600), 0);
    EXPECT(taken_length(&taken, "log.txt"), 600 * 8192);
}

/* As many areas as a batch has messages, and two more, are enough: for the longest lines, and where each message flushes. */
static void batches(const char *sink, const char *logger, size_t text_length, size_t line)
{
    static const size_t batch = 14;
    open_all(batch + 2, sink, logger);
    for (int round = 0; round < 8; round++) {
        log_some(batch, text_length);
        EXPECT(alog_work(&worker, batch, NULL), ALOG_DONE);
        if (round % 2 == 0) {
            /* another batch, and the flush before the rest */
            EXPECT(take_all(&taken, &files), ALOG_IDLE);
            log_some(batch, text_length);
            EXPECT(alog_work(&worker, batch, NULL), ALOG_DONE);
        }
        EXPECT(take_all(&taken, &files), ALOG_IDLE);
        EXPECT(alog_work(&worker, 1, NULL), ALOG_IDLE);
        EXPECT(take_all(&taken, &files), ALOG_IDLE);
    }
    EXPECT(end_all(12 * batch), 0);
    EXPECT(taken_length(&taken, "log.txt"), 12 * batch * line);
}

/* One area, and a message at a time. */
static void one_area(void)
{
    open_all(1, plain, flushing);
    for (int round = 0; round < 20; round++) {
        log_some(1, 100);
        EXPECT(alog_work(&worker, 1, NULL), ALOG_DONE);
        EXPECT(take_all(&taken, &files), ALOG_IDLE);
    }
    EXPECT(taken.takes, 20);
    EXPECT(end_all(20), 0);
    EXPECT(taken_length(&taken, "log.txt"), 20 * 101);
}

int main(int argc, char **argv)
{
    (void)argv;
    if (argc != 2)
        return 2;
    too_few();
    taken_in_time();
    batches(plain, "", 8191, 8192);
    batches(plain, flushing, 8191, 8192);
    batches(plain, flushing, 0, 1);
    batches(longest, "", 8191, 8 * 8191 + 1);
    batches(longest, flushing, 8191, 8 * 8191 + 1);
    one_area();
    taken_clear(&taken);
    return trial_end();
}
