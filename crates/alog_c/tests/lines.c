/* What one thread logs and one worker writes, call by call: lines FOLDER. The folder is not used, since the library touches no file. */
#include "taken.h"

static const char config[] = "queue = 16\n"
                             "text = 64\n"
                             "[[sink]]\n"
                             "name = \"file\"\n"
                             "kind = \"memory\"\n"
                             "file = \"log.txt\"\n"
                             "pattern = \"%E %L %n %t %s:%# %! %v\"\n"
                             "[[logger]]\n"
                             "name = \"net\"\n"
                             "sinks = [\"file\"]\n"
                             "[[logger]]\n"
                             "name = \"disk\"\n"
                             "policy = \"discard_new\"\n"
                             "sinks = [\"file\"]\n";
static const char wanted[] = "5 I net 0 :  one\n"
                             "-1 D net 0 :  two\n"
                             "6 E net 0 a.c:7 serve \xc3\xbc\n"
                             "0 C disk 0 :  \n"
                             "0 I net 0 :  0123456789012345678901234567890123456789012345678901234567890123\n";
static const char sixty_five[] = "01234567890123456789012345678901234567890123456789012345678901234";
static const int64_t second = 1000000000;

static alog_files files;
static struct taken taken;
static alog_pool pool;
static alog_producer producer;
static alog_worker worker;
static uint32_t net, disk;

static void log_some(void)
{
    const alog_source source = {"src/a.c", 7, "serve"};
    uint64_t ticket = 99;
    EXPECT(alog_log(&producer, net, ALOG_INFO, 5 * second + 999999999, "one", 3, &ticket), ALOG_DONE);
    EXPECT(ticket, 0);
    EXPECT(alog_log(&producer, net, ALOG_DEBUG, 0, "hidden", 6, &ticket), ALOG_FILTERED);
    EXPECT(ticket, 0);
    EXPECT(alog_is_on(&producer, net, ALOG_DEBUG), ALOG_FILTERED);
    EXPECT(alog_set_level(&producer, net, ALOG_DEBUG), ALOG_DONE);
    EXPECT(alog_is_on_in_pool(&pool, net, ALOG_DEBUG), ALOG_DONE);
    EXPECT(alog_is_on(&producer, net, ALOG_TRACE), ALOG_FILTERED);
    EXPECT(alog_log(&producer, net, ALOG_DEBUG, -1, "two", 3, &ticket), ALOG_DONE);
    EXPECT(ticket, 1);
    EXPECT(alog_log_source(&producer, net, ALOG_ERROR, 6 * second, "\xc3\xbc", 2, &source, &ticket), ALOG_DONE);
    EXPECT(ticket, 2);
    EXPECT(alog_set_level_in_pool(&pool, disk, ALOG_CRITICAL), ALOG_DONE);
    EXPECT(alog_is_on(&producer, disk, ALOG_ERROR), ALOG_FILTERED);
    EXPECT(alog_is_on_in_pool(&pool, disk, ALOG_OFF), ALOG_DONE);
    EXPECT(alog_log(&producer, disk, ALOG_ERROR, 0, "hidden", 6, NULL), ALOG_FILTERED);
    EXPECT(alog_log(&producer, disk, ALOG_CRITICAL, 0, NULL, 0, NULL), ALOG_DONE);
    EXPECT(alog_log(&producer, net, ALOG_INFO, 0, sixty_five, 65, NULL), ALOG_TEXT_TOO_LONG);
    EXPECT(alog_log(&producer, net, ALOG_INFO, 0, sixty_five, 64, NULL), ALOG_DONE);
}

/* What the file has, which is all of it where the worker was idle. */
static void expect_lines(const char *lines)
{
    EXPECT(take_all(&taken, &files), ALOG_IDLE);
    EXPECT(taken_length(&taken, "log.txt"), strlen(lines));
    EXPECT_TEXT(taken_text(&taken, "log.txt"), lines);
}

static void work_some(void)
{
    size_t items = 99;
    EXPECT(take_all(&taken, &files), ALOG_IDLE);
    EXPECT(alog_work(&worker, 0, &items), ALOG_DONE);
    EXPECT(items, 0);
    EXPECT(alog_work(&worker, 2, &items), ALOG_DONE);
    EXPECT(items, 2);
    /* two lines lie in an area that is not full, and nobody flushed */
    EXPECT(take_all(&taken, &files), ALOG_IDLE);
    EXPECT(taken.takes, 0);
    EXPECT(alog_work(&worker, 100, &items), ALOG_IDLE);
    EXPECT(items, 3);
    expect_lines(wanted);
    EXPECT(taken.takes, 1);
    EXPECT(taken.deeds[ALOG_APPEND], 5);
    EXPECT(taken.deeds[ALOG_FLUSH], 1);
    EXPECT(alog_work(&worker, 100, NULL), ALOG_IDLE);
    EXPECT(take_all(&taken, &files), ALOG_IDLE);
    EXPECT(taken.takes, 1);
    EXPECT(alog_flush(&producer, net, NULL), ALOG_DONE);
    EXPECT(alog_work(&worker, 100, &items), ALOG_IDLE);
    EXPECT(items, 1);
    expect_lines(wanted);
    EXPECT(taken.deeds[ALOG_FLUSH], 2);
}

/* The queue of sixteen places is filled. */
static void fill(void)
{
    int count;
    for (count = 0; count < 16; count++)
        EXPECT(alog_log(&producer, net, ALOG_INFO, 0, "a\0b", 3, NULL), ALOG_DONE);
    EXPECT(alog_log(&producer, net, ALOG_INFO, 0, "c", 1, NULL), ALOG_WOULD_BLOCK);
    EXPECT(alog_log(&producer, disk, ALOG_CRITICAL, 0, "c", 1, NULL), ALOG_FULL);
    EXPECT(alog_flush(&producer, net, NULL), ALOG_FULL);
}

/* What the end of the pool writes is what was left, with the zeros of the texts. The files are there behind the end, until they are closed. */
static void end(void)
{
    const size_t all = strlen(wanted) + 16 * strlen("0 I net 0 :  a.b\n");
    alog_report report = {99, 99, 99, 99, 99, 99};
    EXPECT(alog_give_worker(&worker), ALOG_DONE);
    EXPECT(alog_give_producer(&producer), ALOG_DONE);
    EXPECT(alog_shutdown(&pool, &report), ALOG_DONE);
    EXPECT(report.asked, 24);
    EXPECT(report.posted, 22);
    EXPECT(report.discarded, 2);
    EXPECT(report.overrun, 0);
    EXPECT(report.handled, 22);
    EXPECT(report.faults, 0);
    EXPECT(pool.kind + worker.kind + producer.kind, 0);
    EXPECT(files.kind, 5);
    EXPECT(taken_length(&taken, "log.txt"), strlen(wanted));
    EXPECT(take_all(&taken, &files), ALOG_ENDED);
    EXPECT(take_all(&taken, &files), ALOG_ENDED);
    if (EXPECT(taken_length(&taken, "log.txt"), all))
        EXPECT(memcmp(taken_text(&taken, "log.txt") + all - 17, "0 I net 0 :  a\0b\n", 17), 0);
    EXPECT(taken.count, 1);
    EXPECT(alog_close(&files), ALOG_DONE);
    EXPECT(files.kind, 0);
    EXPECT(take_all(&taken, &files), ALOG_NO_HANDLE);
    EXPECT(alog_close(&files), ALOG_NO_HANDLE);
    taken_clear(&taken);
}

int main(int argc, char **argv)
{
    char told[64] = "x";
    if (argc != 2)
        return 2;
    (void)argv;
    EXPECT(alog_open(&pool, &files, config, sizeof config - 1, 1, 4, told, sizeof told), ALOG_DONE);
    EXPECT_TEXT(told, "");
    EXPECT(files.kind, 5);
    EXPECT(alog_make_producer(&pool, &producer), ALOG_DONE);
    EXPECT(alog_make_worker(&pool, &worker), ALOG_DONE);
    EXPECT(alog_find(&producer, "net", &net), ALOG_DONE);
    EXPECT(alog_find_in_pool(&pool, "disk", &disk), ALOG_DONE);
    EXPECT(net, 0);
    EXPECT(disk, 1);
    log_some();
    work_some();
    fill();
    end();
    return trial_end();
}
