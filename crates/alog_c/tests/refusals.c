/* Each call of the library with what it may not be given, and that nothing comes of it: refusals FOLDER. The folder is not used. */
#include "said.h"
#include "taken.h"

static const char config[] = "queue = 4\n"
                             "workers = 2\n"
                             "text = 100\n"
                             "[[sink]]\n"
                             "name = \"file\"\n"
                             "kind = \"rotating\"\n"
                             "file = \"log.txt\"\n"
                             "max_size = 1000000\n"
                             "max_files = 1\n"
                             "pattern = \"%v\"\n"
                             "[[logger]]\n"
                             "name = \"net\"\n"
                             "sinks = [\"file\"]\n";

static alog_files files;
static alog_pool pool;
static alog_producer producer;
static alog_worker worker;
static alog_report report;
static uint32_t number = 99;
static uint64_t ticket = 99, faults = 99;
static char told[200];
static char area[ALOG_AREA];
static size_t length = 99;

static alog_answer open_at(alog_pool *at, alog_files *over)
{
    return alog_open(at, over, config, sizeof config - 1, 3, 2, told, sizeof told);
}

/* A handle as another kind of one, which no program may do. */
static alog_producer *as_producer(void *at)
{
    return at;
}

static alog_worker *as_worker(void *at)
{
    return at;
}

static alog_pool *as_pool(void *at)
{
    return at;
}

static alog_files *as_files(void *at)
{
    return at;
}

static void nulls(void)
{
    const alog_source no_file = {NULL, 1, "f"}, no_function = {"f", 1, NULL};
    EXPECT(alog_found(NULL, "log.txt", 1), ALOG_NULL);
    EXPECT(alog_found(&files, NULL, 1), ALOG_NULL);
    EXPECT(alog_file_names(NULL, 1, told, sizeof told, &length), ALOG_NULL);
    EXPECT(alog_file_names(config, sizeof config - 1, NULL, 1, &length), ALOG_NULL);
    EXPECT(alog_file_names(config, sizeof config - 1, told, sizeof told, NULL), ALOG_NULL);
    EXPECT(alog_queue_places(NULL, 1, &length), ALOG_NULL);
    EXPECT(alog_queue_places(config, sizeof config - 1, NULL), ALOG_NULL);
    EXPECT(open_at(NULL, &files), ALOG_NULL);
    EXPECT(open_at(&pool, NULL), ALOG_NULL);
    EXPECT(alog_open(&pool, &files, NULL, 1, 1, 1, told, sizeof told), ALOG_NULL);
    EXPECT(alog_open(&pool, &files, config, sizeof config - 1, 1, 1, NULL, 1), ALOG_NULL);
    EXPECT(alog_take(NULL, area, sizeof area, &length), ALOG_NULL);
    EXPECT(alog_take(&files, NULL, sizeof area, &length), ALOG_NULL);
    EXPECT(alog_take(&files, area, sizeof area, NULL), ALOG_NULL);
    EXPECT(alog_close(NULL), ALOG_NULL);
    EXPECT(alog_make_producer(NULL, &producer), ALOG_NULL);
    EXPECT(alog_make_producer(&pool, NULL), ALOG_NULL);
    EXPECT(alog_make_worker(NULL, &worker), ALOG_NULL);
    EXPECT(alog_make_worker(&pool, NULL), ALOG_NULL);
    EXPECT(alog_find(NULL, "net", &number), ALOG_NULL);
    EXPECT(alog_find(&producer, NULL, &number), ALOG_NULL);
    EXPECT(alog_find(&producer, "net", NULL), ALOG_NULL);
    EXPECT(alog_find_in_pool(NULL, "net", &number), ALOG_NULL);
    EXPECT(alog_set_level(NULL, 0, ALOG_INFO), ALOG_NULL);
    EXPECT(alog_set_level_in_pool(NULL, 0, ALOG_INFO), ALOG_NULL);
    EXPECT(alog_is_on(NULL, 0, ALOG_INFO), ALOG_NULL);
    EXPECT(alog_is_on_in_pool(NULL, 0, ALOG_INFO), ALOG_NULL);
    EXPECT(alog_log(NULL, 0, ALOG_INFO, 0, "x", 1, NULL), ALOG_NULL);
    EXPECT(alog_log(&producer, 0, ALOG_INFO, 0, NULL, 1, NULL), ALOG_NULL);
    EXPECT(alog_log_source(&producer, 0, ALOG_INFO, 0, "x", 1, NULL, NULL), ALOG_NULL);
    EXPECT(alog_log_source(&producer, 0, ALOG_INFO, 0, "x", 1, &no_file, NULL), ALOG_NULL);
    EXPECT(alog_log_source(&producer, 0, ALOG_INFO, 0, "x", 1, &no_function, NULL), ALOG_NULL);
    EXPECT(alog_flush(NULL, 0, NULL), ALOG_NULL);
    EXPECT(alog_dump(NULL, 0, 0, NULL), ALOG_NULL);
    EXPECT(alog_work(NULL, 1, NULL), ALOG_NULL);
    EXPECT(alog_worker_faults(NULL, &faults), ALOG_NULL);
    EXPECT(alog_worker_faults(&worker, NULL), ALOG_NULL);
    EXPECT(faults, 99);
    EXPECT(alog_give_producer(NULL), ALOG_NULL);
    EXPECT(alog_give_worker(NULL), ALOG_NULL);
    EXPECT(alog_shutdown(NULL, &report), ALOG_NULL);
    EXPECT(alog_shutdown(&pool, NULL), ALOG_NULL);
}

/* All handles are of zeros: at the start, when a part was given back, and when the pool was ended. */
static void empty_handles(void)
{
    EXPECT(alog_make_producer(&pool, &producer), ALOG_NO_HANDLE);
    EXPECT(alog_make_worker(&pool, &worker), ALOG_NO_HANDLE);
    EXPECT(alog_find(&producer, "net", &number), ALOG_NO_HANDLE);
    EXPECT(alog_find_in_pool(&pool, "net", &number), ALOG_NO_HANDLE);
    EXPECT(alog_set_level(&producer, 0, ALOG_INFO), ALOG_NO_HANDLE);
    EXPECT(alog_is_on(&producer, 0, ALOG_INFO), ALOG_NO_HANDLE);
    EXPECT(alog_is_on_in_pool(&pool, 0, ALOG_INFO), ALOG_NO_HANDLE);
    EXPECT(alog_log(&producer, 0, ALOG_INFO, 0, "x", 1, NULL), ALOG_NO_HANDLE);
    EXPECT(alog_flush(&producer, 0, NULL), ALOG_NO_HANDLE);
    EXPECT(alog_dump(&producer, 0, 0, NULL), ALOG_NO_HANDLE);
    EXPECT(alog_work(&worker, 1, NULL), ALOG_NO_HANDLE);
    EXPECT(alog_worker_faults(&worker, &faults), ALOG_NO_HANDLE);
    EXPECT(faults, 99);
    EXPECT(alog_give_producer(&producer), ALOG_NO_HANDLE);
    EXPECT(alog_give_worker(&worker), ALOG_NO_HANDLE);
    EXPECT(alog_shutdown(&pool, &report), ALOG_NO_HANDLE);
    length = 99;
    EXPECT(alog_take(&files, area, sizeof area, &length), ALOG_NO_HANDLE);
    EXPECT(length, 0);
    EXPECT(alog_close(&files), ALOG_NO_HANDLE);
    EXPECT(pool.kind + producer.kind + worker.kind + files.kind, 0);
}

/* Files that are told of: a list grows, is refused where it is none, and is let go. */
static void founds(void)
{
    EXPECT(alog_found(&files, "\xff", 1), ALOG_NOT_UTF8);
    EXPECT(files.kind, 0);
    EXPECT(alog_found(&files, "one", 1), ALOG_DONE);
    EXPECT(files.kind, 4);
    EXPECT(alog_found(&files, "\xff", 1), ALOG_NOT_UTF8);
    for (uint64_t count = 0; count < 1000; count++)
        if (!EXPECT(alog_found(&files, "some", UINT64_MAX - count), ALOG_DONE))
            break;
    EXPECT(alog_take(&files, area, sizeof area, &length), ALOG_WRONG_HANDLE);
    EXPECT(alog_shutdown(as_pool(&files), &report), ALOG_WRONG_HANDLE);
    EXPECT(alog_give_producer(as_producer(&files)), ALOG_WRONG_HANDLE);
    EXPECT(alog_make_producer(as_pool(&files), &producer), ALOG_WRONG_HANDLE);
    EXPECT(alog_find_in_pool(as_pool(&files), "net", &number), ALOG_WRONG_HANDLE);
    EXPECT(alog_set_level_in_pool(as_pool(&files), 0, ALOG_INFO), ALOG_WRONG_HANDLE);
    EXPECT(alog_is_on_in_pool(as_pool(&files), 0, ALOG_INFO), ALOG_WRONG_HANDLE);
    EXPECT(alog_log(as_producer(&files), 0, ALOG_INFO, 0, "x", 1, NULL), ALOG_WRONG_HANDLE);
    EXPECT(alog_work(as_worker(&files), 1, NULL), ALOG_WRONG_HANDLE);
    EXPECT(alog_worker_faults(as_worker(&files), &faults), ALOG_WRONG_HANDLE);
    EXPECT(files.kind, 4);
    EXPECT(producer.kind, 0);
    EXPECT(alog_close(&files), ALOG_DONE);
    EXPECT(files.kind, 0);
}

/* The files that a document's sinks have, of which none is told where there is no room for all; a room of ALOG_NAMES_MAX bytes is one for most. */
static void names(void)
{
    enum { SINKS = 256 };
    static char many[SINKS * 160 + 100], room[ALOG_NAMES_MAX];
    static const char days[] = "[[sink]]\nname = \"d\"\nkind = \"daily\"\nfile = \"d.txt\"\n[[logger]]\nname = \"net\"\nsinks = [\"d\"]\n";
    size_t used = 0;
    EXPECT(alog_file_names(config, sizeof config - 1, told, sizeof told, &length), ALOG_DONE);
    EXPECT(length, 8);
    EXPECT_TEXT(told, "log.txt");
    memset(told, 'x', sizeof told);
    EXPECT(alog_file_names(config, sizeof config - 1, told, 7, &length), ALOG_TOO_SHORT);
    EXPECT(length, 0);
    EXPECT(alog_file_names(config, sizeof config - 1, NULL, 0, &length), ALOG_TOO_SHORT);
    EXPECT(told[0], 'x');
    EXPECT(alog_file_names(config, sizeof config - 1, told, 8, &length), ALOG_DONE);
    EXPECT(told[8], 'x');
    EXPECT(alog_file_names(days, sizeof days - 1, NULL, 0, &length), ALOG_DONE);
    EXPECT(length, 0);
    EXPECT(alog_file_names("queue = 3", 9, told, sizeof told, &length), ALOG_BAD_CONFIG);
    EXPECT(alog_file_names(NULL, 0, told, sizeof told, &length), ALOG_BAD_CONFIG);
    for (int sink = 0; sink < SINKS; sink++)
        used += (size_t)snprintf(many + used, sizeof many - used, "[[sink]]\nname = \"%d\"\nkind = \"memory\"\nfile = \"%064d\"\n", sink, sink);
    snprintf(many + used, sizeof many - used, "[[logger]]\nname = \"net\"\nsinks = [\"0\"]\n");
    EXPECT(alog_file_names(many, strlen(many), room, sizeof room - 1, &length), ALOG_TOO_SHORT);
    EXPECT(alog_file_names(many, strlen(many), room, sizeof room, &length), ALOG_DONE);
    EXPECT(length, ALOG_NAMES_MAX);
    EXPECT(room[ALOG_NAMES_MAX - 1], 0);
    EXPECT_TEXT(room + ALOG_NAMES_MAX - 4, "255");
}

/* The places of a document's queue, of which there are 8,192 where it says nothing. */
static void places(void)
{
    static const char days[] = "[[sink]]\nname = \"d\"\nkind = \"daily\"\nfile = \"d.txt\"\n[[logger]]\nname = \"net\"\nsinks = [\"d\"]\n";
    length = 99;
    EXPECT(alog_queue_places(config, sizeof config - 1, &length), ALOG_DONE);
    EXPECT(length, 4);
    EXPECT(alog_queue_places(days, sizeof days - 1, &length), ALOG_DONE);
    EXPECT(length, 8192);
    EXPECT(alog_queue_places("queue = 3", 9, &length), ALOG_BAD_CONFIG);
    EXPECT(length, 0);
    length = 99;
    EXPECT(alog_queue_places(NULL, 0, &length), ALOG_BAD_CONFIG);
    EXPECT(length, 0);
}

/* A document that is no configuration, with the words of its fault, whole and cut. The files that were found stay. */
static void openings(void)
{
    static const char wrong[] = "queue = 3";
    static const char words[] = "queue = 3: a value that its key can not have; it may have a power of two, 2 to 65536";
    EXPECT(alog_open(&pool, &files, wrong, sizeof wrong - 1, 1, 1, told, sizeof told), ALOG_BAD_CONFIG);
    EXPECT_TEXT(told, words);
    EXPECT(files.kind, 0);
    EXPECT(alog_found(&files, "log.txt", 1), ALOG_DONE);
    EXPECT(alog_open(&pool, &files, wrong, sizeof wrong - 1, 1, 1, told, sizeof words), ALOG_BAD_CONFIG);
    EXPECT_TEXT(told, words);
    EXPECT(alog_open(&pool, &files, wrong, sizeof wrong - 1, 1, 1, told, 10), ALOG_BAD_CONFIG);
    EXPECT_TEXT(told, "queue = 3");
    EXPECT(alog_open(&pool, &files, wrong, sizeof wrong - 1, 1, 1, told, 1), ALOG_BAD_CONFIG);
    EXPECT_TEXT(told, "");
    EXPECT(alog_open(&pool, &files, wrong, sizeof wrong - 1, 1, 1, NULL, 0), ALOG_BAD_CONFIG);
    EXPECT(alog_open(&pool, &files, "\xff", 1, 1, 1, told, sizeof told), ALOG_BAD_CONFIG);
    EXPECT(told[0] != 0, 1);
    EXPECT(alog_open(&pool, &files, NULL, 0, 1, 1, told, sizeof told), ALOG_BAD_CONFIG);
    EXPECT(alog_found(&files, "other.txt", 1), ALOG_DONE);
    EXPECT(files.kind, 4);
    EXPECT(pool.kind, 0);
}

static void in_use(void)
{
    alog_files none = {0, NULL};
    EXPECT(open_at(&pool, &none), ALOG_IN_USE);
    EXPECT(open_at(&pool, &files), ALOG_IN_USE);
    EXPECT(none.kind, 0);
    EXPECT(alog_make_producer(&pool, &producer), ALOG_IN_USE);
    EXPECT(alog_make_worker(&pool, &worker), ALOG_IN_USE);
    EXPECT(alog_make_producer(&pool, as_producer(&worker)), ALOG_IN_USE);
    EXPECT(alog_make_producer(&pool, as_producer(&files)), ALOG_IN_USE);
}

/* Handles that hold another kind of part. */
static void wrong_handles(void)
{
    alog_producer none = {0, NULL};
    alog_pool other = {0, NULL};
    EXPECT(alog_found(&files, "log.txt", 1), ALOG_WRONG_HANDLE);
    EXPECT(alog_found(as_files(&pool), "log.txt", 1), ALOG_WRONG_HANDLE);
    EXPECT(open_at(&other, &files), ALOG_WRONG_HANDLE);
    EXPECT(open_at(&other, as_files(&pool)), ALOG_WRONG_HANDLE);
    EXPECT(open_at(&other, as_files(&producer)), ALOG_WRONG_HANDLE);
    EXPECT(other.kind, 0);
    EXPECT(alog_make_producer(as_pool(&producer), &none), ALOG_WRONG_HANDLE);
    EXPECT(alog_make_producer(as_pool(&files), &none), ALOG_WRONG_HANDLE);
    EXPECT(alog_make_worker(as_pool(&worker), as_worker(&none)), ALOG_WRONG_HANDLE);
    EXPECT(alog_log(as_producer(&pool), 0, ALOG_INFO, 0, "x", 1, NULL), ALOG_WRONG_HANDLE);
    EXPECT(alog_log(as_producer(&worker), 0, ALOG_INFO, 0, "x", 1, NULL), ALOG_WRONG_HANDLE);
    EXPECT(alog_log(as_producer(&files), 0, ALOG_INFO, 0, "x", 1, NULL), ALOG_WRONG_HANDLE);
    EXPECT(alog_find(as_producer(&worker), "net", &number), ALOG_WRONG_HANDLE);
    EXPECT(alog_find(as_producer(&files), "net", &number), ALOG_WRONG_HANDLE);
    EXPECT(alog_set_level(as_producer(&worker), 0, ALOG_INFO), ALOG_WRONG_HANDLE);
    EXPECT(alog_set_level(as_producer(&files), 0, ALOG_INFO), ALOG_WRONG_HANDLE);
    EXPECT(alog_is_on(as_producer(&worker), 0, ALOG_INFO), ALOG_WRONG_HANDLE);
    EXPECT(alog_is_on(as_producer(&files), 0, ALOG_INFO), ALOG_WRONG_HANDLE);
    EXPECT(alog_flush(as_producer(&pool), 0, NULL), ALOG_WRONG_HANDLE);
    EXPECT(alog_dump(as_producer(&pool), 0, 0, NULL), ALOG_WRONG_HANDLE);
    EXPECT(alog_dump(as_producer(&worker), 0, 0, NULL), ALOG_WRONG_HANDLE);
    EXPECT(alog_dump(as_producer(&files), 0, 0, NULL), ALOG_WRONG_HANDLE);
    EXPECT(alog_work(as_worker(&producer), 1, NULL), ALOG_WRONG_HANDLE);
    EXPECT(alog_work(as_worker(&pool), 1, NULL), ALOG_WRONG_HANDLE);
    EXPECT(alog_work(as_worker(&files), 1, NULL), ALOG_WRONG_HANDLE);
    EXPECT(alog_worker_faults(as_worker(&producer), &faults), ALOG_WRONG_HANDLE);
    EXPECT(alog_worker_faults(as_worker(&pool), &faults), ALOG_WRONG_HANDLE);
    EXPECT(alog_worker_faults(as_worker(&files), &faults), ALOG_WRONG_HANDLE);
    EXPECT(faults, 99);
    EXPECT(alog_give_producer(as_producer(&pool)), ALOG_WRONG_HANDLE);
    EXPECT(alog_give_worker(as_worker(&files)), ALOG_WRONG_HANDLE);
    EXPECT(alog_shutdown(as_pool(&producer), &report), ALOG_WRONG_HANDLE);
    EXPECT(alog_shutdown(as_pool(&worker), &report), ALOG_WRONG_HANDLE);
    EXPECT(alog_shutdown(as_pool(&files), &report), ALOG_WRONG_HANDLE);
    EXPECT(alog_take(as_files(&pool), area, sizeof area, &length), ALOG_WRONG_HANDLE);
    EXPECT(alog_take(as_files(&producer), area, sizeof area, &length), ALOG_WRONG_HANDLE);
    EXPECT(alog_close(as_files(&pool)), ALOG_WRONG_HANDLE);
    EXPECT(alog_close(as_files(&producer)), ALOG_WRONG_HANDLE);
    EXPECT(alog_close(as_files(&worker)), ALOG_WRONG_HANDLE);
    EXPECT(none.kind, 0);
    EXPECT(pool.kind, 1);
    EXPECT(producer.kind, 2);
    EXPECT(worker.kind, 3);
    EXPECT(files.kind, 5);
}

/* Memory that is too short for an area, also where nothing is there. */
static void too_short(void)
{
    length = 99;
    EXPECT(alog_take(&files, area, ALOG_AREA - 1, &length), ALOG_TOO_SHORT);
    EXPECT(length, 0);
    EXPECT(alog_take(&files, area, 0, &length), ALOG_TOO_SHORT);
    EXPECT(alog_take(&files, area, ALOG_AREA, &length), ALOG_IDLE);
    EXPECT(length, 0);
}

static void messages(void)
{
    static char text[10000];
    char long_file[258], long_function[130];
    alog_source source = {"a.c", 1, "f"};
    memset(text, 'x', sizeof text);
    memset(long_file, 'f', 257);
    memset(long_function, 'f', 129);
    long_file[257] = long_function[129] = 0;
    EXPECT(alog_find(&producer, "nobody", &number), ALOG_NO_LOGGER);
    EXPECT(alog_find(&producer, "", &number), ALOG_NO_LOGGER);
    EXPECT(alog_find(&producer, "\xc3", &number), ALOG_NOT_UTF8);
    EXPECT(number, 99);
    EXPECT(alog_set_level(&producer, 1, ALOG_INFO), ALOG_NO_LOGGER);
    EXPECT(alog_set_level(&producer, 0, (alog_level)7), ALOG_NO_LEVEL);
    EXPECT(alog_is_on(&producer, 1, ALOG_INFO), ALOG_NO_LOGGER);
    EXPECT(alog_is_on_in_pool(&pool, UINT32_MAX, ALOG_INFO), ALOG_NO_LOGGER);
    EXPECT(alog_is_on(&producer, 0, (alog_level)7), ALOG_NO_LEVEL);
    EXPECT(alog_log(&producer, 1, ALOG_INFO, 0, "x", 1, &ticket), ALOG_NO_LOGGER);
    EXPECT(alog_log(&producer, 0, (alog_level)7, 0, "x", 1, &ticket), ALOG_NO_LEVEL);
    EXPECT(alog_log(&producer, 0, (alog_level)UINT32_MAX, 0, "x", 1, &ticket), ALOG_NO_LEVEL);
    EXPECT(alog_log(&producer, 0, ALOG_INFO, 0, "\xed\xa0\x80", 3, &ticket), ALOG_NOT_UTF8);
    EXPECT(alog_log(&producer, 0, ALOG_INFO, 0, text, 101, &ticket), ALOG_TEXT_TOO_LONG);
    EXPECT(alog_log(&producer, 0, ALOG_INFO, 0, text, 8193, &ticket), ALOG_TEXT_TOO_LONG);
    EXPECT(alog_log(&producer, 0, ALOG_INFO, 0, text, SIZE_MAX, &ticket), ALOG_TEXT_TOO_LONG);
    EXPECT(alog_log_source(&producer, 0, ALOG_INFO, 0, text, SIZE_MAX, &source, &ticket), ALOG_TEXT_TOO_LONG);
    source.file = long_file;
    EXPECT(alog_log_source(&producer, 0, ALOG_INFO, 0, "x", 1, &source, &ticket), ALOG_SOURCE_TOO_LONG);
    source.file = "\xff";
    EXPECT(alog_log_source(&producer, 0, ALOG_INFO, 0, "x", 1, &source, &ticket), ALOG_NOT_UTF8);
    source.file = "a.c";
    source.function = long_function;
    EXPECT(alog_log_source(&producer, 0, ALOG_INFO, 0, "x", 1, &source, &ticket), ALOG_SOURCE_TOO_LONG);
    EXPECT(alog_flush(&producer, 1, &ticket), ALOG_NO_LOGGER);
    length = 99;
    EXPECT(alog_dump(&producer, 1, 0, &length), ALOG_NO_LOGGER);
    EXPECT(length, 0);
    EXPECT(alog_dump(&producer, 0, 0, &length), ALOG_DONE);
    EXPECT(length, 0);
    EXPECT(ticket, 99);
}

/* As many parts as there may be in the life of a pool, also where some were given back; and a second pool, beside the first. */
static void too_many(void)
{
    alog_producer second = {0, NULL}, third = {0, NULL}, fourth = {0, NULL};
    alog_worker other = {0, NULL}, last = {0, NULL};
    EXPECT(alog_make_producer(&pool, &second), ALOG_DONE);
    EXPECT(alog_make_producer(&pool, &third), ALOG_DONE);
    EXPECT(alog_make_producer(&pool, &fourth), ALOG_TOO_MANY);
    EXPECT(alog_give_producer(&third), ALOG_DONE);
    EXPECT(alog_make_producer(&pool, &fourth), ALOG_TOO_MANY);
    EXPECT(alog_give_producer(&second), ALOG_DONE);
    EXPECT(alog_make_worker(&pool, &other), ALOG_DONE);
    EXPECT(alog_make_worker(&pool, &last), ALOG_TOO_MANY);
    EXPECT(alog_give_worker(&other), ALOG_DONE);
    EXPECT(alog_make_worker(&pool, &last), ALOG_TOO_MANY);
    EXPECT(second.kind + third.kind + fourth.kind + other.kind + last.kind, 0);
}

static void other_pool(void)
{
    static struct taken taken;
    alog_pool other = {0, NULL};
    alog_files own_files = {0, NULL};
    alog_producer own = {0, NULL};
    EXPECT(open_at(&other, &own_files), ALOG_DONE);
    EXPECT(alog_make_producer(&other, &own), ALOG_DONE);
    EXPECT(alog_log(&own, 0, ALOG_INFO, 0, "x", 1, NULL), ALOG_DONE);
    EXPECT(alog_shutdown(&other, &report), ALOG_PARTS_OUT);
    EXPECT(alog_give_producer(&own), ALOG_DONE);
    EXPECT(alog_shutdown(&other, &report), ALOG_DONE);
    EXPECT(report.handled, 1);
    EXPECT(take_all(&taken, &own_files), ALOG_ENDED);
    EXPECT_TEXT(taken_text(&taken, "log.txt"), "x\n");
    EXPECT(alog_close(&own_files), ALOG_DONE);
    EXPECT(alog_take(&files, area, sizeof area, &length), ALOG_IDLE);
    taken_clear(&taken);
}

/* A pool that makes no producer, one over the most there may be, and one whose files are let go while it is open. */
static void odd_pools(void)
{
    static struct taken taken;
    alog_pool other = {0, NULL};
    alog_files own_files = {0, NULL};
    alog_producer own = {0, NULL};
    EXPECT(alog_open(&other, &own_files, config, sizeof config - 1, 0, 0, NULL, 0), ALOG_DONE);
    EXPECT(alog_make_producer(&other, &own), ALOG_TOO_MANY);
    EXPECT(alog_shutdown(&other, &report), ALOG_DONE);
    EXPECT(take_all(&taken, &own_files), ALOG_ENDED);
    EXPECT(alog_close(&own_files), ALOG_DONE);
    EXPECT(alog_open(&other, &own_files, config, sizeof config - 1, SIZE_MAX, 1, NULL, 0), ALOG_DONE);
    for (int made = 0; made < 4096; made++)
        if (!EXPECT(alog_make_producer(&other, &own), ALOG_DONE) || !EXPECT(alog_give_producer(&own), ALOG_DONE))
            break;
    EXPECT(alog_make_producer(&other, &own), ALOG_TOO_MANY);
    EXPECT(alog_close(&own_files), ALOG_DONE);
    EXPECT(own_files.kind, 0);
    EXPECT(alog_take(&own_files, area, sizeof area, &length), ALOG_NO_HANDLE);
    EXPECT(alog_shutdown(&other, &report), ALOG_DONE);
    EXPECT(other.kind + own.kind, 0);
}

/* An end with parts out, and then with them back. */
static void ends(void)
{
    report.asked = 99;
    EXPECT(alog_log(&producer, 0, ALOG_INFO, 0, "x", 1, NULL), ALOG_DONE);
    EXPECT(alog_shutdown(&pool, &report), ALOG_PARTS_OUT);
    EXPECT(pool.kind, 1);
    EXPECT(alog_give_producer(&producer), ALOG_DONE);
    EXPECT(alog_log(&producer, 0, ALOG_INFO, 0, "x", 1, NULL), ALOG_NO_HANDLE);
    EXPECT(alog_give_producer(&producer), ALOG_NO_HANDLE);
    EXPECT(alog_shutdown(&pool, &report), ALOG_PARTS_OUT);
    EXPECT(report.asked, 99);
    EXPECT(alog_worker_faults(&worker, &faults), ALOG_DONE);
    EXPECT(faults, 0);
    faults = 99;
    EXPECT(alog_give_worker(&worker), ALOG_DONE);
    EXPECT(alog_work(&worker, 1, NULL), ALOG_NO_HANDLE);
    EXPECT(alog_shutdown(&pool, &report), ALOG_DONE);
    EXPECT(report.asked, 1);
    EXPECT(report.handled, 1);
    EXPECT(report.faults, 0);
    EXPECT(alog_take(&files, area, sizeof area, &length), ALOG_DONE);
    EXPECT(length > 0, 1);
    EXPECT(alog_close(&files), ALOG_DONE);
}

/* Each answer has a sentence of its own, and what is none has that. */
static void sentences(void)
{
    for (uint32_t at = 0; at < 40; at++) {
        const char *wanted = "There is no such answer.";
        for (size_t row = 0; row < sizeof said / sizeof said[0]; row++)
            if (said[row].answer == alog_answer_of(at))
                wanted = said[row].words;
        EXPECT_TEXT(alog_says(alog_answer_of(at)), wanted);
    }
}

int main(int argc, char **argv)
{
    (void)argv;
    if (argc != 2)
        return 2;
    nulls();
    empty_handles();
    founds();
    names();
    places();
    openings();
    EXPECT(open_at(&pool, &files), ALOG_DONE);
    EXPECT(alog_make_producer(&pool, &producer), ALOG_DONE);
    EXPECT(alog_make_worker(&pool, &worker), ALOG_DONE);
    nulls();
    in_use();
    wrong_handles();
    too_short();
    messages();
    too_many();
    other_pool();
    odd_pools();
    ends();
    empty_handles();
    sentences();
    return trial_end();
}
