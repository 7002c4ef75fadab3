/* alog for programs in C and C++: messages go into a queue, workers write their lines, and the program puts these into files.

   The threads are the program's own, and so are the calls of the system. alog starts no thread, waits for none, never sleeps and touches no
   file: where it would have to wait, a call says so and returns, and what is to be done to the files it hands out as records, in order.
   alog_host.h, beside this file, has what most programs want: workers that sleep until they are woken, a log that waits for room, and the
   files of a folder.

   Handles. A pool, a producer, a worker and the files are structs of the program's, which hold nothing as long as they are all zero
   (`alog_pool pool = {0, NULL};`). A program never copies one, and never writes into one. Each is used by one call at a time: two calls at
   once on one handle are a data race, which nothing here can refuse; calls on different handles may go on at once, also of one pool. Between
   calls a handle may go from thread to thread, if the threads are ordered as by a lock or by a join. Giving a part back, ending a pool and
   closing its files empty the handle, so that a use behind that is answered ALOG_NO_HANDLE.

   Files. Before a pool is opened the program tells which files are there, with their sizes, since a rotating sink goes on in the file that
   it finds:

       alog_files files = {0, NULL};
       alog_found(&files, "server.log", 4711);
       alog_open(&pool, &files, document, length, 64, 16, told, sizeof told);

   From then on `files` hands out what is to be done to them. Behind each alog_work, and behind alog_shutdown, the program takes what is there
   and does it, in this order, one thread at a time:

       while (alog_take(&files, area, ALOG_AREA, &length) == ALOG_DONE)
           for (size_t at = 0; alog_next_record(area, length, &at, &record) > 0;)
               carry_out(&record);

   Each sink has so many areas of ALOG_AREA bytes as the open was asked for. What workers write lies in them until it is taken. Where a worker
   wants one more and none is empty, its turn at the sink is a fault and the sink is broken: what was to be written there is missing, then and
   from then on. Each such turn is counted: alog_worker_faults tells those of a worker so far, and the report all. A call of alog_work takes at
   most one area of a sink for each message that it ends, and two more (alog_host.h says more). Before the end a worker is to work until it
   answers ALOG_IDLE, and what it wrote is to be taken: what is left behind that the end of the pool writes, with nobody to empty an area
   meanwhile. Behind the end alog_take answers ALOG_ENDED when all was taken that the pool told its files. What it could not tell them is among
   the faults of the report.

   Link with libalog_c.a, and behind it the kit's libos_c.a and liblibc_c.a. C99 or C++11 will do. */
#ifndef ALOG_H
#define ALOG_H

#include <stddef.h>
#include <stdint.h>
#include <string.h>

/* a cast that compilers of both languages take without a warning */
#ifdef __cplusplus
#define ALOG_CAST(type, value) static_cast<type>(value)
#else
#define ALOG_CAST(type, value) ((type)(value))
#endif

/* what the library exports throws nothing */
#ifdef __cplusplus
#define ALOG_NOEXCEPT noexcept
#else
#define ALOG_NOEXCEPT
#endif

#include "alog_records.h"

#ifdef __cplusplus
extern "C" {
/* what a number is that the library answers, so that the compiler takes each of them for an answer */
enum alog_answer : uint32_t {
#else
enum alog_answer {
#endif
    /* Done. A log or a flush was posted; a worker ended as many items as it was to, and there may be more. */
    ALOG_DONE = 0,
    /* The message is below its logger's level, and was not logged. Nothing is to be done. Its text was not looked at, unless a backtrace keeps
       it. */
    ALOG_FILTERED = 1,
    /* The logger's policy is to block, and there was no room, or another push was faster. Nothing was done and nothing was counted: log the
       message again soon, as alog_log_wait of alog_host.h does, or let it go. */
    ALOG_WOULD_BLOCK = 2,
    /* The message was discarded and counted: the queue was full. Nothing is to be done. The next three are the same for other reasons. */
    ALOG_FULL = 3,
    /* Discarded and counted: the queue was full, and nothing could be taken out of it. */
    ALOG_STALLED = 4,
    /* Discarded and counted: others were faster, 64 times in a row. */
    ALOG_BUSY = 5,
    /* Discarded and counted: the queue has no tickets left, after 2^62 of them. End the pool and open another. */
    ALOG_SPENT = 6,
    /* The worker found nothing and nothing on its way, and what it wrote was flushed: its thread may rest until something is logged. */
    ALOG_IDLE = 7,
    /* The worker found a message that is being brought, or another worker was faster: call it again soon. */
    ALOG_SOON = 8,
    /* The worker found the lock of a sink held by another one, and keeps what it has left to do: call it again soon, whether anything is
       logged or not. Or a dump found another thread at the backtrace, and did nothing: try again soon. */
    ALOG_HELD = 9,
    /* The pool has ended, and all that it told its files was taken: nothing more comes. */
    ALOG_ENDED = 10,

    /* From here on calls were refused, and nothing was done: all handles and all counts are as they were. */

    /* The system gave no thread. alog_host.h alone answers this. */
    ALOG_NO_THREAD = 14,
    /* A pointer is null that may not be. This header answers it itself. */
    ALOG_NULL = 15,
    /* The handle holds nothing: it was never filled, or its part was given back, or its pool was ended. */
    ALOG_NO_HANDLE = 16,
    /* The handle holds something of another kind. */
    ALOG_WRONG_HANDLE = 17,
    /* The handle that is to be filled holds something already. */
    ALOG_IN_USE = 18,
    /* There is no memory. Try again when there is. */
    ALOG_NO_MEMORY = 19,
    /* A text, a name or a part of a source is not UTF-8. */
    ALOG_NOT_UTF8 = 20,
    /* The pool has no logger of this name or number. */
    ALOG_NO_LOGGER = 21,
    /* There is no level of this number: they go from 0 to 6. */
    ALOG_NO_LEVEL = 22,
    /* The text is longer than the key `text` of the configuration allows. Log a part of it. */
    ALOG_TEXT_TOO_LONG = 23,
    /* The source's file is longer than 256 bytes, or its function longer than 128. Log it without its source. */
    ALOG_SOURCE_TOO_LONG = 24,
    /* The pool made as many producers as it may in its life, or as many workers as its configuration says. Or a host is to have more workers or
       clients than it may, or no worker. */
    ALOG_TOO_MANY = 25,
    /* Not all producers and workers were given back, or one is being given back at this moment, or there is no memory to take them back.
       Give them back, and end the pool then. */
    ALOG_PARTS_OUT = 26,
    /* The document is no configuration: the words that were told say why. */
    ALOG_BAD_CONFIG = 27,
    /* The folder takes no files, or another program holds it, or a sink cannot go on in its file or write to it: the words that were told say
       why, where they are known. It is an answer of a host: alog_open has it for a store that fails, and its own do not. */
    ALOG_NO_STORE = 28,
    /* The memory that was handed to alog_take has fewer than ALOG_AREA bytes, or that of alog_file_names no room for all. Or a host is to have
       too few areas. */
    ALOG_TOO_SHORT = 29,
    /* Another thread gives a part back at this moment, and the handle still has its own: try again. */
    ALOG_BUSY_PART = 30
};

/* How much a message matters. A logger takes what is at its level or above: at ALOG_OFF only a message that says ALOG_OFF itself. */
#ifdef __cplusplus
enum alog_level : uint32_t {
#else
enum alog_level {
#endif
    ALOG_TRACE = 0,
    ALOG_DEBUG = 1,
    ALOG_INFO = 2,
    ALOG_WARNING = 3,
    ALOG_ERROR = 4,
    ALOG_CRITICAL = 5,
    ALOG_OFF = 6
};

#ifndef __cplusplus
typedef enum alog_answer alog_answer;
typedef enum alog_level alog_level;
#endif

/* The loggers and sinks of a configuration, with their queue. */
typedef struct alog_pool {
    uint64_t kind;
    void *at;
} alog_pool;

/* What one thread logs with. Its number, from 0 in the order in which its pool made producers, is the thread of its messages. */
typedef struct alog_producer {
    uint64_t kind;
    void *at;
} alog_producer;

/* What one thread writes lines with. */
typedef struct alog_worker {
    uint64_t kind;
    void *at;
} alog_worker;

/* The files that were found, and, once a pool is open, what is to be done to its files. */
typedef struct alog_files {
    uint64_t kind;
    void *at;
} alog_files;

/* What became of all messages that passed the levels of their loggers, of all flushes, and of all posts of dumps, modulo 2^64: asked is posted
   and discarded, and posted is handled and overrun. A fault is a turn at a sink, by a worker or by the end, that had no area left or a record
   longer than one, or came behind such a turn: what it was to write is missing. */
typedef struct alog_report {
    uint64_t asked;
    uint64_t posted;
    uint64_t discarded;
    uint64_t overrun;
    uint64_t handled;
    uint64_t faults;
} alog_report;

/* Where a message comes from. */
typedef struct alog_source {
    const char *file;
    uint32_t line;
    const char *function;
} alog_source;

/* The most bytes that the text of a message may have, whatever the configuration; the bytes of an area; and the most bytes of the names of all files
   that a configuration's sinks, at most 256, have from its start. */
enum { ALOG_TEXT_MAX = 8192, ALOG_AREA = 131072, ALOG_NAMES_MAX = 16640 };

/* What the library exports. A slice is a pointer, which may not be null, and a length. Use the functions below, which test that. */
uint32_t alog_c_found(alog_files *files, const char *name, size_t name_length, uint64_t size) ALOG_NOEXCEPT;
uint32_t alog_c_file_names(const char *document, size_t document_length, char *to, size_t room, size_t *length) ALOG_NOEXCEPT;
uint32_t alog_c_queue_places(const char *document, size_t document_length, size_t *places) ALOG_NOEXCEPT;
uint32_t alog_c_open(alog_pool *pool, alog_files *files, const char *document, size_t document_length, size_t producers, size_t areas,
                     char *told, size_t told_room, size_t *told_length) ALOG_NOEXCEPT;
uint32_t alog_c_take(alog_files *files, char *to, size_t room, size_t *length) ALOG_NOEXCEPT;
uint32_t alog_c_close(alog_files *files) ALOG_NOEXCEPT;
uint32_t alog_c_producer(alog_pool *pool, alog_producer *producer) ALOG_NOEXCEPT;
uint32_t alog_c_worker(alog_pool *pool, alog_worker *worker) ALOG_NOEXCEPT;
uint32_t alog_c_find(void *at, const char *name, size_t name_length, uint32_t *logger) ALOG_NOEXCEPT;
uint32_t alog_c_set_level(void *at, uint32_t logger, uint32_t level) ALOG_NOEXCEPT;
uint32_t alog_c_is_on(void *at, uint32_t logger, uint32_t level) ALOG_NOEXCEPT;
uint32_t alog_c_log(alog_producer *producer, uint32_t logger, uint32_t level, int64_t time, const char *text, size_t length,
                    uint64_t *ticket) ALOG_NOEXCEPT;
uint32_t alog_c_log_source(alog_producer *producer, uint32_t logger, uint32_t level, int64_t time, const char *text, size_t length,
                           const char *file, size_t file_length, uint32_t line, const char *function, size_t function_length,
                           uint64_t *ticket) ALOG_NOEXCEPT;
uint32_t alog_c_flush(alog_producer *producer, uint32_t logger, uint64_t *ticket) ALOG_NOEXCEPT;
uint32_t alog_c_dump(alog_producer *producer, uint32_t logger, int64_t time, size_t *posts) ALOG_NOEXCEPT;
uint32_t alog_c_work(alog_worker *worker, size_t most, size_t *items) ALOG_NOEXCEPT;
uint32_t alog_c_faults(alog_worker *worker, uint64_t *faults) ALOG_NOEXCEPT;
uint32_t alog_c_give(void *part) ALOG_NOEXCEPT;
uint32_t alog_c_shutdown(alog_pool *pool, alog_report *report) ALOG_NOEXCEPT;

/* The answer of this number. */
static inline enum alog_answer alog_answer_of(uint32_t number)
{
    return ALOG_CAST(enum alog_answer, number);
}

/* Says, before a pool is opened, that a file of this name is in the folder and has so many bytes; for any number of files. What is said first of a
   name counts. `files` holds nothing, or what was said before. */
static inline enum alog_answer alog_found(alog_files *files, const char *name, uint64_t size)
{
    return files == NULL || name == NULL ? ALOG_NULL : alog_answer_of(alog_c_found(files, name, strlen(name), size));
}

/* Tells which files the sinks of a configuration have from its start, in the order of the sinks, without a pool: the name of each with a zero behind
   it, `*length` bytes in all. A sink by days has none before its first line, and a fan none of its own. ALOG_NAMES_MAX bytes are room for those of any
   configuration; where there is none for all, nothing is told. Why a document is no configuration alog_open says in words. */
static inline enum alog_answer alog_file_names(const char *document, size_t document_length, char *to, size_t room, size_t *length)
{
    char none = 0;
    if (length == NULL || (document == NULL && document_length > 0) || (to == NULL && room > 0))
        return ALOG_NULL;
    return alog_answer_of(
        alog_c_file_names(document == NULL ? "" : document, document_length, to == NULL ? &none : to, room, length));
}

/* Tells how many places the queue of a configuration has, 2 to 65,536, without a pool; 0 where the document is refused, or
   there is no memory to read it. */
static inline enum alog_answer alog_queue_places(const char *document, size_t document_length, size_t *places)
{
    if (places == NULL || (document == NULL && document_length > 0))
        return ALOG_NULL;
    return alog_answer_of(alog_c_queue_places(document == NULL ? "" : document, document_length, places));
}

/* Opens a pool of this configuration, a document in TOML of so many bytes, over the files that were found, which `files` says, or over none
   where it holds nothing. The pool makes at most so many producers in its life; more than 4,096 are taken for 4,096, without a word. Each sink
   has so many areas; 0 is taken for 1. Where that is refused, `files` is as it was, and `told` says why: words that end with a zero, cut to
   `room` bytes with it; they are empty where nothing is to be told. `told` may be null where `room` is 0. */
static inline enum alog_answer alog_open(alog_pool *pool, alog_files *files, const char *document, size_t length, size_t producers,
                                         size_t areas, char *told, size_t room)
{
    char none = 0;
    size_t said = 0;
    uint32_t answer;
    if (room > 0 && told != NULL)
        told[0] = 0;
    if (pool == NULL || files == NULL || (document == NULL && length > 0) || (told == NULL && room > 0))
        return ALOG_NULL;
    answer = alog_c_open(pool, files, document == NULL ? "" : document, length, producers, areas, told == NULL ? &none : told,
                         room > 0 ? room - 1 : 0, &said);
    if (room > 0)
        told[said < room ? said : room - 1] = 0;
    return alog_answer_of(answer);
}

/* Makes a producer of the pool, at most as many in its life as the open was told, into a handle that holds nothing. It has to come back by
   alog_give_producer. */
static inline enum alog_answer alog_make_producer(alog_pool *pool, alog_producer *producer)
{
    return pool == NULL || producer == NULL ? ALOG_NULL : alog_answer_of(alog_c_producer(pool, producer));
}

/* Makes a worker of the pool, at most as many as the configuration says, into a handle that holds nothing. It has to come back by
   alog_give_worker. With more than one, the lines of a file may change places. */
static inline enum alog_answer alog_make_worker(alog_pool *pool, alog_worker *worker)
{
    return pool == NULL || worker == NULL ? ALOG_NULL : alog_answer_of(alog_c_worker(pool, worker));
}

/* Finds the number of a logger by its name. */
static inline enum alog_answer alog_find(alog_producer *producer, const char *name, uint32_t *logger)
{
    if (producer == NULL || name == NULL || logger == NULL)
        return ALOG_NULL;
    return alog_answer_of(alog_c_find(producer, name, strlen(name), logger));
}

/* Finds it before there is a producer. */
static inline enum alog_answer alog_find_in_pool(alog_pool *pool, const char *name, uint32_t *logger)
{
    if (pool == NULL || name == NULL || logger == NULL)
        return ALOG_NULL;
    return alog_answer_of(alog_c_find(pool, name, strlen(name), logger));
}

/* Sets the level of a logger for all threads, from the next message on. */
static inline enum alog_answer alog_set_level(alog_producer *producer, uint32_t logger, enum alog_level level)
{
    return producer == NULL ? ALOG_NULL : alog_answer_of(alog_c_set_level(producer, logger, level));
}

/* Sets it by the pool. */
static inline enum alog_answer alog_set_level_in_pool(alog_pool *pool, uint32_t logger, enum alog_level level)
{
    return pool == NULL ? ALOG_NULL : alog_answer_of(alog_c_set_level(pool, logger, level));
}

/* Asks whether a logger reads a message of this level: ALOG_DONE where its own level, as it is now, lets it through, or where it has a backtrace,
   which keeps it; ALOG_FILTERED where a log of it would be filtered, whatever its text, which need not be made then. */
static inline enum alog_answer alog_is_on(alog_producer *producer, uint32_t logger, enum alog_level level)
{
    return producer == NULL ? ALOG_NULL : alog_answer_of(alog_c_is_on(producer, logger, level));
}

/* Asks it by the pool. */
static inline enum alog_answer alog_is_on_in_pool(alog_pool *pool, uint32_t logger, enum alog_level level)
{
    return pool == NULL ? ALOG_NULL : alog_answer_of(alog_c_is_on(pool, logger, level));
}

/* Logs a text of so many bytes in UTF-8, which may have zeros in it, at a time in nanoseconds since 1970, UTC. Its bytes are copied. Where
   it was posted and `ticket` is not null, the number that the queue gave it is there. Which refusal is told, where there are several: null,
   a text over ALOG_TEXT_MAX, and then those of the library. */
static inline enum alog_answer alog_log(alog_producer *producer, uint32_t logger, enum alog_level level, int64_t time, const char *text,
                                        size_t length, uint64_t *ticket)
{
    uint64_t own = 0;
    if (text == NULL) {
        if (length > 0)
            return ALOG_NULL;
        text = "";
    }
    if (producer == NULL)
        return ALOG_NULL;
    if (length > ALOG_TEXT_MAX)
        return ALOG_TEXT_TOO_LONG;
    return alog_answer_of(alog_c_log(producer, logger, level, time, text, length, ticket == NULL ? &own : ticket));
}

/* Logs a text with where it comes from. */
static inline enum alog_answer alog_log_source(alog_producer *producer, uint32_t logger, enum alog_level level, int64_t time,
                                               const char *text, size_t length, const alog_source *source, uint64_t *ticket)
{
    uint64_t own = 0;
    if (producer == NULL || (text == NULL && length > 0) || source == NULL || source->file == NULL || source->function == NULL)
        return ALOG_NULL;
    if (length > ALOG_TEXT_MAX)
        return ALOG_TEXT_TOO_LONG;
    return alog_answer_of(alog_c_log_source(producer, logger, level, time, text == NULL ? "" : text, length, source->file,
                                            strlen(source->file), source->line, source->function, strlen(source->function),
                                            ticket == NULL ? &own : ticket));
}

/* Posts a flush of the sinks of a logger, which comes behind what was posted before. Where the queue is full it is discarded and counted,
   also where the logger's policy is to block; a policy that overruns makes room for it, as for a message. */
static inline enum alog_answer alog_flush(alog_producer *producer, uint32_t logger, uint64_t *ticket)
{
    uint64_t own = 0;
    return producer == NULL ? ALOG_NULL : alog_answer_of(alog_c_flush(producer, logger, ticket == NULL ? &own : ticket));
}

/* Posts what the backtrace of a logger kept, oldest first, between two markers of this time, and empties it. How many posts that were is in
   `posts`, where that is not null: none where nothing was kept. Those for which the queue had no room were discarded and counted, also where
   the logger's policy is to block; a policy that overruns takes out the oldest messages for them. */
static inline enum alog_answer alog_dump(alog_producer *producer, uint32_t logger, int64_t time, size_t *posts)
{
    size_t own = 0;
    return producer == NULL ? ALOG_NULL : alog_answer_of(alog_c_dump(producer, logger, time, posts == NULL ? &own : posts));
}

/* Writes the lines of up to so many messages, and says why it stopped; how many it ended is in `items`, where that is not null. */
static inline enum alog_answer alog_work(alog_worker *worker, size_t most, size_t *items)
{
    size_t own = 0;
    return worker == NULL ? ALOG_NULL : alog_answer_of(alog_c_work(worker, most, items == NULL ? &own : items));
}

/* Tells in `faults` how many turns at sinks this worker made so far that were faults, as the report counts them, at most 2^64 - 1: each flush of a
   broken sink, and each message that its level lets through; one for a fan, whichever of its members are broken. Above 0 a sink or a member of
   one is broken, and its lines are missing from then on; how many they are the number does not say. It only looks; but it is a call on the
   handle, so the thread makes it that has the worker, behind its alog_work. Where it is refused, `faults` is as it was. When the worker was given
   back, the report alone has its faults. */
static inline enum alog_answer alog_worker_faults(alog_worker *worker, uint64_t *faults)
{
    return worker == NULL || faults == NULL ? ALOG_NULL : alog_answer_of(alog_c_faults(worker, faults));
}

/* Gives a producer back to its pool, and empties its handle; ALOG_BUSY_PART is to be tried again. */
static inline enum alog_answer alog_give_producer(alog_producer *producer)
{
    return producer == NULL ? ALOG_NULL : alog_answer_of(alog_c_give(producer));
}

/* Gives a worker back to its pool, and empties its handle; ALOG_BUSY_PART is to be tried again. What it has left to do, the end of the pool
   does. */
static inline enum alog_answer alog_give_worker(alog_worker *worker)
{
    return worker == NULL ? ALOG_NULL : alog_answer_of(alog_c_give(worker));
}

/* Ends a pool whose producers and workers were all given back: writes what is left and flushes, empties the handle, and reports what became
   of all messages. What it wrote lies in the files of the pool then. */
static inline enum alog_answer alog_shutdown(alog_pool *pool, alog_report *report)
{
    return pool == NULL || report == NULL ? ALOG_NULL : alog_answer_of(alog_c_shutdown(pool, report));
}

/* Takes what is to be done next to the files: whole records, of `*length` bytes, into memory of at least ALOG_AREA bytes. Answers ALOG_IDLE
   where nothing is there now, and ALOG_ENDED, from then on, where the pool has ended and all that it told its files was taken. */
static inline enum alog_answer alog_take(alog_files *files, char *to, size_t room, size_t *length)
{
    return files == NULL || to == NULL || length == NULL ? ALOG_NULL : alog_answer_of(alog_c_take(files, to, room, length));
}

/* Lets go of the files, and empties the handle: when alog_take has answered ALOG_ENDED, or when the program gives up, and then what was not
   taken is lost. */
static inline enum alog_answer alog_close(alog_files *files)
{
    return files == NULL ? ALOG_NULL : alog_answer_of(alog_c_close(files));
}

/* Says in a sentence what an answer means. */
static inline const char *alog_says(enum alog_answer answer)
{
    switch (answer) {
    case ALOG_DONE: return "It was done.";
    case ALOG_FILTERED: return "The message is below the level of its logger.";
    case ALOG_WOULD_BLOCK: return "There was no room, and the logger blocks: try again soon.";
    case ALOG_FULL: return "The message was discarded: the queue was full.";
    case ALOG_STALLED: return "The message was discarded: the queue was full and could not be emptied.";
    case ALOG_BUSY: return "The message was discarded: others were faster, too often.";
    case ALOG_SPENT: return "The message was discarded: the queue has no tickets left.";
    case ALOG_IDLE: return "There is nothing to write.";
    case ALOG_SOON: return "A message is on its way: try again soon.";
    case ALOG_HELD: return "Another thread is at the sink or at the backtrace: try again soon.";
    case ALOG_ENDED: return "The pool has ended, and all was taken.";
    case ALOG_NO_THREAD: return "The system gave no thread.";
    case ALOG_NULL: return "A pointer is null.";
    case ALOG_NO_HANDLE: return "The handle holds nothing.";
    case ALOG_WRONG_HANDLE: return "The handle holds something of another kind.";
    case ALOG_IN_USE: return "The handle holds something already.";
    case ALOG_NO_MEMORY: return "There is no memory.";
    case ALOG_NOT_UTF8: return "A text or a name is not UTF-8.";
    case ALOG_NO_LOGGER: return "There is no such logger.";
    case ALOG_NO_LEVEL: return "There is no such level: levels are 0 to 6.";
    case ALOG_TEXT_TOO_LONG: return "The text is longer than the key `text` of the configuration allows, which may be 64 to 8192 bytes.";
    case ALOG_SOURCE_TOO_LONG: return "The source's file has more than 256 bytes, or its function more than 128.";
    case ALOG_TOO_MANY: return "The pool may make no more of these.";
    case ALOG_PARTS_OUT: return "Not all producers and workers were given back.";
    case ALOG_BAD_CONFIG: return "The document is no configuration.";
    case ALOG_NO_STORE: return "The folder takes no files, or another program holds it, or a sink cannot write to its file.";
    case ALOG_TOO_SHORT: return "The memory that was handed over is too short, or the areas are too few.";
    case ALOG_BUSY_PART: return "Another thread gives a part back: try again.";
    }
    return "There is no such answer.";
}

#ifdef __cplusplus
}
#endif

#endif
