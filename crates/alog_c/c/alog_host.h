/* Threads and files for alog: workers that sleep until something is logged, a log that waits for room, and the files of a folder.

   A program starts a host with its configuration, opens a client in each of its threads, logs, closes the clients and stops the host:

       static alog_host host;
       alog_start(&host, document, length, folder, 1);
       alog_client client = {NULL, {0, NULL}};
       alog_client_open(&host, &client);
       alog_printf(&client, 0, ALOG_INFO, "request %d was served", 7);
       alog_client_close(&client);
       alog_report report;
       alog_stop(&host, &report);

   A host and a client are all zero before, do not move while they are in use, and a client is used by one thread at a time, which best has it
   on its own stack: each call writes into it, so two on one line of the cache slow each other down. What each call answers is in alog.h.
   POSIX threads, gcc or clang; a program in C says _POSIX_C_SOURCE 200809L before its first include, or is compiled
   for gnu99 or later. A process that forks starts its host in the child.

   No call is made from a handler of a signal, no thread is cancelled within a call, and a child of a fork uses no host of its parent: it has
   none of its threads. There all calls on that host, and alog_client_close, do nothing, and answer ALOG_NO_HANDLE, but alog_start, which answers
   ALOG_IN_USE: a child that logs starts a host in a struct of its own. The calls that log do not look. The child holds the folder with its
   parent, until it ends or calls exec: while one lives that outlived its server, no other server starts over that folder.
   The threads of workers hold all signals back but those of a fault of their own, as SIGSEGV.

   Files. The folder has to be there. It is held by a lock on its file `.alog.lock`, as the program `alog` holds it: two that rotate the same
   files would lose some. What a sink is to go on in is looked at once, at the start. A start is refused where a sink's file is there and cannot
   be opened to append, or would be the lock: so it sees a folder of its name, a link and a file without permission. Of a sink by days it sees
   none, since their names come with the days. Files are made with the mode 0644, less the umask, are opened to append, and have to be regular
   files; a link is not followed.

   A call of the system that fails later is counted, its errno is kept where it is the first, and the others go on: alog_failures tells both.
   What could not be written is missing, so the last line in front of it may be cut, and the next one then stands behind it without a new line.
   Where a file of a rotation cannot be renamed, say `log.2` to `log.3`, then `log.1` and `log` keep their names too, so that it is not
   replaced, and lines go on into `log` until a later rotation can be made, which begins with that file. Older files were renamed by then, so the
   oldest one may be gone once, though no new one came. No file makes way for one that got nothing: where `log` is absent or empty a rotation
   is not made, and where the last line of a sink by days was lost no file of it is removed (a file that stayed so is not removed later). A
   folder of the name of a numbered file stays, as a file that cannot be renamed does. A flush brings lines to the system, and, where the
   options say `sync`, to the disk, with the names of the folder; then a file is also brought there before it is closed or renamed.

   Areas. Each sink has so many areas of ALOG_AREA bytes (128 KiB), which workers fill and which are empty again when they were taken. A sink
   that finds none empty is broken for good, and its lines are missing from then on, so there have to be enough: alog_faults tells meanwhile
   how many turns were answered so, and the report at the end. A worker's call ends so many messages as `batch` says, and behind it
   the worker takes all that lies there; while it waits for the lock of the files, at most one call of each worker lies there. A sink gives an
   area away at a flush, and where the next line has no room in it. A call so takes at most an area for each message, one that was begun
   before and one for the flush before it rests: workers * (batch + 2) areas are enough for lines of any length that a pattern may have, even
   if each message flushes. Where only the rest flushes, workers * (3 + batch * (line + 80) / ALOG_AREA) are, with the bytes of the longest
   line: 4 for a worker with lines up to 8,000 bytes. A host has 16 for each worker where its options say 0, and ends at most areas /
   workers - 2 messages in a call, so 14 of them then, at least 1 and at most ALOG_BATCH. More areas are wanted where messages make more than
   lines: each rotation takes max_files * 200 / ALOG_AREA more, which is 2 for a thousand files, and a call makes at most one for each message:
   workers * (3 * batch + 2) are enough then.

   Why nobody sleeps through what he waits for. Whoever is about to sleep adds himself to the bell's `sleepers`, then looks once more, and
   sleeps only if there was nothing. Whoever brings something does so first, and then reads `sleepers`: if it is 0 he is done, else he turns
   one of them into a wake-up, which a sleeper takes. So there are as many threads between adding themselves and going on as `sleepers` and
   wake-ups together. The steps on that count and all steps of the queue, the library's, are sequentially consistent, so they have one order,
   and none needs a fence beside it; on x86-64 the read is a plain one. If the reader finds 0, then each thread has yet to add itself, or
   there is a wake-up for it. Either way it looks behind the read, which is behind what was brought, and so finds it, before it sleeps again.
   For a worker the look is a read of the queue's end: ALOG_IDLE says that no ticket was claimed there that was not taken, and a post claims
   its ticket before it reads. For a log that waits the look is another try: ALOG_WOULD_BLOCK says that its place was not given back yet, and
   who gives it back rings behind that, at the latest when he finds no more; or that another post took the ticket meanwhile, and a worker rings
   behind its message.

   Why nothing is left untaken. What a worker's call gives away lies in the files when the call returns, and the worker takes all that lies
   there, under the lock, before it does anything else: it never leaves that to another one. An answer ALOG_IDLE of alog_take may pass over
   what another worker is about to give away, which this one takes then. A worker ends only behind an ALOG_IDLE that was answered when
   the host was ending already, so when no client is there any more, and so the end of the pool finds nothing in the queue. Behind the end of
   the pool the host takes until the answer is ALOG_ENDED: all that the pool told its files was taken. An end without it is a failure, of EIO. */
#ifndef ALOG_HOST_H
#define ALOG_HOST_H

#include "alog_folder.h"
#include "alog_seats.h"

#ifdef __cplusplus
extern "C" {
#endif

/* Gives back the producers of clients that were closed. */
static inline enum alog_answer alog_spares_give(alog_host *host)
{
    enum alog_answer answer = ALOG_DONE;
    while (answer == ALOG_DONE && host->spares != NULL) {
        alog_spare *spare = host->spares;
        answer = alog_give_back(&spare->producer);
        if (answer == ALOG_DONE) {
            host->spares = spare->next;
            free(spare);
        }
    }
    return answer;
}

/* Ends the threads of the workers, when they have written what was logged, and the pool, and does what is left to be done to the files. Where
   the pool does not end, for want of memory, the host is open, without workers, and this is to be called again. */
static inline enum alog_answer alog_host_end(alog_host *host, alog_report *report)
{
    size_t number;
    enum alog_answer answer;
    __atomic_store_n(&host->is_ending, 1, __ATOMIC_SEQ_CST);
    alog_bell_ring(&host->work, UINT32_MAX);
    for (number = 0; number < host->workers; number++) {
        pthread_join(host->seats[number].thread, NULL);
        alog_give_back(&host->seats[number].worker);
    }
    host->workers = 0;
    pthread_mutex_lock(&host->lock);
    answer = alog_spares_give(host);
    if (answer == ALOG_DONE)
        answer = alog_shutdown(&host->pool, report);
    pthread_mutex_unlock(&host->lock);
    if (answer != ALOG_DONE)
        return answer;
    if (alog_host_drain(host) != ALOG_ENDED)
        alog_failed(host, EIO);
    alog_folder_close(host);
    alog_bell_close(&host->work);
    alog_bell_close(&host->room);
    pthread_mutex_destroy(&host->files_lock);
    pthread_mutex_destroy(&host->lock);
    host->is_open = 0;
    return answer;
}

/* Sets how long workers pause, by the places of the queue. What is wrong with a document that is no configuration alog_open says. */
static inline enum alog_answer alog_pause_look(alog_host *host, const char *document, size_t length)
{
    size_t places = 0;
    const enum alog_answer answer = alog_queue_places(document, length, &places);
    host->pause_most = alog_pause_most(places);
    return answer == ALOG_BAD_CONFIG ? ALOG_DONE : answer;
}

/* Opens the folder and the pool. */
static inline enum alog_answer alog_host_open(alog_host *host, const char *document, size_t length, const char *folder,
                                              const alog_options *options)
{
    const size_t most_producers = ALOG_PRODUCERS_MAX, most_batch = ALOG_BATCH;
    const size_t areas = options->areas > 0 ? options->areas : ALOG_AREAS * options->workers;
    const size_t producers = options->producers > 0 ? options->producers : most_producers;
    const size_t batch = areas / options->workers - 2;
    enum alog_answer answer;
    host->batch = batch < most_batch ? batch : most_batch;
    host->ring_behind = ALOG_ROOM / options->workers;
    host->sync = options->sync;
    host->area = ALOG_CAST(char *, malloc(ALOG_AREA));
    if (host->area == NULL)
        return ALOG_NO_MEMORY;
    answer = alog_folder_open(host, folder);
    if (answer == ALOG_DONE)
        answer = alog_sinks_look(host, document, length, folder);
    if (answer == ALOG_DONE)
        answer = alog_pause_look(host, document, length);
    if (answer == ALOG_DONE)
        answer = alog_open(&host->pool, &host->files, document, length, producers, areas, host->told, sizeof host->told);
    return answer;
}

/* Tests what the options say; where that cannot be, the words say why. */
static inline enum alog_answer alog_options_test(alog_host *host, const alog_options *options)
{
    enum alog_answer answer = ALOG_DONE;
    if (options->workers < 1 || options->workers > ALOG_WORKERS_MAX) {
        alog_add_words(host, "a host has 1 to 64 workers");
        answer = ALOG_TOO_MANY;
    } else if (options->producers > ALOG_PRODUCERS_MAX) {
        alog_add_words(host, "a host has at most 4096 clients at once");
        answer = ALOG_TOO_MANY;
    } else if (options->areas > 0 && options->areas / options->workers < ALOG_AREAS_MIN) {
        alog_add_words(host, "each worker wants 3 areas of each sink or more");
        answer = ALOG_TOO_SHORT;
    }
    return answer;
}

/* Forgets what a host was told and met before. */
static inline void alog_host_clear(alog_host *host)
{
    size_t number;
    for (number = 0; number < ALOG_WORKERS_MAX; number++)
        host->seats[number].faults = 0;
    host->told[0] = 0;
    host->folder = host->held = -1;
    host->stopped.count = 0;
    host->unwritten.count = 0;
    host->is_changed = 0;
    host->failures = 0;
    host->failed_errno = 0;
}

/* Opens a pool over the files of a folder, and starts its workers. Where that is refused, nothing is left of it but the file of the folder's
   lock, and `host->told` says why, where words are known. (Where there is no thread and then no memory to end the pool again, alog_stop has to
   be called.) */
static inline enum alog_answer alog_start_with(alog_host *host, const char *document, size_t length, const char *folder,
                                               const alog_options *options)
{
    alog_report report;
    enum alog_answer answer;
    if (host == NULL || folder == NULL || options == NULL || (document == NULL && length > 0))
        return ALOG_NULL;
    if (host->is_open)
        return ALOG_IN_USE;
    alog_host_clear(host);
    answer = alog_options_test(host, options);
    if (answer != ALOG_DONE)
        return answer;
    answer = alog_host_open(host, document, length, folder, options);
    if (answer != ALOG_DONE) {
        alog_folder_close(host);
        return answer;
    }
    pthread_mutex_init(&host->lock, NULL);
    pthread_mutex_init(&host->files_lock, NULL);
    alog_bell_open(&host->work);
    alog_bell_open(&host->room);
    host->workers = 0;
    host->clients = 0;
    host->spares = NULL;
    host->is_ending = 0;
    host->process = getpid();
    host->is_open = 1;
    while (host->workers < options->workers && answer == ALOG_DONE)
        answer = alog_seat_start(host, &host->seats[host->workers]);
    if (answer == ALOG_TOO_MANY)
        alog_add_words(host, "the configuration says fewer workers");
    if (answer != ALOG_DONE)
        alog_host_end(host, &report);
    return answer;
}

/* The same with so many workers, at most as many as the configuration says. */
static inline enum alog_answer alog_start(alog_host *host, const char *document, size_t length, const char *folder, size_t workers)
{
    const alog_options options = {workers, 0, 0, 0};
    return alog_start_with(host, document, length, folder, &options);
}

/* Ends a host whose clients are all closed, when all that was logged is written, and reports what became of it; whether it is in the files,
   alog_failures says. Where a client is open, nothing is done. Where there is no memory to end the pool, the workers have ended by then, and no
   client can be opened. Both are ALOG_PARTS_OUT, and it is to be called again. It is called by one thread, which knows that nobody opens a
   client of this host meanwhile, finds a logger of it or sets a level. */
static inline enum alog_answer alog_stop(alog_host *host, alog_report *report)
{
    size_t clients;
    if (host == NULL || report == NULL)
        return ALOG_NULL;
    if (!host->is_open || host->process != getpid())
        return ALOG_NO_HANDLE;
    pthread_mutex_lock(&host->lock);
    clients = host->clients;
    pthread_mutex_unlock(&host->lock);
    return clients > 0 ? ALOG_PARTS_OUT : alog_host_end(host, report);
}

/* Takes the lock of a host that is open and this process's own; else it answers why not, and the lock is not taken. */
static inline enum alog_answer alog_host_enter(alog_host *host)
{
    if (host == NULL)
        return ALOG_NULL;
    if (!host->is_open || host->process != getpid())
        return ALOG_NO_HANDLE;
    pthread_mutex_lock(&host->lock);
    return ALOG_DONE;
}

/* A producer for a client: that of one which was closed, or a new one. */
static inline enum alog_answer alog_client_fill(alog_host *host, alog_producer *to)
{
    alog_spare *spare = host->spares;
    if (spare == NULL || to->kind != 0)
        return alog_make_producer(&host->pool, to);
    *to = spare->producer;
    host->spares = spare->next;
    free(spare);
    return ALOG_DONE;
}

/* Opens a client of a host, by whichever thread. As many are open at once as its options say: the producer of one that is closed goes on to the
   next one. */
static inline enum alog_answer alog_client_open(alog_host *host, alog_client *client)
{
    enum alog_answer answer = client == NULL ? ALOG_NULL : alog_host_enter(host);
    if (answer != ALOG_DONE)
        return answer;
    /* (one that did not end has no workers any more) */
    answer = __atomic_load_n(&host->is_ending, __ATOMIC_SEQ_CST) ? ALOG_NO_HANDLE : alog_client_fill(host, &client->producer);
    if (answer == ALOG_DONE) {
        client->host = host;
        host->clients++;
    }
    pthread_mutex_unlock(&host->lock);
    return answer;
}

/* Finds the number of a logger by its name, without a client. */
static inline enum alog_answer alog_host_find(alog_host *host, const char *name, uint32_t *logger)
{
    enum alog_answer answer = alog_host_enter(host);
    if (answer != ALOG_DONE)
        return answer;
    answer = alog_find_in_pool(&host->pool, name, logger);
    pthread_mutex_unlock(&host->lock);
    return answer;
}

/* Sets the level of a logger for all threads, from the next message on, without a client. */
static inline enum alog_answer alog_host_set_level(alog_host *host, uint32_t logger, enum alog_level level)
{
    enum alog_answer answer = alog_host_enter(host);
    if (answer != ALOG_DONE)
        return answer;
    answer = alog_set_level_in_pool(&host->pool, logger, level);
    pthread_mutex_unlock(&host->lock);
    return answer;
}

/* Takes the producer of a client that is closed: it is kept for the next one, or given back for good where there is no memory for that. The handle
   that it lay in is empty then. */
static inline enum alog_answer alog_client_empty(alog_host *host, alog_producer *from)
{
    alog_spare *spare = ALOG_CAST(alog_spare *, malloc(sizeof *spare));
    if (spare == NULL)
        return alog_give_back(from);
    spare->producer = *from;
    spare->next = host->spares;
    host->spares = spare;
    memset(from, 0, sizeof *from);
    return ALOG_DONE;
}

/* Closes a client. */
static inline enum alog_answer alog_client_close(alog_client *client)
{
    enum alog_answer answer;
    alog_host *host = client == NULL ? NULL : client->host;
    if (client == NULL)
        return ALOG_NULL;
    if (host == NULL || host->process != getpid())
        return ALOG_NO_HANDLE;
    pthread_mutex_lock(&host->lock);
    answer = alog_client_empty(host, &client->producer);
    if (answer == ALOG_DONE) {
        client->host = NULL;
        host->clients--;
    }
    pthread_mutex_unlock(&host->lock);
    return answer;
}

/* Logs a message that has a source: apart from its callers, since most messages have none. */
ALOG_APART
static enum alog_answer alog_log_message(alog_producer *producer, const alog_message *it)
{
    return alog_log_source(producer, it->logger, it->level, it->time, it->text, it->length, it->source, NULL);
}

/* Logs a message, and never waits: where the queue is full and the logger blocks, it answers ALOG_WOULD_BLOCK. */
static inline enum alog_answer alog_post_now(alog_client *client, const alog_message *it)
{
    enum alog_answer answer;
    if (client == NULL || it == NULL)
        return ALOG_NULL;
    if (client->host == NULL)
        return ALOG_NO_HANDLE;
    if (it->source == NULL)
        answer = alog_log(&client->producer, it->logger, it->level, it->time, it->text, it->length, NULL);
    else
        answer = alog_log_message(&client->producer, it);
    if (answer == ALOG_DONE)
        alog_bell_ring(&client->host->work, 1);
    return answer;
}

/* Logs a message for which there was no room at the first try: it tries again, and then waits for room. */
ALOG_RARE
static enum alog_answer alog_post_again(alog_client *client, const alog_message *message)
{
    enum alog_answer answer = ALOG_WOULD_BLOCK;
    alog_bell *room = &client->host->room;
    int tries;
    for (tries = 1; answer == ALOG_WOULD_BLOCK && tries < ALOG_TRIES; tries++)
        answer = alog_post_now(client, message);
    if (answer != ALOG_WOULD_BLOCK)
        return answer;
    for (;;) {
        alog_bell_enter(room);
        answer = alog_post_now(client, message);
        if (answer != ALOG_WOULD_BLOCK)
            break;
        alog_bell_sleep(room);
    }
    alog_bell_leave(room);
    /* whoever posted is followed by the worker that ends his message, which rings; whoever did not hands his wake-up on */
    if (answer != ALOG_DONE)
        alog_bell_ring(room, 1);
    return answer;
}

/* Logs a message, and waits where the queue is full and the logger blocks, until a worker has made room: it never answers
   ALOG_WOULD_BLOCK. */
static inline enum alog_answer alog_post_wait(alog_client *client, const alog_message *message)
{
    const enum alog_answer answer = alog_post_now(client, message);
    return answer == ALOG_WOULD_BLOCK ? alog_post_again(client, message) : answer;
}

/* Logs a text at the time of the call, and never waits. */
static inline enum alog_answer alog_log_now(alog_client *client, uint32_t logger, enum alog_level level, const char *text, size_t length)
{
    const alog_message message = {logger, level, alog_now(), text, length, NULL};
    return alog_post_now(client, &message);
}

/* Logs a text at the time of the call, and waits for room. */
static inline enum alog_answer alog_log_wait(alog_client *client, uint32_t logger, enum alog_level level, const char *text, size_t length)
{
    const alog_message message = {logger, level, alog_now(), text, length, NULL};
    return alog_post_wait(client, &message);
}

/* Logs a text that is formatted as vprintf does, by the thread's locale, at the time of the call, and waits for room. It is not cut:
   ALOG_TEXT_TOO_LONG where it has more bytes than the key `text` of the configuration says, which are 2,048 where it does not. ALOG_NOT_UTF8
   where it cannot be formatted, or what comes out is no UTF-8. What its logger does not
   read, since its level hides it and no backtrace keeps it, is not formatted. */
ALOG_PRINTS(4, 0)
static inline enum alog_answer alog_vprintf(alog_client *client, uint32_t logger, enum alog_level level, const char *format, va_list values)
{
    char text[ALOG_TEXT_MAX + 1];
    int length;
    const enum alog_answer answer = client == NULL || format == NULL ? ALOG_NULL : alog_is_on(&client->producer, logger, level);
    if (answer != ALOG_DONE)
        return answer;
    length = vsnprintf(text, sizeof text, format, values);
    if (length < 0)
        return errno == EOVERFLOW ? ALOG_TEXT_TOO_LONG : ALOG_NOT_UTF8;
    return alog_log_wait(client, logger, level, text, ALOG_CAST(size_t, length));
}

/* The same as printf does. */
ALOG_PRINTS(4, 5)
static inline enum alog_answer alog_printf(alog_client *client, uint32_t logger, enum alog_level level, const char *format, ...)
{
    enum alog_answer answer;
    va_list values;
    va_start(values, format);
    answer = alog_vprintf(client, logger, level, format, values);
    va_end(values);
    return answer;
}

/* Posts what the backtrace of a logger kept, between two markers of the time of the call. It tries again where another thread is at the
   backtrace, and does not wait for room: what the queue has no room for is discarded, unless the logger's policy is to overrun. */
static inline enum alog_answer alog_dump_now(alog_client *client, uint32_t logger)
{
    enum alog_answer answer;
    const int64_t time = alog_now();
    size_t posts = 0;
    if (client == NULL)
        return ALOG_NULL;
    if (client->host == NULL)
        return ALOG_NO_HANDLE;
    while ((answer = alog_dump(&client->producer, logger, time, &posts)) == ALOG_HELD)
        sched_yield();
    if (answer == ALOG_DONE && posts > 0)
        alog_bell_ring(&client->host->work, posts < ALOG_WORKERS_MAX ? ALOG_CAST(uint32_t, posts) : UINT32_MAX);
    return answer;
}

/* Posts a flush of a logger's sinks, and never waits: where the queue is full it is discarded, unless the logger's policy is to overrun. */
static inline enum alog_answer alog_flush_now(alog_client *client, uint32_t logger)
{
    enum alog_answer answer;
    if (client == NULL)
        return ALOG_NULL;
    if (client->host == NULL)
        return ALOG_NO_HANDLE;
    answer = alog_flush(&client->producer, logger, NULL);
    if (answer == ALOG_DONE)
        alog_bell_ring(&client->host->work, 1);
    return answer;
}

#ifdef __cplusplus
}
#endif

#endif
