/* What a host promises beside its files and its threads: hosts FOLDER. The times of messages, who is woken, the bounds of its options, what it does
   to the descriptors of its process, which files and folders it refuses, and null pointers. */
#define _GNU_SOURCE
#include "alog_host.h"
#include "trial.h"

#include <sys/wait.h>

static const char config[] = "queue = 64\nworkers = 2\n[[sink]]\nname = \"a\"\nkind = \"memory\"\nfile = \"log.txt\"\npattern = \"%E %v\"\n"
                             "[[logger]]\nname = \"net\"\nsinks = [\"a\"]\nbacktrace = 2\n";

static alog_host host;
static alog_client client;
static alog_report report;
static char place[512];

static void enter(const char *folder, const char *name)
{
    snprintf(place, sizeof place, "%s/%s", folder, name);
    EXPECT(trial_folder(place), 0);
}

static void start(const char *words)
{
    EXPECT(alog_start(&host, words, strlen(words), place, 1), ALOG_DONE);
    EXPECT(alog_client_open(&host, &client), ALOG_DONE);
}

static void stop(void)
{
    EXPECT(alog_client_close(&client), ALOG_DONE);
    EXPECT(alog_stop(&host, &report), ALOG_DONE);
}

static void refused(enum alog_answer wanted, const char *words)
{
    EXPECT(alog_start(&host, config, sizeof config - 1, place, 1), wanted);
    EXPECT_TEXT(host.told, words);
    if (host.is_open)
        alog_stop(&host, &report);
}

static void nap(void)
{
    const struct timespec millisecond = {0, 1000000};
    nanosleep(&millisecond, NULL);
}

/* How many bytes a file has, once it has some, or ten seconds later. */
static size_t length_of(const char *name)
{
    size_t length = 0;
    for (int tries = 0; tries < 10000 && length == 0; tries++) {
        free(bytes_of(path_of(place, name), &length));
        nap();
    }
    return length;
}

/* Each line has the time of its call, in seconds, and the clock is that of the system. */
static void times(const char *folder)
{
    struct timespec before, behind;
    size_t length;
    char *bytes, *it;
    int lines = 0;
    int64_t now;
    enter(folder, "times");
    start(config);
    clock_gettime(CLOCK_REALTIME, &before);
    EXPECT(alog_log_wait(&client, 0, ALOG_INFO, "wait", 4), ALOG_DONE);
    EXPECT(alog_log_now(&client, 0, ALOG_INFO, "now", 3), ALOG_DONE);
    EXPECT(alog_printf(&client, 0, ALOG_INFO, "print"), ALOG_DONE);
    EXPECT(alog_dump_now(&client, 0), ALOG_DONE);
    now = alog_now();
    clock_gettime(CLOCK_REALTIME, &behind);
    stop();
    bytes = bytes_of(path_of(place, "log.txt"), &length);
    for (it = bytes; *it != 0; it = strchr(it, '\n') + 1, lines++) {
        const long at = strtol(it, NULL, 10);
        EXPECT(at >= before.tv_sec && at <= behind.tv_sec, 1);
    }
    free(bytes);
    /* (three lines, and a dump of the last two between its markers) */
    EXPECT(lines, 7);
    EXPECT(now >= before.tv_sec * INT64_C(1000000000) + before.tv_nsec && now <= behind.tv_sec * INT64_C(1000000000) + behind.tv_nsec, 1);
}

/* A dump and a flush wake a worker that sleeps: what was kept is in the file before the end, and a queue of two places is empty again. */
static void wakes(const char *folder)
{
    static const char small[] = "queue = 2\n[[sink]]\nname = \"a\"\nkind = \"memory\"\n[[logger]]\nname = \"n\"\nsinks = [\"a\"]\n";
    enter(folder, "dump");
    start(config);
    EXPECT(alog_log_wait(&client, 0, ALOG_DEBUG, "kept", 4), ALOG_FILTERED);
    for (int i = 0; i < 50; i++)
        nap();
    EXPECT(alog_dump_now(&client, 0), ALOG_DONE);
    EXPECT(length_of("log.txt") > 0, 1);
    stop();
    enter(folder, "flush");
    start(small);
    for (int flush = 0; flush < 3; flush++) {
        enum alog_answer answer = ALOG_FULL;
        for (int tries = 0; tries < 10000 && answer != ALOG_DONE; tries++) {
            answer = alog_flush_now(&client, 0);
            nap();
        }
        EXPECT(answer, ALOG_DONE);
    }
    stop();
}

/* A wake-up that nobody took does not stay. */
static void bell_is_left(void)
{
    alog_bell bell;
    alog_bell_open(&bell);
    alog_bell_enter(&bell);
    alog_bell_ring(&bell, 1);
    EXPECT(bell.wakes, 1);
    alog_bell_leave(&bell);
    EXPECT(bell.wakes + bell.sleepers, 0);
    alog_bell_enter(&bell);
    alog_bell_enter(&bell);
    alog_bell_ring(&bell, 1);
    EXPECT(bell.sleepers == 1 && bell.wakes == 1, 1);
    alog_bell_leave(&bell);
    alog_bell_sleep(&bell);
    EXPECT(bell.wakes + bell.sleepers, 0);
    alog_bell_close(&bell);
}

/* As many workers as there may be, and the largest batch. */
static void bounds(const char *folder)
{
    static const alog_options many_areas = {1, 1, 100, 0};
    static const char most[] = "workers = 64\n[[sink]]\nname = \"a\"\nkind = \"memory\"\n[[logger]]\nname = \"n\"\nsinks = [\"a\"]\n";
    char wide[20];
    enter(folder, "bounds");
    EXPECT(alog_start(&host, most, sizeof most - 1, place, ALOG_WORKERS_MAX), ALOG_DONE);
    EXPECT(alog_stop(&host, &report), ALOG_DONE);
    EXPECT(alog_start_with(&host, config, sizeof config - 1, place, &many_areas), ALOG_DONE);
    EXPECT(host.batch, ALOG_BATCH);
    EXPECT(alog_stop(&host, &report), ALOG_DONE);
    /* a text that is wider than a number says */
    snprintf(wide, sizeof wide, "%%%" PRId64 "d", INT64_C(2147483648));
    start(config);
    EXPECT(alog_printf(&client, 0, ALOG_INFO, wide, 0), ALOG_TEXT_TOO_LONG);
    stop();
}

/* How many descriptors a program that is executed would have. */
static int inherited(void)
{
    int count = 0;
    for (int number = 0; number < 256; number++) {
        const int flags = fcntl(number, F_GETFD);
        count += flags >= 0 && !(flags & FD_CLOEXEC);
    }
    return count;
}

/* No descriptor of a host is a standard stream, whichever of them are closed, or goes to a program that is executed. */
static void descriptors(const char *folder, const char *name, int first)
{
    int kept[3], number, taken = 0, is_well, before, meanwhile;
    enter(folder, name);
    fflush(stdout);
    for (number = first; number < 3; number++) {
        kept[number] = fcntl(number, F_DUPFD_CLOEXEC, 10);
        close(number);
    }
    before = inherited();
    is_well = alog_start(&host, config, sizeof config - 1, place, 1) == ALOG_DONE && alog_client_open(&host, &client) == ALOG_DONE &&
              alog_log_wait(&client, 0, ALOG_INFO, "x", 1) == ALOG_DONE && length_of("log.txt") > 0;
    meanwhile = inherited();
    for (number = first; number < 3; number++)
        taken += fcntl(number, F_GETFD) >= 0;
    is_well = is_well && alog_client_close(&client) == ALOG_DONE && alog_stop(&host, &report) == ALOG_DONE;
    for (number = first; number < 3; number++) {
        dup2(kept[number], number);
        close(kept[number]);
    }
    EXPECT(is_well, 1);
    EXPECT(taken, 0);
    EXPECT(meanwhile, before);
}

/* A pipe that somebody reads is no file of a sink, and a link is no lock. */
static void strange_files(const char *folder)
{
    char words[700];
    int reader;
    enter(folder, "pipe");
    EXPECT(mkfifo(path_of(place, "log.txt"), 0666), 0);
    reader = open(path_of(place, "log.txt"), O_RDONLY | O_NONBLOCK);
    snprintf(words, sizeof words, "the file log.txt of %s is no regular file", place);
    refused(ALOG_NO_STORE, words);
    close(reader);
    enter(folder, "linked");
    EXPECT(symlink("elsewhere", path_of(place, ALOG_LOCK)), 0);
    snprintf(words, sizeof words, "%s/.alog.lock cannot be locked: %s", place, strerror(ELOOP));
    refused(ALOG_NO_STORE, words);
}

/* A folder that its user may not write, also where root tests. */
static void closed_folder(const char *folder)
{
    int status = 0;
    pid_t child;
    enter(folder, "closed");
    EXPECT(chmod(place, 0555), 0);
    fflush(stdout);
    child = fork();
    if (child == 0) {
        static alog_host own;
        if (chdir(place) != 0 || (geteuid() == 0 && seteuid(65534) != 0))
            _exit(3);
        _exit(alog_start(&own, config, sizeof config - 1, ".", 1) == ALOG_NO_STORE &&
                      strcmp(own.told, "no files can be written to .: Permission denied") == 0
                  ? 0
                  : 1);
    }
    EXPECT(waitpid(child, &status, 0), child);
    EXPECT(status, 0);
    EXPECT(chmod(place, 0777), 0);
}

/* Files are made for their owner to write and all to read, and a file with the longest name goes on where it ended. */
static void names_and_modes(const char *folder)
{
    char words[600], name[ALOG_FOUND_MAX + 1], first[ALOG_FOUND_MAX + 10];
    struct stat found;
    const mode_t before = umask(0);
    FILE *file;
    enter(folder, "modes");
    start(config);
    EXPECT(alog_log_wait(&client, 0, ALOG_INFO, "x", 1), ALOG_DONE);
    stop();
    umask(before);
    EXPECT(stat(path_of(place, "log.txt"), &found), 0);
    EXPECT(found.st_mode & 07777, 0644);
    enter(folder, "longest");
    memset(name, 'n', ALOG_FOUND_MAX);
    name[ALOG_FOUND_MAX] = 0;
    snprintf(words, sizeof words,
             "[[sink]]\nname = \"a\"\nkind = \"rotating\"\nfile = \"%s\"\npattern = \"%%v\"\nmax_size = 10\nmax_files = 1\n"
             "[[logger]]\nname = \"net\"\nsinks = [\"a\"]\n",
             name);
    file = fopen(path_of(place, name), "w");
    fputs("12345678\n", file);
    fclose(file);
    start(words);
    EXPECT(alog_log_wait(&client, 0, ALOG_INFO, "x", 1), ALOG_DONE);
    stop();
    EXPECT(length_of(name), 2);
    snprintf(first, sizeof first, "%s.1", name);
    EXPECT(length_of(first), 9);
}

/* What says why a start was refused is cut to its room. */
static void long_words(void)
{
    static struct {
        alog_host host;
        char behind[64];
    } own;
    char folder[2001];
    size_t changed = 0;
    memset(own.behind, 'b', sizeof own.behind);
    memset(folder, 'p', sizeof folder - 1);
    folder[sizeof folder - 1] = 0;
    for (size_t at = 0; at < sizeof folder - 1; at += 100)
        folder[at] = '/';
    EXPECT(alog_start(&own.host, config, sizeof config - 1, folder, 1), ALOG_NO_STORE);
    EXPECT(strlen(own.host.told), sizeof own.host.told - 1);
    for (size_t at = 0; at < sizeof own.behind; at++)
        changed += own.behind[at] != 'b';
    EXPECT(changed, 0);
}

/* Records that no library hands out: the lock is not renamed nor removed, and what is no record is a failure. */
static void strange_records(const char *folder)
{
    static alog_host own;
    alog_record it = {ALOG_RENAME, "log.txt", 7, ALOG_LOCK, 10};
    enter(folder, "records");
    own.folder = open(place, O_RDONLY | O_DIRECTORY);
    fclose(fopen(path_of(place, "log.txt"), "w"));
    fclose(fopen(path_of(place, ALOG_LOCK), "w"));
    alog_host_change(&own, &it);
    EXPECT(own.failures, 1);
    EXPECT(own.failed_errno, EBUSY);
    it.deed = ALOG_REMOVE;
    it.name = ALOG_LOCK;
    it.name_length = 10;
    it.rest_length = 0;
    alog_host_change(&own, &it);
    EXPECT(own.failures, 2);
    EXPECT(access(path_of(place, ALOG_LOCK), F_OK) == 0 && access(path_of(place, "log.txt"), F_OK) == 0, 1);
    own.area = (char *)calloc(1, 64);
    alog_host_do(&own, 20);
    EXPECT(own.failures, 3);
    free(own.area);
    close(own.folder);
}

/* The file that was used longest ago makes way for one more. */
static void open_files(const char *folder)
{
    static alog_host own;
    char name[16];
    enter(folder, "open");
    own.folder = open(place, O_RDONLY | O_DIRECTORY);
    for (int number = 0; number < ALOG_OPEN_FILES; number++) {
        snprintf(name, sizeof name, "f%d", number);
        EXPECT(alog_file_of(&own, name, strlen(name), O_CREAT) != NULL, 1);
    }
    EXPECT(alog_file_of(&own, "f0", 2, O_CREAT) != NULL, 1);
    EXPECT(alog_file_of(&own, "more", 4, O_CREAT) != NULL, 1);
    EXPECT(alog_file_find(&own, "f0", 2) != NULL && alog_file_find(&own, "f2", 2) != NULL, 1);
    EXPECT(alog_file_find(&own, "f1", 2) == NULL, 1);
    for (int number = 0; number < ALOG_OPEN_FILES; number++)
        alog_file_close(&own, &own.open[number]);
    close(own.folder);
}

/* The signals of a fault are a worker's own, and the others the program's. */
static void signals(void)
{
    static const int own[] = {SIGSEGV, SIGBUS, SIGFPE, SIGILL, SIGTRAP, SIGSYS, SIGABRT};
    sigset_t held;
    alog_signals_of_worker(&held);
    for (size_t number = 0; number < sizeof own / sizeof own[0]; number++)
        EXPECT(sigismember(&held, own[number]), 0);
    EXPECT(sigismember(&held, SIGTERM) && sigismember(&held, SIGXFSZ), 1);
}

static void null_pointers(void)
{
    static const alog_source source = {"a", 1, "b"};
    static alog_producer none;
    uint32_t logger;
    EXPECT(alog_stop(NULL, &report), ALOG_NULL);
    EXPECT(alog_flush_now(NULL, 0), ALOG_NULL);
    EXPECT(alog_host_find(NULL, "net", &logger), ALOG_NULL);
    EXPECT(alog_host_set_level(NULL, 0, ALOG_INFO), ALOG_NULL);
    EXPECT(alog_post_now(&client, NULL), ALOG_NULL);
    EXPECT(alog_log_source(&none, 0, ALOG_INFO, 0, NULL, 1, &source, NULL), ALOG_NULL);
}

int main(int argc, char **argv)
{
    if (argc != 2)
        return 2;
    times(argv[1]);
    wakes(argv[1]);
    bell_is_left();
    bounds(argv[1]);
    descriptors(argv[1], "streams", 0);
    descriptors(argv[1], "errors", 2);
    descriptors(argv[1], "none", 3);
    strange_files(argv[1]);
    closed_folder(argv[1]);
    names_and_modes(argv[1]);
    long_words();
    strange_records(argv[1]);
    open_files(argv[1]);
    signals();
    null_pointers();
    return trial_end();
}
