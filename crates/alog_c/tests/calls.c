/* Each call of a host on its files fails in turn, is interrupted, or takes a byte or nothing: calls FOLDER. It is linked with --wrap for write, openat,
   renameat, unlinkat, fdatasync, fsync, close, fstatat, fdopendir and readdir, and for the library's take. A call that fails is counted once and the rest goes on; the others
   lose nothing. Each open of a start fails in turn, or is interrupted. What was written is brought to the disk before its file is closed, and so are
   the folder's names. An end behind which the library does not say that all was taken is a failure. And while nothing is taken, areas run out, which
   the host tells at once. */
#define _GNU_SOURCE
#include "alog_host.h"
#include "trial.h"

#include <stdarg.h>

enum { LINES = 12, DESCRIPTORS = 1024, SECONDS = 10 };

static const char config[] = "queue = 64\n"
                             "[[sink]]\nname = \"a\"\nkind = \"rotating\"\nfile = \"a.txt\"\npattern = \"%v\"\nmax_size = 20\nmax_files = 1\n"
                             "[[sink]]\nname = \"b\"\nkind = \"rotating\"\nfile = \"b.txt\"\npattern = \"%v\"\nmax_size = 20\nmax_files = 0\n"
                             "[[sink]]\nname = \"c\"\nkind = \"memory\"\nfile = \"c.txt\"\npattern = \"%v\"\n"
                             "[[logger]]\nname = \"net\"\nflush_on = \"info\"\nsinks = [\"a\", \"b\", \"c\"]\n";

/* What becomes of a call: it fails, it is interrupted first, or it is a write that takes a byte, or none. */
enum way { FAILS, INTERRUPTED, SHORT, NOTHING };

static alog_host host;
/* whether calls are counted, how many there were, which of them it is, from 1 on, and what becomes of it */
static int is_armed, calls, wanted;
static enum way way;
/* which descriptors have what was not brought to the disk, whether the folder has, how often a file was closed so, and whether the last call that
   failed was an open */
static char is_dirty[DESCRIPTORS];
static int is_changed, closed_dirty, was_open;
/* how often the folder was brought to the disk */
static int folder_syncs;
/* whether the library is to say that nothing is there where all was taken, and how often it was to say so; and whether the next sync of the folder
   fails */
static int is_endless, ends, is_refused;
/* which look at the folder fails: at one of its files, at its list, or at what is next in that; and how often one failed */
static enum look { NONE, ONE, LIST, NEXT } look;
static int looks;
/* whether a write took nothing */
static int took_nothing;
/* whether takes find nothing, as if each came too late */
static int is_held;

/* Whether this call is the one, and of a kind of which that may become. */
static int is_it(int goes_on, int is_write)
{
    if (!is_armed || ++calls != wanted)
        return 0;
    return way == FAILS || (way == INTERRUPTED && goes_on) || (way >= SHORT && is_write);
}

static int refuse(void)
{
    errno = way == INTERRUPTED ? EINTR : EIO;
    return -1;
}

ssize_t __real_write(int descriptor, const void *bytes, size_t length);
int __real_openat(int folder, const char *path, int flags, ...);
int __real_renameat(int from_folder, const char *from, int to_folder, const char *to);
int __real_unlinkat(int folder, const char *path, int flags);
int __real_close(int descriptor);
ssize_t __wrap_write(int descriptor, const void *bytes, size_t length);
int __wrap_openat(int folder, const char *path, int flags, ...);
int __wrap_renameat(int from_folder, const char *from, int to_folder, const char *to);
int __wrap_unlinkat(int folder, const char *path, int flags);
int __wrap_fdatasync(int descriptor);
int __wrap_fsync(int descriptor);
int __wrap_close(int descriptor);
int __real_fstatat(int folder, const char *path, struct stat *found, int flags);
DIR *__real_fdopendir(int descriptor);
struct dirent *__real_readdir(DIR *list);
int __wrap_fstatat(int folder, const char *path, struct stat *found, int flags);
DIR *__wrap_fdopendir(int descriptor);
struct dirent *__wrap_readdir(DIR *list);
uint32_t __real_alog_c_take(alog_files *files, char *to, size_t room, size_t *length);
uint32_t __wrap_alog_c_take(alog_files *files, char *to, size_t room, size_t *length);

uint32_t __wrap_alog_c_take(alog_files *files, char *to, size_t room, size_t *length)
{
    const uint32_t answer = __atomic_load_n(&is_held, __ATOMIC_SEQ_CST) ? ALOG_IDLE : __real_alog_c_take(files, to, room, length);
    ends += answer == ALOG_ENDED;
    return answer == ALOG_ENDED && is_endless ? ALOG_IDLE : answer;
}

ssize_t __wrap_write(int descriptor, const void *bytes, size_t length)
{
    if (descriptor < DESCRIPTORS)
        is_dirty[descriptor] = 1;
    if (is_it(1, 1)) {
        took_nothing = way == NOTHING;
        return way == SHORT ? __real_write(descriptor, bytes, 1) : took_nothing ? 0 : refuse();
    }
    return __real_write(descriptor, bytes, length);
}

int __wrap_openat(int folder, const char *path, int flags, ...)
{
    mode_t mode = 0;
    va_list more;
    va_start(more, flags);
    if (flags & O_CREAT)
        mode = va_arg(more, mode_t);
    va_end(more);
    is_changed |= (flags & O_CREAT) != 0;
    if (is_it(1, 0)) {
        was_open = 1;
        return refuse();
    }
    return __real_openat(folder, path, flags, mode);
}

int __wrap_renameat(int from_folder, const char *from, int to_folder, const char *to)
{
    is_changed = 1;
    return is_it(0, 0) ? refuse() : __real_renameat(from_folder, from, to_folder, to);
}

int __wrap_unlinkat(int folder, const char *path, int flags)
{
    is_changed = 1;
    return is_it(0, 0) ? refuse() : __real_unlinkat(folder, path, flags);
}

/* (that a disk has what it has is not tested) */
int __wrap_fdatasync(int descriptor)
{
    if (is_it(1, 0))
        return refuse();
    if (descriptor < DESCRIPTORS)
        is_dirty[descriptor] = 0;
    return 0;
}

/* (only a folder is brought there by it) */
int __wrap_fsync(int descriptor)
{
    EXPECT(descriptor, host.folder);
    if (is_it(1, 0))
        return refuse();
    if (is_refused) {
        is_refused = 0;
        errno = EIO;
        return -1;
    }
    is_changed = 0;
    folder_syncs++;
    return 0;
}

/* (a close that fails has closed its file, and those of the folder and its lock are not counted) */
int __wrap_close(int descriptor)
{
    const int is_file = descriptor != host.folder && descriptor != host.held, closed = __real_close(descriptor);
    if (descriptor < DESCRIPTORS) {
        closed_dirty += is_dirty[descriptor];
        is_dirty[descriptor] = 0;
    }
    return is_file && is_it(0, 0) ? refuse() : closed;
}

static int misses(enum look at)
{
    looks += look == at;
    return look == at;
}

int __wrap_fstatat(int folder, const char *path, struct stat *found, int flags)
{
    return misses(ONE) ? refuse() : __real_fstatat(folder, path, found, flags);
}

DIR *__wrap_fdopendir(int descriptor)
{
    if (!misses(LIST))
        return __real_fdopendir(descriptor);
    refuse();
    return NULL;
}

struct dirent *__wrap_readdir(DIR *list)
{
    if (!misses(NEXT))
        return __real_readdir(list);
    refuse();
    return NULL;
}

static size_t length_of(const char *folder, const char *name)
{
    size_t length;
    free(bytes_of(path_of(folder, name), &length));
    return length;
}

/* Logs some lines, while the call of this number goes wrong; answers whether there was one. */
static int run(const char *folder, int number)
{
    static const alog_options options = {1, 1, 0, 1};
    alog_client client = {NULL, {0, NULL}};
    alog_report report;
    int failures;
    static const char *const names[] = {"a.txt", "a.1.txt", "b.txt", "c.txt"};
    for (size_t i = 0; i < sizeof names / sizeof names[0]; i++)
        remove(path_of(folder, names[i]));
    EXPECT(alog_start_with(&host, config, sizeof config - 1, folder, &options), ALOG_DONE);
    EXPECT(alog_client_open(&host, &client), ALOG_DONE);
    calls = 0;
    wanted = number;
    is_armed = 1;
    is_changed = closed_dirty = took_nothing = 0;
    for (int i = 0; i < LINES; i++)
        EXPECT(alog_log_wait(&client, 0, ALOG_INFO, "of ten...", 9), ALOG_DONE);
    EXPECT(alog_client_close(&client), ALOG_DONE);
    EXPECT(alog_stop(&host, &report), ALOG_DONE);
    is_armed = 0;
    EXPECT(report.handled, LINES);
    EXPECT(report.faults, 0);
    if (calls < number)
        return 0;
    failures = way == FAILS || took_nothing;
    if (!EXPECT(host.failures, failures))
        printf("(call %d, way %d)\n", number, (int)way);
    EXPECT(host.failed_errno, failures ? EIO : 0);
    if (!failures) {
        EXPECT(closed_dirty + is_changed, 0);
        EXPECT(length_of(folder, "a.txt"), 20);
        EXPECT(length_of(folder, "a.1.txt"), 20);
        EXPECT(length_of(folder, "b.txt"), 20);
    }
    /* a line that was not written is missing, and no other one */
    EXPECT(length_of(folder, "c.txt") + (failures && length_of(folder, "c.txt") < 10 * LINES ? 10 : 0), 10 * LINES);
    return 1;
}

/* Many lines, and no flush but those of a worker that rests: each file that makes way is on the disk before. */
static void flush_seldom(const char *folder)
{
    static const alog_options options = {1, 1, 0, 1};
    static const char seldom[] = "queue = 64\n"
                                 "[[sink]]\nname = \"a\"\nkind = \"rotating\"\nfile = \"a.txt\"\npattern = \"%v\"\nmax_size = 20\nmax_files = 1\n"
                                 "[[logger]]\nname = \"net\"\nsinks = [\"a\"]\n";
    alog_client client = {NULL, {0, NULL}};
    alog_report report;
    is_changed = closed_dirty = 0;
    EXPECT(alog_start_with(&host, seldom, sizeof seldom - 1, folder, &options), ALOG_DONE);
    EXPECT(alog_client_open(&host, &client), ALOG_DONE);
    for (int i = 0; i < 1000; i++)
        EXPECT(alog_log_wait(&client, 0, ALOG_INFO, "of ten...", 9), ALOG_DONE);
    EXPECT(alog_client_close(&client), ALOG_DONE);
    EXPECT(alog_stop(&host, &report), ALOG_DONE);
    EXPECT(report.faults + host.failures, 0);
    EXPECT(closed_dirty + is_changed, 0);
    EXPECT(length_of(folder, "a.txt"), 20);
    EXPECT(length_of(folder, "a.1.txt"), 20);
}

/* The folder's names, which a flush could not bring to the disk, are brought there by the next one. */
static void names_again(const char *folder)
{
    static const alog_options options = {1, 1, 0, 1};
    static const char one[] = "queue = 64\n[[sink]]\nname = \"d\"\nkind = \"memory\"\nfile = \"d.txt\"\npattern = \"%v\"\n"
                              "[[logger]]\nname = \"net\"\nflush_on = \"info\"\nsinks = [\"d\"]\n";
    alog_client client = {NULL, {0, NULL}};
    alog_report report;
    EXPECT(alog_start_with(&host, one, sizeof one - 1, folder, &options), ALOG_DONE);
    EXPECT(alog_client_open(&host, &client), ALOG_DONE);
    is_refused = 1;
    folder_syncs = 0;
    for (int i = 0; i < LINES; i++)
        EXPECT(alog_log_wait(&client, 0, ALOG_INFO, "of ten...", 9), ALOG_DONE);
    EXPECT(alog_client_close(&client), ALOG_DONE);
    EXPECT(alog_stop(&host, &report), ALOG_DONE);
    EXPECT(is_refused, 0);
    EXPECT(host.failures, 1);
    EXPECT(is_changed, 0);
    EXPECT(folder_syncs, 1);
}

/* The end of a host, where the library says that all was taken, and where it does not. */
static void end_once(const char *folder, int endless)
{
    alog_report report;
    int first = 0;
    EXPECT(alog_start(&host, config, sizeof config - 1, folder, 1), ALOG_DONE);
    ends = 0;
    is_endless = endless;
    EXPECT(alog_stop(&host, &report), ALOG_DONE);
    is_endless = 0;
    EXPECT(ends, 1);
    EXPECT(alog_failures(&host, &first), endless);
    EXPECT(first, endless ? EIO : 0);
}

/* Waits until a host tells so many faults. */
static void meets(uint64_t faults)
{
    const int64_t end = alog_now() + SECONDS * (int64_t)1000000000;
    while (alog_faults(&host) < faults && alog_now() < end)
        sched_yield();
    EXPECT(alog_faults(&host), faults);
}

/* A host whose sink has three areas, one of which each message takes, by its line and a flush: when they are not taken in time the sink is broken
   for good. The host tells both turns of each message that is missing before the end, and the report these and the flush of the end. The next start
   forgets them. */
static void run_out(const char *folder)
{
    static const alog_options options = {1, 1, 3, 0};
    static const char one[] = "queue = 64\n[[sink]]\nname = \"e\"\nkind = \"memory\"\nfile = \"e.txt\"\npattern = \"%v\"\n"
                              "[[logger]]\nname = \"net\"\nflush_on = \"info\"\nsinks = [\"e\"]\n";
    alog_client client = {NULL, {0, NULL}};
    alog_report report;
    EXPECT(alog_start_with(&host, one, sizeof one - 1, folder, &options), ALOG_DONE);
    EXPECT(alog_faults(&host), 0);
    EXPECT(alog_client_open(&host, &client), ALOG_DONE);
    __atomic_store_n(&is_held, 1, __ATOMIC_SEQ_CST);
    for (int i = 0; i < 5; i++)
        EXPECT(alog_log_wait(&client, 0, ALOG_INFO, "of ten...", 9), ALOG_DONE);
    meets(4);
    __atomic_store_n(&is_held, 0, __ATOMIC_SEQ_CST);
    EXPECT(alog_log_wait(&client, 0, ALOG_INFO, "of ten...", 9), ALOG_DONE);
    meets(6);
    EXPECT(alog_client_close(&client), ALOG_DONE);
    EXPECT(alog_stop(&host, &report), ALOG_DONE);
    EXPECT(report.handled, 6);
    EXPECT(report.faults, 7);
    EXPECT(alog_faults(&host), 6);
    EXPECT(host.failures, 0);
    EXPECT(length_of(folder, "e.txt"), 30);
    EXPECT(alog_start_with(&host, one, sizeof one - 1, folder, &options), ALOG_DONE);
    EXPECT(alog_faults(&host), 0);
    EXPECT(alog_stop(&host, &report), ALOG_DONE);
    EXPECT(report.faults, 0);
}

/* A start while the call of this number goes wrong; answers whether there was one. It is refused where that was an open that failed, and nothing
   is left of it. */
static int begin(const char *folder, int number)
{
    alog_report report;
    alog_answer answer;
    calls = was_open = 0;
    wanted = number;
    is_armed = 1;
    answer = alog_start(&host, config, sizeof config - 1, folder, 1);
    is_armed = 0;
    EXPECT(answer, way == FAILS && was_open ? ALOG_NO_STORE : ALOG_DONE);
    EXPECT(host.told[0] == 0, answer == ALOG_DONE);
    if (answer == ALOG_DONE)
        EXPECT(alog_stop(&host, &report), ALOG_DONE);
    EXPECT(host.pool.kind + host.files.kind + host.is_open, 0);
    return calls >= number;
}

static int descriptors(void)
{
    int count = 0;
    for (int number = 0; number < DESCRIPTORS; number++)
        count += fcntl(number, F_GETFD) >= 0;
    return count;
}

/* A start whose look at the folder fails is refused in these words, and nothing is left of it. (Where the C library has no call of this name, none
   fails.) */
static void look_fails(const char *folder, enum look at, const char *before, const char *behind)
{
    alog_report report;
    alog_answer answer;
    char words[600];
    const int had = descriptors();
    way = FAILS;
    looks = 0;
    look = at;
    answer = alog_start(&host, config, sizeof config - 1, folder, 1);
    look = NONE;
    EXPECT(answer, looks > 0 ? ALOG_NO_STORE : ALOG_DONE);
    if (answer == ALOG_DONE) {
        EXPECT(alog_stop(&host, &report), ALOG_DONE);
        return;
    }
    EXPECT(strncmp(host.told, before, strlen(before)), 0);
    snprintf(words, sizeof words, "%s%s%s", folder, behind, strerror(EIO));
    EXPECT_TEXT(strstr(host.told, folder) == NULL ? host.told : strstr(host.told, folder), words);
    EXPECT(host.pool.kind + host.files.kind + host.is_open, 0);
    EXPECT(descriptors(), had);
}

int main(int argc, char **argv)
{
    static const char *const ways[] = {"fail", "are interrupted", "take a byte", "take nothing"};
    if (argc != 2)
        return 2;
    for (int at = FAILS; at <= NOTHING; at++) {
        int number = 1;
        way = (enum way)at;
        while (run(argv[1], number) && trial_failed < 20)
            number++;
        printf("calls: %d calls %s in turn\n", number - 1, ways[at]);
        EXPECT(number > 60, 1);
    }
    flush_seldom(argv[1]);
    names_again(argv[1]);
    run_out(argv[1]);
    end_once(argv[1], 0);
    end_once(argv[1], 1);
    for (int at = FAILS; at <= INTERRUPTED; at++) {
        int number = 1;
        way = (enum way)at;
        while (begin(argv[1], number) && trial_failed < 20)
            number++;
        printf("calls: %d calls of a start %s in turn\n", number - 1, ways[at]);
        EXPECT(number > 8, 1);
    }
    look_fails(argv[1], ONE, "the file ", " cannot be looked at: ");
    look_fails(argv[1], LIST, "the files of ", " cannot be listed: ");
    look_fails(argv[1], NEXT, "the files of ", " cannot be listed: ");
    return trial_end();
}
