/* Folders and files that refuse what a host asks of them: faults FOLDER. What fails is counted, and the rest goes on. */
#define _GNU_SOURCE
#include "alog_host.h"
#include "trial.h"

#include <sys/mount.h>
#include <sys/resource.h>

enum { SECONDS = 10 };

static alog_host host;
static alog_client client;
static alog_report report;
static char place[512];

static const char two[] = "queue = 64\n"
                          "[[sink]]\nname = \"full\"\nkind = \"memory\"\nfile = \"full.txt\"\npattern = \"%v\"\n"
                          "[[sink]]\nname = \"good\"\nkind = \"memory\"\nfile = \"good.txt\"\npattern = \"%v\"\nlevel = \"error\"\n"
                          "[[logger]]\nname = \"both\"\nsinks = [\"full\", \"good\"]\n";
static const char four[] = "queue = 64\n"
                           "[[sink]]\nname = \"folder\"\nkind = \"memory\"\npattern = \"%v\"\n"
                           "[[sink]]\nname = \"link\"\nkind = \"memory\"\npattern = \"%v\"\n"
                           "[[sink]]\nname = \"pipe\"\nkind = \"memory\"\npattern = \"%v\"\n"
                           "[[sink]]\nname = \"good\"\nkind = \"memory\"\npattern = \"%v\"\n"
                           "[[logger]]\nname = \"all\"\nsinks = [\"folder\", \"link\", \"pipe\", \"good\"]\n";

/* A folder in the folder of the test. */
static const char *inner(const char *folder, const char *name)
{
    static char path[512];
    snprintf(path, sizeof path, "%s/%s", folder, name);
    EXPECT(trial_folder(path), 0);
    return path;
}

static size_t length_of(const char *folder, const char *name)
{
    size_t length;
    free(bytes_of(path_of(folder, name), &length));
    return length;
}

static void start(const char *config, const char *folder)
{
    EXPECT(alog_start(&host, config, strlen(config), folder, 1), ALOG_DONE);
    EXPECT(alog_client_open(&host, &client), ALOG_DONE);
}

static void stop(void)
{
    EXPECT(alog_client_close(&client), ALOG_DONE);
    EXPECT(alog_stop(&host, &report), ALOG_DONE);
    EXPECT(report.handled, report.asked);
    EXPECT(report.faults, 0);
}

/* A start is refused in these words, which begin as they are to, and nothing is left of it. */
static void refused(const char *folder, const char *begins)
{
    EXPECT(alog_start(&host, two, sizeof two - 1, folder, 1), ALOG_NO_STORE);
    if (!EXPECT(strncmp(host.told, begins, strlen(begins)), 0))
        printf("told: %s\n", host.told);
    EXPECT(host.pool.kind + host.files.kind + host.is_open, 0);
    EXPECT(host.area == NULL, 1);
}

/* How many descriptors the process has. */
static int descriptors(void)
{
    const struct dirent *it;
    DIR *list = opendir("/proc/self/fd");
    int count = 0;
    while (list != NULL && (it = readdir(list)) != NULL)
        count++;
    if (list != NULL)
        closedir(list);
    return count;
}

static void folders(const char *folder)
{
    static alog_host other;
    char words[600];
    const int before = descriptors();
    snprintf(place, sizeof place, "%s/absent", folder);
    snprintf(words, sizeof words, "no files can be written to %s: ", place);
    refused(place, words);
    snprintf(place, sizeof place, "%s/file", folder);
    fclose(fopen(place, "w"));
    snprintf(words, sizeof words, "no files can be written to %s: ", place);
    refused(place, words);
    snprintf(place, sizeof place, "%s", inner(folder, "odd"));
    EXPECT(mkdir(path_of(place, ".alog.lock"), 0777), 0);
    snprintf(words, sizeof words, "%s/.alog.lock cannot be locked: ", place);
    refused(place, words);
    snprintf(place, sizeof place, "%s", inner(folder, "closed"));
    EXPECT(chmod(place, 0555), 0);
    if (geteuid() != 0) {
        snprintf(words, sizeof words, "no files can be written to %s: ", place);
        refused(place, words);
    }
    EXPECT(chmod(place, 0777), 0);
    /* a folder that is held, and then not */
    EXPECT(alog_start(&other, two, sizeof two - 1, place, 1), ALOG_DONE);
    snprintf(words, sizeof words, "%s is in use: another alog holds its .alog.lock", place);
    refused(place, words);
    EXPECT(alog_stop(&other, &report), ALOG_DONE);
    EXPECT(alog_start(&host, two, sizeof two - 1, place, 1), ALOG_DONE);
    EXPECT(alog_stop(&host, &report), ALOG_DONE);
    EXPECT(descriptors(), before);
}

/* A file that may have a thousand bytes takes these, and the other file all. When it may have more, it goes on. */
static void full_file(const char *folder)
{
    struct rlimit before, small;
    int first = 0;
    snprintf(place, sizeof place, "%s", inner(folder, "limit"));
    EXPECT(getrlimit(RLIMIT_FSIZE, &before), 0);
    small = before;
    small.rlim_cur = 1000;
    signal(SIGXFSZ, SIG_IGN);
    start(two, place);
    EXPECT(setrlimit(RLIMIT_FSIZE, &small), 0);
    for (int i = 0; i < 90; i++)
        EXPECT(alog_log_wait(&client, 0, i < 80 ? ALOG_INFO : ALOG_ERROR, "of fourteen..", 13), ALOG_DONE);
    EXPECT(alog_flush_now(&client, 0), ALOG_DONE);
    while (length_of(place, "good.txt") < 140)
        sched_yield();
    EXPECT(length_of(place, "full.txt"), 1000);
    while (alog_failures(&host, &first) == 0)
        sched_yield();
    EXPECT(first, EFBIG);
    EXPECT(setrlimit(RLIMIT_FSIZE, &before), 0);
    EXPECT(alog_log_wait(&client, 0, ALOG_INFO, "more", 4), ALOG_DONE);
    stop();
    EXPECT(host.failures >= 1 && host.failures <= 90, 1);
    EXPECT(host.failed_errno, EFBIG);
    EXPECT(length_of(place, "good.txt"), 140);
    EXPECT(length_of(place, "full.txt"), 1005);
}

/* A start is refused for the sake of this file, in these words behind its folder, and nothing is left of it. */
static void refused_file(const char *config, const char *name, const char *behind)
{
    char words[700];
    const int before = descriptors();
    snprintf(words, sizeof words, "the file %s of %s%s", name, place, behind);
    EXPECT(alog_start(&host, config, strlen(config), place, 1), ALOG_NO_STORE);
    EXPECT_TEXT(host.told, words);
    EXPECT(host.pool.kind + host.files.kind + host.is_open, 0);
    EXPECT(host.area == NULL, 1);
    EXPECT(descriptors(), before);
}

/* Sinks whose files are a folder, a link and a pipe that nobody reads: a start is refused where they are there, and when they come later, their
   lines are missing. What a link leads to stays as it is. */
static void odd_files(const char *folder)
{
    snprintf(place, sizeof place, "%s", inner(folder, "files"));
    fclose(fopen(path_of(place, "target"), "w"));
    for (int round = 0; round < 2; round++) {
        if (round == 1)
            start(four, place);
        EXPECT(mkdir(path_of(place, "folder"), 0777), 0);
        if (round == 0) {
            refused_file(four, "folder", " cannot be written: Is a directory");
            EXPECT(rmdir(path_of(place, "folder")), 0);
        }
        EXPECT(symlink("target", path_of(place, "link")), 0);
        if (round == 0) {
            refused_file(four, "link", " is no regular file");
            EXPECT(unlink(path_of(place, "link")), 0);
        }
        EXPECT(mkfifo(path_of(place, "pipe"), 0666), 0);
        if (round == 0) {
            refused_file(four, "pipe", " is no regular file");
            EXPECT(unlink(path_of(place, "pipe")), 0);
        }
    }
    EXPECT(alog_log_wait(&client, 0, ALOG_INFO, "line", 4), ALOG_DONE);
    stop();
    EXPECT(host.failures, 3);
    EXPECT(host.failed_errno == EISDIR || host.failed_errno == EINVAL, 1);
    EXPECT(length_of(place, "target"), 0);
    EXPECT(length_of(place, "good"), 5);
}

/* No sink has the lock, however its name is spelled, nor has a member of a fan. A file without permission is refused, and so is nothing else that
   is there. */
static void looks(const char *folder)
{
    static const char locked[] = "queue = 64\n[[sink]]\nname = \"a\"\nkind = \"%s\"\nfile = \"%s\"\n%s"
                                 "[[sink]]\nname = \"fan\"\nkind = \"fan\"\nof = [\"a\"]\n[[logger]]\nname = \"net\"\nsinks = [\"fan\"]\n";
    static const char *const sized = "max_size = 100\nmax_files = 1\n";
    static const char words[] = " is its lock, which no sink may have";
    char config[600];
    snprintf(place, sizeof place, "%s", inner(folder, "looks"));
    snprintf(config, sizeof config, locked, "memory", ".alog.lock", "");
    refused_file(config, ".alog.lock", words);
    snprintf(config, sizeof config, locked, "memory", "\\u002ealog.loc\\u006b", "");
    refused_file(config, ".alog.lock", words);
    snprintf(config, sizeof config, locked, "rotating", ".alog.lock", sized);
    refused_file(config, ".alog.lock", words);
    snprintf(config, sizeof config, locked, "daily", ".alog.lock", "");
    EXPECT(alog_start(&host, config, strlen(config), place, 1), ALOG_DONE);
    EXPECT(alog_stop(&host, &report), ALOG_DONE);
    fclose(fopen(path_of(place, "full.txt"), "w"));
    EXPECT(chmod(path_of(place, "full.txt"), 0444), 0);
    if (geteuid() != 0)
        refused_file(two, "full.txt", " cannot be written: Permission denied");
    EXPECT(chmod(path_of(place, "full.txt"), 0600), 0);
    EXPECT(alog_start(&host, two, sizeof two - 1, place, 1), ALOG_DONE);
    EXPECT(alog_stop(&host, &report), ALOG_DONE);
    EXPECT(report.asked + report.faults + host.failures, 0);
    EXPECT(length_of(place, "full.txt"), 0);
}

static void expect_file(const char *name, const char *wanted)
{
    size_t length;
    char *bytes = bytes_of(path_of(place, name), &length);
    EXPECT_TEXT(bytes, wanted);
    free(bytes);
}

/* Logs a line, and waits until it is in its file. */
static void log_into(const char *name, const char *text, size_t length)
{
    const int64_t end = alog_now() + SECONDS * (int64_t)1000000000;
    EXPECT(alog_log_wait(&client, 0, ALOG_INFO, text, strlen(text)), ALOG_DONE);
    while (length_of(place, name) != length && alog_now() < end)
        sched_yield();
    EXPECT(length_of(place, name), length);
}

/* A rotation whose second file cannot become the third, since a folder has that name: no file is replaced, the sink goes on in its first one,
   and when the folder is gone, so does the rotation. */
static void kept_files(const char *folder)
{
    static const char config[] = "queue = 64\n[[sink]]\nname = \"a\"\nkind = \"rotating\"\nfile = \"log.txt\"\npattern = \"%v\"\n"
                                 "max_size = 10\nmax_files = 3\n[[logger]]\nname = \"net\"\nsinks = [\"a\"]\n";
    snprintf(place, sizeof place, "%s", inner(folder, "kept"));
    EXPECT(mkdir(path_of(place, "log.3.txt"), 0777), 0);
    start(config, place);
    log_into("log.txt", "1111111", 8);
    log_into("log.txt", "22222222", 9);
    log_into("log.txt", "333333333", 10);
    EXPECT(alog_failures(&host, NULL), 0);
    log_into("log.txt", "4444444", 18);
    log_into("log.txt", "5555555", 26);
    EXPECT(alog_failures(&host, NULL), 2);
    expect_file("log.txt", "333333333\n4444444\n5555555\n");
    expect_file("log.1.txt", "22222222\n");
    expect_file("log.2.txt", "1111111\n");
    EXPECT(rmdir(path_of(place, "log.3.txt")), 0);
    log_into("log.txt", "66666", 6);
    log_into("log.txt", "7777777", 8);
    stop();
    EXPECT(host.failures, 2);
    expect_file("log.txt", "7777777\n");
    expect_file("log.1.txt", "66666\n");
    expect_file("log.2.txt", "333333333\n4444444\n5555555\n");
    expect_file("log.3.txt", "22222222\n");
}

/* A folder that is removed while its host runs: what is to be made there is counted. */
static void removed(const char *folder)
{
    snprintf(place, sizeof place, "%s", inner(folder, "removed"));
    start(two, place);
    EXPECT(unlink(path_of(place, ".alog.lock")), 0);
    EXPECT(rmdir(place), 0);
    EXPECT(alog_log_wait(&client, 0, ALOG_ERROR, "line", 4), ALOG_DONE);
    stop();
    EXPECT(host.failures, 2);
    EXPECT(host.failed_errno, ENOENT);
}

/* A disk of one page, where a small system of files can be mounted. */
static void full_disk(const char *folder)
{
    snprintf(place, sizeof place, "%s", inner(folder, "disk"));
    if (mount("none", place, "tmpfs", 0, "size=16k") != 0)
        return;
    start(two, place);
    for (int i = 0; i < 2000; i++)
        EXPECT(alog_log_wait(&client, 0, ALOG_INFO, "of fourteen..", 13), ALOG_DONE);
    stop();
    EXPECT(host.failures > 0, 1);
    EXPECT(host.failed_errno, ENOSPC);
    EXPECT(length_of(place, "full.txt") > 0 && length_of(place, "full.txt") <= 16384, 1);
    EXPECT(umount(place), 0);
    puts("faults: a full disk was tried");
}

int main(int argc, char **argv)
{
    if (argc != 2)
        return 2;
    folders(argv[1]);
    full_file(argv[1]);
    odd_files(argv[1]);
    looks(argv[1]);
    kept_files(argv[1]);
    removed(argv[1]);
    full_disk(argv[1]);
    return trial_end();
}
