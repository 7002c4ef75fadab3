/* What a host makes of the files of a folder: files FOLDER. Rotating files, over some starts, by a model that does what the configuration says;
   files by days; more files than are open at once; files that are good while nothing can be written; texts that are formatted; and what the
   names of a sink's files tell. */
#define _GNU_SOURCE
#include "alog_host.h"
#include "trial.h"

#include <sys/resource.h>
#include <wchar.h>

enum { NAMES = 20, KEPT = 3 };

static alog_host host;
static alog_client client;
static char place[512];
static uint32_t is_synced;

static void start(const char *config)
{
    const alog_options options = {1, 1, 0, is_synced};
    if (!EXPECT(alog_start_with(&host, config, strlen(config), place, &options), ALOG_DONE))
        printf("told: %s\n", host.told);
    EXPECT(alog_client_open(&host, &client), ALOG_DONE);
    EXPECT(host.batch, 14);
}

/* Ends the host behind so many messages, where calls on files failed, the first of them for this reason, or none, which is 0. */
static void end(uint64_t messages, int reason)
{
    alog_report report;
    int error = 0;
    EXPECT(alog_client_close(&client), ALOG_DONE);
    EXPECT(alog_stop(&host, &report), ALOG_DONE);
    EXPECT(report.handled, messages);
    EXPECT(report.faults, 0);
    EXPECT(alog_failures(&host, &error) > 0, reason != 0);
    EXPECT(error, reason);
}

static void stop(uint64_t messages)
{
    end(messages, 0);
}

static void log_text(const char *text, int64_t time)
{
    const alog_message message = {0, ALOG_INFO, time, text, strlen(text), NULL};
    EXPECT(alog_post_wait(&client, &message), ALOG_DONE);
}

static void expect_file(const char *name, const char *wanted)
{
    size_t length;
    char *bytes = bytes_of(path_of(place, name), &length);
    EXPECT(length, strlen(wanted));
    if (!EXPECT_TEXT(bytes, wanted))
        printf("(of %s)\n", name);
    free(bytes);
}

static int is_there(const char *name)
{
    struct stat found;
    return lstat(path_of(place, name), &found) == 0;
}

static void enter(const char *folder, const char *name)
{
    snprintf(place, sizeof place, "%s/%s", folder, name);
    EXPECT(trial_folder(place), 0);
}

/* A file with three behind it, as they are to be. */
static char model[KEPT + 1][2000];
static const char *const numbered[KEPT + 1] = {"log.txt", "log.1.txt", "log.2.txt", "log.3.txt"};

static void model_line(const char *text, size_t most)
{
    const size_t length = strlen(text) + 1;
    if (model[0][0] != 0 && strlen(model[0]) + length > most) {
        memmove(model[1], model[0], KEPT * sizeof model[0]);
        model[0][0] = 0;
    }
    strcat(strcat(model[0], text), "\n");
}

/* So many lines, of lengths that go up and down. */
static void rotate_some(int lines, size_t most)
{
    static int number;
    for (int i = 0; i < lines; i++) {
        char text[100];
        snprintf(text, sizeof text, "%d %.*s", number, number * 7 % 60, "............................................................");
        number++;
        log_text(text, 0);
        model_line(text, most);
    }
}

/* A file is there when the first host starts, and each host goes on in the files of the one before, also in one that is too large. */
static void rotations(const char *folder, const char *name)
{
    static const char config[] = "queue = 64\n[[sink]]\nname = \"a\"\nkind = \"rotating\"\nfile = \"log.txt\"\npattern = \"%v\"\n"
                                 "max_size = 500\nmax_files = 3\n[[logger]]\nname = \"net\"\nsinks = [\"a\"]\n";
    static const int lines[] = {3, 0, 1, 50, 7, 1, 200, 2};
    FILE *file;
    enter(folder, name);
    memset(model, 0, sizeof model);
    snprintf(model[0], sizeof model[0], "%0450d\n", 0);
    file = fopen(path_of(place, "log.txt"), "w");
    fputs(model[0], file);
    fclose(file);
    for (size_t round = 0; round < sizeof lines / sizeof lines[0]; round++) {
        start(config);
        rotate_some(lines[round], 500);
        stop((uint64_t)lines[round]);
        for (int i = 0; i <= KEPT; i++)
            if (model[i][0] != 0)
                expect_file(numbered[i], model[i]);
    }
    EXPECT(is_there("log.4.txt"), 0);
    /* one that is too large when a host starts makes way for the first line */
    snprintf(model[0], sizeof model[0], "%0900d\n", 0);
    file = fopen(path_of(place, "log.txt"), "w");
    fputs(model[0], file);
    fclose(file);
    start(config);
    rotate_some(1, 500);
    stop(1);
    for (int i = 0; i <= KEPT; i++)
        expect_file(numbered[i], model[i]);
}

/* A file that is removed when it is full. */
static void removals(const char *folder)
{
    static const char config[] = "queue = 64\n[[sink]]\nname = \"a\"\nkind = \"rotating\"\nfile = \"log.txt\"\npattern = \"%v\"\n"
                                 "max_size = 10\nmax_files = 0\n[[logger]]\nname = \"net\"\nsinks = [\"a\"]\n";
    enter(folder, "removals");
    start(config);
    log_text("1234", 0);
    log_text("5678", 0);
    log_text("last", 0);
    stop(3);
    expect_file("log.txt", "last\n");
    EXPECT(is_there("log.1.txt"), 0);
}

/* A message a day for twenty days: all files, and the last three. */
static void days(const char *folder, const char *name, int kept)
{
    static const int64_t day = 86400000000000;
    char config[512], file[40], text[40];
    enter(folder, name);
    snprintf(config, sizeof config,
             "queue = 64\n[[sink]]\nname = \"a\"\nkind = \"daily\"\nfile = \"log.txt\"\npattern = \"%%v\"\nmax_files = %d\n"
             "[[logger]]\nname = \"net\"\nsinks = [\"a\"]\n",
             kept);
    start(config);
    for (int number = 0; number < NAMES; number++) {
        snprintf(text, sizeof text, "day %d", number + 1);
        log_text(text, number * day);
        log_text("late", number * day - 1);
    }
    stop(2 * NAMES);
    for (int number = 0; number < NAMES; number++) {
        snprintf(file, sizeof file, "log_1970-01-%02d.txt", number + 1);
        snprintf(text, sizeof text, "day %d\nlate\n", number + 1);
        if (kept == 0 || number >= NAMES - kept)
            expect_file(file, text);
        else
            EXPECT(is_there(file), 0);
    }
}

/* Twenty files in turn, of which sixteen are open. */
static void many_files(const char *folder, const char *name, unsigned lines)
{
    static char config[8192], wanted[10000];
    size_t length = (size_t)snprintf(config, sizeof config, "queue = 64\n");
    struct stat found;
    enter(folder, name);
    for (int number = 0; number < NAMES; number++)
        length += (size_t)snprintf(config + length, sizeof config - length,
                                   "[[sink]]\nname = \"f%d\"\nkind = \"memory\"\npattern = \"%%v\"\n", number);
    length += (size_t)snprintf(config + length, sizeof config - length, "[[sink]]\nname = \"fan\"\nkind = \"fan\"\nof = [\"f0\"");
    for (int number = 1; number < 16; number++)
        length += (size_t)snprintf(config + length, sizeof config - length, ", \"f%d\"", number);
    snprintf(config + length, sizeof config - length,
             "]\n[[logger]]\nname = \"all\"\nflush_on = \"info\"\nsinks = [\"fan\", \"f16\", \"f17\", \"f18\", \"f19\"]\n");
    start(config);
    for (unsigned i = 0; i < lines; i++) {
        char text[20];
        snprintf(text, sizeof text, "line %u", i);
        log_text(text, 0);
        strcat(strcat(wanted, text), "\n");
    }
    stop(lines);
    for (int number = 0; number < NAMES; number++) {
        char file[20];
        snprintf(file, sizeof file, "f%d", number);
        expect_file(file, wanted);
    }
    EXPECT(stat(path_of(place, "f0"), &found), 0);
    EXPECT(found.st_mode & 07777, 0644);
    wanted[0] = 0;
}

/* What is in the folder and is no file of a sink stays as it is, whatever it is. */
static void strangers(const char *folder)
{
    static const char config[] = "queue = 64\n[[sink]]\nname = \"a\"\nkind = \"rotating\"\nfile = \"log.txt\"\npattern = \"%v\"\n"
                                 "max_size = 10\nmax_files = 3\n[[logger]]\nname = \"net\"\nsinks = [\"a\"]\n";
    char longest[256];
    enter(folder, "strangers");
    memset(longest, 'n', 255);
    longest[255] = 0;
    fclose(fopen(path_of(place, longest), "w"));
    fclose(fopen(path_of(place, "\xff\xfe"), "w"));
    EXPECT(mkdir(path_of(place, "folder"), 0777), 0);
    EXPECT(symlink("nowhere", path_of(place, "link")), 0);
    EXPECT(symlink("link", path_of(place, "log.1.txt")), 0);
    start(config);
    log_text("1234567", 0);
    log_text("second", 0);
    log_text("third..", 0);
    stop(3);
    expect_file("log.txt", "third..\n");
    expect_file("log.1.txt", "second\n");
    expect_file("log.2.txt", "1234567\n");
    EXPECT(is_there("log.3.txt"), 1);
    EXPECT(is_there(longest) && is_there("\xff\xfe") && is_there("folder") && is_there("link"), 1);
}

/* So many bytes a file may have from now on. */
static void limit(rlim_t most)
{
    struct rlimit now;
    EXPECT(getrlimit(RLIMIT_FSIZE, &now), 0);
    now.rlim_cur = most;
    EXPECT(setrlimit(RLIMIT_FSIZE, &now), 0);
}

static void wait_a_little(void)
{
    const struct timespec millisecond = {0, 1000000};
    nanosleep(&millisecond, NULL);
}

/* Waits until a file has something, ten seconds at the most. */
static void wait_for_file(const char *name)
{
    struct stat found = {0};
    for (int tries = 0; tries < 10000 && (stat(path_of(place, name), &found) != 0 || found.st_size == 0); tries++)
        wait_a_little();
    EXPECT(found.st_size > 0, 1);
}

/* Waits until so many calls failed, ten seconds at the most. */
static void wait_for_failures(uint64_t count)
{
    for (int tries = 0; tries < 10000 && alog_failures(&host, NULL) < count; tries++)
        wait_a_little();
    EXPECT(alog_failures(&host, NULL), count);
}

static const char two_numbers[] = "queue = 64\n[[sink]]\nname = \"a\"\nkind = \"rotating\"\nfile = \"log.v2\"\npattern = \"%v\"\n"
                                  "max_size = 14\nmax_files = 2\n[[logger]]\nname = \"net\"\nsinks = [\"a\"]\n";

/* Lines of seven bytes, with these numbers. */
static void log_numbers(int from, int to)
{
    for (int number = from; number <= to; number++) {
        char text[20];
        snprintf(text, sizeof text, "line %d", number);
        log_text(text, 0);
    }
}

/* While nothing can be written, no file makes way for an empty one; behind that lines go on there. */
static void rotations_in_vain(const char *folder)
{
    enter(folder, "vain");
    start(two_numbers);
    log_numbers(1, 6);
    stop(6);
    limit(0);
    start(two_numbers);
    log_numbers(1, 6);
    end(6, EFBIG);
    limit(RLIM_INFINITY);
    expect_file("log.1.v2", "line 5\nline 6\n");
    expect_file("log.2.v2", "line 3\nline 4\n");
    start(two_numbers);
    log_numbers(7, 8);
    wait_for_file("log.v2");
    /* nor for one that somebody removed; what comes next is in a new one */
    EXPECT(remove(path_of(place, "log.v2")), 0);
    log_numbers(9, 9);
    stop(3);
    expect_file("log.v2", "line 9\n");
    expect_file("log.1.v2", "line 5\nline 6\n");
    expect_file("log.2.v2", "line 3\nline 4\n");
}

/* The same of files by days, of which two stay: none goes while the last line was lost. */
static void days_in_vain(const char *folder)
{
    static const int64_t day = 86400000000000;
    static const char config[] = "queue = 64\n[[sink]]\nname = \"a\"\nkind = \"daily\"\nfile = \"log.txt\"\npattern = \"%v\"\nmax_files = 2\n"
                                 "[[logger]]\nname = \"net\"\nsinks = [\"a\"]\n";
    enter(folder, "vain_days");
    start(config);
    log_text("first", 0);
    log_text("second", day);
    wait_for_file("log_1970-01-02.txt");
    limit(0);
    for (int number = 2; number < 5; number++)
        log_text("lost", number * day);
    wait_for_failures(3);
    limit(RLIM_INFINITY);
    log_text("sixth", 5 * day);
    wait_for_file("log_1970-01-06.txt");
    log_text("seventh", 6 * day);
    end(7, EFBIG);
    EXPECT(host.failures, 3);
    EXPECT(is_there("log_1970-01-01.txt"), 0);
    expect_file("log_1970-01-02.txt", "second\n");
    expect_file("log_1970-01-03.txt", "");
    expect_file("log_1970-01-04.txt", "");
    EXPECT(is_there("log_1970-01-03.txt") && is_there("log_1970-01-04.txt"), 1);
    EXPECT(is_there("log_1970-01-05.txt"), 0);
    expect_file("log_1970-01-06.txt", "sixth\n");
    expect_file("log_1970-01-07.txt", "seventh\n");
}

/* A folder of the name of a numbered file stays where it is, and lines go on in the file without a number. */
static void folder_in_the_way(const char *folder)
{
    struct stat found;
    enter(folder, "in_the_way");
    EXPECT(mkdir(path_of(place, "log.1.v2"), 0777), 0);
    start(two_numbers);
    log_numbers(1, 3);
    end(3, EISDIR);
    EXPECT(host.failures, 1);
    expect_file("log.v2", "line 1\nline 2\nline 3\n");
    EXPECT(lstat(path_of(place, "log.1.v2"), &found) == 0 && S_ISDIR(found.st_mode), 1);
    EXPECT(is_there("log.2.v2"), 0);
}

static int leased;

static void give_up(int signal)
{
    (void)signal;
    fcntl(leased, F_SETLEASE, F_UNLCK);
}

/* A file that somebody holds by a lease, as servers of files do, is waited for. (Where there are no leases, it is a file as any other.) */
static void leases(const char *folder)
{
    static const char config[] = "[[sink]]\nname = \"a\"\nkind = \"memory\"\nfile = \"log.txt\"\npattern = \"%v\"\n"
                                 "[[logger]]\nname = \"l\"\nsinks = [\"a\"]\n";
    enter(folder, "leases");
    fclose(fopen(path_of(place, "log.txt"), "w"));
    leased = open(path_of(place, "log.txt"), O_RDONLY);
    signal(SIGIO, give_up);
    start(config);
    fcntl(leased, F_SETLEASE, F_RDLCK);
    log_text("x", 0);
    stop(1);
    close(leased);
    expect_file("log.txt", "x\n");
}

ALOG_PRINTS(1, 2)
static enum alog_answer print_list(const char *format, ...)
{
    enum alog_answer answer;
    va_list values;
    va_start(values, format);
    answer = alog_vprintf(&client, 0, ALOG_ERROR, format, values);
    va_end(values);
    return answer;
}

/* Texts that are formatted, as long as a text may be and longer, and that cannot be; what is refused is in no file. */
static void prints(const char *folder)
{
    static const char config[] = "text = 8192\n[[sink]]\nname = \"a\"\nkind = \"memory\"\nfile = \"log.txt\"\npattern = \"%l %v\"\n"
                                 "[[logger]]\nname = \"l\"\nsinks = [\"a\"]\n";
    static char text[2 * ALOG_TEXT_MAX];
    const char *none = NULL;
    const wint_t no_letter = 0x7fffffff;
    int formatted = 7;
    enter(folder, "prints");
    start(config);
    EXPECT(alog_printf(&client, 0, ALOG_WARNING, "%s %d of %zu%%", "seven", -7, (size_t)100), ALOG_DONE);
    EXPECT(alog_printf(&client, 0, ALOG_INFO, "%0*d", ALOG_TEXT_MAX, 0), ALOG_DONE);
    EXPECT(alog_printf(&client, 0, ALOG_INFO, "%0*d", ALOG_TEXT_MAX + 1, 0), ALOG_TEXT_TOO_LONG);
    EXPECT(alog_printf(&client, 0, ALOG_INFO, "%lc", no_letter), ALOG_NOT_UTF8);
    EXPECT(alog_printf(&client, 0, ALOG_INFO, "%s", "\xff"), ALOG_NOT_UTF8);
    EXPECT(alog_printf(&client, 0, ALOG_DEBUG, "%d%n", 1, &formatted), ALOG_FILTERED);
    EXPECT(formatted, 7);
    EXPECT(alog_printf(&client, 1, ALOG_INFO, "%d", 1), ALOG_NO_LOGGER);
    EXPECT(alog_printf(NULL, 0, ALOG_INFO, "%d", 1), ALOG_NULL);
    EXPECT(alog_printf(&client, 0, ALOG_INFO, none, 1), ALOG_NULL);
    EXPECT(print_list("%s of %d", "list", 2), ALOG_DONE);
    stop(3);
    snprintf(text, sizeof text, "warning seven -7 of 100%%\ninfo %0*d\nerror list of 2\n", ALOG_TEXT_MAX, 0);
    expect_file("log.txt", text);
}

/* Where standard streams are closed, as a daemon has them, no file of a host takes the place of one. */
static void closed_streams(const char *folder)
{
    static const char config[] = "[[sink]]\nname = \"a\"\nkind = \"memory\"\nfile = \"log.txt\"\npattern = \"%v\"\n"
                                 "[[logger]]\nname = \"l\"\nsinks = [\"a\"]\n";
    int kept[2], taken = 0, number;
    enter(folder, "streams");
    fflush(stdout);
    for (number = 0; number < 2; number++) {
        kept[number] = fcntl(number, F_DUPFD, 10);
        close(number);
    }
    start(config);
    log_text("x", 0);
    for (number = 0; number < 2; number++)
        taken += fcntl(number, F_GETFD) >= 0;
    stop(1);
    for (number = 0; number < 2; number++) {
        EXPECT(dup2(kept[number], number), number);
        close(kept[number]);
    }
    EXPECT(taken, 0);
    expect_file("log.txt", "x\n");
}

/* The name of a sink's file with these bytes in front of its ending, as the library puts them there. */
static void with_mark(char *to, size_t room, const char *name, const char *mark)
{
    const size_t length = strlen(name);
    const char *point = strrchr(name, '.');
    const size_t ending = point == NULL || point == name || point[1] == 0 ? length : (size_t)(point - name);
    snprintf(to, room, "%.*s%s%s", (int)ending, name, mark, name + ending);
}

/* The file of a sink is told by the names of its others, whatever the points and digits in its name. */
static void names(void)
{
    static const char letters[] = "a.17", *const numbers[] = {".1", ".10", ".777", ".1000"};
    enum { LENGTH = 5 };
    for (unsigned number = 0; number < 1 << 2 * LENGTH; number++)
        for (unsigned length = 1; length <= LENGTH; length++) {
            char name[LENGTH + 1] = "", marked[32], to[ALOG_NAME_MAX];
            for (unsigned at = 0; at < length; at++)
                name[at] = letters[number >> 2 * at & 3];
            if (number >> 2 * length != 0 || strcmp(name, ".") == 0 || strcmp(name, "..") == 0)
                continue;
            for (size_t row = 0; row < sizeof numbers / sizeof numbers[0]; row++) {
                with_mark(marked, sizeof marked, name, numbers[row]);
                if (!EXPECT(alog_without(to, marked, strlen(marked), alog_number_behind), length) || !EXPECT(memcmp(to, name, length), 0) ||
                    !EXPECT(alog_number_of(marked, strlen(marked)), strtoul(numbers[row] + 1, NULL, 10)))
                    printf("(of %s)\n", marked);
            }
            with_mark(marked, sizeof marked, name, "_2026-12-01");
            if (!EXPECT(alog_without(to, marked, strlen(marked), alog_date_behind), length) || !EXPECT(memcmp(to, name, length), 0))
                printf("(of %s)\n", marked);
            EXPECT(alog_without(to, name, length, alog_date_behind), 0);
        }
}

int main(int argc, char **argv)
{
    if (argc != 2)
        return 2;
    umask(022);
    rotations(argv[1], "rotations");
    removals(argv[1]);
    days(argv[1], "days", 0);
    days(argv[1], "last_days", 3);
    days(argv[1], "last_day", 1);
    many_files(argv[1], "many", 300);
    strangers(argv[1]);
    signal(SIGXFSZ, SIG_IGN);
    rotations_in_vain(argv[1]);
    days_in_vain(argv[1]);
    folder_in_the_way(argv[1]);
    leases(argv[1]);
    prints(argv[1]);
    closed_streams(argv[1]);
    names();
    is_synced = 1;
    rotations(argv[1], "synced_rotations");
    days(argv[1], "synced_days", 3);
    many_files(argv[1], "synced_many", 5);
    return trial_end();
}
