/* What stays where a file of a rotation cannot be renamed: stays FOLDER. It is linked with --wrap for renameat and write. Rotations of several sinks,
   whose records come in pieces of which one may lie between those of another sink: no file replaces one that stayed, whatever fails, and what
   goes is the oldest file alone. */
#define _GNU_SOURCE
#include "alog_host.h"
#include "trial.h"

enum { SINKS = 3, PLACES = 6, ROUNDS = 60, SEEDS = 20, MANY = 200 };

static alog_host own;
static char place[512];
static size_t used;
/* how many of a hundred calls fail, by chance, and the last number that was drawn */
static unsigned renames_fail, writes_fail;
static uint32_t drawn;
/* which line of which sink was written, and how often the file without a number of a sink was renamed */
static char is_written[SINKS][ROUNDS];
static int made[SINKS];

static unsigned draw(unsigned below)
{
    drawn = drawn * 1664525u + 1013904223u;
    return (drawn >> 8) % below;
}

int __real_renameat(int from_folder, const char *from, int to_folder, const char *to);
int __wrap_renameat(int from_folder, const char *from, int to_folder, const char *to);
ssize_t __real_write(int descriptor, const void *bytes, size_t length);
ssize_t __wrap_write(int descriptor, const void *bytes, size_t length);

static int refuse(void)
{
    errno = EIO;
    return -1;
}

int __wrap_renameat(int from_folder, const char *from, int to_folder, const char *to)
{
    const int failed = renames_fail > 0 && draw(100) < renames_fail ? refuse() : __real_renameat(from_folder, from, to_folder, to);
    if (failed == 0 && strcmp(from + 1, ".txt") == 0)
        made[from[0] - 'a']++;
    return failed;
}

ssize_t __wrap_write(int descriptor, const void *bytes, size_t length)
{
    const char *text = (const char *)bytes;
    if (writes_fail > 0 && draw(100) < writes_fail)
        return refuse();
    if (length > 3 && text[1] == ' ')
        is_written[text[0] - 'a'][strtoul(text + 2, NULL, 10)] = 1;
    return __real_write(descriptor, bytes, length);
}

/* A host without a pool, over a folder of this name. */
static void enter(const char *folder, const char *name)
{
    snprintf(place, sizeof place, "%s/%s", folder, name);
    EXPECT(trial_folder(place), 0);
    memset(&own, 0, sizeof own);
    own.held = -1;
    own.folder = open(place, O_RDONLY | O_DIRECTORY);
    own.area = (char *)malloc(ALOG_AREA);
}

static void put_number(uint32_t number)
{
    for (int at = 0; at < 4; at++)
        own.area[used++] = (char)(number >> 8 * at & 0xff);
}

/* Puts a record behind those that lie in the area. */
static void put(enum alog_deed deed, const char *name, const char *rest)
{
    put_number(deed);
    put_number((uint32_t)strlen(name));
    put_number((uint32_t)strlen(rest));
    put_number(0);
    memcpy(own.area + used, name, strlen(name));
    used += strlen(name);
    memcpy(own.area + used, rest, strlen(rest));
    used += strlen(rest);
}

/* Does what the area says. */
static void carry_out(void)
{
    alog_host_do(&own, used);
    used = 0;
}

static void write_file(const char *name, const char *text)
{
    FILE *file = fopen(path_of(place, name), "w");
    fputs(text, file);
    fclose(file);
}

static void expect_file(const char *name, const char *wanted)
{
    size_t length;
    char *bytes = bytes_of(path_of(place, name), &length);
    if (!EXPECT_TEXT(bytes, wanted))
        printf("(of %s)\n", name);
    free(bytes);
}

static int is_there(const char *name)
{
    return access(path_of(place, name), F_OK) == 0;
}

/* The name of a file of a sink. */
static const char *name_of(int sink, int number)
{
    static char names[2][16];
    static int turn;
    turn = !turn;
    if (number == 0)
        snprintf(names[turn], sizeof names[turn], "%c.txt", 'a' + sink);
    else
        snprintf(names[turn], sizeof names[turn], "%c.%d.txt", 'a' + sink, number);
    return names[turn];
}

/* A rotation that stops at the end of one piece, and of another sink one that stops, too, before its next piece comes. */
static void between(const char *folder)
{
    enter(folder, "between");
    write_file("a.txt", "a0");
    write_file("a.1.txt", "a1");
    write_file("a.2.txt", "a2");
    EXPECT(mkdir(path_of(place, "a.3.txt"), 0777), 0);
    write_file("b.txt", "b0");
    EXPECT(mkdir(path_of(place, "b.1.txt"), 0777), 0);
    put(ALOG_RENAME, "a.2.txt", "a.3.txt");
    carry_out();
    put(ALOG_RENAME, "b.txt", "b.1.txt");
    put(ALOG_APPEND, "b.txt", "+");
    carry_out();
    put(ALOG_RENAME, "a.1.txt", "a.2.txt");
    carry_out();
    put(ALOG_RENAME, "b.txt", "b.1.txt");
    carry_out();
    put(ALOG_RENAME, "a.txt", "a.1.txt");
    put(ALOG_APPEND, "a.txt", "+");
    carry_out();
    expect_file("a.txt", "a0+");
    expect_file("a.1.txt", "a1");
    expect_file("a.2.txt", "a2");
    expect_file("b.txt", "b0+");
    EXPECT(own.failures, 3);
    own.is_changed = 0;
    put(ALOG_RENAME, "absent.txt", "absent.1.txt");
    carry_out();
    EXPECT(own.is_changed, 0);
    /* when nothing is in the way any more, both go on */
    EXPECT(rmdir(path_of(place, "a.3.txt")), 0);
    EXPECT(rmdir(path_of(place, "b.1.txt")), 0);
    put(ALOG_RENAME, "a.2.txt", "a.3.txt");
    put(ALOG_RENAME, "a.1.txt", "a.2.txt");
    carry_out();
    put(ALOG_RENAME, "b.txt", "b.1.txt");
    carry_out();
    put(ALOG_RENAME, "a.txt", "a.1.txt");
    carry_out();
    expect_file("a.1.txt", "a0+");
    expect_file("a.2.txt", "a1");
    expect_file("a.3.txt", "a2");
    expect_file("b.1.txt", "b0+");
    EXPECT(own.is_changed, 1);
    /* a name without a number is one of no rotation */
    put(ALOG_RENAME, "a.1.txt", "other.txt");
    carry_out();
    expect_file("other.txt", "a0+");
    EXPECT(own.failures, 3);
    alog_folder_close(&own);
}

/* A rotation of the first sink, from the file of this number on. */
static void rotate(int from)
{
    for (; from >= 0; from--)
        put(ALOG_RENAME, name_of(0, from), name_of(0, from + 1));
    carry_out();
}

/* A rotation of six files that stops at its third one, again and again: the oldest one goes once, and no other one before a new one comes. */
static void again(const char *folder)
{
    static const char *const texts[] = {"a0", "a1", "a2", "a3", "a4", "a5", "a6"};
    enter(folder, "again");
    for (int number = 0; number <= PLACES; number++)
        write_file(name_of(0, number), texts[number]);
    EXPECT(remove(path_of(place, "a.2.txt")), 0);
    EXPECT(mkdir(path_of(place, "a.2.txt"), 0777), 0);
    for (int times = 1; times <= 3; times++) {
        rotate(PLACES - 1);
        EXPECT(own.failures, times);
        expect_file("a.txt", "a0");
        expect_file("a.1.txt", "a1");
        EXPECT(is_there("a.3.txt"), 0);
        expect_file("a.4.txt", "a3");
        expect_file("a.5.txt", "a4");
        expect_file("a.6.txt", "a5");
    }
    EXPECT(rmdir(path_of(place, "a.2.txt")), 0);
    rotate(PLACES - 1);
    EXPECT(own.failures, 3);
    EXPECT(is_there("a.txt") + is_there("a.3.txt"), 0);
    expect_file("a.1.txt", "a0");
    expect_file("a.2.txt", "a1");
    expect_file("a.4.txt", "a3");
    expect_file("a.6.txt", "a5");
    alog_folder_close(&own);
}

/* A file that somebody puts where the one that stayed was to go is not replaced: that rotation is not made, and the next one begins anew. */
static void filled(const char *folder)
{
    enter(folder, "filled");
    write_file("a.txt", "a0");
    write_file("a.1.txt", "a1");
    EXPECT(mkdir(path_of(place, "a.2.txt"), 0777), 0);
    rotate(4);
    EXPECT(own.failures, 1);
    EXPECT(rmdir(path_of(place, "a.2.txt")), 0);
    write_file("a.2.txt", "a2");
    write_file("a.3.txt", "a3");
    rotate(4);
    expect_file("a.txt", "a0");
    expect_file("a.1.txt", "a1");
    expect_file("a.2.txt", "a2");
    expect_file("a.3.txt", "a3");
    rotate(4);
    expect_file("a.1.txt", "a0");
    expect_file("a.2.txt", "a1");
    expect_file("a.3.txt", "a2");
    expect_file("a.4.txt", "a3");
    EXPECT(own.failures, 1);
    alog_folder_close(&own);
}

/* As many sinks as a configuration may have, each of which stops its rotation or loses its last line: what is noted of one stands beside the others,
   and one more is not noted. */
static void most_sinks(const char *folder)
{
    char name[32], rest[32], older[32];
    enter(folder, "most");
    for (int sink = 0; sink < ALOG_SINKS_MAX; sink++) {
        snprintf(name, sizeof name, "r%d.1.txt", sink);
        snprintf(rest, sizeof rest, "r%d.2.txt", sink);
        write_file(name, "r1");
        EXPECT(mkdir(path_of(place, rest), 0777), 0);
        put(ALOG_RENAME, name, rest);
        snprintf(older, sizeof older, "r%d.txt", sink);
        write_file(older, "r0");
        snprintf(name, sizeof name, "d%d_2026-12-01.txt", sink);
        put(ALOG_APPEND, name, "lost");
        snprintf(older, sizeof older, "d%d_2026-11-30.txt", sink);
        write_file(older, "d0");
    }
    writes_fail = 100;
    carry_out();
    writes_fail = 0;
    EXPECT(own.failures, 2 * ALOG_SINKS_MAX);
    EXPECT(own.stopped.count == ALOG_SINKS_MAX && own.unwritten.count == ALOG_SINKS_MAX, 1);
    alog_note_add(&own.stopped, "more", 4, 1);
    EXPECT(own.stopped.count, ALOG_SINKS_MAX);
    for (int sink = 0; sink < ALOG_SINKS_MAX; sink++) {
        snprintf(name, sizeof name, "r%d.txt", sink);
        snprintf(rest, sizeof rest, "r%d.1.txt", sink);
        put(ALOG_RENAME, name, rest);
        snprintf(older, sizeof older, "d%d_2026-11-30.txt", sink);
        put(ALOG_REMOVE, older, "");
    }
    carry_out();
    for (int sink = 0; sink < ALOG_SINKS_MAX; sink++) {
        snprintf(name, sizeof name, "r%d.txt", sink);
        expect_file(name, "r0");
        snprintf(rest, sizeof rest, "r%d.1.txt", sink);
        expect_file(rest, "r1");
        snprintf(older, sizeof older, "d%d_2026-11-30.txt", sink);
        expect_file(older, "d0");
        /* what can be written and renamed again drops its note, in whatever order */
        snprintf(name, sizeof name, "d%d_2026-12-01.txt", sink * 5 % ALOG_SINKS_MAX);
        put(ALOG_APPEND, name, "well");
        snprintf(name, sizeof name, "r%d.1.txt", sink * 3 % ALOG_SINKS_MAX);
        snprintf(rest, sizeof rest, "r%d.2.txt", sink * 3 % ALOG_SINKS_MAX);
        EXPECT(rmdir(path_of(place, rest)), 0);
        put(ALOG_RENAME, name, rest);
    }
    carry_out();
    EXPECT(own.stopped.count + own.unwritten.count, 0);
    EXPECT(own.failures, 2 * ALOG_SINKS_MAX);
    alog_note_add(&own.stopped, place, ALOG_FOUND_MAX + 1, 1);
    EXPECT(own.stopped.count, 0);
    alog_folder_close(&own);
}

/* While the last line of a sink by days was lost no file of it is removed, and those of others are. */
static void removals(const char *folder)
{
    enter(folder, "removals");
    write_file("d_2026-11-30.txt", "d");
    write_file("e_2026-11-30.txt", "e");
    write_file("r.txt", "r");
    writes_fail = 100;
    put(ALOG_APPEND, "d_2026-12-01.txt", "lost");
    carry_out();
    writes_fail = 0;
    own.is_changed = 0;
    put(ALOG_REMOVE, "d_2026-11-30.txt", "");
    carry_out();
    EXPECT(is_there("d_2026-11-30.txt"), 1);
    EXPECT(own.is_changed, 0);
    put(ALOG_REMOVE, "e_2026-11-30.txt", "");
    put(ALOG_REMOVE, "r.txt", "");
    carry_out();
    EXPECT(is_there("e_2026-11-30.txt") + is_there("r.txt"), 0);
    EXPECT(own.is_changed, 1);
    put(ALOG_APPEND, "d_2026-12-01.txt", "well");
    put(ALOG_REMOVE, "d_2026-11-30.txt", "");
    carry_out();
    EXPECT(is_there("d_2026-11-30.txt"), 0);
    EXPECT(own.failures, 1);
    alog_folder_close(&own);
}

/* A file that is renamed or replaced is closed: what comes next goes to what has its name then. What a flush brought to the disk needs no more. */
static void open_files(const char *folder)
{
    enter(folder, "open");
    own.sync = 1;
    put(ALOG_APPEND, "a.1.txt", "replaced");
    put(ALOG_APPEND, "a.txt", "a0");
    carry_out();
    EXPECT(alog_file_find(&own, "a.txt", 5)->is_dirty, 1);
    put(ALOG_FLUSH, "a.txt", "");
    carry_out();
    EXPECT(alog_file_find(&own, "a.txt", 5)->is_dirty + own.is_changed, 0);
    put(ALOG_RENAME, "a.txt", "a.1.txt");
    put(ALOG_APPEND, "a.1.txt", "+");
    put(ALOG_APPEND, "a.txt", "new");
    carry_out();
    expect_file("a.1.txt", "a0+");
    expect_file("a.txt", "new");
    EXPECT(own.failures, 0);
    alog_folder_close(&own);
}

/* A file whose name is a point and digits has no ending. */
static void hidden_digits(const char *folder)
{
    enter(folder, "digits");
    write_file(".7", "first");
    put(ALOG_RENAME, ".7.1", ".7.2");
    put(ALOG_RENAME, ".7", ".7.1");
    put(ALOG_APPEND, ".7", "second");
    carry_out();
    expect_file(".7", "second");
    expect_file(".7.1", "first");
    alog_folder_close(&own);
}

/* What lies between, by the library: a rotation of a thousand files takes more than an area, and the area of another sink is taken before its next
   one. */
static void through_the_library(const char *folder)
{
    static const alog_options options = {1, 1, 0, 0};
    static char config[1000], long_name[ALOG_FOUND_MAX + 1], name[ALOG_FOUND_MAX + 16], text[16];
    static alog_seat seat;
    alog_client client = {NULL, {0, NULL}};
    alog_report report;
    enter(folder, "library");
    alog_folder_close(&own);
    memset(&own, 0, sizeof own);
    own.folder = own.held = -1;
    memset(long_name, 'a', ALOG_FOUND_MAX);
    snprintf(config, sizeof config,
             "queue = 64\n[[sink]]\nname = \"a\"\nkind = \"rotating\"\nfile = \"%s\"\npattern = \"%%v\"\nmax_size = 10\nmax_files = 1000\n"
             "[[sink]]\nname = \"b\"\nkind = \"rotating\"\nfile = \"b.txt\"\npattern = \"%%v\"\nmax_size = 10\nmax_files = 1\n"
             "[[logger]]\nname = \"a\"\nsinks = [\"a\"]\n[[logger]]\nname = \"b\"\nsinks = [\"b\"]\nflush_on = \"info\"\n",
             long_name);
    write_file(long_name, "a0 and more\n");
    write_file("b.txt", "b0 and more\n");
    EXPECT(mkdir(path_of(place, "b.1.txt"), 0777), 0);
    for (int number = 1; number <= MANY; number++) {
        snprintf(name, sizeof name, "%s.%d", long_name, number);
        snprintf(text, sizeof text, "a%d", number);
        write_file(name, text);
    }
    snprintf(name, sizeof name, "%s.%d", long_name, MANY + 1);
    EXPECT(mkdir(path_of(place, name), 0777), 0);
    EXPECT(alog_host_open(&own, config, strlen(config), place, &options), ALOG_DONE);
    pthread_mutex_init(&own.lock, NULL);
    pthread_mutex_init(&own.files_lock, NULL);
    alog_bell_open(&own.work);
    alog_bell_open(&own.room);
    own.process = getpid();
    own.is_open = 1;
    own.batch = 2;
    EXPECT(alog_make_worker(&own.pool, &seat.worker), ALOG_DONE);
    seat.host = &own;
    EXPECT(alog_client_open(&own, &client), ALOG_DONE);
    EXPECT(alog_log_now(&client, 0, ALOG_INFO, "one", 3), ALOG_DONE);
    EXPECT(alog_log_now(&client, 1, ALOG_INFO, "two", 3), ALOG_DONE);
    EXPECT(alog_seat_work(&seat), ALOG_DONE);
    expect_file("b.txt", "b0 and more\ntwo\n");
    expect_file(long_name, "a0 and more\n");
    EXPECT(alog_seat_work(&seat), ALOG_IDLE);
    expect_file(long_name, "a0 and more\none\n");
    for (int number = 1; number <= MANY; number++) {
        snprintf(name, sizeof name, "%s.%d", long_name, number);
        snprintf(text, sizeof text, "a%d", number);
        expect_file(name, text);
    }
    EXPECT(alog_client_close(&client), ALOG_DONE);
    EXPECT(alog_give_back(&seat.worker), ALOG_DONE);
    EXPECT(alog_host_end(&own, &report), ALOG_DONE);
    EXPECT(report.handled, 2);
    EXPECT(report.faults, 0);
    EXPECT(own.failures, 2);
}

/* Puts the record of this number of a sink: of each round but the first one the renames of a rotation, and behind them a line. */
static void put_next(int sink, int record)
{
    const int round = (record + PLACES) / (PLACES + 1), to = (PLACES + 1) * round - record;
    char line[16];
    snprintf(line, sizeof line, "%c %03d\n", 'a' + sink, round);
    if (to > 0)
        put(ALOG_RENAME, name_of(sink, to - 1), name_of(sink, to));
    else
        put(ALOG_APPEND, name_of(sink, 0), line);
}

/* In the files of a sink, from the oldest one down, are its lines that were written, in order, but for some first ones; and all files are there
   that its rotations made, but for so many. */
static void expect_sink(int sink, int missing)
{
    int next = -1, files = 0, wrong = 0;
    for (int number = PLACES; number >= 0; number--) {
        size_t length, at;
        char *bytes = bytes_of(path_of(place, name_of(sink, number)), &length);
        files += number > 0 && length > 0;
        for (at = 0; at < length; at += 6, next++) {
            const int line = (int)strtoul(bytes + at + 2, NULL, 10);
            for (next = next < 0 ? line : next; next < line && next < ROUNDS; next++)
                wrong += is_written[sink][next];
            wrong += next != line;
        }
        free(bytes);
    }
    if (!EXPECT(wrong, 0) || !EXPECT(files + missing >= (made[sink] < PLACES ? made[sink] : PLACES), 1))
        printf("(sink %d in %s, %d files of %d)\n", sink, place, files, made[sink]);
}

/* Pieces of the records of some sinks, in an order of chance, while calls fail by chance; in the last rounds none does. */
static void by_chance(const char *folder, unsigned seed)
{
    static const unsigned renames[] = {0, 3, 20, 95}, writes[] = {0, 0, 30, 100};
    enum { RECORDS = (ROUNDS - 1) * (PLACES + 1) + 1, LAST = RECORDS - 2 * (PLACES + 1) };
    int done[SINKS] = {0}, left = SINKS;
    char name[16];
    snprintf(name, sizeof name, "seed%u", seed);
    enter(folder, name);
    memset(is_written, 0, sizeof is_written);
    memset(made, 0, sizeof made);
    drawn = seed;
    while (left > 0 && trial_failed < 20) {
        const int sink = (int)draw(SINKS), before = done[sink];
        for (int more = 1 + (int)draw(2 * PLACES); more > 0 && done[sink] < (before < LAST ? LAST : RECORDS); more--)
            put_next(sink, done[sink]++);
        if (draw(20) == 0) {
            renames_fail = renames[draw(4)];
            writes_fail = writes[draw(4)];
        }
        if (before >= LAST)
            renames_fail = writes_fail = 0;
        left -= before < RECORDS && done[sink] == RECORDS;
        carry_out();
        expect_sink(sink, done[sink] == RECORDS ? 0 : 1);
    }
    renames_fail = writes_fail = 0;
    alog_folder_close(&own);
}

int main(int argc, char **argv)
{
    if (argc != 2)
        return 2;
    between(argv[1]);
    again(argv[1]);
    filled(argv[1]);
    most_sinks(argv[1]);
    removals(argv[1]);
    open_files(argv[1]);
    hidden_digits(argv[1]);
    through_the_library(argv[1]);
    for (unsigned seed = 1; seed <= SEEDS; seed++)
        by_chance(argv[1], seed);
    return trial_end();
}
