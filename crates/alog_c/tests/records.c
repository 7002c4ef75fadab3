/* The records of alog_next_record and alog_next_append, whole and spoiled: records FOLDER. The folder is not used. */
#include "alog.h"
#include "trial.h"

/* Bytes in memory of just their length, so that a read behind them is seen. */
static char *made;
static size_t made_length;

static void start(void)
{
    free(made);
    made = NULL;
    made_length = 0;
}

static void add(const char *bytes, size_t length)
{
    char *longer = malloc(made_length + length);
    if (longer == NULL)
        abort();
    if (made_length > 0)
        memcpy(longer, made, made_length);
    memcpy(longer + made_length, bytes, length);
    free(made);
    made = longer;
    made_length += length;
}

static void add_number(uint32_t number)
{
    char bytes[4];
    for (int place = 0; place < 4; place++)
        bytes[place] = (char)(number >> 8 * place & 0xff);
    add(bytes, 4);
}

static void add_record(uint32_t deed, const char *name, size_t name_length, const char *rest, size_t rest_length)
{
    add_number(deed);
    add_number((uint32_t)name_length);
    add_number((uint32_t)rest_length);
    add_number(0);
    add(name, name_length);
    if (rest_length > 0)
        add(rest, rest_length);
}

/* The answer for the record at the front, and where it ends. */
static int first(size_t *at)
{
    alog_record it;
    *at = 0;
    return alog_next_record(made, made_length, at, &it);
}

/* One record is refused, and the place stays. */
static void refused(uint32_t deed, const char *name, size_t name_length, const char *rest, size_t rest_length)
{
    size_t at;
    start();
    add_record(deed, name, name_length, rest, rest_length);
    EXPECT(first(&at) == -1, 1);
    EXPECT(at, 0);
}

static void whole(void)
{
    alog_record it;
    size_t at = 0;
    start();
    add_record(ALOG_APPEND, "a.txt", 5, "x\0\n", 3);
    add_record(ALOG_RENAME, "a.txt", 5, "a.1.txt", 7);
    add_record(ALOG_REMOVE, "..a", 3, "", 0);
    add_record(ALOG_FLUSH, ".a", 2, "", 0);
    add_record(ALOG_APPEND, "\xc3\xbc", 2, "", 0);
    EXPECT(alog_next_record(made, made_length, &at, &it), 1);
    EXPECT(it.deed, ALOG_APPEND);
    EXPECT(it.name_length, 5);
    EXPECT(memcmp(it.name, "a.txt", 5), 0);
    EXPECT(it.rest_length, 3);
    EXPECT(memcmp(it.rest, "x\0\n", 3), 0);
    EXPECT(at, 24);
    EXPECT(alog_next_record(made, made_length, &at, &it), 1);
    EXPECT(it.deed, ALOG_RENAME);
    EXPECT(it.rest_length, 7);
    EXPECT(memcmp(it.rest, "a.1.txt", 7), 0);
    EXPECT(alog_next_record(made, made_length, &at, &it), 1);
    EXPECT(it.deed, ALOG_REMOVE);
    EXPECT(alog_next_record(made, made_length, &at, &it), 1);
    EXPECT(it.deed, ALOG_FLUSH);
    EXPECT(alog_next_record(made, made_length, &at, &it), 1);
    EXPECT(it.rest_length, 0);
    EXPECT(at, made_length);
    EXPECT(alog_next_record(made, made_length, &at, &it), 0);
    EXPECT(alog_next_record(made, made_length, &at, &it), 0);
    at++;
    EXPECT(alog_next_record(made, made_length, &at, &it) == -1, 1);
    at = 0;
    EXPECT(alog_next_record(NULL, made_length, &at, &it) == -1, 1);
    EXPECT(alog_next_record(made, made_length, NULL, &it) == -1, 1);
    EXPECT(alog_next_record(made, made_length, &at, NULL) == -1, 1);
}

/* The same with each number of bytes less: a record is whole or there is none. */
static void cut(void)
{
    const size_t length = made_length;
    for (size_t left = 0; left < length; left++) {
        char *front = malloc(left == 0 ? 1 : left);
        alog_record it;
        size_t at = 0;
        int found;
        if (front == NULL)
            abort();
        memcpy(front, made, left);
        while ((found = alog_next_record(front, left, &at, &it)) > 0)
            EXPECT(it.rest + it.rest_length == front + at && at <= left, 1);
        EXPECT(found == 0, at == left);
        free(front);
    }
}

static void wrong(void)
{
    char name[ALOG_NAME_MAX + 1];
    size_t at;
    memset(name, 'n', sizeof name);
    refused(0, "a", 1, "", 0);
    refused(5, "a", 1, "", 0);
    refused(UINT32_MAX, "a", 1, "", 0);
    refused(ALOG_APPEND, "", 0, "x", 1);
    refused(ALOG_APPEND, ".", 1, "x", 1);
    refused(ALOG_APPEND, "..", 2, "x", 1);
    refused(ALOG_APPEND, "a/b", 3, "x", 1);
    refused(ALOG_APPEND, "a\0b", 3, "x", 1);
    refused(ALOG_APPEND, name, ALOG_NAME_MAX + 1, "x", 1);
    refused(ALOG_RENAME, "a", 1, "", 0);
    refused(ALOG_RENAME, "a", 1, "..", 2);
    refused(ALOG_RENAME, "a", 1, "/b", 2);
    refused(ALOG_RENAME, "a", 1, "b\0", 2);
    refused(ALOG_RENAME, "a", 1, name, ALOG_NAME_MAX + 1);
    refused(ALOG_REMOVE, "a", 1, "b", 1);
    refused(ALOG_FLUSH, "a", 1, "b", 1);
    start();
    add_record(ALOG_APPEND, name, ALOG_NAME_MAX, "x", 1);
    EXPECT(first(&at), 1);
    made[12] = 1;
    EXPECT(first(&at) == -1, 1);
    /* lengths whose sum is more than a number holds */
    start();
    add_record(ALOG_APPEND, "a", 1, "x", 1);
    memset(made + 8, 0xff, 4);
    EXPECT(first(&at) == -1, 1);
    memset(made + 4, 0xff, 4);
    EXPECT(first(&at) == -1, 1);
    memset(made + 8, 0, 4);
    EXPECT(first(&at) == -1, 1);
}

/* Any bytes: it ends, and a record lies within them. */
static void any(void)
{
    unsigned long found = 0;
    uint32_t state = 1;
    for (int round = 0; round < 100000; round++) {
        alog_record it;
        size_t at = 0, length;
        char *bytes;
        state = state * 1664525 + 1013904223;
        length = state >> 8 & 63;
        bytes = malloc(length + 1);
        if (bytes == NULL)
            abort();
        for (size_t i = 0; i < length; i++) {
            state = state * 1664525 + 1013904223;
            bytes[i] = (char)(i % 4 > 0 && i < 16 ? 0 : state >> 24 & (i < 16 ? 7 : 255));
        }
        for (; alog_next_record(bytes, length, &at, &it) > 0; found++)
            if (at > length || it.name < bytes || it.rest + it.rest_length > bytes + length)
                EXPECT(round, 0);
        free(bytes);
    }
    EXPECT(found > 0, 1);
}

/* Whether a record behind an append of "x" to a.txt is read as one more of these. Where it is not, all stays as it was. */
static int is_more(size_t length, alog_record *it)
{
    alog_record before;
    size_t at = 0, stayed;
    EXPECT(alog_next_record(made, length, &at, it), 1);
    before = *it;
    stayed = at;
    if (alog_next_append(made, length, &at, it)) {
        EXPECT(at, length);
        return 1;
    }
    EXPECT(at == stayed && it->deed == before.deed && it->name == before.name && it->name_length == before.name_length, 1);
    EXPECT(it->rest == before.rest && it->rest_length == before.rest_length, 1);
    return 0;
}

static int more(uint32_t deed, const char *name, size_t name_length, const char *rest, size_t rest_length)
{
    alog_record it;
    start();
    add_record(ALOG_APPEND, "a.txt", 5, "x", 1);
    add_record(deed, name, name_length, rest, rest_length);
    return is_more(made_length, &it);
}

static void appends(void)
{
    alog_record it;
    EXPECT(more(ALOG_APPEND, "a.txt", 5, "", 0), 1);
    EXPECT(more(ALOG_APPEND, "b.txt", 5, "yz", 2), 0);
    EXPECT(more(ALOG_APPEND, "a.tx", 4, "tyz", 3), 0);
    EXPECT(more(ALOG_APPEND, "a.txt2", 6, "yz", 2), 0);
    EXPECT(more(ALOG_FLUSH, "a.txt", 5, "", 0), 0);
    EXPECT(more(ALOG_REMOVE, "a.txt", 5, "", 0), 0);
    EXPECT(more(ALOG_RENAME, "a.txt", 5, "b.txt", 5), 0);
    EXPECT(more(0, "a.txt", 5, "yz", 2), 0);
    EXPECT(more(ALOG_APPEND + 256, "a.txt", 5, "yz", 2), 0);
    EXPECT(more(ALOG_APPEND, "a.txt", 5, "yz", 2), 1);
    for (size_t length = 22; length < made_length; length++) {
        char *whole = made;
        made = malloc(length);
        if (made == NULL)
            abort();
        memcpy(made, whole, length);
        EXPECT(is_more(length, &it), 0);
        free(made);
        made = whole;
    }
    EXPECT(is_more(made_length, &it), 1);
    EXPECT(it.rest == made + 43 && it.rest_length == 2, 1);
    made[22 + 12] = 1;
    EXPECT(is_more(made_length, &it), 0);
    made[22 + 12] = 0;
    memset(made + 22 + 8, 0xff, 4);
    EXPECT(is_more(made_length, &it), 0);
}

/* Reads the next record as alog_host_do does. */
static int next_of_both(size_t *at, alog_record *it)
{
    return it->deed == ALOG_APPEND && it->name != NULL && alog_next_append(made, made_length, at, it) ? 1 : alog_next_record(made, made_length, at, it);
}

/* Records of few files, some of them spoiled: read so, they are what alog_next_record reads. */
static void alike(void)
{
    static const char *const names[] = {"a", "b", "ab"};
    unsigned long appended = 0, refused = 0;
    uint32_t state = 7;
    for (int round = 0; round < 20000; round++) {
        alog_record one = {ALOG_FLUSH, NULL, 0, NULL, 0}, both = {ALOG_FLUSH, NULL, 0, NULL, 0};
        size_t at = 0, at_both = 0;
        int found, found_both;
        start();
        for (int i = 0; i < 6; i++) {
            const char *name;
            state = state * 1664525 + 1013904223;
            name = names[(state >> 24) % 3];
            add_record(state >> 16 & 3 ? ALOG_APPEND : ALOG_FLUSH, name, strlen(name), "xyz", state >> 16 & 3);
        }
        state = state * 1664525 + 1013904223;
        if (state >> 30 == 0)
            made[(state >> 8) % made_length] = (char)(made[(state >> 8) % made_length] ^ 1 << (state >> 27 & 7));
        if (state >> 30 == 1)
            made_length -= (state >> 8) % 20;
        do {
            found = alog_next_record(made, made_length, &at, &one);
            found_both = next_of_both(&at_both, &both);
            EXPECT(found == found_both && at == at_both, 1);
            if (found > 0 && found_both > 0) {
                EXPECT(one.deed == both.deed && one.rest == both.rest && one.rest_length == both.rest_length, 1);
                EXPECT(one.name_length == both.name_length && memcmp(one.name, both.name, one.name_length) == 0, 1);
                appended += one.name != both.name;
            }
        } while (found > 0 && found_both > 0);
        refused += found < 0;
    }
    EXPECT(appended > 1000 && refused > 1000, 1);
}

int main(int argc, char **argv)
{
    (void)argv;
    if (argc != 2)
        return 2;
    whole();
    cut();
    wrong();
    any();
    appends();
    alike();
    start();
    return trial_end();
}
