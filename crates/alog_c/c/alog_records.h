/* What is to be done to the files of a pool: the records that alog_take hands out, and how they are read. A program includes alog.h, which includes
   this. */
#ifndef ALOG_RECORDS_H
#define ALOG_RECORDS_H

#ifdef __cplusplus
extern "C" {
#endif

/* What is to be done to a file. */
#ifdef __cplusplus
enum alog_deed : uint32_t {
#else
enum alog_deed {
#endif
    /* The rest of the record goes behind what the file has, which is made where it is absent. */
    ALOG_APPEND = 1,
    /* The file gets the rest of the record for its name, and replaces what has that name. Nothing where there is no such file. */
    ALOG_RENAME = 2,
    /* The file goes. Nothing where there is no such file. */
    ALOG_REMOVE = 3,
    /* What was appended is to be where it is kept. Nothing where there is no such file. */
    ALOG_FLUSH = 4
};

#ifndef __cplusplus
typedef enum alog_deed alog_deed;
#endif

/* One thing that is to be done. Neither name nor rest end by a zero. */
typedef struct alog_record {
    enum alog_deed deed;
    const char *name;
    size_t name_length;
    const char *rest;
    size_t rest_length;
} alog_record;

/* The bytes in front of a record; and the most bytes of a file's name in it: those of a pool have at most 75, since a configuration gives at most 64,
   and a sink puts up to 5 of a number or 11 of a date to them. */
enum { ALOG_RECORD_HEADER = 16, ALOG_NAME_MAX = 255 };

/* The deed of this number. */
static inline enum alog_deed alog_deed_of(uint32_t number)
{
    return ALOG_CAST(enum alog_deed, number);
}

/* The number at these four bytes, the lowest first. (Of shifts compilers make one load, of products gcc does not.) */
static inline uint32_t alog_number_at(const char *bytes)
{
    unsigned char own[4];
    memcpy(own, bytes, sizeof own);
    return ALOG_CAST(uint32_t, own[0]) | ALOG_CAST(uint32_t, own[1]) << 8 | ALOG_CAST(uint32_t, own[2]) << 16 | ALOG_CAST(uint32_t, own[3]) << 24;
}

/* Whether these bytes are the name of a file of a folder. */
static inline int alog_is_name(const char *name, size_t length)
{
    if (length < 1 || length > ALOG_NAME_MAX || memchr(name, '/', length) != NULL || memchr(name, 0, length) != NULL)
        return 0;
    return !(name[0] == '.' && (length == 1 || (length == 2 && name[1] == '.')));
}

/* Reads the record at `*at` of what alog_take brought, and moves `*at` behind it: 1 where there was one, 0 behind the last, and -1, with `*at`
   as it was, where these bytes are no record. */
static inline int alog_next_record(const char *bytes, size_t length, size_t *at, alog_record *out)
{
    const char *header;
    size_t left;
    uint32_t deed;
    if (bytes == NULL || at == NULL || out == NULL || *at > length)
        return -1;
    if (*at == length)
        return 0;
    left = length - *at;
    if (left < ALOG_RECORD_HEADER)
        return -1;
    header = bytes + *at;
    left -= ALOG_RECORD_HEADER;
    deed = alog_number_at(header);
    out->name = header + ALOG_RECORD_HEADER;
    out->name_length = alog_number_at(header + 4);
    out->rest_length = alog_number_at(header + 8);
    if (deed < ALOG_APPEND || deed > ALOG_FLUSH || alog_number_at(header + 12) != 0)
        return -1;
    if (out->name_length > left || out->rest_length > left - out->name_length || !alog_is_name(out->name, out->name_length))
        return -1;
    out->rest = out->name + out->name_length;
    if (deed == ALOG_RENAME ? !alog_is_name(out->rest, out->rest_length) : deed != ALOG_APPEND && out->rest_length > 0)
        return -1;
    out->deed = alog_deed_of(deed);
    *at += ALOG_RECORD_HEADER + out->name_length + out->rest_length;
    return 1;
}

/* Reads the record at `*at` where it appends to the file that `*record` has, and moves `*at` behind it. Answers 0, and leaves all as it was, where it
   is another one, or none: then alog_next_record says which. `*record` is what alog_next_record, or this, read last of the same bytes, and `*at` the
   place behind it; nothing is null. A name that was looked at is not looked at again, and most records append to the file of the one before. */
static inline int alog_next_append(const char *bytes, size_t length, size_t *at, alog_record *record)
{
    const char *header = bytes + *at;
    const size_t left = length - *at, front = ALOG_RECORD_HEADER + record->name_length;
    size_t rest_length;
    if (left < front || memcmp(header + ALOG_RECORD_HEADER, record->name, record->name_length) != 0)
        return 0;
    if (alog_number_at(header) != ALOG_APPEND || alog_number_at(header + 4) != record->name_length || alog_number_at(header + 12) != 0)
        return 0;
    rest_length = alog_number_at(header + 8);
    if (rest_length > left - front)
        return 0;
    record->rest = header + front;
    record->rest_length = rest_length;
    *at += front + rest_length;
    return 1;
}

#ifdef __cplusplus
}
#endif

#endif
