/* Files in memory, as the records make them that a pool hands out: what a host does to the files of a folder, without a folder. */
#ifndef TAKEN_H
#define TAKEN_H

#include "alog.h"
#include "trial.h"

enum { TAKEN_MAX = 64 };

struct taken_file {
    char name[ALOG_NAME_MAX + 1];
    char *bytes;
    size_t length;
};

/* Some files, and how many records of each deed there were, and of none. */
struct taken {
    struct taken_file files[TAKEN_MAX];
    size_t count;
    unsigned long deeds[5];
    unsigned long takes, bytes, wrong;
};

/* The place of a file; the count where there is none of this name. */
static inline size_t taken_at(const struct taken *all, const char *name, size_t length)
{
    size_t at = 0;
    while (at < all->count && (strlen(all->files[at].name) != length || memcmp(all->files[at].name, name, length) != 0))
        at++;
    return at;
}

static inline void taken_remove(struct taken *all, const char *name, size_t length)
{
    const size_t at = taken_at(all, name, length);
    if (at == all->count)
        return;
    free(all->files[at].bytes);
    all->files[at] = all->files[--all->count];
}

static inline void taken_append(struct taken *all, const alog_record *it)
{
    const size_t at = taken_at(all, it->name, it->name_length);
    struct taken_file *file = &all->files[at];
    if (at == TAKEN_MAX)
        abort();
    if (at == all->count) {
        memset(file, 0, sizeof *file);
        memcpy(file->name, it->name, it->name_length);
        all->count++;
    }
    file->bytes = realloc(file->bytes, file->length + it->rest_length + 1);
    if (file->bytes == NULL)
        abort();
    memcpy(file->bytes + file->length, it->rest, it->rest_length);
    file->length += it->rest_length;
    file->bytes[file->length] = 0;
}

static inline void taken_rename(struct taken *all, const alog_record *it)
{
    if (taken_at(all, it->name, it->name_length) < all->count) {
        struct taken_file *file;
        taken_remove(all, it->rest, it->rest_length);
        file = &all->files[taken_at(all, it->name, it->name_length)];
        memset(file->name, 0, sizeof file->name);
        memcpy(file->name, it->rest, it->rest_length);
    }
}

/* Does what these bytes say. */
static inline void taken_do(struct taken *all, const char *bytes, size_t length)
{
    size_t at = 0;
    alog_record it;
    int found;
    while ((found = alog_next_record(bytes, length, &at, &it)) > 0) {
        all->deeds[it.deed]++;
        if (it.deed == ALOG_APPEND)
            taken_append(all, &it);
        else if (it.deed == ALOG_RENAME)
            taken_rename(all, &it);
        else if (it.deed == ALOG_REMOVE)
            taken_remove(all, it.name, it.name_length);
    }
    all->wrong += found < 0;
}

/* Takes all that is there, and does it; the last answer. */
static inline alog_answer take_all(struct taken *all, alog_files *files)
{
    static char area[ALOG_AREA];
    size_t length = 99;
    alog_answer answer;
    while ((answer = alog_take(files, area, sizeof area, &length)) == ALOG_DONE) {
        all->takes++;
        all->bytes += length;
        all->wrong += length == 0 || length > sizeof area;
        taken_do(all, area, length);
    }
    EXPECT(length, 0);
    EXPECT(all->wrong, 0);
    return answer;
}

/* What a file has, which ends by a zero; empty where it is not there. */
static inline const char *taken_text(const struct taken *all, const char *name)
{
    const size_t at = taken_at(all, name, strlen(name));
    return at < all->count ? all->files[at].bytes : "";
}

/* How many bytes a file has; -1 where it is not there. */
static inline long taken_length(const struct taken *all, const char *name)
{
    const size_t at = taken_at(all, name, strlen(name));
    return at < all->count ? (long)all->files[at].length : -1;
}

/* Forgets all files. */
static inline void taken_clear(struct taken *all)
{
    while (all->count > 0)
        free(all->files[--all->count].bytes);
    memset(all, 0, sizeof *all);
}

#endif
