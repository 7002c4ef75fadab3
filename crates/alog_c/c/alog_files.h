/* What a host of alog_host.h does to files: it carries out what the library hands out, appends, renames, removals and flushes. alog_host.h says what a
   program may expect of files; a program includes that, which includes this. */
#ifndef ALOG_FILES_H
#define ALOG_FILES_H

#include "alog_parts.h"

#ifdef __cplusplus
extern "C" {
#endif

/* Counts a call on a file that failed. It is called under the lock of the files, or where no worker is there any more. */
static inline void alog_failed(alog_host *host, int error)
{
    if (host->failures == 0)
        __atomic_store_n(&host->failed_errno, error, __ATOMIC_RELAXED);
    __atomic_store_n(&host->failures, host->failures + 1, __ATOMIC_RELEASE);
}

/* How many calls on files failed, since the start, and the errno of the first, where it is asked for; by any thread. */
static inline uint64_t alog_failures(const alog_host *host, int *first_errno)
{
    const uint64_t failures = __atomic_load_n(&host->failures, __ATOMIC_ACQUIRE);
    if (first_errno != NULL)
        *first_errno = failures == 0 ? 0 : __atomic_load_n(&host->failed_errno, __ATOMIC_RELAXED);
    return failures;
}

/* Opens what has this path in a folder, also where a signal comes meanwhile, and never as a standard stream that was closed: what is printed
   there would lie in the file. -1 with its errno where that is refused. */
static inline int alog_open_at(int folder, const char *path, int flags)
{
    int descriptor;
    do
        descriptor = openat(folder, path, flags | O_CLOEXEC, 0644);
    while (descriptor < 0 && errno == EINTR);
    if (descriptor >= 0 && descriptor <= STDERR_FILENO) {
        const int other = fcntl(descriptor, F_DUPFD_CLOEXEC, STDERR_FILENO + 1), error = errno;
        close(descriptor);
        errno = error;
        return other;
    }
    return descriptor;
}

/* Brings what an open file has to the disk, or the names of an open folder; -1 with its errno where that fails. */
static inline int alog_sync(int descriptor, int is_folder)
{
    int failed;
    do
        failed = is_folder ? fsync(descriptor) : fdatasync(descriptor);
    while (failed != 0 && errno == EINTR);
    return failed;
}

/* Closes a file, if there is one at this place, and brings it to the disk before, where that is asked for. */
static inline void alog_file_close(alog_host *host, alog_open_file *file)
{
    if (file->name_length > 0) {
        if (host->sync && file->is_dirty && alog_sync(file->descriptor, 0) != 0)
            alog_failed(host, errno);
        if (close(file->descriptor) != 0 && errno != EINTR)
            alog_failed(host, errno);
    }
    file->name_length = 0;
    file->used = 0;
    file->is_dirty = 0;
}

/* The open file of this name, or null. */
static inline alog_open_file *alog_file_find(alog_host *host, const char *name, size_t length)
{
    size_t number;
    for (number = 0; number < ALOG_OPEN_FILES; number++) {
        alog_open_file *file = &host->open[number];
        if (file->name_length == length && memcmp(file->name, name, length) == 0)
            return file;
    }
    return NULL;
}

/* Closes the file of this name, where it is open. */
static inline void alog_file_leave(alog_host *host, const char *name, size_t length)
{
    alog_open_file *file = alog_file_find(host, name, length);
    if (file != NULL)
        alog_file_close(host, file);
}

/* A place for a file: an empty one, or that of the file that was used longest ago, which is closed. */
static inline alog_open_file *alog_file_place(alog_host *host)
{
    alog_open_file *oldest = &host->open[0];
    size_t number;
    for (number = 1; number < ALOG_OPEN_FILES; number++)
        if (host->open[number].used < oldest->used)
            oldest = &host->open[number];
    alog_file_close(host, oldest);
    return oldest;
}

/* A name with a zero at its end. */
static inline const char *alog_ended(char *to, const char *name, size_t length)
{
    memcpy(to, name, length);
    to[length] = 0;
    return to;
}

/* Opens a regular file of the folder to append, and makes it where the flags say so; -1 with its errno where that is refused. (What is no
   regular file is refused without waiting for who reads it. A regular one that another process holds by a lease is waited for.) */
static inline int alog_file_open(alog_host *host, const char *name, size_t length, int flags)
{
    const int append = flags | O_WRONLY | O_APPEND | O_NOFOLLOW | O_NOCTTY;
    char own[ALOG_NAME_MAX + 1];
    struct stat found;
    const char *path = alog_ended(own, name, length);
    int descriptor;
    if (strcmp(path, ALOG_LOCK) == 0) {
        errno = EBUSY;
        return -1;
    }
    descriptor = alog_open_at(host->folder, path, append | O_NONBLOCK);
    if (descriptor < 0 && errno == EWOULDBLOCK && fstatat(host->folder, path, &found, AT_SYMLINK_NOFOLLOW) == 0 && S_ISREG(found.st_mode))
        descriptor = alog_open_at(host->folder, path, append);
    if (descriptor >= 0 && (fstat(descriptor, &found) != 0 || !S_ISREG(found.st_mode))) {
        close(descriptor);
        errno = EINVAL;
        return -1;
    }
    return descriptor;
}

/* A file, which is opened where it is not, and made where it is absent and the flags say so; null with its errno where that is refused. */
static inline alog_open_file *alog_file_of(alog_host *host, const char *name, size_t length, int flags)
{
    alog_open_file *file = alog_file_find(host, name, length);
    if (file == NULL) {
        int descriptor;
        file = alog_file_place(host);
        descriptor = alog_file_open(host, name, length, 0);
        if (descriptor < 0 && errno == ENOENT && flags != 0) {
            descriptor = alog_file_open(host, name, length, flags);
            host->is_changed = 1;
        }
        if (descriptor < 0)
            return NULL;
        file->descriptor = descriptor;
        file->name_length = length;
        memcpy(file->name, name, length);
    }
    file->used = ++host->uses;
    return file;
}

/* Writes all of these bytes; -1 with its errno where the system takes no more. */
static inline int alog_write_all(int descriptor, const char *bytes, size_t length)
{
    while (length > 0) {
        const ssize_t put = write(descriptor, bytes, length);
        if (put > 0) {
            bytes += put;
            length -= ALOG_CAST(size_t, put);
        } else if (put == 0) {
            errno = EIO;
            return -1;
        } else if (errno != EINTR) {
            return -1;
        }
    }
    return 0;
}

/* Where the ending of a name begins, the last point with what stands behind it; at its end where it has none. */
static inline size_t alog_ending_of(const char *name, size_t length)
{
    size_t at = length;
    while (at > 0 && name[at - 1] != '.')
        at--;
    return at > 0 ? at - 1 : length;
}

/* How many bytes the number of a rotation takes at the end of these, with the point in front of it: 0 where there is none, or nothing in front. */
static inline size_t alog_number_behind(const char *bytes, size_t length)
{
    size_t at = length;
    while (at > 0 && bytes[at - 1] >= '0' && bytes[at - 1] <= '9')
        at--;
    return at > 1 && at < length && bytes[at - 1] == '.' ? length - at + 1 : 0;
}

/* The same of a date, as `_2026-11-30`. */
static inline size_t alog_date_behind(const char *bytes, size_t length)
{
    static const char form[] = "_0000-00-00";
    const size_t size = sizeof form - 1;
    size_t at;
    if (length < size)
        return 0;
    for (at = 0; at < size; at++) {
        const char it = bytes[length - size + at];
        if (form[at] == '0' ? it < '0' || it > '9' : it != form[at])
            return 0;
    }
    return size;
}

/* Where what this finds in the name of a sink's file ends, in front of its ending or at its end, and how many bytes that has, or 0. A sink puts a
   number or a date in front of the ending, where its file has one. */
static inline size_t alog_mark_end(const char *name, size_t length, size_t (*behind)(const char *, size_t), size_t *more)
{
    const size_t ending = alog_ending_of(name, length);
    *more = behind(name, ending);
    if (*more > 0)
        return ending;
    *more = behind(name, length);
    return length;
}

/* The name of a sink's file without what this finds in it: its length, or 0 where nothing is found. */
static inline size_t alog_without(char *to, const char *name, size_t length, size_t (*behind)(const char *, size_t))
{
    size_t more;
    const size_t end = alog_mark_end(name, length, behind, &more);
    if (more == 0)
        return 0;
    memcpy(to, name, end - more);
    memcpy(to + end - more, name + end, length - end);
    return length - more;
}

/* The number of a file of a rotation; 0 where its name has none. */
static inline uint32_t alog_number_of(const char *name, size_t length)
{
    size_t more, at;
    const size_t end = alog_mark_end(name, length, alog_number_behind, &more);
    uint32_t number = 0;
    for (at = end - more + 1; at < end; at++)
        number = number * 10 + ALOG_CAST(uint32_t, name[at] - '0');
    return number;
}

/* The note of the sink whose file has this name, or null. */
static inline alog_note *alog_note_find(alog_notes *notes, const char *name, size_t length)
{
    size_t number;
    for (number = 0; number < notes->count; number++) {
        alog_note *it = &notes->all[number];
        if (it->length == length && memcmp(it->name, name, length) == 0)
            return it;
    }
    return NULL;
}

/* Makes a note of a sink that has none. (One with a longer name, or beside so many others, is none of a configuration.) */
static inline void alog_note_add(alog_notes *notes, const char *name, size_t length, uint32_t number)
{
    alog_note *it = &notes->all[notes->count];
    if (length > sizeof it->name || notes->count == sizeof notes->all / sizeof notes->all[0])
        return;
    notes->count++;
    it->number = number;
    it->length = ALOG_CAST(uint32_t, length);
    memcpy(it->name, name, length);
}

/* Drops a note, in whose place the last one goes. */
static inline void alog_note_drop(alog_notes *notes, alog_note *it)
{
    *it = notes->all[--notes->count];
}

/* Notes whether what was to go into a file of a sink by days could be written. */
static inline void alog_unwritten_note(alog_host *host, const alog_record *run, int failed)
{
    char name[ALOG_NAME_MAX];
    size_t length;
    alog_note *it;
    if (!failed && host->unwritten.count == 0)
        return;
    length = alog_without(name, run->name, run->name_length, alog_date_behind);
    it = length == 0 ? NULL : alog_note_find(&host->unwritten, name, length);
    if (failed && length > 0 && it == NULL)
        alog_note_add(&host->unwritten, name, length, 0);
    else if (!failed && it != NULL)
        alog_note_drop(&host->unwritten, it);
}

/* Appends what one or more records have for a file. */
static inline void alog_host_append(alog_host *host, const alog_record *run)
{
    alog_open_file *file = alog_file_of(host, run->name, run->name_length, O_CREAT);
    int failed;
    if (file != NULL)
        file->is_dirty = 1;
    failed = file == NULL || alog_write_all(file->descriptor, run->rest, run->rest_length) != 0;
    if (failed)
        alog_failed(host, errno);
    alog_unwritten_note(host, run, failed);
}

/* Brings a file to the disk, where it is there, and behind it the names of the folder, where these changed. (A system of files that has no such
   call for folders says EINVAL.) */
static inline int alog_host_sync(alog_host *host, const alog_record *record)
{
    alog_open_file *file = alog_file_of(host, record->name, record->name_length, 0);
    if (file == NULL || alog_sync(file->descriptor, 0) != 0)
        return -1;
    file->is_dirty = 0;
    if (!host->is_changed)
        return 0;
    if (alog_sync(host->folder, 1) != 0 && errno != EINVAL)
        return -1;
    host->is_changed = 0;
    return 0;
}

/* Renames what is no folder; -1 with its errno where that fails. */
static inline int alog_rename_at(int folder, const char *name, const char *rest)
{
    struct stat found;
    if (fstatat(folder, name, &found, AT_SYMLINK_NOFOLLOW) == 0 && S_ISDIR(found.st_mode)) {
        errno = EISDIR;
        return -1;
    }
    return renameat(folder, name, folder, rest);
}

/* Whether the files of a rotation would make way for nothing, since the one without a number, of this name, is absent or empty: its lines could not
   be written. */
static inline int alog_is_vain(int folder, const char *name)
{
    struct stat found;
    return fstatat(folder, name, &found, AT_SYMLINK_NOFOLLOW) != 0 ? errno == ENOENT : S_ISREG(found.st_mode) && found.st_size == 0;
}

/* Passes over a rename of a rotation that stopped before: those in front of the file that kept its name would replace it, and those behind it made
   room for it then, so that a later rotation begins with it. Where somebody put a file there, that rotation is not made, and the next one begins
   anew. */
static inline void alog_host_pass(alog_host *host, alog_note *stopped, const char *name, uint32_t number)
{
    struct stat found;
    if (number == stopped->number + 1 && fstatat(host->folder, name, &found, AT_SYMLINK_NOFOLLOW) == 0)
        stopped->number = 0;
    if (number == 1 && stopped->number == 0)
        alog_note_drop(&host->stopped, stopped);
}

/* Renames a file of a rotation, which renames from the last file down. Where that fails the file keeps its name, and so do those in front of it:
   it is noted with its sink, since records of others may come before the next one of this rotation. */
static inline int alog_host_rename(alog_host *host, const alog_record *record, const char *name, const char *rest)
{
    char sink[ALOG_NAME_MAX + 1];
    const size_t length = alog_without(sink, record->rest, record->rest_length, alog_number_behind);
    const uint32_t number = alog_number_of(record->rest, record->rest_length);
    alog_note *stopped = alog_note_find(&host->stopped, sink, length);
    int failed = 0, is_vain;
    sink[length] = 0;
    if (stopped != NULL && stopped->number != number) {
        alog_host_pass(host, stopped, name, number);
        return 0;
    }
    is_vain = length > 0 && alog_is_vain(host->folder, sink);
    if (!is_vain) {
        host->is_changed = 1;
        failed = alog_rename_at(host->folder, name, rest);
    }
    if (is_vain || (failed != 0 && errno != ENOENT)) {
        if (stopped == NULL)
            alog_note_add(&host->stopped, sink, length, number);
    } else if (stopped != NULL) {
        alog_note_drop(&host->stopped, stopped);
    }
    return failed;
}

/* Removes a file, but one of a sink by days whose last line was lost: its files would make way for nothing. */
static inline int alog_host_remove(alog_host *host, const alog_record *record, const char *name)
{
    char sink[ALOG_NAME_MAX];
    const size_t length = host->unwritten.count == 0 ? 0 : alog_without(sink, record->name, record->name_length, alog_date_behind);
    if (length > 0 && alog_note_find(&host->unwritten, sink, length) != NULL)
        return 0;
    host->is_changed = 1;
    return unlinkat(host->folder, name, 0);
}

/* Renames or removes a file. It is closed first, as one that it replaces is, so that the next append opens what has its name then. */
static inline int alog_host_move(alog_host *host, const alog_record *record, const char *name, const char *rest)
{
    alog_file_leave(host, record->name, record->name_length);
    if (record->deed == ALOG_REMOVE)
        return alog_host_remove(host, record, name);
    alog_file_leave(host, record->rest, record->rest_length);
    return alog_host_rename(host, record, name, rest);
}

/* Does another deed than an append. */
static inline void alog_host_change(alog_host *host, const alog_record *record)
{
    char name[ALOG_NAME_MAX + 1], rest[ALOG_NAME_MAX + 1];
    int failed = 0;
    alog_ended(name, record->name, record->name_length);
    alog_ended(rest, record->rest, record->rest_length);
    if (record->deed == ALOG_FLUSH) {
        failed = host->sync ? alog_host_sync(host, record) : 0;
    } else if (strcmp(name, ALOG_LOCK) == 0 || strcmp(rest, ALOG_LOCK) == 0) {
        failed = -1;
        errno = EBUSY;
    } else {
        failed = alog_host_move(host, record, name, rest);
    }
    if (failed != 0 && errno != ENOENT)
        alog_failed(host, errno);
}

/* Does what so many bytes of the area say. Appends to one file that follow each other become one write: what they have is moved together,
   over headers that were read. */
static inline void alog_host_do(alog_host *host, size_t length)
{
    alog_record record, run = {ALOG_APPEND, NULL, 0, NULL, 0};
    char *end = host->area;
    size_t at = 0;
    int found;
    while ((found = alog_next_record(host->area, length, &at, &record)) > 0) {
        if (run.name_length > 0)
            alog_host_append(host, &run);
        run.name_length = 0;
        if (record.deed != ALOG_APPEND) {
            alog_host_change(host, &record);
            continue;
        }
        run = record;
        for (end = host->area + at; alog_next_append(host->area, length, &at, &record); end += record.rest_length)
            memmove(end, record.rest, record.rest_length);
        run.rest_length = ALOG_CAST(size_t, end - run.rest);
    }
    if (run.name_length > 0)
        alog_host_append(host, &run);
    if (found < 0)
        alog_failed(host, EBADMSG);
}

/* Takes what is to be done to the files, and does it, until nothing is there; ALOG_ENDED where all was taken and nothing more comes. */
static inline enum alog_answer alog_host_drain(alog_host *host)
{
    size_t length = 0;
    enum alog_answer answer;
    pthread_mutex_lock(&host->files_lock);
    while ((answer = alog_take(&host->files, host->area, ALOG_AREA, &length)) == ALOG_DONE)
        alog_host_do(host, length);
    pthread_mutex_unlock(&host->files_lock);
    return answer;
}

#ifdef __cplusplus
}
#endif

#endif
