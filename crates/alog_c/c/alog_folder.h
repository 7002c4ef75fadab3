/* The folder of a host of alog_host.h: it is held, and what is in it is looked at. A program includes alog_host.h, which includes this. */
#ifndef ALOG_FOLDER_H
#define ALOG_FOLDER_H

#include "alog_files.h"

#ifdef __cplusplus
extern "C" {
#endif

/* Puts words behind those that say why a start was refused, as many as there is room for. */
static inline void alog_add_words(alog_host *host, const char *words)
{
    const size_t had = strlen(host->told), more = strlen(words), room = sizeof host->told - 1 - had;
    const size_t length = more < room ? more : room;
    memcpy(host->told + had, words, length);
    host->told[had + length] = 0;
}

/* Refuses a start for the sake of its folder, and says why. */
static inline enum alog_answer alog_folder_refused(alog_host *host, const char *before, const char *folder, const char *behind, int error)
{
    alog_add_words(host, before);
    alog_add_words(host, folder);
    alog_add_words(host, behind);
    if (error != 0)
        alog_add_words(host, strerror(error));
    return ALOG_NO_STORE;
}

/* Refuses it for the sake of a file. */
static inline enum alog_answer alog_file_refused(alog_host *host, const char *name, const char *folder, const char *behind, int error)
{
    alog_add_words(host, "the file ");
    alog_add_words(host, name);
    return alog_folder_refused(host, " of ", folder, behind, error);
}

/* Holds the folder by its lock. */
static inline enum alog_answer alog_folder_hold(alog_host *host, const char *folder)
{
    int failed;
    host->held = alog_open_at(host->folder, ALOG_LOCK, O_RDWR | O_CREAT | O_NOFOLLOW | O_NOCTTY | O_NONBLOCK);
    if (host->held < 0)
        return alog_folder_refused(host, "", folder, "/" ALOG_LOCK " cannot be locked: ", errno);
    do
        failed = flock(host->held, LOCK_EX | LOCK_NB);
    while (failed != 0 && errno == EINTR);
    if (failed != 0 && errno == EWOULDBLOCK)
        return alog_folder_refused(host, "", folder, " is in use: another alog holds its " ALOG_LOCK, 0);
    return failed == 0 ? ALOG_DONE : alog_folder_refused(host, "", folder, "/" ALOG_LOCK " cannot be locked: ", errno);
}

/* Tells the library of one file, if it is one that a sink may have: a regular one with a short name in UTF-8. */
static inline enum alog_answer alog_folder_tell_one(alog_host *host, const char *folder, const char *name)
{
    struct stat found;
    enum alog_answer answer;
    if (strlen(name) > ALOG_FOUND_MAX)
        return ALOG_DONE;
    if (fstatat(host->folder, name, &found, AT_SYMLINK_NOFOLLOW) != 0)
        return errno == ENOENT ? ALOG_DONE : alog_file_refused(host, name, folder, " cannot be looked at: ", errno);
    if (!S_ISREG(found.st_mode))
        return ALOG_DONE;
    answer = alog_found(&host->files, name, ALOG_CAST(uint64_t, found.st_size));
    return answer == ALOG_NOT_UTF8 ? ALOG_DONE : answer;
}

/* Tells the library which files are there. */
static inline enum alog_answer alog_folder_tell(alog_host *host, const char *folder)
{
    enum alog_answer answer = ALOG_DONE;
    const int own = alog_open_at(host->folder, ".", O_RDONLY | O_DIRECTORY);
    DIR *list = own < 0 ? NULL : fdopendir(own);
    if (list == NULL) {
        answer = alog_folder_refused(host, "the files of ", folder, " cannot be listed: ", errno);
        if (own >= 0)
            close(own);
        return answer;
    }
    while (answer == ALOG_DONE) {
        const struct dirent *it;
        errno = 0;
        it = readdir(list);
        if (it != NULL)
            answer = alog_folder_tell_one(host, folder, it->d_name);
        else if (errno != 0)
            answer = alog_folder_refused(host, "the files of ", folder, " cannot be listed: ", errno);
        else
            break;
    }
    closedir(list);
    return answer;
}

/* Looks at the file of a sink: it may not be the lock, and where it is there it can be opened to append. */
static inline enum alog_answer alog_sink_look(alog_host *host, const char *name, const char *folder)
{
    const int descriptor = alog_file_open(host, name, strlen(name), 0), error = errno;
    if (strcmp(name, ALOG_LOCK) == 0)
        return alog_file_refused(host, name, folder, " is its lock, which no sink may have", 0);
    if (descriptor >= 0) {
        close(descriptor);
        return ALOG_DONE;
    }
    if (error == EINVAL || error == ELOOP || error == ENXIO)
        return alog_file_refused(host, name, folder, " is no regular file", 0);
    return error == ENOENT ? ALOG_DONE : alog_file_refused(host, name, folder, " cannot be written: ", error);
}

/* Looks at the files of the sinks. What is wrong with a document that is no configuration alog_open says. */
static inline enum alog_answer alog_sinks_look(alog_host *host, const char *document, size_t length, const char *folder)
{
    size_t count = 0, at;
    enum alog_answer answer = alog_file_names(document, length, host->area, ALOG_AREA, &count);
    for (at = 0; answer == ALOG_DONE && at < count; at += strlen(host->area + at) + 1)
        answer = alog_sink_look(host, host->area + at, folder);
    return answer == ALOG_BAD_CONFIG ? ALOG_DONE : answer;
}

/* Opens the folder, holds it, and tells the library what is in it. */
static inline enum alog_answer alog_folder_open(alog_host *host, const char *folder)
{
    enum alog_answer answer;
    host->held = -1;
    host->folder = alog_open_at(AT_FDCWD, folder, O_RDONLY | O_DIRECTORY);
    if (host->folder < 0 || faccessat(host->folder, ".", W_OK | X_OK, AT_EACCESS) != 0)
        return alog_folder_refused(host, "no files can be written to ", folder, ": ", errno);
    answer = alog_folder_hold(host, folder);
    return answer == ALOG_DONE ? alog_folder_tell(host, folder) : answer;
}

/* Lets go of the files and of the folder. */
static inline void alog_folder_close(alog_host *host)
{
    size_t number;
    if (host->files.kind != 0)
        alog_close(&host->files);
    for (number = 0; number < ALOG_OPEN_FILES; number++)
        alog_file_close(host, &host->open[number]);
    if (host->held >= 0) {
        flock(host->held, LOCK_UN);
        close(host->held);
    }
    if (host->folder >= 0)
        close(host->folder);
    free(host->area);
    host->area = NULL;
}

#ifdef __cplusplus
}
#endif

#endif
