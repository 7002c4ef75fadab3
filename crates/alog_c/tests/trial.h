/* What the test programs share: they count what is as it is to be, and say where it is not. The last line is 'N passed, M failed'. */
#ifndef TRIAL_H
#define TRIAL_H

#include <inttypes.h>
#include <stdint.h>
#include <stdio.h>
#include <stdlib.h>
#include <string.h>
#include <sys/stat.h>

static unsigned long trial_passed, trial_failed;

/* That a number is as wanted. */
static inline int expect_at(const char *file, int line, const char *what, uint64_t is, uint64_t wanted)
{
    if (is == wanted) {
        trial_passed++;
        return 1;
    }
    trial_failed++;
    printf("%s:%d: %s is %" PRIu64 ", and is to be %" PRIu64 "\n", file, line, what, is, wanted);
    fflush(stdout);
    return 0;
}

/* That a text is as wanted. */
static inline int expect_text_at(const char *file, int line, const char *what, const char *is, const char *wanted)
{
    if (strcmp(is, wanted) == 0) {
        trial_passed++;
        return 1;
    }
    trial_failed++;
    printf("%s:%d: %s is \"%s\", and is to be \"%s\"\n", file, line, what, is, wanted);
    return 0;
}

/* (macros, so that a failure names its line and its words) */
#define EXPECT(what, wanted) expect_at(__FILE__, __LINE__, #what, (uint64_t)(what), (uint64_t)(wanted))
#define EXPECT_TEXT(what, wanted) expect_text_at(__FILE__, __LINE__, #what, what, wanted)

/* Prints how many passed and failed; the status of the program. */
static inline int trial_end(void)
{
    printf("%lu passed, %lu failed\n", trial_passed, trial_failed);
    return trial_failed == 0 ? 0 : 1;
}

/* Makes a folder; answers 0 where that went. */
static inline int trial_folder(const char *path)
{
    return mkdir(path, 0777);
}

/* The path of a file of a folder. */
static inline const char *path_of(const char *folder, const char *name)
{
    static char path[4096];
    snprintf(path, sizeof path, "%s/%s", folder, name);
    return path;
}

/* The bytes of a file with a zero behind them, which the caller frees, and how many there are; none of a file that is not there. */
static inline char *bytes_of(const char *path, size_t *length)
{
    size_t room = 1 << 16;
    char *bytes = (char *)malloc(room);
    FILE *file = fopen(path, "rb");
    *length = 0;
    while (file != NULL && bytes != NULL) {
        size_t got = fread(bytes + *length, 1, room - *length - 1, file);
        *length += got;
        if (got == 0)
            break;
        if (*length + 1 == room)
            bytes = (char *)realloc(bytes, room *= 2);
    }
    if (file != NULL)
        fclose(file);
    if (bytes == NULL)
        abort();
    bytes[*length] = 0;
    return bytes;
}

#endif
