/* What each answer says. */
#ifndef SAID_H
#define SAID_H

#include "alog.h"

static const struct {
    alog_answer answer;
    const char *words;
} said[] = {
    {ALOG_DONE, "It was done."},
    {ALOG_FILTERED, "The message is below the level of its logger."},
    {ALOG_WOULD_BLOCK, "There was no room, and the logger blocks: try again soon."},
    {ALOG_FULL, "The message was discarded: the queue was full."},
    {ALOG_STALLED, "The message was discarded: the queue was full and could not be emptied."},
    {ALOG_BUSY, "The message was discarded: others were faster, too often."},
    {ALOG_SPENT, "The message was discarded: the queue has no tickets left."},
    {ALOG_IDLE, "There is nothing to write."},
    {ALOG_SOON, "A message is on its way: try again soon."},
    {ALOG_HELD, "Another thread is at the sink or at the backtrace: try again soon."},
    {ALOG_ENDED, "The pool has ended, and all was taken."},
    {ALOG_NO_THREAD, "The system gave no thread."},
    {ALOG_NULL, "A pointer is null."},
    {ALOG_NO_HANDLE, "The handle holds nothing."},
    {ALOG_WRONG_HANDLE, "The handle holds something of another kind."},
    {ALOG_IN_USE, "The handle holds something already."},
    {ALOG_NO_MEMORY, "There is no memory."},
    {ALOG_NOT_UTF8, "A text or a name is not UTF-8."},
    {ALOG_NO_LOGGER, "There is no such logger."},
    {ALOG_NO_LEVEL, "There is no such level: levels are 0 to 6."},
    {ALOG_TEXT_TOO_LONG, "The text is longer than the key `text` of the configuration allows, which may be 64 to 8192 bytes."},
    {ALOG_SOURCE_TOO_LONG, "The source's file has more than 256 bytes, or its function more than 128."},
    {ALOG_TOO_MANY, "The pool may make no more of these."},
    {ALOG_PARTS_OUT, "Not all producers and workers were given back."},
    {ALOG_BAD_CONFIG, "The document is no configuration."},
    {ALOG_NO_STORE, "The folder takes no files, or another program holds it, or a sink cannot write to its file."},
    {ALOG_TOO_SHORT, "The memory that was handed over is too short, or the areas are too few."},
    {ALOG_BUSY_PART, "Another thread gives a part back: try again."},
};

#endif
