/* What no program may do: two threads use one producer at once, which a thread sanitizer has to report: misuse FOLDER. */
#include "alog.h"

#include <pthread.h>
#include <stdio.h>

static alog_files files;
static alog_pool pool;
static alog_producer producer;

static void *run(void *at)
{
    int i;
    for (i = 0; i < 1000; i++)
        alog_log(&producer, 0, ALOG_INFO, 0, "x", 1, NULL);
    return at;
}

int main(int argc, char **argv)
{
    static const char config[] = "queue = 2\n[[sink]]\nname = \"file\"\nkind = \"memory\"\n"
                                 "[[logger]]\nname = \"net\"\nsinks = [\"file\"]\npolicy = \"discard_new\"\n";
    pthread_t one, other;
    (void)argv;
    if (argc != 2 || alog_open(&pool, &files, config, sizeof config - 1, 1, 2, NULL, 0) != ALOG_DONE)
        return 2;
    if (alog_make_producer(&pool, &producer) != ALOG_DONE)
        return 2;
    if (pthread_create(&one, NULL, run, NULL) != 0 || pthread_create(&other, NULL, run, NULL) != 0)
        return 2;
    pthread_join(one, NULL);
    pthread_join(other, NULL);
    puts("done");
    return 0;
}
