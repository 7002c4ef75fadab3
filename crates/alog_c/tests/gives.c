/* Threads that make and give back producers all the time, while another asks for the end: gives FOLDER. The folder is not used. */
#include "taken.h"

#include <pthread.h>
#include <sched.h>

enum { THREADS = 8, EACH = 500 };

static const char config[] = "queue = 64\n[[sink]]\nname = \"file\"\nkind = \"memory\"\npattern = \"%v\"\n"
                             "[[logger]]\nname = \"net\"\nsinks = [\"file\"]\npolicy = \"discard_new\"\n";

static alog_pool pool;
/* one call at a time uses the pool's handle */
static pthread_mutex_t lock = PTHREAD_MUTEX_INITIALIZER;
static unsigned running;

struct task {
    pthread_t thread;
    unsigned long posted, discarded, busy, others;
};

static void *run(void *at)
{
    struct task *task = at;
    for (int i = 0; i < EACH; i++) {
        alog_producer producer = {0, NULL};
        alog_answer answer;
        pthread_mutex_lock(&lock);
        answer = alog_make_producer(&pool, &producer);
        pthread_mutex_unlock(&lock);
        task->others += answer != ALOG_DONE;
        answer = alog_log(&producer, 0, ALOG_INFO, 0, "x", 1, NULL);
        task->posted += answer == ALOG_DONE;
        task->discarded += answer == ALOG_FULL || answer == ALOG_STALLED || answer == ALOG_BUSY;
        while ((answer = alog_give_producer(&producer)) == ALOG_BUSY_PART) {
            task->busy++;
            task->others += producer.kind != 2;
            sched_yield();
        }
        task->others += answer != ALOG_DONE || producer.kind != 0;
    }
    __atomic_sub_fetch(&running, 1, __ATOMIC_SEQ_CST);
    return NULL;
}

/* The end takes back what was given, and goes nowhere as long as one producer is out; answers whether that was so. */
static int ends_nowhere(alog_report *report)
{
    while (__atomic_load_n(&running, __ATOMIC_SEQ_CST) > 0) {
        alog_answer answer;
        pthread_mutex_lock(&lock);
        answer = alog_shutdown(&pool, report);
        pthread_mutex_unlock(&lock);
        if (!EXPECT(answer, ALOG_PARTS_OUT))
            return 0;
        sched_yield();
    }
    return 1;
}

int main(int argc, char **argv)
{
    static struct task tasks[THREADS];
    static struct taken taken;
    static struct task sum;
    alog_producer stays = {0, NULL};
    alog_files files = {0, NULL};
    alog_report report;
    (void)argv;
    if (argc != 2)
        return 2;
    EXPECT(alog_open(&pool, &files, config, sizeof config - 1, THREADS * EACH + 1, 4, NULL, 0), ALOG_DONE);
    EXPECT(alog_make_producer(&pool, &stays), ALOG_DONE);
    running = THREADS;
    for (int i = 0; i < THREADS; i++)
        EXPECT(pthread_create(&tasks[i].thread, NULL, run, &tasks[i]), 0);
    if (!ends_nowhere(&report))
        return trial_end();
    for (int i = 0; i < THREADS; i++) {
        pthread_join(tasks[i].thread, NULL);
        sum.posted += tasks[i].posted;
        sum.discarded += tasks[i].discarded;
        sum.others += tasks[i].others;
    }
    EXPECT(sum.others, 0);
    EXPECT(sum.posted + sum.discarded, THREADS * EACH);
    EXPECT(alog_shutdown(&pool, &report), ALOG_PARTS_OUT);
    EXPECT(alog_give_producer(&stays), ALOG_DONE);
    EXPECT(alog_shutdown(&pool, &report), ALOG_DONE);
    EXPECT(report.posted, sum.posted);
    EXPECT(report.discarded, sum.discarded);
    EXPECT(report.handled, sum.posted);
    EXPECT(report.faults, 0);
    EXPECT(take_all(&taken, &files), ALOG_ENDED);
    EXPECT(taken_length(&taken, "file"), 2 * sum.posted);
    EXPECT(alog_close(&files), ALOG_DONE);
    taken_clear(&taken);
    return trial_end();
}
