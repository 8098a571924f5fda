/* threads TIMES FOLDER JOB [FOLDER JOB]..: four threads run the jobs beside one another, each TIMES times and each beginning with another job, and
   compare list, log and report with those of a first run. */
#include "jobs.h"

#include <pthread.h>
#include <stdio.h>
#include <stdlib.h>

enum { THREADS = 4, MOST_JOBS = 8 };

static job jobs[MOST_JOBS];
static outcome first[MOST_JOBS];
static int job_count;
static long times;

static void *work(void *number) {
    btx_options options = BTX_OPTIONS;
    long differ = 0;
    for (long i = 0; i < times; i++) {
        long which = ((long)(size_t)number + i) % job_count;
        outcome one = run_in(&jobs[which], &options, first[which].list_room, first[which].log_room);
        differ += !is_same(&one, &first[which]);
        free_outcome(&one);
    }
    return (void *)(size_t)differ;
}

int main(int count, char **words) {
    pthread_t threads[THREADS];
    btx_options options = BTX_OPTIONS;
    must(count >= 4, "threads TIMES FOLDER JOB..");
    times = atol(words[1]);
    for (int i = 2; i + 1 < count && job_count < MOST_JOBS; i += 2, job_count++) {
        find_job(&jobs[job_count], words[i], words[i + 1]);
        first[job_count] = run_whole(&jobs[job_count], &options);
    }
    for (size_t i = 0; i < THREADS; i++) must(!pthread_create(&threads[i], NULL, work, (void *)i), "there is no thread");
    for (size_t i = 0; i < THREADS; i++) {
        void *differ;
        pthread_join(threads[i], &differ);
        must(!differ, "%zu runs of thread %zu differ", (size_t)differ, i);
    }
    for (int i = 0; i < job_count; i++) {
        free_outcome(&first[i]);
        free_job(&jobs[i]);
    }
    return 0;
}
