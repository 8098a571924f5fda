/* refused FOLDER JOB STEP OPTION..: refuses each STEP-th request for memory of a run in turn, once each. The run answers BTX_MEMORY with a beginning of the
   list and of the log; or, where the request could be spared, what it answers without a refusal. Then the same of btx_run_places, of btx_needs, of btx_where and of btx_read_job. Linked with
   --wrap=malloc and --wrap=realloc. */
#include "jobs.h"

#include <stdio.h>
#include <stdlib.h>
#include <string.h>

static int is_counting;
static long requests, refused;

static int is_refused(void) {
    return is_counting && ++requests == refused;
}

void *__real_malloc(size_t size);
void *__real_realloc(void *old, size_t size);

void *__wrap_malloc(size_t size) {
    return is_refused() ? NULL : __real_malloc(size);
}

void *__wrap_realloc(void *old, size_t size) {
    return is_refused() ? NULL : __real_realloc(old, size);
}

/* A run whose request of this number is refused; 0 for none. The rooms are taken before. */
static outcome run_refusing(const job *its, const btx_options *options, long number, const outcome *whole) {
    outcome one = {.list = malloc(whole->list_room), .log = malloc(whole->log_room), .list_room = whole->list_room, .log_room = whole->log_room};
    must(one.list && one.log, "the test has no memory");
    requests = 0;
    refused = number;
    is_counting = 1;
    one.answer = btx_run((const unsigned char *)its->name, strlen(its->name), its->files, its->count, options, one.list, one.list_room, one.log, one.log_room, &one.report);
    is_counting = 0;
    return one;
}

static void check_run(const job *its, const btx_options *options, const outcome *whole, long number, long *spared) {
    outcome one = run_refusing(its, options, number, whole);
    if (one.answer == BTX_DONE) {
        ++*spared;
        must(is_same(&one, whole), "without request %ld the run is another", number);
    } else {
        must(one.answer == BTX_MEMORY, "without request %ld the run answers %u", number, one.answer);
        must(one.report.status == 5 && one.report.end == BTX_NO_MEMORY, "without request %ld the report says %u, %u", number, one.report.status, one.report.end);
        must(begins(whole->list, whole->report.list_len, one.list, one.report.list_len), "without request %ld the list is no beginning", number);
        must(begins(whole->log, whole->report.log_len, one.log, one.report.log_len), "without request %ld the log is no beginning", number);
    }
    free_outcome(&one);
}

/* Whether btx_needs, whose request for memory number `number` is refused, has made that request. */
static int check_needs(const job *its, size_t known, long number) {
    unsigned char names[4096];
    size_t len = 77;
    requests = 0;
    refused = number;
    is_counting = 1;
    uint32_t answer = btx_needs((const unsigned char *)its->name, strlen(its->name), its->files, known, names, sizeof names, &len);
    is_counting = 0;
    if (requests < number) return 0;
    must(answer != BTX_MEMORY || len == 77, "without request %ld btx_needs says how many names there are", number);
    must(answer == BTX_MEMORY || answer == BTX_DONE, "without request %ld btx_needs answers %u", number, answer);
    return 1;
}

/* Whether btx_where, whose request for memory number `number` is refused, has made that request. */
static int check_where(const job *its, const btx_options *options, long number) {
    unsigned char notes[65536];
    size_t len = 77;
    requests = 0;
    refused = number;
    is_counting = 1;
    uint32_t answer = btx_where((const unsigned char *)its->name, strlen(its->name), its->files, its->count, options, 5, notes, sizeof notes, &len);
    is_counting = 0;
    if (requests < number) return 0;
    must(answer == BTX_DONE || (answer == BTX_MEMORY && len == 0), "without request %ld btx_where answers %u with %zu bytes", number, answer, len);
    return 1;
}

/* Whether btx_read_job, whose request for memory number `number` is refused, has made that request. */
static int check_read_job(const job *its, const btx_options *options, long number) {
    static btx_record records[1000];
    static unsigned char texts[65536];
    btx_sizes sizes = {77, 77};
    requests = 0;
    refused = number;
    is_counting = 1;
    uint32_t answer = btx_read_job((const unsigned char *)its->name, strlen(its->name), its->files, its->count, options, records, 1000, texts, sizeof texts, &sizes);
    is_counting = 0;
    if (requests < number) return 0;
    must(answer == BTX_DONE || (answer == BTX_MEMORY && sizes.records == 77 && sizes.texts == 77), "without request %ld btx_read_job answers %u", number, answer);
    return 1;
}

/* Whether btx_run_places, whose request for memory number `number` is refused, has made that request. Either it has all places, or none. */
static int check_places(const job *its, const btx_options *options, const outcome *whole, long number) {
    static unsigned char list[1 << 16], log[1 << 16];
    static btx_event events[1000];
    static btx_place places[1000];
    btx_report report;
    size_t len = 77;
    memset(places, 0xA5, sizeof places);
    requests = 0;
    refused = number;
    is_counting = 1;
    uint32_t answer = btx_run_places((const unsigned char *)its->name, strlen(its->name), its->files, its->count, options, list, sizeof list, log, sizeof log,
                                     &report, events, 1000, places, 1000, &len);
    is_counting = 0;
    if (requests < number) return 0;
    must(answer == BTX_DONE || (answer == BTX_MEMORY && len == 0), "without request %ld btx_run_places answers %u with %zu events", number, answer, len);
    must(begins(whole->log, whole->report.log_len, log, report.log_len), "without request %ld the log of btx_run_places is no beginning", number);
    for (size_t n = 0; n < len; n++) must(!is_untouched((const unsigned char *)&places[n], sizeof *places), "without request %ld place %zu is left out", number, n);
    return 1;
}

int main(int count, char **words) {
    asked test;
    ask(&test, count, words, 1, "refused FOLDER JOB STEP OPTION..");
    long step = atol(words[3]), spared = 0, tried = 0;
    outcome first = run_refusing(&test.its, &test.options, 0, &test.whole);
    long all = requests;
    must(test.whole.answer == BTX_DONE && is_same(&test.whole, &first), "two runs differ");
    for (long number = 1; number <= all; number += step, tried++) check_run(&test.its, &test.options, &test.whole, number, &spared);
    printf("%ld of %ld requests of btx_run refused, %ld of which it could spare\n", tried, all, spared);
    for (long number = 1; check_places(&test.its, &test.options, &test.whole, number);) number += step;
    for (size_t known = 0; known <= test.its.count; known++) {
        long number = 1;
        while (check_needs(&test.its, known, number)) number += step;
    }
    for (long number = 1; check_where(&test.its, &test.options, number);) number += step;
    for (long number = 1; check_read_job(&test.its, &test.options, number);) number += step;
    free_outcome(&first);
    free_asked(&test);
    return 0;
}
