/* needs FOLDER JOB OPTION..: hands in each choice of the files of a job. The run asks for a file exactly where btx_needs names one; a name is of a file
   that wasn't handed in; and where no name is given, list, log and report are those of all files. */
#include "jobs.h"

#include <stdio.h>
#include <string.h>

/* Each name is of a file of the job that isn't among these. */
static void check_names(const job *its, const job *chosen, const unsigned char *names, size_t len) {
    for (const unsigned char *at = names; at < names + len;) {
        const unsigned char *end = memchr(at, '\n', (size_t)(names + len - at));
        size_t name_len = (size_t)(end - at);
        int is_chosen = 0, is_of_job = 0;
        for (size_t i = 0; i < chosen->count; i++) is_chosen |= chosen->files[i].name.len == name_len && !memcmp(chosen->files[i].name.at, at, name_len);
        for (size_t i = 0; i < its->count; i++) is_of_job |= its->files[i].name.len == name_len && !memcmp(its->files[i].name.at, at, name_len);
        must(!is_chosen, "%.*s is asked for again", (int)name_len, (const char *)at);
        must(is_of_job, "%.*s is no file of the job", (int)name_len, (const char *)at);
        at = end + 1;
    }
}

static void check_choice(const job *its, const btx_options *options, const outcome *whole, size_t choice) {
    job chosen = {.name = its->name};
    unsigned char names[4096];
    size_t len;
    for (size_t i = 0; i < its->count; i++)
        if (choice >> i & 1) chosen.files[chosen.count++] = its->files[i];
    uint32_t answer = btx_needs((const unsigned char *)its->name, strlen(its->name), chosen.files, chosen.count, names, sizeof names, &len);
    must(answer == BTX_DONE || (answer == BTX_ENDS && len == 0), "btx_needs answers %u", answer);
    must(len <= sizeof names, "there are too many names");
    check_names(its, &chosen, names, len);
    outcome one = run_in(&chosen, options, whole->list_room, whole->log_room);
    if (len == 0) {
        must(is_same(&one, whole), "the run depends on a file that isn't asked for (choice %zu)", choice);
    } else {
        must(one.answer == BTX_ASKS && one.report.status == 5 && one.report.end == BTX_UNKNOWN_FILE, "the run answers %u (choice %zu)", one.answer, choice);
        must(begins(whole->list, whole->report.list_len, one.list, one.report.list_len), "the list is no beginning (choice %zu)", choice);
        must(begins(whole->log, whole->report.log_len, one.log, one.report.log_len), "the log is no beginning (choice %zu)", choice);
    }
    free_outcome(&one);
}

int main(int count, char **words) {
    asked test;
    ask(&test, count, words, 0, "needs FOLDER JOB OPTION..");
    must(test.its.count <= 10, "the job has too many files");
    size_t choices = (size_t)1 << test.its.count;
    for (size_t choice = 0; choice < choices; choice++) check_choice(&test.its, &test.options, &test.whole, choice);
    printf("%zu choices\n", choices);
    free_asked(&test);
    return 0;
}
