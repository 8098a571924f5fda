/* job FOLDER JOB LIST LOG OPTION..: runs a job of a folder, writes its list and its log to these files, and prints its report. The exit status is the
   report's. */
#include "jobs.h"

#include <stdio.h>

static void write_file(const char *path, const unsigned char *bytes, size_t len) {
    FILE *file = fopen(path, "wb");
    must(file != NULL, "%s can't be written", path);
    must(fwrite(bytes, 1, len, file) == len && fclose(file) == 0, "%s can't be written", path);
}

int main(int count, char **words) {
    asked test;
    ask(&test, count, words, 2, "job FOLDER JOB LIST LOG OPTION..");
    const btx_report *report = &test.whole.report;
    must(test.whole.answer == BTX_DONE, "btx_run answers %u", test.whole.answer);
    write_file(words[3], test.whole.list, report->list_len);
    write_file(words[4], test.whole.log, report->log_len);
    printf("status %u, end %u, steps %llu, deepest %llu, warnings %llu, errors %llu\n", report->status, report->end, (unsigned long long)report->steps,
        (unsigned long long)report->deepest, (unsigned long long)report->warnings, (unsigned long long)report->errors);
    int status = (int)report->status;
    free_asked(&test);
    return status;
}
