/* many COUNT: a job whose top file includes COUNT others, none of which is there. They are handed in backwards, so that the order in which they are
   asked for is no help. Prints how many seconds of processor time btx_needs and btx_run take, once all files are known. */
#include "jobs.h"

#include <stdio.h>
#include <stdlib.h>
#include <string.h>
#include <time.h>

enum { LONGEST = 40 };

static btx_text text(const char *bytes) {
    return (btx_text){(const unsigned char *)bytes, strlen(bytes)};
}

int main(int count, char **words) {
    must(count == 2, "many COUNT");
    size_t most = strtoul(words[1], NULL, 10), len = 0, names_len = 1, log_room = most * 3 * LONGEST + 4096;
    char *names = calloc(most, LONGEST), *top = malloc(most * LONGEST + LONGEST), *log = malloc(log_room);
    btx_file *files = calloc(most + 1, sizeof *files);
    must(names && top && log && files, "the test has no memory");
    for (size_t i = 0; i < most; i++) {
        char *name = names + i * LONGEST;
        snprintf(name, LONGEST, "chapter%zu.aux", i);
        len += (size_t)sprintf(top + len, "\\@input{%s}\n", name);
        files[most - i] = (btx_file){text(name), text(""), false};
    }
    files[0] = (btx_file){text("j.aux"), {(const unsigned char *)top, len}, true};
    btx_options options = BTX_OPTIONS;
    btx_report report;
    unsigned char list[1];
    clock_t start = clock();
    must(btx_needs((const unsigned char *)"j", 1, files, most + 1, list, 0, &names_len) == BTX_DONE && names_len == 0, "btx_needs asks for a file that is known");
    must(btx_run((const unsigned char *)"j", 1, files, most + 1, &options, list, 0, (unsigned char *)log, log_room, &report) == BTX_DONE, "the run isn't done");
    double seconds = (double)(clock() - start) / CLOCKS_PER_SEC;
    must(report.status == 2 && report.errors >= most, "the log has %llu errors", (unsigned long long)report.errors);
    printf("%.1f s\n", seconds);
    free(names);
    free(top);
    free(log);
    free(files);
    return 0;
}
