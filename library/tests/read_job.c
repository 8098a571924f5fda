/* read_job FOLDER JOB OPTION..: the library of a job of a folder, a line for each record; and that in smaller rooms the same begin is written, and that it is
   asked for each file of which nothing is said. */
#include "jobs.h"

#include <stdio.h>
#include <stdlib.h>
#include <string.h>

enum { MOST_RECORDS = 4000, MOST_TEXTS = 400000 };

/* The records and their texts, as far as there is room for them, and the answer. */
typedef struct {
    btx_record records[MOST_RECORDS];
    unsigned char texts[MOST_TEXTS];
    btx_sizes sizes;
    uint32_t answer;
} reading;

static reading *read_in(const job *its, size_t files, const btx_options *options, size_t records, size_t texts) {
    reading *made = calloc(1, sizeof *made);
    must(made != NULL, "there is no memory");
    memset(made, 0xee, sizeof *made);
    made->answer = btx_read_job((const unsigned char *)its->name, strlen(its->name), its->files, files, options, made->records, records, made->texts, texts, &made->sizes);
    return made;
}

static void show(const reading *made) {
    static const char *const KINDS[] = {[BTX_ENTRY] = "entry", [BTX_FIELD] = "field", [BTX_END] = "end"};
    for (size_t i = 0; i < made->sizes.records; i++) {
        const btx_record *one = &made->records[i];
        must(one->kind == BTX_ENTRY || one->kind == BTX_FIELD || one->kind == BTX_END, "a record is of kind %u", one->kind);
        must(one->is_whole && one->start == 0 && one->end == 0 && one->line == 0, "a record has a place");
        printf("%s %.*s=%.*s\n", KINDS[one->kind], (int)one->name_len, (const char *)made->texts + one->name_at, (int)one->text_len,
               (const char *)made->texts + one->text_at);
    }
}

/* Nothing was written, but for sizes where `sizes` says so. */
static void check_untouched(const reading *made, int has_sizes) {
    must(made->texts[0] == 0xee && *(const unsigned char *)made->records == 0xee, "something is written");
    must(has_sizes ? made->sizes.records == 0 && made->sizes.texts == 0 : *(const unsigned char *)&made->sizes == 0xee, "the sizes are others");
}

/* In smaller rooms the first records and texts are written, nothing after them, and the sizes are those of all. */
static void check_rooms(const job *its, const btx_options *options, const reading *whole) {
    for (size_t records = 0; records <= whole->sizes.records; records++) {
        size_t texts = whole->sizes.texts * records / (whole->sizes.records + 1);
        reading *made = read_in(its, its->count, options, records, texts);
        must(made->answer == (texts == whole->sizes.texts ? BTX_DONE : BTX_FULL), "btx_read_job answers %u in a room of %zu records", made->answer, records);
        must(!memcmp(&made->sizes, &whole->sizes, sizeof made->sizes), "the sizes are others in a room of %zu records", records);
        must(!memcmp(made->records, whole->records, records * sizeof *made->records), "the first %zu records are others", records);
        must(!memcmp(made->texts, whole->texts, texts), "the first %zu bytes of the texts are others", texts);
        must(made->texts[texts] == 0xee && *(unsigned char *)&made->records[records] == 0xee, "more is written than there is room for");
        free(made);
    }
}

/* Where nothing is said of the last files, they are asked for, and nothing is written. */
static void check_asks(const job *its, const btx_options *options, uint32_t whole) {
    for (size_t files = 0; files < its->count; files++) {
        reading *made = read_in(its, files, options, MOST_RECORDS - 1, MOST_TEXTS - 1);
        must(made->answer == BTX_ASKS || made->answer == whole, "btx_read_job answers %u over %zu files", made->answer, files);
        if (made->answer == BTX_ASKS) check_untouched(made, 0);
        must(files || made->answer == BTX_ASKS, "btx_read_job answers %u without a file", made->answer);
        free(made);
    }
}

/* Options that are out of their range are refused. */
static void check_refused(const job *its, btx_options options) {
    options.line = 19;
    reading *made = read_in(its, its->count, &options, MOST_RECORDS - 1, MOST_TEXTS - 1);
    must(made->answer == BTX_REFUSED, "btx_read_job answers %u to a line of 19 bytes", made->answer);
    check_untouched(made, 0);
    free(made);
}

int main(int count, char **words) {
    must(count >= 3, "read_job FOLDER JOB OPTION..");
    static job its;
    find_job(&its, words[1], words[2]);
    btx_options options = read_options(words + 3, count - 3);
    reading *whole = read_in(&its, its.count, &options, MOST_RECORDS - 1, MOST_TEXTS - 1);
    must(whole->answer == BTX_DONE || whole->answer == BTX_ENDS, "btx_read_job answers %u", whole->answer);
    if (whole->answer == BTX_DONE) {
        show(whole);
        check_rooms(&its, &options, whole);
    } else {
        check_untouched(whole, 1);
        puts("it ends before it has a library");
    }
    check_asks(&its, &options, whole->answer);
    check_refused(&its, options);
    free(whole);
    free_job(&its);
    return 0;
}
