/* rooms FOLDER JOB OPTION..: runs a job with rooms of every size from 0 to the whole, of the list, of the log, and of both. */
#include "jobs.h"

#include <stdio.h>
#include <stdlib.h>
#include <string.h>

/* What stands in a room begins the whole, and the rest of the room is as it was. */
static void check_room(const char *what, const unsigned char *room, size_t size, size_t len, const unsigned char *whole, size_t whole_len) {
    must(len <= size, "%zu bytes of the %s in a room of %zu", len, what, size);
    must(begins(whole, whole_len, room, len), "the %s is no beginning in a room of %zu", what, size);
    must(is_untouched(room + len, size - len), "the %s goes on behind its end in a room of %zu", what, size);
}

static void check_rooms(const asked *test, size_t list_room, size_t log_room) {
    const outcome *whole = &test->whole;
    const btx_report *all = &whole->report;
    outcome one = run_in(&test->its, &test->options, list_room, log_room);
    if (list_room >= all->list_len && log_room >= all->log_len) {
        must(is_same(&one, whole), "rooms of %zu and %zu aren't enough", list_room, log_room);
    } else {
        must(one.answer == BTX_FULL && one.report.status == 5, "rooms of %zu and %zu give %u", list_room, log_room, one.answer);
        must(one.report.end == BTX_LIST_FULL || one.report.end == BTX_LOG_FULL, "rooms of %zu and %zu give the end %u", list_room, log_room, one.report.end);
        must(one.report.end != BTX_LIST_FULL || list_room < all->list_len, "a room of %zu is enough for the list", list_room);
        must(one.report.end != BTX_LOG_FULL || log_room < all->log_len, "a room of %zu is enough for the log", log_room);
        must(one.report.end != BTX_LIST_FULL || one.report.list_len == list_room, "the list doesn't fill its room of %zu", list_room);
        must(one.report.end != BTX_LOG_FULL || one.report.log_len == log_room, "the log doesn't fill its room of %zu", log_room);
    }
    check_room("list", one.list, list_room, one.report.list_len, whole->list, all->list_len);
    check_room("log", one.log, log_room, one.report.log_len, whole->log, all->log_len);
    free_outcome(&one);
}

/* Options out of their ranges are refused, and nothing is touched. */
static void check_refused(const job *its) {
    static const uint32_t wrong[][3] = {{19, 250, 20000}, {1001, 250, 20000}, {0, 250, 20000}, {79, 0, 20000}, {79, 1000001, 20000}, {79, 250, 0}, {79, 250, 1000001}, {79, 250, UINT32_MAX}, {79, UINT32_MAX, 20000}, {UINT32_MAX, 250, 20000}, {0, 0, 0}};
    for (size_t i = 0; i < sizeof wrong / sizeof *wrong; i++) {
        btx_options options = BTX_OPTIONS;
        options.line = wrong[i][0];
        options.entry_max = wrong[i][1];
        options.global_max = wrong[i][2];
        outcome one = run_in(its, &options, 4096, 4096);
        must(one.answer == BTX_REFUSED, "options %zu give %u", i, one.answer);
        must(is_untouched(one.list, 4096) && is_untouched(one.log, 4096), "options %zu write", i);
        must(is_untouched((const unsigned char *)&one.report, sizeof one.report), "options %zu give a report", i);
        free_outcome(&one);
    }
}

/* The names that are needed, in rooms of every size. */
static void check_names(const job *its) {
    unsigned char whole[4096], part[4096];
    size_t len, again;
    const unsigned char *name = (const unsigned char *)its->name;
    for (size_t known = 0; known < its->count; known++) {
        must(btx_needs(name, strlen(its->name), its->files, known, whole, sizeof whole, &len) == BTX_DONE, "btx_needs fails");
        must(len > 0 && len < sizeof whole, "btx_needs gives nothing with %zu of %zu files", known, its->count);
        for (size_t room = 0; room <= len; room++) {
            memset(part, 0xA5, sizeof part);
            must(btx_needs(name, strlen(its->name), its->files, known, part, room, &again) == BTX_DONE && again == len, "btx_needs fails in a room of %zu", room);
            must(!memcmp(part, whole, room) && is_untouched(part + room, sizeof part - room), "a room of %zu has other names", room);
        }
    }
}

int main(int count, char **words) {
    asked test;
    ask(&test, count, words, 0, "rooms FOLDER JOB OPTION..");
    size_t list = test.whole.report.list_len, log = test.whole.report.log_len, most = list > log ? list : log;
    for (size_t room = 0; room <= list + 1; room++) check_rooms(&test, room, log);
    for (size_t room = 0; room <= log + 1; room++) check_rooms(&test, list, room);
    for (size_t room = 0; room <= most + 1; room++) check_rooms(&test, room, room);
    check_refused(&test.its);
    check_names(&test.its);
    printf("%zu rooms\n", list + log + most + 6);
    free_asked(&test);
    return 0;
}
