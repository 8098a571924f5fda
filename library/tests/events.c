/* Runs a job with room for events, and prints them: where each line stands, its kind, where it was met, and for which entry; with its text. A room of each smaller size
   has the first ones, and the same number. */
#include <stdio.h>
#include <stdlib.h>
#include <string.h>

#include "jobs.h"

#define MOST_EVENTS 1000
static const char *const kinds[] = {"plain", "warning", "error"};
static const char *const places[] = {"files", "style", "databases", "execution", "end"};

/* A run with room for events, each byte of which is 0xA5 before. */
typedef struct {
    outcome one;
    btx_event events[MOST_EVENTS];
    size_t len;
} noted;

static void run_noted(noted *ran, const asked *found, size_t list_room, size_t log_room, size_t room) {
    memset(ran->events, 0xA5, sizeof ran->events);
    ran->one.list_room = list_room;
    ran->one.log_room = log_room;
    ran->one.list = malloc(list_room + 1);
    ran->one.log = malloc(log_room + 1);
    must(ran->one.list != NULL && ran->one.log != NULL, "no memory");
    memset(ran->one.list, 0xA5, list_room);
    memset(ran->one.log, 0xA5, log_room);
    memset(&ran->one.report, 0xA5, sizeof ran->one.report);
    ran->len = (size_t)-1;
    ran->one.answer = btx_run_events((const unsigned char *)found->its.name, strlen(found->its.name), found->its.files, found->its.count, &found->options,
                                     ran->one.list, list_room, ran->one.log, log_room, &ran->one.report, ran->events, room, &ran->len);
}

/* The log is the lines of the events, in order, each with its line feed. */
static void must_divide(const noted *ran) {
    uint64_t at = 0;
    for (size_t n = 0; n < ran->len; n++) {
        must(ran->events[n].at == at, "event %zu is at %llu", n, (unsigned long long)ran->events[n].at);
        at += ran->events[n].len;
        must(at < ran->one.report.log_len && ran->one.log[at] == '\n', "event %zu doesn't end with its line", n);
        at++;
    }
    must(at == ran->one.report.log_len, "the events have %llu bytes", (unsigned long long)at);
}

static void must_count(const noted *ran) {
    uint64_t warnings = 0, errors = 0;
    for (size_t n = 0; n < ran->len; n++) {
        warnings += ran->events[n].kind == BTX_WARNING;
        errors += ran->events[n].kind == BTX_ERROR;
    }
    must(warnings == ran->one.report.warnings && errors == ran->one.report.errors, "other numbers of warnings or errors");
}

static void print_event(const noted *ran, const btx_event *event) {
    must(event->kind <= BTX_ERROR && event->met <= BTX_MET_AT_END, "a number is too great");
    printf("%s %s ", kinds[event->kind], places[event->met]);
    if (event->entry == BTX_NO_ENTRY)
        printf("- ");
    else
        printf("%llu ", (unsigned long long)event->entry);
    printf("%.*s\n", (int)event->len, (const char *)ran->one.log + event->at);
}

int main(int count, char **words) {
    static noted whole, other;
    btx_event fresh;
    asked found;
    ask(&found, count, words, 0, "FOLDER JOB [OPTION..]");
    size_t list_room = found.whole.report.list_len, log_room = found.whole.report.log_len;
    run_noted(&whole, &found, list_room, log_room, MOST_EVENTS);
    must(whole.len <= MOST_EVENTS, "there are too many events");
    must(whole.one.answer == BTX_DONE && is_same(&whole.one, &found.whole), "btx_run answers something else");
    must(memcmp(whole.one.list, found.whole.list, list_room) == 0 && memcmp(whole.one.log, found.whole.log, log_room) == 0, "btx_run writes something else");
    must_divide(&whole);
    must_count(&whole);
    for (size_t n = 0; n < whole.len; n++) print_event(&whole, &whole.events[n]);
    memset(&fresh, 0xA5, sizeof fresh);
    for (size_t room = 0; room <= whole.len; room++) {
        run_noted(&other, &found, list_room, log_room, room);
        must(other.one.answer == BTX_DONE && other.len == whole.len, "with room for %zu it answers %u, and %zu", room, other.one.answer, other.len);
        must(memcmp(other.events, whole.events, room * sizeof fresh) == 0, "with room for %zu there are others", room);
        for (size_t n = room; n < MOST_EVENTS; n++) must(memcmp(&other.events[n], &fresh, sizeof fresh) == 0, "event %zu was written", n);
        free_outcome(&other.one);
    }
    if (log_room > 0) {
        run_noted(&other, &found, list_room, log_room - 1, MOST_EVENTS);
        must(other.one.answer == BTX_FULL && other.len == 0, "a log that is full has events");
        for (size_t n = 0; n < MOST_EVENTS; n++) must(memcmp(&other.events[n], &fresh, sizeof fresh) == 0, "event %zu was written", n);
        free_outcome(&other.one);
    }
    free_outcome(&whole.one);
    free_asked(&found);
    return 0;
}
