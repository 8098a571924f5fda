/* places FOLDER JOB [OPTION..]: runs a job with room for events and places, and prints for each line of the log where it was met: the file, the bytes, the line, and the
   function and the token; with the text there. Rooms of each smaller size have the first ones, and events and answers are those of btx_run_events. */
#include <stdio.h>
#include <stdlib.h>
#include <string.h>

#include "jobs.h"

#define MOST_EVENTS 1000

/* A run with room for events and places, each byte of which is 0xA5 before. */
typedef struct {
    outcome one;
    btx_event events[MOST_EVENTS];
    btx_place places[MOST_EVENTS];
    size_t len;
} placed;

static void run_placed(placed *ran, const asked *found, size_t log_room, size_t events_room, size_t places_room) {
    size_t list_room = found->whole.report.list_len;
    memset(ran->events, 0xA5, sizeof ran->events);
    memset(ran->places, 0xA5, sizeof ran->places);
    ran->one.list_room = list_room;
    ran->one.log_room = log_room;
    ran->one.list = malloc(list_room + 1);
    ran->one.log = malloc(log_room + 1);
    must(ran->one.list != NULL && ran->one.log != NULL, "no memory");
    memset(ran->one.list, 0xA5, list_room);
    memset(ran->one.log, 0xA5, log_room);
    memset(&ran->one.report, 0xA5, sizeof ran->one.report);
    ran->len = (size_t)-1;
    ran->one.answer = btx_run_places((const unsigned char *)found->its.name, strlen(found->its.name), found->its.files, found->its.count, &found->options,
                                     ran->one.list, list_room, ran->one.log, log_room, &ran->one.report, ran->events, events_room, ran->places, places_room,
                                     &ran->len);
}

/* The events are those of btx_run_events, and so is all else. */
static void must_be_as_without_places(const placed *ran, const asked *found) {
    static btx_event events[MOST_EVENTS];
    btx_report report;
    size_t len = 0;
    memset(events, 0xA5, sizeof events);
    memset(&report, 0xA5, sizeof report);
    uint32_t answer = btx_run_events((const unsigned char *)found->its.name, strlen(found->its.name), found->its.files, found->its.count, &found->options,
                                     ran->one.list, ran->one.list_room, ran->one.log, ran->one.log_room, &report, events, MOST_EVENTS, &len);
    must(answer == ran->one.answer && len == ran->len && memcmp(events, ran->events, sizeof events) == 0, "btx_run_events has other events");
    must(memcmp(&report, &ran->one.report, sizeof report) == 0, "btx_run_events has another report");
}

static uint64_t line_at(const btx_text *bytes, uint64_t start) {
    uint64_t line = 1;
    for (uint64_t at = 0; at < start; at++) line += bytes->at[at] == '\n';
    return line;
}

static void print_place(const job *its, const btx_place *place) {
    if (place->file == BTX_NO_FILE) {
        must(place->line == 0 && place->start == 0 && place->end == 0, "what is in no file has a line");
        must(place->function == BTX_NO_FUNCTION && place->token == 0, "what is in no file has a function");
        printf("-\n");
        return;
    }
    must(place->file < its->count, "there is no file of number %llu", (unsigned long long)place->file);
    const btx_file *file = &its->files[place->file];
    must(file->is_there && place->start <= place->end && place->end <= file->bytes.len, "the place isn't in its file");
    printf("%.*s:%llu:%llu-%llu", (int)file->name.len, (const char *)file->name.at, (unsigned long long)place->line, (unsigned long long)place->start,
           (unsigned long long)place->end);
    if (place->function != BTX_NO_FUNCTION) printf(" %lu.%lu", (unsigned long)place->function, (unsigned long)place->token);
    if (place->start < place->end) {
        must(line_at(&file->bytes, place->start) == place->line, "the byte is in another line");
        printf(" `%.*s`", (int)(place->end - place->start), (const char *)file->bytes.at + place->start);
    }
    printf("\n");
}

static void print_all(const placed *ran, const job *its) {
    for (size_t n = 0; n < ran->len; n++) {
        const btx_event *event = &ran->events[n];
        printf("%.*s\n  ", (int)event->len, (const char *)ran->one.log + event->at);
        print_place(its, &ran->places[n]);
    }
}

/* Behind these rooms nothing was written. */
static void must_end_at(const placed *ran, size_t events_room, size_t places_room) {
    must(is_untouched((const unsigned char *)&ran->events[events_room], (MOST_EVENTS - events_room) * sizeof(btx_event)), "an event was written past its room");
    must(is_untouched((const unsigned char *)&ran->places[places_room], (MOST_EVENTS - places_room) * sizeof(btx_place)), "a place was written past its room");
}

static void check_room(const placed *whole, const asked *found, size_t events_room, size_t places_room) {
    static placed other;
    run_placed(&other, found, whole->one.log_room, events_room, places_room);
    must(other.one.answer == BTX_DONE && other.len == whole->len, "with room for %zu and %zu it answers %u, and %zu", events_room, places_room, other.one.answer,
         other.len);
    must(memcmp(other.events, whole->events, events_room * sizeof(btx_event)) == 0, "with room for %zu there are other events", events_room);
    must(memcmp(other.places, whole->places, places_room * sizeof(btx_place)) == 0, "with room for %zu there are other places", places_room);
    must_end_at(&other, events_room, places_room);
    free_outcome(&other.one);
}

/* A run that is broken off for want of room writes neither. */
static void check_full(const placed *whole, const asked *found) {
    static placed other;
    if (whole->one.log_room == 0) return;
    run_placed(&other, found, whole->one.log_room - 1, MOST_EVENTS, MOST_EVENTS);
    must(other.one.answer == BTX_FULL && other.len == 0, "a log that is full has events");
    must_end_at(&other, 0, 0);
    free_outcome(&other.one);
}

int main(int count, char **words) {
    static placed whole;
    asked found;
    ask(&found, count, words, 0, "FOLDER JOB [OPTION..]");
    run_placed(&whole, &found, found.whole.report.log_len, MOST_EVENTS, MOST_EVENTS);
    must(whole.one.answer == BTX_DONE && whole.len <= MOST_EVENTS, "it answers %u, and %zu", whole.one.answer, whole.len);
    must(is_same(&whole.one, &found.whole), "btx_run answers something else");
    must_be_as_without_places(&whole, &found);
    must_end_at(&whole, whole.len, whole.len);
    print_all(&whole, &found.its);
    for (size_t room = 0; room <= whole.len; room++) {
        check_room(&whole, &found, room, room);
        check_room(&whole, &found, whole.len, room);
        check_room(&whole, &found, room, whole.len);
    }
    check_full(&whole, &found);
    free_outcome(&whole.one);
    free_asked(&found);
    return 0;
}
