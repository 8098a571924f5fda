#include "jobs.h"

#include <stdarg.h>
#include <stdio.h>
#include <stdlib.h>
#include <string.h>

enum { UNTOUCHED = 0xA5 };

void must(int holds, const char *what, ...) {
    va_list words;
    if (holds) return;
    va_start(words, what);
    vfprintf(stderr, what, words);
    va_end(words);
    fputc('\n', stderr);
    exit(1);
}

static void *memory(size_t size) {
    void *found = malloc(size ? size : 1);
    must(found != NULL, "the test has no memory");
    return found;
}

unsigned char *read_file(const char *folder, const char *name, size_t *len) {
    char path[4096];
    snprintf(path, sizeof path, "%s/%s", folder, name);
    FILE *file = fopen(path, "rb");
    if (!file) return NULL;
    fseek(file, 0, SEEK_END);
    *len = (size_t)ftell(file);
    rewind(file);
    unsigned char *bytes = memory(*len);
    must(fread(bytes, 1, *len, file) == *len, "%s can't be read", path);
    fclose(file);
    return bytes;
}

/* Says of a file of this name what the folder has. */
static void say(job *found, const char *folder, const unsigned char *name, size_t len) {
    must(found->count < MOST_FILES, "the job has too many files");
    btx_file *file = &found->files[found->count++];
    char *copy = memory(len + 1);
    memcpy(copy, name, len);
    copy[len] = 0;
    size_t size = 0;
    unsigned char *bytes = read_file(folder, copy, &size);
    file->name = (btx_text){(const unsigned char *)copy, len};
    file->bytes = bytes ? (btx_text){bytes, size} : (btx_text){(const unsigned char *)"", 0};
    file->is_there = bytes != NULL;
}

void find_job(job *found, const char *folder, const char *name) {
    unsigned char names[65536];
    size_t len;
    found->name = name;
    found->count = 0;
    for (;;) {
        uint32_t answer = btx_needs((const unsigned char *)name, strlen(name), found->files, found->count, names, sizeof names, &len);
        must(answer == BTX_DONE || answer == BTX_ENDS, "btx_needs answers %u", answer);
        must(len <= sizeof names, "there are too many names");
        if (len == 0) return;
        must(answer == BTX_DONE, "btx_needs answers BTX_ENDS with a name");
        for (const unsigned char *at = names; at < names + len;) {
            const unsigned char *end = memchr(at, '\n', (size_t)(names + len - at));
            must(end != NULL, "a name has no end");
            say(found, folder, at, (size_t)(end - at));
            at = end + 1;
        }
    }
}

void free_job(job *found) {
    for (size_t i = 0; i < found->count; i++) {
        free((void *)found->files[i].name.at);
        if (found->files[i].is_there) free((void *)found->files[i].bytes.at);
    }
}

btx_options read_options(char **words, int count) {
    btx_options options = BTX_OPTIONS;
    for (int i = 0; i < count; i++) {
        char *value = strchr(words[i], '=');
        must(value != NULL, "%s is no option", words[i]);
        unsigned long long number = strtoull(value + 1, NULL, 10);
        size_t len = (size_t)(value - words[i]);
        if (!strncmp(words[i], "budget", len)) options.budget = number;
        else if (!strncmp(words[i], "min_crossrefs", len)) options.min_crossrefs = (uint32_t)number;
        else if (!strncmp(words[i], "line", len)) options.line = (uint32_t)number;
        else if (!strncmp(words[i], "entry_max", len)) options.entry_max = (uint32_t)number;
        else if (!strncmp(words[i], "global_max", len)) options.global_max = (uint32_t)number;
        else if (!strncmp(words[i], "utf8", len)) options.utf8 = number != 0;
        else must(0, "%s is no option", words[i]);
    }
    return options;
}

outcome run_in(const job *its, const btx_options *options, size_t list_room, size_t log_room) {
    outcome one = {.list = memory(list_room), .log = memory(log_room), .list_room = list_room, .log_room = log_room};
    memset(one.list, UNTOUCHED, list_room);
    memset(one.log, UNTOUCHED, log_room);
    memset(&one.report, UNTOUCHED, sizeof one.report);
    one.answer = btx_run((const unsigned char *)its->name, strlen(its->name), its->files, its->count, options, one.list, list_room, one.log, log_room, &one.report);
    return one;
}

outcome run_whole(const job *its, const btx_options *options) {
    for (size_t room = 4096;; room *= 2) {
        outcome one = run_in(its, options, room, room);
        if (one.answer != BTX_FULL) return one;
        free_outcome(&one);
    }
}

void free_outcome(outcome *one) {
    free(one->list);
    free(one->log);
}

void ask(asked *found, int count, char **words, int between, const char *taken) {
    int first = 3 + between;
    must(count >= first, "%s", taken);
    find_job(&found->its, words[1], words[2]);
    found->options = read_options(words + first, count - first);
    found->whole = run_whole(&found->its, &found->options);
}

void free_asked(asked *found) {
    free_outcome(&found->whole);
    free_job(&found->its);
}

int begins(const unsigned char *whole, size_t whole_len, const unsigned char *front, size_t front_len) {
    return front_len <= whole_len && !memcmp(whole, front, front_len);
}

int is_untouched(const unsigned char *bytes, size_t len) {
    for (size_t i = 0; i < len; i++)
        if (bytes[i] != UNTOUCHED) return 0;
    return 1;
}

int is_same(const outcome *one, const outcome *other) {
    const btx_report *a = &one->report, *b = &other->report;
    return one->answer == other->answer && a->status == b->status && a->end == b->end && a->steps == b->steps && a->deepest == b->deepest
        && a->warnings == b->warnings && a->errors == b->errors && a->list_len == b->list_len && a->log_len == b->log_len
        && !memcmp(one->list, other->list, a->list_len) && !memcmp(one->log, other->log, a->log_len);
}
