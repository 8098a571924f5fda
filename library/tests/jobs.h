/* What the tests share: a job whose files were found in a folder, and runs of it. */
#ifndef JOBS_H
#define JOBS_H

#include "../btx.h"

#define MOST_FILES 64

/* A job, and all that was said of its files. */
typedef struct {
    const char *name;
    btx_file files[MOST_FILES];
    size_t count;
} job;

/* What a run answered and wrote. `list` and `log` have the rooms that they were given. */
typedef struct {
    uint32_t answer;
    btx_report report;
    unsigned char *list, *log;
    size_t list_room, log_room;
} outcome;

/* Ends the test, with a line that says why, unless this holds. */
void must(int holds, const char *what, ...);

/* The bytes of a file, or null where there is none. */
unsigned char *read_file(const char *folder, const char *name, size_t *len);

/* Finds all that a job needs, in a folder. */
void find_job(job *found, const char *folder, const char *name);
void free_job(job *found);

/* Reads options: words such as budget=100, min_crossrefs=2, line=79, entry_max=250, global_max=20000, utf8=1. */
btx_options read_options(char **words, int count);

/* Runs a job with rooms for list and log, each byte of which is 0xA5 before. */
outcome run_in(const job *its, const btx_options *options, size_t list_room, size_t log_room);
/* Runs a job, with twice the room as often as it is too small. */
outcome run_whole(const job *its, const btx_options *options);
void free_outcome(outcome *one);

/* What the words of a test ask for: a job of a folder with its options, and its whole run. */
typedef struct {
    job its;
    btx_options options;
    outcome whole;
} asked;

/* Reads the words FOLDER JOB .. OPTION.., of which `between` stand between the job and the options, and runs the job. Where there are too few, the test ends with
   a line that says which words it takes. */
void ask(asked *found, int count, char **words, int between, const char *taken);
void free_asked(asked *found);

/* One text begins with the other. */
int begins(const unsigned char *whole, size_t whole_len, const unsigned char *front, size_t front_len);
/* All these bytes are as run_in left them. */
int is_untouched(const unsigned char *bytes, size_t len);
/* Two runs answered and wrote the same. */
int is_same(const outcome *one, const outcome *other);

#endif
