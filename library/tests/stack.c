/* stack FOLDER JOB OPTION..     runs a job in a thread whose stack has 64 KiB
   stack --check FOLDER STYLE    checks a style in a thread whose stack has 1 MiB, and prints its verdict

   Both print how much of the stack was used, the thread's own needs included. */
#include "jobs.h"

#include <pthread.h>
#include <stdio.h>
#include <stdlib.h>
#include <string.h>
#include <sys/mman.h>

enum { STACK_OF_RUN = 64 * 1024, STACK_OF_CHECK = 1024 * 1024, GUARD = 64 * 1024, STEPS = 1000000, ROOM = 1 << 24 };

static job its;
static btx_options options;
static outcome one;

static unsigned char *style;
static size_t style_len;
static uint32_t answer;
static btx_verdict verdict;
static unsigned char types[4096], notes[ROOM];

static void *run_job(void *unused) {
    static btx_record records[64];
    unsigned char names[64];
    btx_sizes sizes;
    size_t len;
    (void)unused;
    answer = btx_read_job((const unsigned char *)its.name, strlen(its.name), its.files, its.count, &options, records, 64, notes, sizeof notes, &sizes);
    must(answer == BTX_DONE || answer == BTX_FULL || answer == BTX_ENDS, "btx_read_job answers %u", answer);
    must(btx_needs((const unsigned char *)its.name, strlen(its.name), its.files, its.count, names, sizeof names, &len) != BTX_MEMORY, "btx_needs fails");
    one.answer = btx_run((const unsigned char *)its.name, strlen(its.name), its.files, its.count, &options, one.list, one.list_room, one.log, one.log_room, &one.report);
    return NULL;
}

static void *check_style(void *unused) {
    (void)unused;
    answer = btx_check((const unsigned char *)"s.bst", 5, style, style_len, STEPS, types, sizeof types, notes, sizeof notes, &verdict);
    return NULL;
}

/* Runs `work` in a thread whose stack has `size` bytes, and answers how many of them were used. */
static size_t used_of(void *(*work)(void *), size_t size) {
    pthread_attr_t with_stack;
    pthread_t thread;
    size_t unused = 0;
    unsigned char *memory = mmap(NULL, GUARD + size, PROT_NONE, MAP_PRIVATE | MAP_ANONYMOUS, -1, 0);
    must(memory != MAP_FAILED && !mprotect(memory + GUARD, size, PROT_READ | PROT_WRITE), "there is no memory for the stack");
    unsigned char *stack = memory + GUARD;
    memset(stack, 0xA5, size);
    pthread_attr_init(&with_stack);
    must(!pthread_attr_setstack(&with_stack, stack, size) && !pthread_create(&thread, &with_stack, work, NULL), "there is no thread");
    pthread_join(thread, NULL);
    while (unused < size && stack[unused] == 0xA5) unused++;
    return size - unused;
}

static void stack_of_check(const char *folder, const char *name) {
    const char *verdicts[] = {"clean", "warnings", "incomplete"};
    style = read_file(folder, name, &style_len);
    must(style != NULL, "there is no %s", name);
    size_t used = used_of(check_style, STACK_OF_CHECK);
    must(answer == BTX_DONE, "btx_check answers %u", answer);
    printf("%zu bytes of stack, %s\n", used, verdicts[verdict.verdict]);
    free(style);
}

static void stack_of_run(const char *folder, const char *name, char **words, int count) {
    find_job(&its, folder, name);
    options = read_options(words, count);
    outcome whole = run_whole(&its, &options);
    one = run_in(&its, &options, whole.list_room, whole.log_room);
    size_t used = used_of(run_job, STACK_OF_RUN);
    must(is_same(&one, &whole), "the run is another");
    printf("%zu bytes of stack\n", used);
    free_outcome(&one);
    free_outcome(&whole);
    free_job(&its);
}

int main(int count, char **words) {
    must(count >= 3, "stack FOLDER JOB OPTION.., or stack --check FOLDER STYLE");
    if (count == 4 && !strcmp(words[1], "--check")) {
        stack_of_check(words[2], words[3]);
    } else {
        stack_of_run(words[1], words[2], words + 3, count - 3);
    }
    return 0;
}
