/* Runs a program once and writes what it took: seconds on the clock, seconds of the processor, and the peak of its memory in KB.

       once FIGURES PROGRAM WORD..

   It is small, since what a process holds when it starts another counts for that one's peak. */

#include <stdio.h>
#include <sys/resource.h>
#include <sys/wait.h>
#include <time.h>
#include <unistd.h>

static double seconds(struct timeval time) { return time.tv_sec + time.tv_usec / 1e6; }

int main(int count, char **words)
{
    struct timespec before, after;
    struct rusage used;
    int status;
    FILE *figures;

    if (count < 3) return 125;
    clock_gettime(CLOCK_MONOTONIC, &before);
    pid_t child = fork();
    if (child == 0) {
        execvp(words[2], words + 2);
        _exit(127);
    }
    if (child < 0 || wait4(child, &status, 0, &used) != child) return 125;
    clock_gettime(CLOCK_MONOTONIC, &after);
    if (!(figures = fopen(words[1], "w"))) return 125;
    fprintf(figures, "%.6f %.6f %ld\n",
            after.tv_sec - before.tv_sec + (after.tv_nsec - before.tv_nsec) / 1e9,
            seconds(used.ru_utime) + seconds(used.ru_stime), used.ru_maxrss);
    fclose(figures);
    return WIFEXITED(status) ? WEXITSTATUS(status) : 128 + WTERMSIG(status);
}
