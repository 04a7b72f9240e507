/* measure FILE PROGRAM WORDS: runs the program, and writes into the file how many microseconds of a processor and how many
 * kilobytes at most it took. It is a program of its own because Linux counts the memory of the process that starts another. */
#define _DEFAULT_SOURCE /* for wait4 */
#include <stdio.h>
#include <sys/resource.h>
#include <sys/wait.h>
#include <unistd.h>

int main(int count, char **words) {
    struct rusage used;
    int status;
    if (count < 3) return 2;
    pid_t child = fork();
    if (child < 0) return 1;
    if (child == 0) {
        execvp(words[2], words + 2);
        _exit(127);
    }
    if (wait4(child, &status, 0, &used) < 0 || status != 0) return 1;
    FILE *file = fopen(words[1], "w");
    if (!file) return 1;
    long seconds = used.ru_utime.tv_sec + used.ru_stime.tv_sec, micros = used.ru_utime.tv_usec + used.ru_stime.tv_usec;
    fprintf(file, "%ld %ld\n", 1000000 * seconds + micros, used.ru_maxrss);
    return fclose(file) == 0 ? 0 : 1;
}
