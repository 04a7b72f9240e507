/* Runs a script by elephant_line and writes the answers: `rows [LIMIT..] <SCRIPT`, with the nine limits of elephant_limits. */

#define _POSIX_C_SOURCE 200809L
#include "want.h"
#include <sys/types.h>

int main(int count, char **words) {
    uint64_t numbers[9] = {1000000, 100000, 10000, 200000, 1000000, 1000000, 1000, 100000, 10000};
    elephant_limits limits;
    elephant *e;
    char *line = NULL, piece[1000];
    size_t room = 0;
    ssize_t read;
    uint64_t length, copied;
    WANT(count == 1 || count == 10);
    for (int at = 1; at < count; at++) numbers[at - 1] = strtoull(words[at], NULL, 10);
    memcpy(&limits, numbers, sizeof limits);
    elephant_new(&e);
    WANT(e);
    OK(elephant_open(e, &limits, 1));
    while ((read = getline(&line, &room, stdin)) > 0) {
        WANT(line[read - 1] == '\n');
        OK(elephant_line(e, line, (size_t)read - 1, &length));
        for (uint64_t at = 0; at < length; at += copied) {
            OK(elephant_answer(e, at, piece, sizeof piece, &copied));
            WANT(copied > 0 && fwrite(piece, 1, copied, stdout) == copied);
        }
    }
    free(line);
    elephant_delete(e);
    return 0;
}
