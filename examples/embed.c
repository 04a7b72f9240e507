/* A notepad that keeps every version of its page. A line that you type is added; `-` takes the last change back, `?` lists the
 * versions, and `=N` shows version N.
 *     cc -o notepad examples/embed.c $(pkg-config --cflags --libs elephant) */
#include <elephant.h>
#include <inttypes.h>
#include <stdio.h>
#include <stdlib.h>
#include <string.h>
#include <time.h>

#define PAGE "/page", 5

static void must(int32_t code) {
    if (code == ELEPHANT_OK) return;
    fprintf(stderr, "notepad: the store answers %d\n", (int)code);
    exit(1);
}

static void show(elephant *e, uint64_t version) {
    char bytes[4096];
    uint64_t length, copied;
    must(elephant_read(e, PAGE, ELEPHANT_VERSION, version, &length));
    for (uint64_t at = 0; at < length; at += fwrite(bytes, 1, copied, stdout)) must(elephant_take(e, at, bytes, sizeof bytes, &copied));
}

static void list(elephant *e) {
    elephant_version_row row;
    uint64_t rows;
    must(elephant_versions(e, PAGE, ELEPHANT_NOW, 0, &rows));
    for (uint64_t at = 0; at < rows; at++) {
        must(elephant_row_version(e, at, &row));
        printf("version %" PRIu64 ": %" PRIu64 " bytes\n", row.number, row.length);
    }
}

int main(void) {
    char line[1000];
    uint64_t handle, length, version = 1;
    elephant *e;
    elephant_new(&e);
    if (!e) return 1;
    must(elephant_open_largest(e, 0));
    must(elephant_default(e, "/", 1, "all", 3));
    must(elephant_create(e, PAGE, &handle));
    while (fgets(line, sizeof line, stdin)) {
        must(elephant_clock(e, (uint64_t)time(NULL)));
        if (!strcmp(line, "?\n")) list(e);
        else if (line[0] == '=') show(e, strtoull(line + 1, NULL, 10));
        else if (strcmp(line, "-\n")) {
            must(elephant_open_write(e, PAGE, &handle));
            must(elephant_read_handle(e, handle, &length));
            must(elephant_write(e, handle, length, line, strlen(line)));
            must(elephant_close_handle(e, handle, &version));
        } else if (version > 1) {
            must(elephant_revert(e, PAGE, --version, &length));
            show(e, version);
        }
    }
    elephant_delete(e);
    return 0;
}
