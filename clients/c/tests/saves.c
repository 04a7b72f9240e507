/* Many saves of one file, by typed calls: `saves COUNT`. A store makes at most 1,000,000 versions, so a fresh one follows. */

#include "want.h"

#define MOST_VERSIONS UINT64_C(1000000)

static char text[32];

/* The content of the file after that save. */
static size_t content_of(uint64_t number) {
    return (size_t)snprintf(text, sizeof text, "save %llu", (unsigned long long)number);
}

/* Saves the file once more, a second later, and checks the new version's number. */
static void save_as(elephant *e, uint64_t number) {
    uint64_t handle, version;
    size_t length = content_of(number);
    OK(elephant_tick(e, 1));
    OK(elephant_open_write(e, TEXT("/f"), &handle));
    OK(elephant_write(e, handle, 0, text, length));
    OK(elephant_close_handle(e, handle, &version));
    WANT(version == number);
}

static void want_content(elephant *e, uint64_t number) {
    char got[32];
    uint64_t length, copied;
    size_t wanted = content_of(number);
    OK(elephant_read(e, TEXT("/f"), ELEPHANT_VERSION, number, &length));
    OK(elephant_take(e, 0, got, sizeof got, &copied));
    WANT(length == wanted && copied == wanted && !memcmp(got, text, wanted));
}

/* Makes versions 2 to `last` and looks at them. Each version is longer than none before it, so no truncate is needed. */
static void fill(elephant *e, uint64_t last) {
    uint64_t file, rows, detail;
    OK(elephant_default(e, TEXT("/"), TEXT("all")));
    OK(elephant_create(e, TEXT("/f"), &file));
    for (uint64_t number = 2; number <= last; number++) save_as(e, number);
    OK(elephant_versions(e, TEXT("/f"), ELEPHANT_NOW, 0, &rows));
    WANT(rows == last);
    for (uint64_t number = 2; number <= last; number += 1 + number / 7) want_content(e, number);
    want_content(e, last);
    if (last == MOST_VERSIONS) {
        CODE(ELEPHANT_FULL, elephant_open_write(e, TEXT("/f"), &file));
        OK(elephant_detail(e, &detail));
        WANT(detail == ELEPHANT_LIMIT_VERSIONS);
    }
}

int main(int count, char **words) {
    uint64_t saves = count > 1 ? strtoull(words[1], NULL, 10) : 1000;
    elephant *e = fresh(0);
    for (uint64_t left = saves; left;) {
        uint64_t now = left < MOST_VERSIONS - 1 ? left : MOST_VERSIONS - 1;
        fill(e, now + 1);
        left -= now;
        elephant_close(e);
        if (left) OK(elephant_open_largest(e, 0));
    }
    elephant_delete(e);
    printf("%llu saves: all read back\n", (unsigned long long)saves);
    return 0;
}
