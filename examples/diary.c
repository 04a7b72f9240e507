/* A diary in a file, which keeps every version of its page. Each run that adds a line returns when it is on the disk.
 *     cc -o diary examples/diary.c $(pkg-config --variable=file elephant) $(pkg-config --cflags --libs elephant)
 *     ./diary my.journal "It rained all day."
 *     ./diary my.journal                        # shows the page
 *     ./diary my.journal '#2'                   # shows version 2 of it */
#include <elephant_file.h>
#include <inttypes.h>
#include <stdio.h>
#include <stdlib.h>
#include <string.h>
#include <time.h>

#define PAGE "/page", 5
enum { MOST = 1 << 20 };

static char page[MOST];

static int fail(int32_t code, const elephant_file_fault *fault) {
    const char *cause = fault->system ? strerror(fault->system) : "";
    fprintf(stderr, "diary: %s%s%s\n", elephant_file_code_text(code), *cause ? ": " : "", cause);
    return 1;
}

static int32_t show(elephant *e, const char *version) {
    const uint32_t tag = version ? ELEPHANT_VERSION : ELEPHANT_NOW;
    uint64_t length, copied = 0, number = version ? strtoull(version + 1, NULL, 10) : 0;
    int32_t code = elephant_read_into(e, PAGE, tag, number, 0, page, MOST, &length, &copied);
    fwrite(page, 1, copied, stdout);
    return code;
}

static int32_t add(elephant *e, const char *line) {
    const size_t more = strlen(line);
    uint64_t length = 0, copied = 0, version;
    int32_t code = elephant_clock(e, (uint64_t)time(NULL));
    if (!code) code = elephant_read_into(e, PAGE, ELEPHANT_NOW, 0, 0, page, MOST, &length, &copied);
    if (code && code != ELEPHANT_NO_ENTRY) return code;
    if (more >= MOST - length) return ELEPHANT_TOO_BIG;
    memcpy(page + length, line, more);
    page[length + more] = '\n';
    code = elephant_save(e, PAGE, page, length + more + 1, &version);
    if (!code) printf("version %" PRIu64 "\n", version);
    return code;
}

int main(int count, char **words) {
    elephant_file *f;
    elephant_file_fault fault = {0, "", 0};
    int32_t code;
    if (count < 2 || count > 3) {
        fputs("usage: diary FILE [LINE | #VERSION]\n", stderr);
        return 2;
    }
    code = elephant_file_open(words[1], NULL, &f, &fault);
    if (code) return fail(code, &fault);
    if (count == 3 && *words[2] != '#') {
        code = add(elephant_file_store(f), words[2]);
        if (!code) code = elephant_file_commit(f);
    } else {
        code = show(elephant_file_store(f), count == 3 ? words[2] : NULL);
    }
    elephant_file_last_fault(f, &fault);
    elephant_file_close(f);
    return code ? fail(code, &fault) : 0;
}
