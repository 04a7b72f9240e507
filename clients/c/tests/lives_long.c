/* A store without a history doesn't grow, however many calls it answers: `lives_long ROUNDS`. Nor does one whose history is trimmed. A
 * closed handle keeps nothing of its store. The program is linked so that malloc, realloc and free call the functions here. */

#include "want.h"
#include <malloc.h>

static size_t held, most;

void *__real_malloc(size_t size);
void *__real_realloc(void *at, size_t size);
void __real_free(void *at);

static void *take(void *at) {
    held += at ? malloc_usable_size(at) : 0;
    most = held > most ? held : most;
    return at;
}

void *__wrap_malloc(size_t size) {
    return take(__real_malloc(size));
}

void *__wrap_realloc(void *at, size_t size) {
    size_t before = at ? malloc_usable_size(at) : 0;
    void *moved = __real_realloc(at, size);
    if (!moved) return NULL;
    held -= before;
    return take(moved);
}

void __wrap_free(void *at) {
    held -= at ? malloc_usable_size(at) : 0;
    __real_free(at);
}

/* Every question once. */
static void ask(elephant *e) {
    elephant_stat_row stat;
    elephant_why_row why;
    uint64_t number;
    char got[64];
    OK(elephant_read(e, TEXT("/d/f"), ELEPHANT_NOW, 0, &number));
    OK(elephant_take(e, 0, got, sizeof got, &number));
    OK(elephant_read(e, TEXT("/d/f"), ELEPHANT_AT, 5, &number));
    OK(elephant_read(e, TEXT("/d/f"), ELEPHANT_VERSION, 1, &number));
    OK(elephant_stat(e, TEXT("/d/f"), ELEPHANT_NOW, 0, &stat));
    OK(elephant_versions(e, TEXT("/d/f"), ELEPHANT_NOW, 0, &number));
    OK(elephant_list(e, TEXT("/d"), ELEPHANT_NOW, 0, &number));
    OK(elephant_restorable(e, &number));
    OK(elephant_due(e, &number));
    OK(elephant_ahead(e, 1000000, &number));
    OK(elephant_usage(e, &number));
    OK(elephant_groups(e, &number));
    OK(elephant_why(e, TEXT("/d/f"), ELEPHANT_VERSION, 1, &why));
    OK(elephant_line(e, TEXT("versions /d/f"), &number));
    OK(elephant_line(e, TEXT("read /no/such"), &number));
    CODE(ELEPHANT_NO_ENTRY, elephant_stat(e, TEXT("/d/g"), ELEPHANT_NOW, 0, &stat));
    CODE(ELEPHANT_NO_GROUP, elephant_group_drop(e, TEXT("none")));
    OK(elephant_now(e, &number));
}

/* A session that changes nothing, and a save whose older version is removed. */
static void work(elephant *e, uint64_t round) {
    uint64_t number, finished;
    char text[16];
    OK(elephant_open_write(e, TEXT("/d/short"), &number));
    OK(elephant_close_handle(e, number, &number));
    snprintf(text, sizeof text, "%08llu", (unsigned long long)round);
    save(e, "/d/short", text, 8);
    OK(elephant_tick(e, 1));
    OK(elephant_pass(e, 9, &number, &finished));
    WANT(number == 1 && finished == 1);
}

static elephant *with_files(void) {
    elephant *e = fresh(0);
    uint64_t number;
    OK(elephant_mkdir(e, TEXT("/d"), &number));
    OK(elephant_default(e, TEXT("/d"), TEXT("safe:1000000")));
    OK(elephant_create(e, TEXT("/d/f"), &number));
    save(e, "/d/f", "one", 3);
    OK(elephant_tick(e, 9));
    save(e, "/d/f", "two", 3);
    OK(elephant_group_make(e, TEXT("g")));
    OK(elephant_group_add(e, TEXT("g"), TEXT("/d/f")));
    OK(elephant_mark(e, TEXT("g"), 5, ELEPHANT_NEVER));
    OK(elephant_default(e, TEXT("/d"), TEXT("one")));
    OK(elephant_create(e, TEXT("/d/short"), &number));
    return e;
}

/* After a trim a store holds as much as after the trim before. */
static void trims(uint64_t rounds) {
    size_t trimmed = 0;
    uint64_t number, folded;
    elephant *e = fresh(1);
    OK(elephant_mkdir(e, TEXT("/d"), &number));
    OK(elephant_default(e, TEXT("/d"), TEXT("one")));
    OK(elephant_create(e, TEXT("/d/short"), &number));
    for (uint64_t round = 0; round < rounds; round++) {
        for (uint64_t at = 0; at < 10; at++) work(e, round);
        OK(elephant_trim(e, &folded));
        WANT(folded > 0);
        if (round == rounds / 10) trimmed = held;
    }
    printf("%llu trims: %zu bytes after a tenth of them, %zu at the end\n", (unsigned long long)rounds, trimmed, held);
    WANT(held <= trimmed + 4096);
    elephant_delete(e);
    WANT(held == 0);
}

/* What a handle holds after elephant_close is what it held before it was opened, and nothing after elephant_delete. */
static void closes(uint32_t history) {
    elephant *e;
    size_t empty;
    uint64_t number;
    elephant_new(&e);
    WANT(e);
    empty = held;
    for (int round = 0; round < 3; round++) {
        OK(elephant_open_largest(e, history));
        OK(elephant_create(e, TEXT("/f"), &number));
        save(e, "/f", "one", 3);
        OK(elephant_open_write(e, TEXT("/f"), &number));
        OK(elephant_write(e, number, 0, "draft", 5));
        OK(elephant_open_read(e, TEXT("/f"), ELEPHANT_NOW, 0, &number));
        OK(elephant_line(e, TEXT("versions /f"), &number));
        elephant_close(e);
        WANT(held == empty);
    }
    OK(elephant_open_largest(e, history));
    OK(elephant_create(e, TEXT("/f"), &number));
    elephant_delete(e);
    WANT(held == 0);
}

int main(int count, char **words) {
    uint64_t rounds = count > 1 ? strtoull(words[1], NULL, 10) : 1000;
    size_t asked, worked;
    elephant *e;
    closes(0);
    closes(1);
    trims(1000);
    e = with_files();
    ask(e);
    ask(e);
    asked = held;
    for (uint64_t round = 0; round < rounds; round++) ask(e);
    WANT(held == asked);
    for (uint64_t round = 0; round < 1000; round++) work(e, round);
    worked = most = held;
    for (uint64_t round = 0; round < rounds; round++) work(e, round);
    printf("%llu rounds of questions: 0 bytes more\n", (unsigned long long)rounds);
    printf("%llu rounds of saves whose older versions go: %zu bytes after 1,000 rounds, %zu at the end, %zu at most\n",
           (unsigned long long)rounds, worked, held, most);
    WANT(most <= worked + 4096);
    elephant_delete(e);
    WANT(held == 0);
    return 0;
}
