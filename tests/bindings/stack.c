/* Runs each call over values of 128 levels, in a thread of exactly the stack that pureefjord.h says a call needs, and tells how much
 * of it was used at most. Its last line is `N passed, M failed`. */
#define _DEFAULT_SOURCE
#include "pureefjord.h"
#include <pthread.h>
#include <stdio.h>
#include <stdlib.h>
#include <string.h>
#include <sys/mman.h>

#define LEVELS 128
#define STACK (256 * 1024)
#define GUARD (64 * 1024) /* below the stack, so that whoever uses more of it is stopped */
#define PAINT 0xA5
#define ROOM (1 << 20)

/* What opens a level, what stands within them all, what closes one; and the same in another order or with another value. */
static const struct { const char *name, *open, *inner, *close, *other_open, *other_inner, *other_close; uint32_t verdict; } rows[] = {
    {"lists", "[", "1", "]", "[", "2", "]", 1},
    {"lists of several", "[1,", "a", ",\"s\"]", "[ 1, ", "a", " , \"s\" ]", 0},
    {"s-expressions", "(", "1", ")", "(", "x::1", ")", 1},
    {"structs", "{a:", "1", "}", "{a:", "null", "}", 1},
    {"quoted names", "{'a b':", "2020-01-01T00:00Z", "}", "{\"a b\":", "2020-01-01T", "}", 1},
    {"annotated lists", "x::[", "1", "]", "x::[", "1", ",1]", 1},
    {"annotated s-expressions", "x::y::(", "a", ")", "x::y::( ", "a", ")", 0},
    {"annotated structs", "x::{a:", "'''a''' '''b'''", "}", "x::{'a':", "\"ab\"", "}", 0},
    {"fields in another order", "{a:", "1", ",b:2}", "{b:2,a:", "1", "}", 0},
    {"many fields in another order", "x::{a:", "{{aGVsbG8=}}", ",b:x,c:2,a:1}", "x::{a:1,c:2,b:x,a:", "{{aGVsbG8=}}", "}", 0},
    {"fields in another order, and another value", "{a:", "1.5", ",b:2}", "{b:2,a:", "1.25", "}", 1},
    {"symbols by their ids", "x::[", "$4", "]", "x::['',", "$4", "]", 1},
    {"comments", "[/**/", "'''a'''/**/'''b'''", "//\n]", "[", "\"ab\"", "]", 0},
    {"escapes", "{\"\\x61\":", "\"\\u00e9\"", "}", "{a:", "\"\xc3\xa9\"", "}", 0},
};

typedef struct {
    uint8_t *octets;
    size_t length;
} document;

static const pureefjord_options deep = {(const uint8_t *)"", 0, (uint64_t)1 << 24, LEVELS, 0, 0};
static int passed, failed;
static uint8_t *room;

static void is(const char *name, const char *call, int holds) {
    holds ? passed++ : failed++;
    if (!holds)
        printf("%s, %s\n", name, call);
}

static void *some(size_t size) {
    void *block = malloc(size);
    if (!block)
        exit(4);
    return block;
}

static document nested(const char *open, const char *inner, const char *close) {
    document it = {some(LEVELS * (strlen(open) + strlen(close)) + strlen(inner) + 1), 0};
    char *at = (char *)it.octets;
    for (int i = 0; i < LEVELS; i++)
        at = stpcpy(at, open);
    at = stpcpy(at, inner);
    for (int i = 0; i < LEVELS; i++)
        at = stpcpy(at, close);
    it.length = (size_t)(at - (char *)it.octets);
    return it;
}

static document in_binary(const char *name, document text) {
    pureefjord_answer a;
    is(name, "to binary", pureefjord_to_binary(text.octets, text.length, &deep, room, ROOM, &a) == PUREEFJORD_ACCEPTED && a.number == 1);
    document it = {some(a.length), a.length};
    memcpy(it.octets, room, a.length);
    return it;
}

static void one(const char *name, document it) {
    pureefjord_answer a;
    is(name, "check", pureefjord_check(it.octets, it.length, &deep, &a) == PUREEFJORD_ACCEPTED && a.number == 1);
    is(name, "show", pureefjord_show(it.octets, it.length, &deep, room, ROOM, &a) == PUREEFJORD_ACCEPTED && a.number == 1);
    is(name, "to text", pureefjord_to_text(it.octets, it.length, &deep, room, ROOM, &a) == PUREEFJORD_ACCEPTED && a.number == 1);
    is(name, "to binary", pureefjord_to_binary(it.octets, it.length, &deep, room, ROOM, &a) == PUREEFJORD_ACCEPTED && a.number == 1);
    is(name, "events", pureefjord_events(it.octets, it.length, &deep, room, ROOM, &a) == PUREEFJORD_ACCEPTED && a.number == 1);
}

static void two(const char *name, document left, document right, uint32_t verdict) {
    const pureefjord_pair pair = {left.octets, left.length, right.octets, right.length};
    pureefjord_answer a, each;
    is(name, "compare", pureefjord_compare(left.octets, left.length, right.octets, right.length, &deep, room, ROOM, &a) == verdict && a.number == 1);
    is(name, "compare each", pureefjord_compare_each(&pair, 1, &deep, &each, 1) == 1 && each.status == verdict && each.length == a.length);
}

static void row(const char *name, document text, document other, uint32_t verdict) {
    document binary = in_binary(name, text), other_binary = in_binary(name, other);
    one(name, text);
    one(name, binary);
    two(name, text, text, PUREEFJORD_ACCEPTED);
    two(name, binary, text, PUREEFJORD_ACCEPTED);
    two(name, text, other, verdict);
    two(name, binary, other_binary, verdict);
    two(name, text, other_binary, verdict);
    two(name, binary, other, verdict);
    free(text.octets);
    free(other.octets);
    free(binary.octets);
    free(other_binary.octets);
}

static void *in_thread(void *unused) {
    for (size_t i = 0; i < sizeof rows / sizeof *rows; i++)
        row(rows[i].name, nested(rows[i].open, rows[i].inner, rows[i].close),
            nested(rows[i].other_open, rows[i].other_inner, rows[i].other_close), rows[i].verdict);
    /* longer than what is read at once, and than what is joined */
    for (size_t length = 4096; length <= 16 * 4096 + 4096; length += 16 * 4096) {
        char *text = some(length + 3);
        memset(text, 'a', length + 2);
        text[0] = text[length + 1] = '"';
        text[length + 2] = 0;
        row("a long string", nested("x::{a:", text, ",b:1}"), nested("x::{b:1,a:", text, "}"), PUREEFJORD_ACCEPTED);
        free(text);
    }
    return unused;
}

int main(void) {
    uint8_t *stack = mmap(NULL, GUARD + STACK, PROT_READ | PROT_WRITE, MAP_PRIVATE | MAP_ANONYMOUS, -1, 0);
    pthread_t id;
    pthread_attr_t exact;
    room = some(ROOM);
    if (stack == MAP_FAILED || mprotect(stack, GUARD, PROT_NONE))
        return 4;
    memset(stack + GUARD, PAINT, STACK);
    pthread_attr_init(&exact);
    if (pthread_attr_setstack(&exact, stack + GUARD, STACK) || pthread_create(&id, &exact, in_thread, NULL))
        return 4;
    pthread_join(id, NULL);
    size_t left = 0;
    while (left < STACK && stack[GUARD + left] == PAINT)
        left++;
    printf("%zu octets of %d were used, with the thread's own\n", STACK - left, STACK);
    printf("%d passed, %d failed\n", passed, failed);
    return failed != 0;
}
