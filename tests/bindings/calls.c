/* Tries each call on a few documents, with buffers of every size, in four threads, and where malloc refuses each block in turn.
 * Its last line is `N passed, M failed`. Built with -Wl,--wrap=malloc,--wrap=realloc. */
#include "pureefjord.h"
#include <pthread.h>
#include <stdio.h>
#include <stdlib.h>
#include <string.h>

#define OCTETS(text) (const uint8_t *)(text), sizeof(text) - 1

/* The allocator: in the one thread that counts, the block numbered refuse_at is refused. */
static _Thread_local long blocks, refuse_at;

void *__real_malloc(size_t size);
void *__real_realloc(void *block, size_t size);

void *__wrap_malloc(size_t size) {
    return ++blocks == refuse_at ? NULL : __real_malloc(size);
}

void *__wrap_realloc(void *block, size_t size) {
    return ++blocks == refuse_at ? NULL : __real_realloc(block, size);
}

static int passed, failed;
static pureefjord_answer a;

static void is(const char *name, int holds) {
    if (holds) {
        passed++;
    } else {
        failed++;
        printf("%s: status %u number %llu length %llu whose %u reason %u\n", name, a.status, (unsigned long long)a.number,
            (unsigned long long)a.length, a.whose, a.reason);
    }
}

static int tells(uint32_t status, uint32_t wanted, uint64_t number, uint64_t length, uint32_t whose, uint32_t reason) {
    return status == wanted && a.status == wanted && a.number == number && a.length == length && a.whose == whose && a.reason == reason;
}

static int holds(const uint8_t *buffer, const char *wanted) {
    return a.length == strlen(wanted) && memcmp(buffer, wanted, a.length) == 0;
}

static const uint8_t short_binary[] = {0xE0, 1, 0, 0xEA, 0xB3, 0x21, 5, 0x11};
static const uint8_t long_binary[] = {0xE0, 1, 0, 0xEA, 0xBE, 0x83, 0x21, 5, 0x11};
static const char tables[] = "$ion_shared_symbol_table::{name:\"t\",version:1,symbols:[\"a\",\"b\"]}";
static const char uses[] = "$ion_symbol_table::{imports:[{name:\"t\",version:1,max_id:2}]} $10";
static const char deep[] = "{a:[{b:(c d::e 1.5 2020-01-01T \"text\" {{aGVsbG8=}})}]} {a:1} x::y::{'b c':[1,[2,[3]]]}";
static const char other[] = "{a:[{b:(c d::e 1.5 2020-01-01T \"other\" {{aGVsbG8=}})}]} {a:1}";
static const pureefjord_options usual = PUREEFJORD_USUAL;

static void documents(void) {
    const pureefjord_options shallow = {OCTETS(""), 1 << 24, 1, 0, 0};
    is("check", tells(pureefjord_check(short_binary, sizeof short_binary, &usual, &a), PUREEFJORD_ACCEPTED, 1, 0, 0, 0));
    is("nothing", tells(pureefjord_check(OCTETS(""), &usual, &a), PUREEFJORD_ACCEPTED, 0, 0, 0, 0));
    is("a cut document", tells(pureefjord_check(short_binary, 7, &usual, &a), PUREEFJORD_REFUSED, 7, 0, PUREEFJORD_ONLY, PUREEFJORD_INCOMPLETE));
    is("a float", tells(pureefjord_check(OCTETS("1e0"), &usual, &a), PUREEFJORD_REFUSED, 3, 0, PUREEFJORD_ONLY, PUREEFJORD_FLOAT));
    is("too deep", tells(pureefjord_check(OCTETS("[[1]]"), &shallow, &a), PUREEFJORD_REFUSED, 2, 0, PUREEFJORD_ONLY, PUREEFJORD_DEPTH));
}

static void limits(void) {
    static const struct { uint64_t item; uint32_t depth, status; } rows[] = {
        {1, 1, 0}, {0, 1, 3}, {1, 0, 3}, {(uint64_t)1 << 30, 128, 0}, {((uint64_t)1 << 30) + 1, 128, 3}, {1, 129, 3}, {UINT64_MAX, UINT32_MAX, 3}};
    for (size_t i = 0; i < sizeof rows / sizeof *rows; i++) {
        const pureefjord_options asked = {OCTETS(""), rows[i].item, rows[i].depth, 0, 0};
        uint32_t status = pureefjord_check(OCTETS("1"), &asked, &a);
        is("limits", tells(status, rows[i].status, rows[i].status ? 0 : 1, 0, 0, 0));
    }
}

static void verdicts(void) {
    uint8_t b[64];
    is("equivalent", tells(pureefjord_compare(short_binary, sizeof short_binary, long_binary, sizeof long_binary, &usual, b, sizeof b, &a), PUREEFJORD_ACCEPTED, 1, 0, 0, 0));
    is("both encodings", tells(pureefjord_compare(short_binary, sizeof short_binary, OCTETS("[5, true]"), &usual, b, sizeof b, &a), PUREEFJORD_ACCEPTED, 1, 0, 0, 0));
    is("different", tells(pureefjord_compare(OCTETS("1 {name:[1,2]}"), OCTETS("1 {name:[1,3]}"), &usual, b, sizeof b, &a), PUREEFJORD_DIFFERENT, 2, 8, 0, 0) && holds(b, "name [2]"));
    is("one has ended", tells(pureefjord_compare(OCTETS("1 2"), OCTETS("1"), &usual, b, sizeof b, &a), PUREEFJORD_DIFFERENT, 2, 0, 0, 0));
    is("right refused", tells(pureefjord_compare(OCTETS("1"), OCTETS("]"), &usual, b, sizeof b, &a), PUREEFJORD_REFUSED, 1, 0, PUREEFJORD_RIGHT, PUREEFJORD_UNEXPECTED));
    is("left refused first", tells(pureefjord_compare(OCTETS("1e0"), OCTETS("]"), &usual, b, sizeof b, &a), PUREEFJORD_REFUSED, 3, 0, PUREEFJORD_LEFT, PUREEFJORD_FLOAT));
    is("no room", tells(pureefjord_compare(OCTETS("[1]"), OCTETS("[2]"), &usual, b, 0, &a), PUREEFJORD_DIFFERENT, 1, 3, 0, 0));
}

static void catalogs(void) {
    const pureefjord_options with_tables = {OCTETS(tables), 1 << 24, 64, 0, 0}, with_five = {OCTETS("5"), 1 << 24, 64, 0, 0};
    uint8_t b[64];
    pureefjord_check(OCTETS(uses), &usual, &a);
    is("an import that is missing", a.status == PUREEFJORD_REFUSED && a.reason == PUREEFJORD_MISSING_IMPORT);
    is("an import", tells(pureefjord_check(OCTETS(uses), &with_tables, &a), PUREEFJORD_ACCEPTED, 1, 0, 0, 0));
    is("its text", tells(pureefjord_compare(OCTETS(uses), OCTETS("a"), &with_tables, b, sizeof b, &a), PUREEFJORD_ACCEPTED, 1, 0, 0, 0));
    is("no catalog", tells(pureefjord_compare(OCTETS("]"), OCTETS("]"), &with_five, b, sizeof b, &a), PUREEFJORD_REFUSED, 1, 0, PUREEFJORD_CATALOG, PUREEFJORD_BAD_TABLE));
}

static void texts(void) {
    uint8_t b[64];
    is("to text", tells(pureefjord_to_text(short_binary, sizeof short_binary, &usual, b, sizeof b, &a), PUREEFJORD_ACCEPTED, 1, 9, 0, 0) && holds(b, "[5,true]\n"));
    is("to binary", tells(pureefjord_to_binary(OCTETS("[5, true]"), &usual, b, sizeof b, &a), PUREEFJORD_ACCEPTED, 1, sizeof short_binary, 0, 0) && !memcmp(b, short_binary, sizeof short_binary));
    is("before a refusal", tells(pureefjord_to_text(OCTETS("1 2 ]"), &usual, b, sizeof b, &a), PUREEFJORD_REFUSED, 5, 4, PUREEFJORD_ONLY, PUREEFJORD_UNEXPECTED) && holds(b, "1\n2\n"));
    is("show", tells(pureefjord_show(OCTETS("[5, true] 1"), &usual, b, sizeof b, &a), PUREEFJORD_ACCEPTED, 2, 56, 0, 0) && holds(b, "1 list depth 1 nodes 3\n2 int depth 0 nodes 1\naccepted 2\n"));
}

/* Under whatever seed the same document, and the same layout, is written. */
static void seeds(void) {
    static uint32_t (*const written[])(const uint8_t *, size_t, const pureefjord_options *, uint8_t *, size_t, pureefjord_answer *) = {
        pureefjord_to_binary, pureefjord_events};
    for (int i = 0; i < 2; i++) {
        uint8_t wanted[2048], b[2048];
        written[i](OCTETS(deep), &usual, wanted, sizeof wanted, &a);
        for (uint64_t seed = 1; seed; seed <<= 7) {
            const pureefjord_options seeded = {OCTETS(""), 1 << 24, 64, seed, ~seed};
            uint64_t length = a.length;
            uint32_t status = written[i](OCTETS(deep), &seeded, b, sizeof b, &a);
            is("a seed", tells(status, PUREEFJORD_ACCEPTED, 3, length, 0, 0) && length <= sizeof b && !memcmp(b, wanted, length));
        }
    }
}

/* The layout of 5 true, as docs/EVENTS.md has it, and of values before a refusal. */
static void layouts(void) {
    static const uint8_t wanted[48] = {'p', 'j', 'e', 'v', 'e', 'n', 't', '1', 3, 0, 0, 0, 0, 0, 0, 0, 2, 0, 0, 0, 0, 0, 0, 0, 5, 0, 0, 0, 0, 0, 0, 0, 1, 0, 0, 0, 0, 0, 0, 0, 1};
    uint8_t b[64];
    is("a layout", tells(pureefjord_events(OCTETS("5 true"), &usual, b, sizeof b, &a), PUREEFJORD_ACCEPTED, 2, 48, 0, 0) && !memcmp(b, wanted, 48));
    is("a layout before a refusal", tells(pureefjord_events(OCTETS("5 true ]"), &usual, b, sizeof b, &a), PUREEFJORD_REFUSED, 8, 48, PUREEFJORD_ONLY, PUREEFJORD_UNEXPECTED) && !memcmp(b, wanted, 48));
    is("of no values", tells(pureefjord_events(OCTETS(""), &usual, b, sizeof b, &a), PUREEFJORD_ACCEPTED, 0, 16, 0, 0) && b[8] == 1);
    for (size_t room = 0; room <= 64; room++) {
        uint8_t *exact = __real_malloc(room ? room : 1);
        memset(exact, 7, room ? room : 1);
        memset(b, 7, sizeof b);
        if (room >= 48)
            memcpy(b, wanted, 48);
        uint32_t status = pureefjord_events(OCTETS("5 true"), &usual, exact, room, &a);
        is("a layout, a buffer of each size", tells(status, PUREEFJORD_ACCEPTED, 2, 48, 0, 0) && !memcmp(exact, b, room));
        free(exact);
    }
}

/* Of a text of 9 octets: a buffer of any size has it whole at its front, or is as it was. */
static void buffers(void) {
    for (size_t room = 0; room <= 20; room++) {
        uint8_t *b = __real_malloc(room ? room : 1), wanted[20];
        memset(b, 7, room ? room : 1);
        memset(wanted, 7, sizeof wanted);
        if (room >= 9)
            memcpy(wanted, "[5,true]\n", 9);
        uint32_t status = pureefjord_to_text(short_binary, sizeof short_binary, &usual, b, room, &a);
        is("a buffer of each size", tells(status, PUREEFJORD_ACCEPTED, 1, 9, 0, 0) && !memcmp(b, wanted, room));
        free(b);
    }
}

static void names(void) {
    static const char *const wanted[] = {"", "Memory", "Incomplete", "TooLarge", "Malformed", "Float", "DuplicateTable", "BadTable", "SymbolRange",
        "ImportGap", "MissingImport", "RepeatedField", "TableTooLarge", "NullTable", "BadEscape", "BadUtf8", "BadBase64", "Ambiguous",
        "Unexpected", "Depth", "ItemTooLong", "Version", "KeywordAsName", ""};
    uint8_t b[16];
    for (uint32_t number = 0; number < 24; number++) {
        size_t length = pureefjord_reason_name(number, b, sizeof b);
        is("a reason's name", length == strlen(wanted[number]) && !memcmp(b, wanted[number], length));
    }
    memset(b, 7, sizeof b);
    is("no reason", pureefjord_reason_name(UINT32_MAX, b, sizeof b) == 0 && b[0] == 7 && !memcmp(b, b + 1, sizeof b - 1));
    is("a name without room", pureefjord_reason_name(1, b, 0) == 6);
    size_t length = pureefjord_version(b, sizeof b);
    is("the version", length == strlen(PUREEFJORD_VERSION) && !memcmp(b, PUREEFJORD_VERSION, length));
}

static void pairs(void) {
    const pureefjord_pair rows[] = {{OCTETS("1"), OCTETS("1 ")}, {OCTETS("{a:1}"), OCTETS("{a:2}")}, {OCTETS("1"), OCTETS("]")}, {OCTETS(""), OCTETS("")}};
    pureefjord_answer found[5];
    const pureefjord_options none = {OCTETS(""), 0, 64, 0, 0}, with_five = {OCTETS("5"), 1 << 24, 64, 0, 0};
    memset(found, 9, sizeof found);
    is("as many as there is room for", pureefjord_compare_each(rows, 4, &usual, found, 2) == 2 && found[2].status == 0x09090909);
    is("all pairs", pureefjord_compare_each(rows, 4, &usual, found, 5) == 4 && found[4].status == 0x09090909);
    for (size_t i = 0; i < 4; i++) {
        uint32_t status = pureefjord_compare(rows[i].left, rows[i].left_length, rows[i].right, rows[i].right_length, &usual, (uint8_t *)"", 0, &a);
        is("a pair", tells(status, found[i].status, found[i].number, found[i].length, found[i].whose, found[i].reason));
    }
    is("pairs, wrong limits", pureefjord_compare_each(rows, 4, &none, found, 4) == 4 && found[3].status == PUREEFJORD_WRONG_LIMITS);
    is("pairs, no catalog", pureefjord_compare_each(rows, 4, &with_five, found, 4) == 4 && found[3].status == PUREEFJORD_REFUSED && found[3].whose == PUREEFJORD_CATALOG);
    is("no pairs", pureefjord_compare_each(rows, 0, &usual, found, 4) == 0);
}

static uint8_t wide[4096], whole_text[4096];

/* Refuses each block of a call in turn, until none is left to refuse: that is the fault `Memory`, or the call does without the block. */
static void refused_blocks(const char *name, uint32_t (*call)(void)) {
    uint32_t wanted = call();
    const pureefjord_answer whole = a;
    memcpy(whole_text, wide, sizeof wide);
    long count = 0;
    for (int refused = 1; refused;) {
        blocks = 0;
        refuse_at = ++count;
        uint32_t status = call();
        refused = blocks >= refuse_at;
        refuse_at = 0;
        int same = tells(status, wanted, whole.number, whole.length, 0, 0) && !memcmp(wide, whole_text, sizeof wide);
        is(name, same || (refused && tells(status, PUREEFJORD_FAULT, 0, 0, 0, PUREEFJORD_FAULT_MEMORY)));
    }
    printf("%s: %ld blocks\n", name, count - 1);
}

static const pureefjord_options starved = {OCTETS(tables), 1 << 24, 64, 0, 0};
static uint32_t call_check(void) { return pureefjord_check(OCTETS(deep), &starved, &a); }
static uint32_t call_show(void) { return pureefjord_show(OCTETS(deep), &starved, wide, sizeof wide, &a); }
static uint32_t call_text(void) { return pureefjord_to_text(OCTETS(deep), &starved, wide, sizeof wide, &a); }
static uint32_t call_binary(void) { return pureefjord_to_binary(OCTETS(deep), &starved, wide, sizeof wide, &a); }
static uint32_t call_events(void) { return pureefjord_events(OCTETS(deep), &starved, wide, sizeof wide, &a); }
static uint32_t call_compare(void) { return pureefjord_compare(OCTETS(deep), OCTETS(other), &starved, wide, sizeof wide, &a); }

static void *in_thread(void *unused) {
    pureefjord_answer mine;
    uint8_t b[512];
    intptr_t wrong = 0;
    for (int i = 0; i < 200; i++) {
        uint32_t status = pureefjord_to_binary(OCTETS(deep), &usual, b, sizeof b, &mine);
        pureefjord_answer back;
        uint8_t path[64];
        wrong += status != 0 || mine.number != 3;
        wrong += pureefjord_compare(b, mine.length, OCTETS(deep), &usual, path, sizeof path, &back) != 0 || back.number != 3;
    }
    (void)unused;
    return (void *)wrong;
}

/* Four threads at once. */
static void threads(void) {
    pthread_t ids[4];
    for (int i = 0; i < 4; i++)
        pthread_create(&ids[i], NULL, in_thread, NULL);
    for (int i = 0; i < 4; i++) {
        void *wrong;
        pthread_join(ids[i], &wrong);
        is("a thread", wrong == NULL);
    }
}

int main(void) {
    documents();
    limits();
    verdicts();
    catalogs();
    texts();
    layouts();
    seeds();
    buffers();
    names();
    pairs();
    refused_blocks("check, a block refused", call_check);
    refused_blocks("show, a block refused", call_show);
    refused_blocks("to text, a block refused", call_text);
    refused_blocks("to binary, a block refused", call_binary);
    refused_blocks("events, a block refused", call_events);
    refused_blocks("compare, a block refused", call_compare);
    threads();
    printf("%d passed, %d failed\n", passed, failed);
    return failed != 0;
}
