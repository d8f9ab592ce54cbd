/* Tries pureefjord_events.h and pureefjord_assert.h on a few documents, in C and in C++. Its last line is `N passed, M failed`. */
#include "pureefjord_assert.h"

#define OCTETS(text) (const uint8_t *)(text), sizeof(text) - 1

static int passed, failed;
static uint8_t layout[1 << 16];
static size_t length;

static void is(const char *name, int holds) {
    holds ? passed++ : failed++;
    if (!holds)
        printf("%s: not as wanted\n", name);
}

/* A cursor at the first value of a document. */
static pje_cursor of(const char *text) {
    const pureefjord_options usual = PUREEFJORD_USUAL;
    pureefjord_answer answer;
    pureefjord_events((const uint8_t *)text, strlen(text), &usual, layout, sizeof layout, &answer);
    length = answer.length;
    return pje_begin(layout, length);
}

static pje_cursor nth(const char *text, int index) {
    pje_cursor it = of(text);
    for (; index > 1; index--)
        pje_skip(&it);
    return it;
}

static void walks(void) {
    pje_cursor it = of("1 [2, {a: x::3}, ()] y::z::{b: 4, 'c': w::[5]} 6");
    static const int kinds[] = {PJE_INT, PJE_LIST, PJE_STRUCT, PJE_INT, PJE_END};
    for (int i = 0; i < 5; i++, pje_skip(&it))
        is("a value after the other", pje_kind(&it) == kinds[i] && pje_done(&it) == (i == 4) && pje_is_container(&it) == (i == 1 || i == 2));
    is("it stays at the end", pje_done(&it) && pje_kind(&it) == PJE_END && pje_text(&it).at == NULL);
    static const int entries[] = {PJE_INT, PJE_LIST, PJE_INT, PJE_STRUCT, PJE_NAME, PJE_ANNOTATION, PJE_INT, PJE_CLOSE, PJE_SEXP, PJE_CLOSE, PJE_CLOSE,
        PJE_ANNOTATION, PJE_ANNOTATION, PJE_STRUCT, PJE_NAME, PJE_INT, PJE_NAME, PJE_ANNOTATION, PJE_LIST, PJE_INT, PJE_CLOSE, PJE_CLOSE, PJE_INT, PJE_END};
    it = pje_begin(layout, length);
    for (size_t i = 0; i < sizeof entries / sizeof *entries; i++) {
        is("an entry after the other", pje_kind_here(&it) == entries[i] && (entries[i] == PJE_END || pje_entry_of(&it).kind == entries[i]));
        pje_next(&it);
    }
    is("no entry behind the end", pje_kind_here(&it) == PJE_END && it.at == it.end);
    it = nth("1 [2, {a: x::3}, ()]", 2);
    is("what is inside", pje_count(&it) == 3);
    it = pje_inside(&it);
    pje_skip(&it);
    is("inside of that", pje_count(&it) == 1);
    pje_cursor field = pje_inside(&it);
    is("a field", pje_is(pje_name(&field), "a") && pje_annotations(&field) == 1 && pje_is(pje_annotation(&field, 0), "x"));
    pje_skip(&field);
    is("no more fields", pje_done(&field) && pje_kind(&field) == PJE_CLOSE);
    pje_skip(&it);
    field = pje_inside(&it);
    is("an empty one", pje_kind(&it) == PJE_SEXP && pje_done(&field) && pje_count(&it) == 0);
    pje_skip(&it);
    is("the end of the list", pje_done(&it) && pje_kind(&it) == PJE_CLOSE);
    pje_skip(&it);
    is("it stays at a close", pje_kind(&it) == PJE_CLOSE);
    it = of("5");
    field = pje_inside(&it);
    is("inside of none", pje_done(&field) && pje_count(&it) == 0);
}

static void no_layouts(void) {
    static const uint8_t other[] = "pjevent2\1\0\0\0\0\0\0", great[] = "pjevent1\2\0\0\0\0\0\0";
    pje_cursor it = pje_begin(other, 16);
    is("another version", pje_done(&it) && pje_kind(&it) == PJE_END);
    it = pje_begin(great, 16);
    is("more entries than octets", pje_done(&it));
    it = pje_begin(other, 0);
    is("no octets", pje_done(&it));
    it = of("");
    is("no values", pje_done(&it) && length == 16);
    it = of("1 2 ]");
    pje_skip(&it);
    is("before a refusal", pje_kind(&it) == PJE_INT);
    pje_skip(&it);
    is("and no more", pje_done(&it));
}

static void fields(void) {
    pje_cursor it = of("x::{a: 1, $0: 2, 'b c': y::3, a: 4, '': {}}"), field;
    int64_t number = 0;
    is("the first of a name", pje_field(&it, "a", &field) && pje_int64(&field, &number) && number == 1);
    is("an annotated one", pje_field(&it, "b c", &field) && pje_int64(&field, &number) && number == 3 && pje_annotations(&field) == 1);
    is("of the empty name", pje_field(&it, "", &field) && pje_kind(&field) == PJE_STRUCT);
    const pje_cursor before = field;
    is("none", !pje_field(&it, "b", &field) && !pje_field(&it, "$0", &field) && !pje_field(&field, "a", &field) && field.at == before.at);
    field = pje_inside(&it);
    is("no annotation that isn't there", pje_annotations(&field) == 0 && pje_annotation(&field, 0).at == NULL && pje_annotation(&it, 1).at == NULL);
    pje_skip(&field);
    is("a name of unknown text", pje_name(&field).at == NULL && pje_entry_of(&field).detail == 1);
    is("no name", pje_name(&it).at == NULL);
    it = of("[1]");
    is("no struct", !pje_field(&it, "a", &field));
}

static void texts(void) {
    pje_cursor it = of("\"a\\0b\" sym $0 {{\"c\"}} {{aGk=}} '' 1 null.string");
    is("a string", pje_text(&it).length == 3 && memcmp(pje_text(&it).at, "a\0b", 3) == 0 && pje_lob(&it).at == NULL && !pje_is(pje_text(&it), "a"));
    pje_skip(&it);
    is("a symbol", pje_is(pje_text(&it), "sym") && pje_kind(&it) == PJE_SYMBOL && !pje_is(pje_text(&it), "sy") && !pje_is(pje_text(&it), "symb"));
    pje_skip(&it);
    is("an unknown one", pje_kind(&it) == PJE_SYMBOL && pje_text(&it).at == NULL && !pje_is(pje_text(&it), ""));
    pje_skip(&it);
    is("a clob", pje_is(pje_lob(&it), "c") && pje_text(&it).at == NULL);
    pje_skip(&it);
    is("a blob", pje_is(pje_lob(&it), "hi") && pje_kind(&it) == PJE_BLOB);
    pje_skip(&it);
    is("an empty symbol", pje_is(pje_text(&it), "") && pje_text(&it).at != NULL);
    pje_skip(&it);
    is("no text", pje_text(&it).at == NULL && pje_lob(&it).at == NULL);
    pje_skip(&it);
    is("a null string", pje_text(&it).at == NULL && pje_is_null(&it) && pje_null_kind(&it) == PJE_STRING);
}

static void ints(void) {
    pje_cursor it = of("9223372036854775807 -9223372036854775808 9223372036854775808 -18446744073709551616 x::-1 1.0");
    int64_t number = 7;
    pje_number parts;
    is("the greatest", pje_int64(&it, &number) && number == INT64_MAX && pje_decimal(&it, &parts) && !parts.negative && parts.low == INT64_MAX && !parts.high);
    pje_skip(&it);
    is("the least", pje_int64(&it, &number) && number == INT64_MIN && pje_decimal(&it, &parts) && parts.negative && parts.low == (uint64_t)1 << 63 && !parts.exponent);
    pje_skip(&it);
    is("one more", pje_kind(&it) == PJE_GREAT_INT && !pje_int64(&it, &number) && number == INT64_MIN && pje_decimal(&it, &parts) && !parts.negative && parts.low == (uint64_t)1 << 63);
    pje_skip(&it);
    is("two to the 64", pje_decimal(&it, &parts) && parts.negative && parts.low == 0 && parts.high == 1 && parts.exponent == 0);
    pje_skip(&it);
    is("-1", pje_int64(&it, &number) && number == -1 && pje_decimal(&it, &parts) && parts.negative && parts.low == 1 && parts.high == 0);
    pje_skip(&it);
    is("a decimal is no int", !pje_int64(&it, &number));
}

static void numbers(void) {
    pje_cursor it = of("1.50 -0. 1d-2147483648");
    pje_number n;
    int truth = 7;
    is("a decimal", pje_decimal(&it, &n) && !n.negative && n.low == 150 && n.high == 0 && n.exponent == -2 && !pje_bool(&it, &truth) && truth == 7);
    pje_skip(&it);
    is("-0", pje_decimal(&it, &n) && n.negative && n.low == 0 && n.exponent == 0);
    pje_skip(&it);
    is("the least exponent", pje_decimal(&it, &n) && n.exponent == INT32_MIN);
    it = of("-170141183460469231731687303715884105727d3 true false null.int null");
    is("a great one", pje_decimal(&it, &n) && n.negative && n.low == UINT64_MAX && n.high == INT64_MAX && n.exponent == 3);
    pje_skip(&it);
    is("true", pje_bool(&it, &truth) && truth == 1 && !pje_decimal(&it, &n));
    pje_skip(&it);
    is("false", pje_bool(&it, &truth) && truth == 0 && pje_null_kind(&it) == PJE_END && !pje_is_null(&it));
    pje_skip(&it);
    is("null.int", pje_is_null(&it) && pje_null_kind(&it) == PJE_INT && !pje_decimal(&it, &n));
    pje_skip(&it);
    is("null", pje_is_null(&it) && pje_null_kind(&it) == PJE_NULL);
}

static void times(void) {
    pje_cursor it = of("2026T 2026-03-02 2026-03-02T09:05Z 2026-03-02T09:05:07-00:00 2026-03-02T09:05:07.250-01:30 2026-03-02T09:05:07.99999999999999999999999999999999999999Z 1");
    pje_time t;
    is("a year", pje_timestamp(&it, &t) && t.precision == 1 && t.year == 2026 && t.month == 1 && t.day == 1 && t.hour == 0 && t.digits == 0 && !t.has_offset);
    pje_skip(&it);
    is("a day", pje_timestamp(&it, &t) && t.precision == 3 && t.month == 3 && t.day == 2 && t.minute == 0);
    pje_skip(&it);
    is("a minute", pje_timestamp(&it, &t) && t.precision == 4 && t.hour == 9 && t.minute == 5 && t.has_offset && t.offset == 0);
    pje_skip(&it);
    is("a second", pje_timestamp(&it, &t) && t.precision == 5 && t.second == 7 && !t.has_offset && t.offset == 0 && t.digits == 0);
    pje_skip(&it);
    is("a fraction", pje_timestamp(&it, &t) && t.precision == 5 && t.digits == 3 && t.low == 250 && t.high == 0 && t.offset == -90);
    pje_skip(&it);
    is("a long fraction", pje_timestamp(&it, &t) && t.digits == 38 && t.high == 5421010862427522170 && t.low == 687399551400673279);
    pje_skip(&it);
    is("no timestamp", !pje_timestamp(&it, &t));
}

/* What an assertion tells of two documents, behind file and line; of no octets where they are equivalent. */
static const char *told(const char *left, const char *right, const pureefjord_options *options) {
    static char room[8192];
    FILE *file = tmpfile();
    if (!file)
        exit(4);
    const int same = pureefjord_same_or_told((const uint8_t *)left, strlen(left), (const uint8_t *)right, strlen(right), options, file, "t", 1);
    rewind(file);
    room[fread(room, 1, sizeof room - 1, file)] = 0;
    fclose(file);
    return same == (room[0] == 0) ? room : "both";
}

static void tells(const char *left, const char *right, const char *wanted) {
    const char *found = told(left, right, NULL);
    is(wanted, strcmp(found, wanted) == 0);
    if (strcmp(found, wanted) != 0)
        printf("%s", found);
}

#define DIFFER(place) "t:1: two documents differ\n@@ " place " @@\n"

static void asserts(void) {
    tells("{a: 1, b: 2}", "{b: 2, a: 1}", "");
    tells("1 {n:[1,x::\"old\"]}", "1 {n:[1,x::\"new\"]}", DIFFER("2 n [2]") "- x::\"old\"\n+ x::\"new\"\n");
    tells("1", "1 2", DIFFER("2") "+ 2\n");
    tells("{a:1,b:2}", "{a:1}", DIFFER("1 b") "- 2\n");
    tells("{a:1,ab:2}", "{a:1,ab:3}", DIFFER("1 ab") "- 2\n+ 3\n");
    tells("{a:1,a:2}", "{a:2}", DIFFER("1 a") "- 1\n- 2\n+ 2\n");
    tells("{'a b':{a:[(1 -0.)]}}", "{'a b':{a:[(1 -0.0)]}}", DIFFER("1 'a b' a [1] [2]") "- -0d0\n+ -0d-1\n");
    tells("1", "1 ]", "t:1: the right document is refused: octet 3, Unexpected\n");
    const pureefjord_options with_five = {OCTETS("5"), 1 << 24, 64, 0, 0}, none = {OCTETS(""), 0, 64, 0, 0};
    is("a refused catalog", strcmp(told("1", "1", &with_five), "t:1: the catalog is refused: octet 1, BadTable\n") == 0);
    is("wrong limits", strcmp(told("1", "1", &none), "t:1: two documents weren't compared: wrong limits, status 3\n") == 0);
    static char left[1003], right[1003];
    memset(left, 'x', 1002);
    left[0] = left[1001] = '"';
    memcpy(right, left, sizeof left);
    right[700] = 'y';
    const char *found = told(left, right, NULL);
    is("long strings", strlen(found) < 800 && strstr(found, "- ..xxx") && strstr(found, "xyx") && strstr(found, "xx..\n"));
    pureefjord_assert_same(OCTETS("[1]"), OCTETS(" [ 1 ] "));
}

int main(void) {
    walks();
    no_layouts();
    fields();
    texts();
    ints();
    numbers();
    times();
    asserts();
    printf("%d passed, %d failed\n", passed, failed);
    return failed != 0;
}
