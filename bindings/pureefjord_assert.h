/* For tests in C and C++: pureefjord_assert_same fails, as assert does, unless two documents have equivalent streams, and tells where
 * they part and what stands there on either side.
 *
 *     pureefjord_assert_same(expected, expected_length, written, written_length);
 *
 *     test.c:12: two documents differ
 *     @@ 2 n [2] @@
 *     - x::"old"
 *     + x::"new"
 *
 * The place is that of pureefjord_compare, the text that of pureefjord_to_text, cut around the part that differs. pureefjord_same_or_told
 * tells it and goes on. Header only, over pureefjord.h and pureefjord_events.h; memory is taken by malloc where there is something to tell. */
#ifndef PUREEFJORD_ASSERT_H
#define PUREEFJORD_ASSERT_H

#include "pureefjord.h"
#include "pureefjord_events.h"
#include <stdio.h>
#include <stdlib.h>

/* pureefjord_assert_same(left, left_length, right, right_length) fails by abort(), whatever NDEBUG says. */
#define pureefjord_assert_same(...) pureefjord_assert_same_at_(__FILE__, __LINE__, __VA_ARGS__)

#ifdef __cplusplus
extern "C" {
#endif

/* Text of Ion, as pureefjord_to_text writes it: as much as there was memory for. Begin with {NULL, 0, 0}, and free `at`. */
typedef struct { char *at; size_t length, room; } pureefjord_spelled;

static inline void pureefjord_put_(pureefjord_spelled *to, const char *octets, size_t length) {
    if (length > to->room - to->length) {
        size_t room = 2 * to->room + length + 64;
        char *more = (char *)realloc(to->at, room);
        if (!more)
            return;
        to->at = more;
        to->room = room;
    }
    if (length)
        memcpy(to->at + to->length, octets, length);
    to->length += length;
}

static inline void pureefjord_put_text_(pureefjord_spelled *to, const char *text) { pureefjord_put_(to, text, strlen(text)); }

static inline void pureefjord_put_number_(pureefjord_spelled *to, long number, int digits) {
    char room[24];
    snprintf(room, sizeof room, "%0*ld", digits, number);
    pureefjord_put_text_(to, room);
}

/* high * 2^64 + low, in at least so many digits, at most 40. */
static inline void pureefjord_put_magnitude_(pureefjord_spelled *to, uint64_t high, uint64_t low, int digits) {
    uint32_t parts[4] = {(uint32_t)(high >> 32), (uint32_t)high, (uint32_t)(low >> 32), (uint32_t)low};
    char room[40];
    int count = 0;
    while (parts[0] || parts[1] || parts[2] || parts[3] || count < digits) {
        uint64_t rest = 0;
        for (int i = 0; i < 4; i++) {
            rest = rest << 32 | parts[i];
            parts[i] = (uint32_t)(rest / 10);
            rest %= 10;
        }
        room[39 - count++] = (char)('0' + rest);
    }
    pureefjord_put_(to, room + 40 - count, (size_t)count);
}

/* Octets between quotes; of a clob those beyond ASCII are escaped, too. */
static inline void pureefjord_put_quoted_(pureefjord_spelled *to, pje_octets text, char quote, int is_clob) {
    static const char names[] = "\nn\rr\tt\\\\";
    pureefjord_put_(to, &quote, 1);
    for (size_t i = 0; i < text.length; i++) {
        const unsigned char octet = (unsigned char)text.at[i];
        char escape[5] = {'\\', (char)octet, 0, 0, 0};
        for (const char *name = names; *name; name += 2)
            if (*name == (char)octet)
                escape[1] = name[1];
        if (octet == (unsigned char)quote || escape[1] != (char)octet || octet == '\\') {
            pureefjord_put_(to, escape, 2);
        } else if (octet < 32 || octet == 127 || (is_clob && octet > 126)) {
            snprintf(escape, sizeof escape, "\\x%02x", octet);
            pureefjord_put_(to, escape, 4);
        } else {
            pureefjord_put_(to, text.at + i, 1);
        }
    }
    pureefjord_put_(to, &quote, 1);
}

static inline int pureefjord_is_word_(pje_octets text) {
    static const char *const keywords[] = {"null", "true", "false", "nan"};
    for (int i = 0; i < 4; i++)
        if (pje_is(text, keywords[i]))
            return 0;
    for (size_t i = 0; i < text.length; i++) {
        const char c = text.at[i];
        if (!((c >= 'a' && c <= 'z') || (c >= 'A' && c <= 'Z') || c == '_' || (i && ((c >= '0' && c <= '9') || c == '$'))))
            return 0;
    }
    return text.length != 0;
}

static inline void pureefjord_put_symbol_(pureefjord_spelled *to, pje_octets text) {
    if (!text.at)
        pureefjord_put_text_(to, "$0");
    else if (pureefjord_is_word_(text))
        pureefjord_put_(to, text.at, text.length);
    else
        pureefjord_put_quoted_(to, text, '\'', 0);
}

static inline void pureefjord_put_blob_(pureefjord_spelled *to, pje_octets octets) {
    static const char digits[] = "ABCDEFGHIJKLMNOPQRSTUVWXYZabcdefghijklmnopqrstuvwxyz0123456789+/";
    for (size_t i = 0; i < octets.length; i += 3) {
        uint32_t three = 0;
        for (size_t j = i; j < i + 3; j++)
            three = three << 8 | (j < octets.length ? (unsigned char)octets.at[j] : 0);
        char four[4] = {digits[three >> 18], digits[three >> 12 & 63], digits[three >> 6 & 63], digits[three & 63]};
        for (size_t j = octets.length - i + 1; j < 4; j++)
            four[j] = '=';
        pureefjord_put_(to, four, 4);
    }
}

static inline void pureefjord_put_timestamp_(pureefjord_spelled *to, const pje_time *time) {
    const int parts[] = {time->month, time->day, time->hour, time->minute, time->second};
    pureefjord_put_number_(to, time->year, 4);
    for (int i = 0; i < (time->precision < 4 ? time->precision - 1 : time->precision); i++) {
        pureefjord_put_(to, &"--T::"[i], 1);
        pureefjord_put_number_(to, parts[i], 2);
    }
    if (time->precision < 3)
        pureefjord_put_text_(to, "T");
    if (time->digits) {
        pureefjord_put_text_(to, ".");
        pureefjord_put_magnitude_(to, time->high, time->low, time->digits);
    }
    if (time->precision < 4)
        return;
    if (time->has_offset && time->offset == 0) {
        pureefjord_put_text_(to, "Z");
        return;
    }
    pureefjord_put_text_(to, time->offset > 0 ? "+" : "-");
    pureefjord_put_number_(to, labs(time->offset) / 60, 2);
    pureefjord_put_text_(to, ":");
    pureefjord_put_number_(to, labs(time->offset) % 60, 2);
}

/* A value that is neither null nor a container. */
static inline void pureefjord_put_scalar_(pureefjord_spelled *to, const pje_cursor *value) {
    pje_number number;
    pje_time time;
    int truth;
    if (pje_bool(value, &truth)) {
        pureefjord_put_text_(to, truth ? "true" : "false");
    } else if (pje_decimal(value, &number)) {
        pureefjord_put_text_(to, number.negative ? "-" : "");
        pureefjord_put_magnitude_(to, number.high, number.low, 1);
        if (pje_kind(value) == PJE_DECIMAL) {
            pureefjord_put_text_(to, "d");
            pureefjord_put_number_(to, number.exponent, 1);
        }
    } else if (pje_timestamp(value, &time)) {
        pureefjord_put_timestamp_(to, &time);
    } else if (pje_kind(value) == PJE_SYMBOL) {
        pureefjord_put_symbol_(to, pje_text(value));
    } else if (pje_kind(value) == PJE_STRING) {
        pureefjord_put_quoted_(to, pje_text(value), '"', 0);
    } else {
        pureefjord_put_text_(to, "{{");
        if (pje_kind(value) == PJE_CLOB)
            pureefjord_put_quoted_(to, pje_lob(value), '"', 1);
        else
            pureefjord_put_blob_(to, pje_lob(value));
        pureefjord_put_text_(to, "}}");
    }
}

/* Puts the text of a value, with its annotations, as pureefjord_to_text writes it. */
static inline void pureefjord_spell(pureefjord_spelled *to, const pje_cursor *value) {
    static const char *const nulls[] = {"", ".bool", ".int", "", ".float", ".decimal", ".timestamp", ".symbol", ".string", ".clob", ".blob",
        ".list", ".sexp", ".struct"};
    static const char *const brackets[] = {"[,]", "( )", "{,}"};
    for (size_t i = 0; i < pje_annotations(value); i++) {
        pureefjord_put_symbol_(to, pje_annotation(value, i));
        pureefjord_put_text_(to, "::");
    }
    if (pje_is_null(value)) {
        pureefjord_put_text_(to, "null");
        pureefjord_put_text_(to, nulls[pje_null_kind(value)]);
    } else if (pje_is_container(value)) {
        const char *bracket = brackets[pje_kind(value) - PJE_LIST];
        pureefjord_put_(to, bracket, 1);
        size_t index = 0;
        for (pje_cursor it = pje_inside(value); !pje_done(&it); pje_skip(&it)) {
            pureefjord_put_(to, bracket + 1, index++ ? 1 : 0);
            if (pje_kind(value) == PJE_STRUCT) {
                pureefjord_put_symbol_(to, pje_name(&it));
                pureefjord_put_text_(to, ":");
            }
            pureefjord_spell(to, &it);
        }
        pureefjord_put_(to, bracket + 2, 1);
    } else {
        pureefjord_put_scalar_(to, value);
    }
}

/* Puts a line for each value at a path of pureefjord_compare, within a value: names and [1]. There may be several where names repeat. */
static inline void pureefjord_spell_at_(pureefjord_spelled *to, const char *sign, const pje_cursor *value, const char *path, size_t length) {
    if (length == 0) {
        pureefjord_put_text_(to, sign);
        pureefjord_spell(to, value);
        pureefjord_put_text_(to, "\n");
        return;
    }
    size_t index = 1;
    for (pje_cursor it = pje_inside(value); !pje_done(&it); pje_skip(&it), index++) {
        pureefjord_spelled step = {NULL, 0, 0};
        if (pje_kind(value) == PJE_STRUCT) {
            pureefjord_put_symbol_(&step, pje_name(&it));
        } else {
            pureefjord_put_text_(&step, "[");
            pureefjord_put_number_(&step, (long)index, 1);
            pureefjord_put_text_(&step, "]");
        }
        if (step.length && step.length <= length && memcmp(step.at, path, step.length) == 0 && (step.length == length || path[step.length] == ' ')) {
            const size_t used = step.length + (step.length < length);
            pureefjord_spell_at_(to, sign, &it, path + used, length - used);
        }
        free(step.at);
    }
}

/* What stands in a document at the value of this number, from 1, and there at the path. */
static inline pureefjord_spelled pureefjord_spelled_at_(const uint8_t *input, size_t input_length, const pureefjord_options *options,
    const char *sign, uint64_t number, const uint8_t *path, size_t path_length) {
    pureefjord_spelled spelled = {NULL, 0, 0};
    pureefjord_answer answer;
    uint8_t none = 0;
    pureefjord_events(input, input_length, options, &none, 0, &answer);
    const size_t length = answer.length;
    uint8_t *layout = (uint8_t *)malloc(length + 1);
    if (layout && pureefjord_events(input, input_length, options, layout, length, &answer) == PUREEFJORD_ACCEPTED) {
        pje_cursor value = pje_begin(layout, length);
        while (--number && !pje_done(&value))
            pje_skip(&value);
        if (!pje_done(&value))
            pureefjord_spell_at_(&spelled, sign, &value, (const char *)path, path_length);
    }
    free(layout);
    return spelled;
}

/* Tells it, a long text from some octets before the one at which the two sides part. */
static inline void pureefjord_tell_cut_(FILE *to, const pureefjord_spelled *side, size_t same) {
    const size_t most = 300, before = 60;
    size_t begin = side->length > most && same > before ? same - before : 2, end = side->length;
    while (begin > 2 && ((unsigned char)side->at[begin] & 0xC0) == 0x80)
        begin--;
    if (side->length == 0)
        return;
    if (end - begin > most)
        for (end = begin + most; ((unsigned char)side->at[end] & 0xC0) == 0x80;)
            end--;
    fprintf(to, "%.2s%s%.*s%s", side->at, begin > 2 ? ".." : "", (int)(end - begin), side->at + begin, end < side->length ? "..\n" : "");
}

static inline void pureefjord_tell_difference_(FILE *to, const pureefjord_spelled *left, const pureefjord_spelled *right) {
    size_t same = 2;
    while (same < left->length && same < right->length && left->at[same] == right->at[same])
        same++;
    pureefjord_tell_cut_(to, left, same);
    pureefjord_tell_cut_(to, right, same);
}

/* 1 where two documents have equivalent streams; else 0, and what differs, or why they can't be compared, is told behind file and line.
 * Options NULL are PUREEFJORD_USUAL. */
static inline int pureefjord_same_or_told(const uint8_t *left, size_t left_length, const uint8_t *right, size_t right_length,
    const pureefjord_options *options, FILE *to, const char *file, int line) {
    static const char *const sides[] = {"", "the document", "the left document", "the right document", "the catalog"};
    const pureefjord_options usual = PUREEFJORD_USUAL;
    const pureefjord_options *asked = options ? options : &usual;
    pureefjord_answer answer;
    uint8_t none = 0, reason[16];
    const uint32_t status = pureefjord_compare(left, left_length, right, right_length, asked, &none, 0, &answer);
    if (status == PUREEFJORD_ACCEPTED)
        return 1;
    if (status == PUREEFJORD_REFUSED) {
        const int length = (int)pureefjord_reason_name(answer.reason, reason, sizeof reason);
        fprintf(to, "%s:%d: %s is refused: octet %llu, %.*s\n", file, line, sides[answer.whose], (unsigned long long)answer.number, length, (char *)reason);
    } else if (status != PUREEFJORD_DIFFERENT) {
        fprintf(to, "%s:%d: two documents weren't compared: %s %u\n", file, line, status == PUREEFJORD_FAULT ? "fault" : "wrong limits, status",
            status == PUREEFJORD_FAULT ? answer.reason : status);
    } else {
        const size_t length = answer.length;
        uint8_t *path = (uint8_t *)malloc(length + 1);
        if (path)
            pureefjord_compare(left, left_length, right, right_length, asked, path, length, &answer);
        const size_t known = path ? length : 0;
        pureefjord_spelled old = pureefjord_spelled_at_(left, left_length, asked, "- ", answer.number, path, known);
        pureefjord_spelled now = pureefjord_spelled_at_(right, right_length, asked, "+ ", answer.number, path, known);
        fprintf(to, "%s:%d: two documents differ\n@@ %llu%s%.*s @@\n", file, line, (unsigned long long)answer.number, known ? " " : "", (int)known,
            known ? (const char *)path : "");
        pureefjord_tell_difference_(to, &old, &now);
        free(old.at);
        free(now.at);
        free(path);
    }
    return 0;
}

static inline void pureefjord_assert_same_at_(const char *file, int line, const uint8_t *left, size_t left_length, const uint8_t *right,
    size_t right_length) {
    if (!pureefjord_same_or_told(left, left_length, right, right_length, NULL, stderr, file, line))
        abort();
}

#ifdef __cplusplus
}
#endif

#endif
