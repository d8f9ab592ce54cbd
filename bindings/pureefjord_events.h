/* Values one by one, in C and C++: a cursor over a layout, which pureefjord_events makes. Header only; it takes no memory, keeps nothing
 * and copies nothing. Names begin with pje_ and PJE_.
 *
 *     for (pje_cursor order = pje_begin(layout, answer.length); !pje_done(&order); pje_skip(&order)) {
 *         pje_cursor field;
 *         int64_t size;
 *         if (pje_field(&order, "size", &field) && pje_int64(&field, &size))
 *             sum += size;
 *     }
 *
 * A cursor stands at a value: at its field name, at its annotations, or at itself. Whatever is asked is asked of that value, and what it
 * isn't is answered by 0, so that no kind has to be asked for first. Texts point into the layout; no zero stands behind them.
 *
 * THE LAYOUT IS TRUSTED. It has to be the octets that pureefjord_events put into the buffer, answer->length of them, with status 0 or 2.
 * Octets from a file, a network or another program may name texts and entries that aren't there; no call checks them yet.
 *
 * docs/EVENTS.md tells what a layout is, entry by entry. pje_entry_of and pje_next walk so. */
#ifndef PUREEFJORD_EVENTS_H
#define PUREEFJORD_EVENTS_H

#include <stddef.h>
#include <stdint.h>
#include <string.h>

#if !defined(__BYTE_ORDER__) || __BYTE_ORDER__ != __ORDER_LITTLE_ENDIAN__
#error "pureefjord_events.h reads numbers as they lie in a layout, so the machine has to be little-endian"
#endif

#ifdef __cplusplus
extern "C" {
#endif

/* Kinds. Those of values are the type codes of binary Ion. */
enum {
    PJE_NULL = 0,
    PJE_BOOL = 1,
    PJE_INT = 2,       /* from -2^63 to 2^63-1 */
    PJE_GREAT_INT = 3, /* any other int */
    PJE_FLOAT = 4,     /* of a null alone */
    PJE_DECIMAL = 5,
    PJE_TIMESTAMP = 6,
    PJE_SYMBOL = 7,
    PJE_STRING = 8,
    PJE_CLOB = 9,
    PJE_BLOB = 10,
    PJE_LIST = 11,
    PJE_SEXP = 12,
    PJE_STRUCT = 13,
    PJE_ANNOTATION = 14, /* of the value that follows */
    PJE_NAME = 15,       /* of the field that follows */
    PJE_CLOSE = 16,      /* of the container in which the cursor stands */
    PJE_END = 256        /* of the layout */
};

typedef struct { const uint8_t *entries, *texts; uint64_t at, end; } pje_cursor;
typedef struct { uint8_t kind, detail; uint16_t more; uint32_t count; uint64_t number; } pje_entry;
typedef struct { const char *at; size_t length; } pje_octets; /* at is NULL where there are none: of another kind, or of unknown text */

/* An int or a decimal: (high * 2^64 + low) * 10^exponent, below 0 if negative; a decimal may be -0. */
typedef struct { int negative; uint64_t high, low; int32_t exponent; } pje_number;

/* A timestamp. What the precision leaves out stands at its least. Fields are local where has_offset, which is in minutes, and else UTC. */
typedef struct {
    int precision; /* 1 year, 2 month, 3 day, 4 minute, 5 second */
    int year, month, day, hour, minute, second;
    int digits; /* of a fraction of the second, 0 for none; it is (high * 2^64 + low) / 10^digits */
    uint64_t high, low;
    int has_offset, offset;
} pje_time;

/* Moving. */

static inline uint64_t pje_number_at_(const pje_cursor *c, uint64_t entry) {
    uint64_t number;
    memcpy(&number, c->entries + 16 * entry + 8, 8);
    return number;
}

/* The entry at which a cursor stands, if that isn't the end. */
static inline pje_entry pje_entry_of(const pje_cursor *c) {
    pje_entry entry;
    memcpy(&entry, c->entries + 16 * c->at, 16);
    return entry;
}

/* A cursor at the first value of a layout; at the end, where these octets aren't one at all. */
static inline pje_cursor pje_begin(const uint8_t *layout, size_t length) {
    pje_cursor c = {layout, layout, 1, 1};
    if (length >= 16 && memcmp(layout, "pjevent1", 8) == 0 && pje_number_at_(&c, 0) <= length / 16) {
        c.end = pje_number_at_(&c, 0);
        c.texts = layout + 16 * c.end;
    }
    return c;
}

/* To the next entry: from a name or an annotation on to its value, into a container, out of one. It stays at the end. */
static inline void pje_next(pje_cursor *c) {
    if (c->at < c->end)
        c->at += 1 + (uint64_t)pje_entry_of(c).more;
}

/* The kind of the entry at which a cursor stands. */
static inline int pje_kind_here(const pje_cursor *c) { return c->at < c->end ? c->entries[16 * c->at] : (int)PJE_END; }

/* The value itself, behind its name and its annotations. */
static inline pje_cursor pje_value(const pje_cursor *c) {
    pje_cursor value = *c;
    while (pje_kind_here(&value) == PJE_NAME || pje_kind_here(&value) == PJE_ANNOTATION)
        value.at++;
    return value;
}

/* The kind of the value; PJE_CLOSE or PJE_END where none follows. */
static inline int pje_kind(const pje_cursor *c) {
    const pje_cursor value = pje_value(c);
    return pje_kind_here(&value);
}

/* Whether no value is left of what the cursor walks over: a container, or the layout. */
static inline int pje_done(const pje_cursor *c) { return pje_kind_here(c) >= PJE_CLOSE; }

static inline int pje_is_container(const pje_cursor *c) { return pje_kind(c) >= PJE_LIST && pje_kind(c) <= PJE_STRUCT; }

/* Past the value and all that is in it, to the next one. */
static inline void pje_skip(pje_cursor *c) {
    *c = pje_value(c);
    if (pje_is_container(c))
        c->at = pje_entry_of(c).number;
    else if (!pje_done(c))
        pje_next(c);
}

/* A cursor over what is in a container, done at once where this is none. */
static inline pje_cursor pje_inside(const pje_cursor *c) {
    pje_cursor inside = pje_value(c);
    if (pje_is_container(&inside))
        inside.at++;
    else
        inside.end = inside.at;
    return inside;
}

/* How many values, or fields, a container has. */
static inline size_t pje_count(const pje_cursor *c) {
    const pje_cursor value = pje_value(c);
    return pje_is_container(&value) ? pje_entry_of(&value).count : 0;
}

/* Texts. */

static inline pje_octets pje_octets_here_(const pje_cursor *c, int first, int last) {
    pje_octets octets = {NULL, 0};
    const int kind = pje_kind_here(c);
    if (kind >= first && kind <= last && (kind == PJE_STRING || pje_entry_of(c).detail == 0)) {
        octets.at = (const char *)c->texts + pje_entry_of(c).number;
        octets.length = pje_entry_of(c).count;
    }
    return octets;
}

/* The text of a string or a symbol, in UTF-8. */
static inline pje_octets pje_text(const pje_cursor *c) {
    const pje_cursor value = pje_value(c);
    return pje_octets_here_(&value, PJE_SYMBOL, PJE_STRING);
}

/* The octets of a clob or a blob. */
static inline pje_octets pje_lob(const pje_cursor *c) {
    const pje_cursor value = pje_value(c);
    return pje_octets_here_(&value, PJE_CLOB, PJE_BLOB);
}

/* The name of the field, if the cursor stands there. */
static inline pje_octets pje_name(const pje_cursor *c) { return pje_octets_here_(c, PJE_NAME, PJE_NAME); }

/* How many annotations the value has, and the text of one, counted from 0. */
static inline size_t pje_annotations(const pje_cursor *c) {
    return (size_t)(pje_value(c).at - c->at) - (pje_kind_here(c) == PJE_NAME);
}
static inline pje_octets pje_annotation(const pje_cursor *c, size_t index) {
    pje_cursor note = *c;
    note.at += index + (pje_kind_here(c) == PJE_NAME);
    return pje_octets_here_(&note, PJE_ANNOTATION, PJE_ANNOTATION);
}

/* Whether octets are this text, which has no zeros. */
static inline int pje_is(pje_octets octets, const char *text) {
    return octets.at && octets.length == strlen(text) && memcmp(octets.at, text, octets.length) == 0;
}

/* The first field of this name in a struct; else 0, and field is as it was. */
static inline int pje_field(const pje_cursor *c, const char *name, pje_cursor *field) {
    if (pje_kind(c) != PJE_STRUCT)
        return 0;
    for (pje_cursor it = pje_inside(c); !pje_done(&it); pje_skip(&it))
        if (pje_is(pje_name(&it), name)) {
            *field = it;
            return 1;
        }
    return 0;
}

/* Numbers and the like. Each answers 1, and 0 of another kind, where what is pointed to is as it was. */

/* Whether it is null, of any type; its type is pje_null_kind, PJE_NULL for plain null. */
static inline int pje_is_null(const pje_cursor *c) { return pje_kind(c) == PJE_NULL; }
static inline int pje_null_kind(const pje_cursor *c) {
    const pje_cursor value = pje_value(c);
    return pje_is_null(&value) ? pje_entry_of(&value).detail : (int)PJE_END;
}

static inline int pje_bool(const pje_cursor *c, int *truth) {
    const pje_cursor value = pje_value(c);
    if (pje_kind_here(&value) != PJE_BOOL)
        return 0;
    *truth = pje_entry_of(&value).number != 0;
    return 1;
}

/* An int that fits. */
static inline int pje_int64(const pje_cursor *c, int64_t *number) {
    const pje_cursor value = pje_value(c);
    if (pje_kind_here(&value) != PJE_INT)
        return 0;
    memcpy(number, value.entries + 16 * value.at + 8, 8);
    return 1;
}

/* An int or a decimal. */
static inline int pje_decimal(const pje_cursor *c, pje_number *number) {
    const pje_cursor value = pje_value(c);
    const int kind = pje_kind_here(&value);
    if (kind != PJE_INT && kind != PJE_GREAT_INT && kind != PJE_DECIMAL)
        return 0;
    const pje_entry entry = pje_entry_of(&value);
    number->negative = kind == PJE_INT ? entry.number >> 63 != 0 : entry.detail;
    number->low = kind == PJE_INT && number->negative ? 0 - entry.number : entry.number;
    number->high = entry.more ? pje_number_at_(&value, value.at + 1) : 0;
    memcpy(&number->exponent, &entry.count, 4); /* 0 of an int */
    return 1;
}

static inline int pje_timestamp(const pje_cursor *c, pje_time *time) {
    const pje_cursor value = pje_value(c);
    if (pje_kind_here(&value) != PJE_TIMESTAMP)
        return 0;
    const pje_entry entry = pje_entry_of(&value);
    const uint8_t *parts = value.entries + 16 * value.at + 8;
    int32_t offset;
    memcpy(&offset, &entry.count, 4);
    time->precision = entry.detail < 5 ? entry.detail : 5;
    time->year = parts[0] | parts[1] << 8;
    time->month = parts[2];
    time->day = parts[3];
    time->hour = parts[4];
    time->minute = parts[5];
    time->second = parts[6];
    time->digits = entry.detail < 5 ? 0 : entry.detail - 5;
    time->low = entry.more > 0 ? pje_number_at_(&value, value.at + 1) : 0;
    time->high = entry.more > 1 ? pje_number_at_(&value, value.at + 2) : 0;
    time->has_offset = offset != INT32_MIN;
    time->offset = time->has_offset ? offset : 0;
    return 1;
}

#ifdef __cplusplus
}
#endif

#endif
