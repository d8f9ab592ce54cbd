/* Amazon Ion 1.0 documents in memory, binary or text: check, show, compare, convert, and lay out values one by one.
 *
 * Link libpureefjord.a or libpureefjord.so, which build.sh makes (docs/BINDINGS.md). The answers are those of the command
 * ion_cmd, whose statuses these are.
 *
 * What the caller owes, in each call:
 *   - No pointer is NULL, also where a length is 0: "" serves.
 *   - Octets (input, left, right, catalog) and options can be read for their length, and nothing writes to them during the call.
 *   - What is written (buffer, answer, answers) can be written for its length, and overlaps nothing else that is handed in.
 *   - 256 KiB of stack are left, whatever the depth. No call comes from a signal handler, nor from the child of a fork of a process
 *     with threads.
 *   - malloc, realloc and free are those of one allocator, with blocks aligned as C wants them.
 * In return: nothing is kept between calls and nothing is shared, so any number of threads may call at once; nothing has to be
 * freed; no call fails but by its status, none aborts, writes to a file or calls back.
 *
 * A text (the lines of show, the path of compare, the document of a conversion, a layout) goes into the buffer where that has room
 * for all of it. Else not one octet of the buffer changes. answer->length tells how long the text is either way, so a second call with so
 * large a buffer gets it. No zero stands after it. */
#ifndef PUREEFJORD_H
#define PUREEFJORD_H

#include <stddef.h>
#include <stdint.h>

#ifdef __cplusplus
extern "C" {
#endif

#define PUREEFJORD_VERSION "0.1.0"

/* What a call returns, and the answer's status. */
enum {
    PUREEFJORD_ACCEPTED = 0,     /* a document, or two of equivalent streams; number: how many values */
    PUREEFJORD_DIFFERENT = 1,    /* two documents whose streams part; number: at which value, from 1; text: the path within it */
    PUREEFJORD_REFUSED = 2,      /* no document; whose, reason; number: the octet that decides; text: that of the values before */
    PUREEFJORD_WRONG_LIMITS = 3, /* depth or item is out of range */
    PUREEFJORD_FAULT = 4         /* no answer; reason: one of the faults below */
};

/* Whose octets were refused. */
enum {
    PUREEFJORD_ONLY = 1,
    PUREEFJORD_LEFT = 2,
    PUREEFJORD_RIGHT = 3,
    PUREEFJORD_CATALOG = 4
};

/* Why there is no answer. Memory alone happens to octets in memory, but for documents beyond the bounds of two others. */
enum {
    PUREEFJORD_FAULT_MEMORY = 1,         /* malloc gave none */
    PUREEFJORD_FAULT_READ = 2,           /* never of octets in memory */
    PUREEFJORD_FAULT_WRITE = 3,          /* never of octets in memory */
    PUREEFJORD_FAULT_TOO_MANY_READS = 4, /* 2^32 reads of 4 KiB were not enough; never of fewer than 2^32 octets */
    PUREEFJORD_FAULT_TOO_LARGE = 5,      /* to binary: a symbol would need an id above 2^31-1 */
    PUREEFJORD_FAULT_OPEN = 6            /* never of octets in memory */
};

/* Why octets are refused. man ion_cmd has each in words. */
enum {
    PUREEFJORD_MEMORY = 1, /* never: want of memory is a fault here */
    PUREEFJORD_INCOMPLETE = 2,
    PUREEFJORD_TOO_LARGE = 3,
    PUREEFJORD_MALFORMED = 4,
    PUREEFJORD_FLOAT = 5,
    PUREEFJORD_DUPLICATE_TABLE = 6,
    PUREEFJORD_BAD_TABLE = 7,
    PUREEFJORD_SYMBOL_RANGE = 8,
    PUREEFJORD_IMPORT_GAP = 9,
    PUREEFJORD_MISSING_IMPORT = 10,
    PUREEFJORD_REPEATED_FIELD = 11,
    PUREEFJORD_TABLE_TOO_LARGE = 12,
    PUREEFJORD_NULL_TABLE = 13,
    PUREEFJORD_BAD_ESCAPE = 14,
    PUREEFJORD_BAD_UTF8 = 15,
    PUREEFJORD_BAD_BASE64 = 16,
    PUREEFJORD_AMBIGUOUS = 17,
    PUREEFJORD_UNEXPECTED = 18,
    PUREEFJORD_DEPTH = 19,
    PUREEFJORD_ITEM_TOO_LONG = 20,
    PUREEFJORD_UNKNOWN_VERSION = 21,
    PUREEFJORD_KEYWORD_AS_NAME = 22
};

/* What a call found. */
typedef struct {
    uint64_t number; /* how many values (accepted), which value (different), which octet (refused); else 0 */
    uint64_t length; /* how many octets the text has; else 0 */
    uint32_t status; /* what the call returns */
    uint32_t whose;  /* refused: whose octets; else 0 */
    uint32_t reason; /* refused: why; a fault: which; else 0 */
} pureefjord_answer;

/* What a call is given beside its documents. pureefjord_to_binary and pureefjord_events find symbols by a hash that begins with the seed.
 * No answer depends on it, but texts that are chosen to collide under a seed that is known make those calls slow: their time grows with
 * the square of their number. So a program that takes documents of strangers draws a seed, as by getentropy, and tells it nobody. */
typedef struct {
    const uint8_t *catalog; /* a document of the shared symbol tables that the input may import */
    size_t catalog_length;  /* 0: none */
    uint64_t item;          /* the greatest number of octets of a top-level value, 1 to 2^30 */
    uint32_t depth;         /* the greatest depth, 1 to 128 */
    uint64_t seed_low;      /* the seed: two numbers that are drawn at random, */
    uint64_t seed_high;     /* or 0 and 0 where documents are trusted */
} pureefjord_options;

/* pureefjord_options options = PUREEFJORD_USUAL: no catalog, the limits that the command usually has, and the seed 0. */
#define PUREEFJORD_USUAL {(const uint8_t *)"", 0, (uint64_t)1 << 24, 64, 0, 0}

/* Two documents. */
typedef struct {
    const uint8_t *left;
    size_t left_length;
    const uint8_t *right;
    size_t right_length;
} pureefjord_pair;

/* How many values the document has, or its refusal. */
uint32_t pureefjord_check(const uint8_t *input, size_t input_length,
    const pureefjord_options *options, pureefjord_answer *answer);

/* Text: a line for each value, `INDEX KIND depth DEPTH nodes NODES`, and after a document `accepted VALUES`. */
uint32_t pureefjord_show(const uint8_t *input, size_t input_length,
    const pureefjord_options *options, uint8_t *buffer, size_t buffer_length, pureefjord_answer *answer);

/* Whether two documents have equivalent streams. Text of a difference: the path within the value, as `name [2]`; of no octets
 * where only one stream has that value, or where the values differ as a whole. */
uint32_t pureefjord_compare(const uint8_t *left, size_t left_length, const uint8_t *right, size_t right_length,
    const pureefjord_options *options, uint8_t *buffer, size_t buffer_length, pureefjord_answer *answer);

/* Compares as many of the pairs as there is room for answers, and returns how many; answers[i] is what pureefjord_compare tells
 * of pairs[i], with the length of the path, whose text isn't given. Answers behind these stay. The catalog is read once for all. */
size_t pureefjord_compare_each(const pureefjord_pair *pairs, size_t pairs_length,
    const pureefjord_options *options, pureefjord_answer *answers, size_t answers_length);

/* Text: a document of the same stream, in text or in binary; after a refusal one of the values before it. */
uint32_t pureefjord_to_text(const uint8_t *input, size_t input_length,
    const pureefjord_options *options, uint8_t *buffer, size_t buffer_length, pureefjord_answer *answer);
uint32_t pureefjord_to_binary(const uint8_t *input, size_t input_length,
    const pureefjord_options *options, uint8_t *buffer, size_t buffer_length, pureefjord_answer *answer);

/* The layout of the values, over which pureefjord_events.h walks; after a refusal that of the values before it. It takes 2 to 3 times
 * the octets of usual text and 4 to 6 times those of binary; at worst, reckoned, 32 times, 16 more, and the texts of the catalog. */
uint32_t pureefjord_events(const uint8_t *input, size_t input_length,
    const pureefjord_options *options, uint8_t *buffer, size_t buffer_length, pureefjord_answer *answer);

/* The name of a reason into the buffer, whole or not at all; returns its length (14 at most). For a number of none it returns 0 and
 * leaves the buffer as it is. */
size_t pureefjord_reason_name(uint32_t reason, uint8_t *buffer, size_t buffer_length);

/* The version of the library that is linked, likewise; PUREEFJORD_VERSION is that of this header. */
size_t pureefjord_version(uint8_t *buffer, size_t buffer_length);

#ifdef __cplusplus
}
#endif

#endif
