/* Sums the ints in a field of the records of a log, JSON or Ion: sum FIELD FILE. docs/BINDINGS.md says how it is linked. */
#include "pureefjord.h"
#include "pureefjord_events.h"
#include <stdio.h>
#include <stdlib.h>

static uint8_t *whole_file(const char *name, size_t *length) {
    FILE *file = fopen(name, "rb");
    uint8_t *octets = NULL;
    size_t room = 0;
    *length = 0;
    while (file) {
        if (*length == room) {
            uint8_t *more = realloc(octets, room = 2 * room + 4096);
            if (!more)
                break;
            octets = more;
        }
        size_t count = fread(octets + *length, 1, room - *length, file);
        *length += count;
        if (count == 0 && feof(file) && !fclose(file))
            return octets;
        if (count == 0)
            break;
    }
    perror(name);
    exit(4);
}

/* The layout of a document, or of the values before its refusal. Room that isn't used costs nothing, and one call mostly does. */
static uint8_t *laid(const uint8_t *input, size_t input_length, pureefjord_answer *answer) {
    const pureefjord_options usual = PUREEFJORD_USUAL;
    size_t room = 8 * input_length + 1024;
    for (;;) {
        uint8_t *layout = malloc(room);
        if (!layout) {
            perror("malloc");
            exit(4);
        }
        pureefjord_events(input, input_length, &usual, layout, room, answer);
        if (answer->length <= room)
            return layout;
        free(layout);
        room = answer->length;
    }
}

int main(int count, char **words) {
    if (count != 3) {
        fprintf(stderr, "usage: %s FIELD FILE\n", words[0]);
        return 3;
    }
    size_t length;
    uint8_t *input = whole_file(words[2], &length);
    pureefjord_answer answer;
    uint8_t *layout = laid(input, length, &answer);
    long long sum = 0, found = 0;
    for (pje_cursor record = pje_begin(layout, answer.length); !pje_done(&record); pje_skip(&record)) {
        pje_cursor field;
        int64_t number;
        if (pje_field(&record, words[1], &field) && pje_int64(&field, &number)) {
            sum += number;
            found++;
        }
    }
    printf("%lld in %lld records\n", sum, found);
    if (answer.status == PUREEFJORD_REFUSED) {
        uint8_t reason[16];
        int named = (int)pureefjord_reason_name(answer.reason, reason, sizeof reason);
        fprintf(stderr, "refused %llu %.*s\n", (unsigned long long)answer.number, named, (const char *)reason);
    } else if (answer.status != PUREEFJORD_ACCEPTED) {
        fprintf(stderr, "fault %u\n", answer.reason);
    }
    free(layout);
    free(input);
    return (int)answer.status;
}
