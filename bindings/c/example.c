/* Compares two files: example LEFT RIGHT. docs/BINDINGS.md says how it is linked. */
#include "pureefjord.h"
#include <stdio.h>
#include <stdlib.h>

static uint8_t *whole_file(const char *name, size_t *length) {
    FILE *file = fopen(name, "rb");
    uint8_t *octets = NULL;
    size_t room = 0;
    *length = 0;
    while (file) {
        if (*length == room) {
            uint8_t *more = realloc(octets, room = 2 * room + 4096);
            if (!more)
                break;
            octets = more;
        }
        size_t count = fread(octets + *length, 1, room - *length, file);
        *length += count;
        if (count == 0 && feof(file) && !fclose(file))
            return octets;
        if (count == 0)
            break;
    }
    perror(name);
    exit(4);
}

int main(int count, char **names) {
    if (count != 3) {
        fprintf(stderr, "usage: %s LEFT RIGHT\n", names[0]);
        return 3;
    }
    size_t left_length, right_length;
    uint8_t *left = whole_file(names[1], &left_length), *right = whole_file(names[2], &right_length);
    const pureefjord_options usual = PUREEFJORD_USUAL;
    pureefjord_answer answer;
    uint8_t path[4096], reason[16];
    uint32_t status = pureefjord_compare(left, left_length, right, right_length, &usual, path, sizeof path, &answer);
    if (status == PUREEFJORD_ACCEPTED) {
        printf("equivalent %llu\n", (unsigned long long)answer.number);
    } else if (status == PUREEFJORD_DIFFERENT) {
        int shown = answer.length <= sizeof path ? (int)answer.length : 0;
        printf("different %llu%s%.*s\n", (unsigned long long)answer.number, shown ? " " : "", shown, (const char *)path);
    } else if (status == PUREEFJORD_REFUSED) {
        int length = (int)pureefjord_reason_name(answer.reason, reason, sizeof reason);
        const char *side = answer.whose == PUREEFJORD_LEFT ? "left" : "right";
        fprintf(stderr, "refused %s %llu %.*s\n", side, (unsigned long long)answer.number, length, (const char *)reason);
    } else {
        fprintf(stderr, "fault %u\n", answer.reason);
    }
    free(left);
    free(right);
    return (int)status;
}
