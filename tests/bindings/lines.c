/* Prints the values of documents by the header for C, a line each in Ion text: lines CATALOG FILE.., where CATALOG may be "". Behind those
 * of each file stands `accepted VALUES` or `refused OCTET REASON`. */
#include "pureefjord_assert.h"

typedef struct { uint8_t *octets; size_t length; } document;

static document read(const char *name) {
    document it = {malloc(1), 0};
    FILE *file = *name ? fopen(name, "rb") : NULL;
    uint8_t part[4096];
    for (size_t count; file && (count = fread(part, 1, sizeof part, file));) {
        it.octets = realloc(it.octets, it.length + count);
        memcpy(it.octets + it.length, part, count);
        it.length += count;
    }
    if (*name && (!file || fclose(file)))
        exit(4);
    return it;
}

static void print(const uint8_t *layout, size_t length) {
    for (pje_cursor value = pje_begin(layout, length); !pje_done(&value); pje_skip(&value)) {
        pureefjord_spelled text = {NULL, 0, 0};
        pureefjord_spell(&text, &value);
        fwrite(text.at, 1, text.length, stdout);
        putchar('\n');
        free(text.at);
    }
}

int main(int count, char **names) {
    const document catalog = read(names[1]);
    const pureefjord_options options = {catalog.octets, catalog.length, (uint64_t)1 << 24, 64, 0, 0};
    for (int i = 2; i < count; i++) {
        const document input = read(names[i]);
        pureefjord_answer answer;
        uint8_t reason[16];
        pureefjord_events(input.octets, input.length, &options, reason, 0, &answer);
        uint8_t *layout = malloc(answer.length + 1);
        pureefjord_events(input.octets, input.length, &options, layout, answer.length, &answer);
        print(layout, answer.length);
        const int length = (int)pureefjord_reason_name(answer.reason, reason, sizeof reason);
        if (answer.status == PUREEFJORD_ACCEPTED)
            printf("accepted %llu\n", (unsigned long long)answer.number);
        else
            printf("refused %llu %.*s\n", (unsigned long long)answer.number, length, (char *)reason);
        free(layout);
        free(input.octets);
    }
    free(catalog.octets);
    return 0;
}
