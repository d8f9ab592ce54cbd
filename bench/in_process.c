/* Microseconds of each call in process on tiny documents: in_process [COUNT], usually 100000. Built as docs/BINDINGS.md says:
 * cc -O2 -Ibindings bench/in_process.c bindings/out/lib/libpureefjord.a -o in_process */
#include "pureefjord.h"
#include <stdio.h>
#include <stdlib.h>
#include <time.h>

#define OCTETS(text) (const uint8_t *)(text), sizeof(text) - 1

static double now(void) {
    struct timespec time;
    clock_gettime(CLOCK_MONOTONIC, &time);
    return (double)time.tv_sec + (double)time.tv_nsec / 1e9;
}

static long count;

static void told(const char *name, double from, unsigned long statuses) {
    printf("%-44s %6.2f us each, statuses %lu\n", name, (now() - from) / (double)count * 1e6, statuses);
}

int main(int words, char **word) {
    count = words > 1 ? atol(word[1]) : 100000;
    const pureefjord_options usual = PUREEFJORD_USUAL;
    const pureefjord_options blank = {OCTETS(" "), 1 << 24, 64, 0, 0};
    const pureefjord_options one = {OCTETS("$ion_shared_symbol_table::{name:\"t\",version:1,symbols:[\"a\"]}"), 1 << 24, 64, 0, 0};
    const pureefjord_pair pair = {OCTETS("{name: \"a\", tags: [1, 2]}"), OCTETS("{tags: [1, 3], name: \"a\"}")};
    pureefjord_answer answer;
    uint8_t buffer[256];
    unsigned long sum = 0;
    double from = now();
    for (long i = 0; i < count; i++)
        sum += pureefjord_compare(pair.left, pair.left_length, pair.right, pair.right_length, &usual, buffer, sizeof buffer, &answer);
    told("compare", from, sum);

    pureefjord_pair *pairs = malloc((size_t)count * sizeof *pairs);
    pureefjord_answer *answers = malloc((size_t)count * sizeof *answers);
    if (!pairs || !answers)
        return 4;
    for (long i = 0; i < count; i++)
        pairs[i] = pair;
    from = now();
    sum = pureefjord_compare_each(pairs, (size_t)count, &usual, answers, (size_t)count);
    told("compare_each", from, sum);

    const pureefjord_options *options[] = {&usual, &blank, &one};
    static const char *const names[] = {"check, a catalog of no octets", "check, a catalog of a blank", "check, a catalog of one table"};
    for (int k = 0; k < 3; k++) {
        sum = 0;
        from = now();
        for (long i = 0; i < count; i++)
            sum += pureefjord_check(pair.left, pair.left_length, options[k], &answer);
        told(names[k], from, sum);
    }
    from = now();
    sum = 0;
    for (long i = 0; i < count; i++)
        sum += pureefjord_to_binary(pair.left, pair.left_length, &usual, buffer, sizeof buffer, &answer);
    told("to_binary", from, sum);
    free(pairs);
    free(answers);
    return 0;
}
