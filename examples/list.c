/* Makes a list of three retired fingerprints, looks at it, lists it, merges it with one of its
 * family and with one of another, which is refused, and damages a byte.
 * `examples/run` compiles it, runs it and compares what it writes with list.stdout. */
#include "strumblay.h"

#include <stdio.h>

enum { QBITS = 6, RBITS = 8, BYTES = 89 };

/* As the library has it. */
_Static_assert(sizeof(strumblay_sizes) == 16 && sizeof(strumblay_numbers) == 24 &&
                   offsetof(strumblay_numbers, family) == 16,
               "the record's layout");

/* A number of our own for the hash that the fingerprints come from. */
static const uint64_t family = 2026;

/* Writes every fingerprint, or the number of the refusal. */
static void list(const uint8_t *buf, strumblay_sizes n)
{
    strumblay_first first = strumblay_list_begin(buf, BYTES, n);
    if (first.number != 0) {
        printf("refused %d\n", (int)first.number);
        return;
    }
    printf("sound %d\n", (int)n.len);
    strumblay_next next = strumblay_list_step(buf, BYTES, n, first.place);
    while (next.found) {
        printf("%016llx\n", (unsigned long long)next.fingerprint);
        next = strumblay_list_step(buf, BYTES, n, next.place);
    }
}

int main(void)
{
    static const uint64_t retired[] = {0x0203, 0x0103, 0x0105};
    uint8_t buf[BYTES];

    printf("a buffer of %d bytes\n", (int)strumblay_buffer_len(QBITS, RBITS).value);
    strumblay_changed changed = strumblay_fresh(QBITS, RBITS, 0, family, buf, BYTES);
    for (size_t i = 0; i < sizeof retired / sizeof *retired && changed.number == 0; i++)
        changed = strumblay_insert(buf, BYTES, changed.numbers, retired[i], 1);
    if (changed.number != 0) {
        printf("refused %d\n", (int)changed.number);
        return 1;
    }
    strumblay_numbers numbers = changed.numbers;
    strumblay_sizes n = numbers.sizes;

    for (uint64_t hash = 0x0104; hash <= 0x0105; hash++) {
        strumblay_looked looked = strumblay_contains(buf, BYTES, n, hash);
        printf("%04x held %d, compared %d\n", (int)hash, (int)looked.held, (int)looked.compared);
    }
    list(buf, n);

    uint8_t other[BYTES], both[BYTES];
    for (uint64_t strange = 0; strange <= 1; strange++) {
        changed = strumblay_fresh(QBITS, RBITS, 0, family + strange, other, BYTES);
        changed = strumblay_insert(other, BYTES, changed.numbers, 0x3f07, 1);
        changed =
            strumblay_merge(buf, BYTES, numbers, other, BYTES, changed.numbers, 1, both, BYTES);
        printf("merged: number %d, len %d, family %d\n", (int)changed.number,
               (int)changed.numbers.sizes.len, (int)changed.numbers.family);
    }

    printf("one bit damaged\n");
    buf[9] ^= 1;
    list(buf, n);
    return 0;
}
