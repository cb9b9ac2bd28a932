/* Prints the lines of a replay: a Grant to each customer, then Draws with keys of these customers.
 *
 *     colliding DRAWS        keys whose hashes have the same low 14 bits by the fast hash of the Rattle kit, whose seed is fixed
 *     colliding DRAWS any    as many keys of each customer, with numbers counted from 0
 */
#include <stdint.h>
#include <stdio.h>
#include <stdlib.h>

#define SEED 0x243f6a8885a308d3u
#define MULTIPLIER 0x9e3779b97f4a7c15u
#define SERIALS 1000000

/* The state of the hash after four more bytes. */
static uint64_t fold(uint64_t state, uint32_t word) {
    uint64_t twice = word | (uint64_t)word << 32;
    unsigned __int128 product = (unsigned __int128)(state ^ twice) * (MULTIPLIER ^ 8);
    return (uint64_t)product ^ (uint64_t)(product >> 64);
}

static void grant(uint32_t customer) {
    uint32_t first = (customer - 1) * SERIALS;
    printf("20000 5331010100000000%08x%08x52414742%08x%08x\n", customer, customer, first, first + SERIALS - 1);
}

int main(int count, char **words) {
    long left = count > 1 ? atol(words[1]) : 0;
    int any = count > 2;
    for (uint32_t customer = 1; left > 0; customer++) {
        uint64_t state = fold(SEED, customer);
        uint32_t number = 0, drawn = 0;
        grant(customer);
        do {
            if ((fold(state, number) & 0x3fff) != 0) continue;
            printf("20000 53310102%08x%08x52414742\n", customer, any ? drawn : number);
            drawn++;
            left--;
        } while (left > 0 && ++number != 0);
    }
    return 0;
}
