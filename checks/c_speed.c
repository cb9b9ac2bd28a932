/* Reads identifiers and decodes requests with the library, and by the same rules in plain C. Both must give the same for a valid
 * input of each kind, for each change of one byte of it, and for each length below its own and one above. Then prints the
 * nanoseconds that each takes. */
#define _POSIX_C_SOURCE 199309L
#include "s10.h"
#include <stdio.h>
#include <string.h>
#include <time.h>

enum { CALLS = 4000000 };

/* Those of contrib/c/s10_plain.c. */
extern __typeof__(s10_read) plain_read;
extern __typeof__(s10_decode) plain_decode;

static unsigned long compared;

static int same(const void *a, const void *b, size_t len, struct s10_result found, struct s10_result wanted) {
    compared++;
    return memcmp(a, b, len) == 0 && found.code == wanted.code && found.at == wanted.at;
}

static int same_read(const uint8_t *text, size_t len) {
    struct s10_id found, wanted;
    memset(&found, 0x5a, sizeof found);
    memset(&wanted, 0x5a, sizeof wanted);
    struct s10_result result = s10_read(text, len, &found);
    return same(&found, &wanted, sizeof found, result, plain_read(text, len, &wanted));
}

static int same_decode(const uint8_t *bytes, size_t len) {
    struct s10_request found, wanted;
    memset(&found, 0x5a, sizeof found);
    memset(&wanted, 0x5a, sizeof wanted);
    struct s10_result result = s10_decode(bytes, len, &found);
    return same(&found, &wanted, sizeof found, result, plain_decode(bytes, len, &wanted));
}

/* Whether both give the same for the input, for each change of one byte, and for each shorter length and one longer. */
static int same_near(int (*check)(const uint8_t *, size_t), const uint8_t *input, size_t len) {
    uint8_t changed[S10_MAX_REQUEST + 1] = {0};
    memcpy(changed, input, len);
    for (size_t shorter = 0; shorter <= len + 1; shorter++)
        if (!check(changed, shorter)) return 0;
    for (size_t at = 0; at < len; at++) {
        for (unsigned byte = 0; byte < 256; byte++) {
            changed[at] = (uint8_t)byte;
            if (!check(changed, len)) return 0;
        }
        changed[at] = input[at];
    }
    return 1;
}

static double now(void) {
    struct timespec time;
    clock_gettime(CLOCK_PROCESS_CPUTIME_ID, &time);
    return (double)time.tv_sec * 1e9 + (double)time.tv_nsec;
}

typedef struct s10_result (*reader)(const uint8_t *, size_t, struct s10_id *);
typedef struct s10_result (*decoder)(const uint8_t *, size_t, struct s10_request *);

/* The fastest of five runs, in nanoseconds a call. */
static double read_time(reader read, const uint8_t *text) {
    struct s10_id id = {0};
    double best = 1e9;
    for (int run = 0; run < 5; run++) {
        double begun = now();
        for (int i = 0; i < CALLS; i++)
            if (read(text, S10_TEXT_LEN, &id).code != S10_OK) return -1;
        double time = (now() - begun) / CALLS;
        if (time < best) best = time;
    }
    return best;
}

static double decode_time(decoder decode, const uint8_t *bytes, size_t len) {
    struct s10_request request = {0};
    double best = 1e9;
    for (int run = 0; run < 5; run++) {
        double begun = now();
        for (int i = 0; i < CALLS; i++)
            if (decode(bytes, len, &request).code != S10_OK) return -1;
        double time = (now() - begun) / CALLS;
        if (time < best) best = time;
    }
    return best;
}

static const uint8_t TEXT[] = "RA473124829US";

static const struct {
    const char *name;
    size_t len;
    uint8_t bytes[S10_MAX_REQUEST + 1];
} REQUESTS[] = {
    {"Grant", 28, "S1\x01\x01\0\0\0\0\0\0\0\x01\0\0\0\x07RAGB\0\0\0\0\0\0\0\x02"},
    {"Draw", 16, "S1\x01\x02\0\0\0\x07\0\0\0\x01RAGB"},
    {"Void", 25, "S1\x01\x03\0\0\0\x07\0\0\0\x05RA000000014GB"},
    {"Query", 25, "S1\x01\x04\0\0\0\x07\0\0\0\x09RA000000014GB"},
    {"DrawMany", 17, "S1\x02\x05\0\0\0\x07\0\0\0\x01RAGB\x02"},
    {"Withdraw", 16, "S1\x02\x06\0\0\0\0\0\0\0\x02\0\0\0\x01"},
};

int main(void) {
    if (!same_near(same_read, TEXT, S10_TEXT_LEN)) return puts("failed: read"), 1;
    for (size_t i = 0; i < sizeof REQUESTS / sizeof REQUESTS[0]; i++) {
        if (!same_near(same_decode, REQUESTS[i].bytes, REQUESTS[i].len)) {
            printf("failed: decode of a %s\n", REQUESTS[i].name);
            return 1;
        }
    }
    printf("%lu inputs: the same as in plain C\n", compared);
    double library = read_time(s10_read, TEXT), plain = read_time(plain_read, TEXT);
    if (library < 0 || plain < 0) return puts("failed: a valid identifier is refused"), 1;
    printf("read: %.1f ns, in plain C %.1f ns\n", library, plain);
    for (size_t i = 0; i < 3; i++) {
        library = decode_time(s10_decode, REQUESTS[i].bytes, REQUESTS[i].len);
        plain = decode_time(plain_decode, REQUESTS[i].bytes, REQUESTS[i].len);
        if (library < 0 || plain < 0) return puts("failed: a valid request is refused"), 1;
        printf("decode a %s: %.1f ns, in plain C %.1f ns\n", REQUESTS[i].name, library, plain);
    }
    return 0;
}
