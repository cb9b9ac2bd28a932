/* Checks every function of s10.h over the datagrams of docs/DATAGRAMS.md and others.
 * Prints `N passed, M failed`; its status is 1 if one failed. */
#include "s10.h"
#include <stdio.h>
#include <string.h>

static int passed, failed;
#define CHECK(c) ((c) ? passed++ : (failed++, printf("%s:%d: %s\n", __FILE__, __LINE__, #c)))

static size_t hex(const char *s, uint8_t *b) {
    size_t n = 0;
    unsigned v;
    for (; *s; s += *s == ' ' ? 1 : 2)
        if (*s != ' ' && sscanf(s, "%2x", &v) == 1) b[n++] = (uint8_t)v;
    return n;
}
static struct s10_result read_text(const char *t, struct s10_id *id) {
    return s10_read((const uint8_t *)t, strlen(t), id);
}
static struct s10_result read_label(const char *t, struct s10_id *id) {
    return s10_read_label((const uint8_t *)t, strlen(t), id);
}
static int is(struct s10_result r, uint32_t code, uint32_t at) {
    return r.code == code && r.at == at;
}

static void identifiers(void) {
    static const struct {
        uint32_t serial;
        char check;
    } digits[] = {{47312482, '9'}, {12345678, '5'}, {0, '5'},       {1, '4'},
                  {2, '8'},        {3, '1'},        {4, '5'},       {8, '0'},
                  {9999, '4'},     {99999998, '7'}, {99999999, '5'}};
    struct s10_id id, was;
    for (size_t i = 0; i < sizeof digits / sizeof *digits; i++) {
        char text[16];
        snprintf(text, sizeof text, "RA%08u%cUS", digits[i].serial, digits[i].check);
        CHECK(is(s10_make("RA", digits[i].serial, "US", &id), S10_OK, 0) && !strcmp(id.text, text));
        CHECK(is(read_text(text, &id), S10_OK, 0) && id.serial == digits[i].serial &&
              id.group == S10_REGISTERED);
        text[10] = text[10] == '0' ? '1' : (char)(text[10] - 1);
        was = id;
        CHECK(is(read_text(text, &id), S10_CHECK_DIGIT, 0) && !memcmp(&id, &was, sizeof id));
    }
    CHECK(is(read_label("ra 473 124 829 us", &id), S10_OK, 0) && !strcmp(id.text, "RA473124829US"));
    CHECK(!memcmp(id.service, "RA", 2) && !memcmp(id.country, "US", 2));
    CHECK(is(read_text("ra473124829US", &id), S10_LETTER, 0));
    CHECK(is(read_text("RA4731248A9US", &id), S10_DIGIT, 9));
    CHECK(is(read_text("RA473124829U", &id), S10_LENGTH, 0));
    CHECK(is(read_text("", &id), S10_LENGTH, 0));
    CHECK(is(s10_make("Ra", 1, "US", &id), S10_BAD_SERVICE, 0));
    CHECK(is(s10_make("RA", 100000000, "US", &id), S10_BAD_SERIAL, 0));
    CHECK(is(s10_make("RA", 99999999, "U1", &id), S10_BAD_COUNTRY, 0));
}

/* A request, its datagram, the datagram of a reply, and the outcome in it. */
static const struct {
    struct s10_request ask;
    const char *sent, *reply;
    struct s10_outcome outcome;
} rows[] = {
    {{.kind = S10_GRANT,
      .customer = 0,
      .number = 1,
      .holder = 7,
      .service = "RA",
      .country = "GB",
      .first = 0,
      .last = 2},
     "53310101 00000000 00000001 00000007 52414742 00000000 00000002",
     "53310181 00000000 00000001 00000007 52414742 00000000 00000002 00 00000001",
     {.code = S10_DONE, .range = 1}},
    {{.kind = S10_DRAW, .customer = 7, .number = 1, .service = "RA", .country = "GB"},
     "53310102 00000007 00000001 52414742",
     "53310182 00000007 00000001 52414742 00 00004e20 52413030303030303030354742",
     {.day = 20000, .count = 1, .texts = {"RA000000005GB"}}},
    {{.kind = S10_DRAW, .customer = 7, .number = 2, .service = "RA", .country = "GB"},
     "53310102 00000007 00000002 52414742",
     "53310182 00000007 00000002 52414742 00 00004e20 52413030303030303031344742",
     {.day = 20000, .count = 1, .texts = {"RA000000014GB"}}},
    {{.kind = S10_DRAW, .customer = 7, .number = 3, .service = "RA", .country = "GB"},
     "53310102 00000007 00000003 52414742",
     "53310182 00000007 00000003 52414742 00 00004e20 52413030303030303032384742",
     {.day = 20000, .count = 1, .texts = {"RA000000028GB"}}},
    {{.kind = S10_DRAW, .customer = 7, .number = 4, .service = "RA", .country = "GB"},
     "53310102 00000007 00000004 52414742",
     "53310182 00000007 00000004 52414742 05",
     {.code = S10_NONE_FREE}},
    {{.kind = S10_DRAW, .customer = 7, .number = 5, .service = "RA", .country = "GB"},
     "53310102 00000007 00000005 52414742",
     "53310182 00000007 00000005 52414742 00 00004e3e 52413030303030303030354742",
     {.day = 20030, .count = 1, .texts = {"RA000000005GB"}}},
    {{.kind = S10_VOID, .customer = 7, .number = 3, .text = "RA000000014GB"},
     "53310103 00000007 00000003 52413030303030303031344742",
     "53310183 00000007 00000003 52413030303030303031344742 00",
     {.code = S10_DONE}},
    {{.kind = S10_VOID, .customer = 7, .number = 4, .text = "RA000000014GB"},
     "53310103 00000007 00000004 52413030303030303031344742",
     "53310183 00000007 00000004 52413030303030303031344742 08",
     {.code = S10_ALREADY_VOID}},
    {{.kind = S10_QUERY, .customer = 7, .number = 1, .text = "RA000000005GB"},
     "53310104 00000007 00000001 52413030303030303030354742",
     "53310184 00000007 00000001 52413030303030303030354742 09",
     {.code = S10_NUMBER_REUSED}},
    {{.kind = S10_QUERY, .customer = 7, .number = 9, .text = "RA000000014GB"},
     "53310104 00000007 00000009 52413030303030303031344742",
     "53310184 00000007 00000009 52413030303030303031344742 00 02 00004e3e",
     {.status = S10_ISSUED, .day = 20030}},
    {{.kind = S10_QUERY, .customer = 0, .number = 2, .text = "RA473124829US"},
     "53310104 00000000 00000002 52413437333132343832395553",
     "53310184 00000000 00000002 52413437333132343832395553 00 00 00000000",
     {.status = S10_UNKNOWN}},
    {{.kind = S10_GRANT,
      .customer = 0,
      .number = 2,
      .holder = 8,
      .service = "RA",
      .country = "GB",
      .first = 2,
      .last = 5},
     "53310101 00000000 00000002 00000008 52414742 00000002 00000005",
     "53310181 00000000 00000002 00000008 52414742 00000002 00000005 03",
     {.code = S10_OVERLAP}},
    {{.kind = S10_DRAW_MANY,
      .customer = 7,
      .number = 1,
      .service = "RA",
      .country = "GB",
      .count = 2},
     "53310205 00000007 00000001 52414742 02",
     "53310285 00000007 00000001 52414742 02 00 00004e20 52413030303030303030354742 "
     "52413030303030303031344742",
     {.day = 20000, .count = 2, .texts = {"RA000000005GB", "RA000000014GB"}}},
    {{.kind = S10_WITHDRAW, .customer = 0, .number = 2, .range = 1},
     "53310206 00000000 00000002 00000001",
     "53310286 00000000 00000002 00000001 00",
     {.code = S10_DONE}},
};
enum { ROWS = sizeof rows / sizeof *rows };

static void datagrams(void) {
    for (size_t i = 0; i < ROWS; i++) {
        uint8_t sent[64], reply[512];
        size_t n = hex(rows[i].sent, sent), m = hex(rows[i].reply, reply);
        struct s10_frame frame;
        CHECK(is(s10_encode(&rows[i].ask, &frame), S10_OK, 0) && frame.len == n &&
              !memcmp(frame.bytes, sent, n));
        struct s10_request asked;
        CHECK(is(s10_decode(sent, n, &asked), S10_OK, 0) &&
              !memcmp(&asked, &rows[i].ask, sizeof asked));
        for (size_t k = 0; k < ROWS; k++) { /* each reply to each request */
            struct s10_outcome got, was;
            memset(&got, 0xa5, sizeof got);
            was = got;
            m = hex(rows[k].reply, reply);
            struct s10_result r = s10_accept(frame.bytes, frame.len, reply, m, &got);
            if (i == k)
                CHECK(is(r, S10_OK, 0) && got.day == rows[i].outcome.day &&
                      got.range == rows[i].outcome.range && got.code == rows[i].outcome.code &&
                      got.status == rows[i].outcome.status && got.count == rows[i].outcome.count &&
                      !memcmp(got.texts, rows[i].outcome.texts, sizeof got.texts));
            else
                CHECK(is(r, S10_NOT_MINE, 0) && !memcmp(&got, &was, sizeof got));
        }
        m = hex(rows[i].reply, reply);
        struct s10_outcome got;
        for (size_t cut = 0; cut < m; cut++)
            CHECK(s10_accept(sent, n, reply, cut, &got).code ==
                  (cut < 12 ? S10_SHORT : S10_DATAGRAM_LENGTH));
        CHECK(is(s10_accept(sent, n, reply, m + 1, &got), S10_DATAGRAM_LENGTH, 0));
        CHECK(is(s10_accept(sent, n - 1, reply, m, &got), S10_IDLE, 0) &&
              is(s10_accept(sent, 0, reply, m, &got), S10_IDLE, 0));
        CHECK(is(s10_accept(sent, n, sent, n, &got), S10_KIND, 0));
    }
}

/* Changes each byte of each datagram to each other value. A changed request is refused, or is
 * another request with exactly these bytes. A reply that repeats the request with a change is never
 * accepted. */
static void changed_bytes(void) {
    for (size_t i = 0; i < ROWS; i++) {
        uint8_t sent[64], reply[512];
        size_t n = hex(rows[i].sent, sent), m = hex(rows[i].reply, reply);
        for (size_t at = 0; at < m; at++) {
            uint8_t right = reply[at];
            for (unsigned value = 0; value < 256; value++) {
                if (value == right) continue;
                struct s10_outcome got, was;
                memset(&got, 0xa5, sizeof got);
                was = got;
                reply[at] = (uint8_t)value;
                struct s10_result r = s10_accept(sent, n, reply, m, &got);
                CHECK(r.code == S10_OK ? at >= n : !memcmp(&got, &was, sizeof got));
            }
            reply[at] = right;
        }
        for (size_t at = 0; at < n; at++) {
            uint8_t right = sent[at];
            for (unsigned value = 0; value < 256; value++) {
                if (value == right) continue;
                struct s10_request got, was;
                struct s10_frame frame;
                memset(&got, 0xa5, sizeof got);
                was = got;
                sent[at] = (uint8_t)value;
                if (s10_decode(sent, n, &got).code == S10_OK)
                    CHECK(is(s10_encode(&got, &frame), S10_OK, 0) && frame.len == n &&
                          !memcmp(frame.bytes, sent, n));
                else
                    CHECK(!memcmp(&got, &was, sizeof got));
            }
            sent[at] = right;
        }
    }
}

static int same_client(const struct s10_client *a, const struct s10_client *b) {
    return a->taken == b->taken && a->customer == b->customer && a->first == b->first &&
           a->last == b->last && a->pending.len == b->pending.len &&
           !memcmp(a->pending.bytes, b->pending.bytes, sizeof a->pending.bytes);
}

static void client(void) {
    static const struct s10_request draw = {
        .kind = S10_DRAW, .customer = 99, .number = 99, .service = "RA", .country = "GB"};
    static const struct s10_request wrong = {.kind = S10_DRAW, .service = "RA", .country = "gb"};
    struct s10_client c = {.customer = 7, .first = 1, .last = 3}, was;
    struct s10_outcome got, before;
    uint8_t b[512];
    size_t n = hex("53310182 00000007 00000001 52414742 00 00004e20 52413030303030303030354742", b);
    memset(&got, 0xa5, sizeof got);
    before = got;

    was = c; /* idle */
    CHECK(is(s10_receive(&c, b, n, &got), S10_IDLE, 0) && is(s10_give_up(&c), S10_IDLE, 0));
    CHECK(is(s10_submit(&c, &wrong), S10_BAD_COUNTRY, 0));
    CHECK(same_client(&c, &was) && !memcmp(&got, &before, sizeof got));

    CHECK(is(s10_submit(&c, &draw), S10_OK, 0) && c.taken == 1);
    CHECK(c.pending.len == 16 && !memcmp(c.pending.bytes, "S1\1\2\0\0\0\7\0\0\0\1RAGB", 16));
    was = c; /* number 1 is pending */
    CHECK(is(s10_submit(&c, &draw), S10_BUSY, 0) && is(s10_submit(&c, &wrong), S10_BUSY, 0));
    b[11] = 2; /* the reply to number 2 */
    CHECK(is(s10_receive(&c, b, n, &got), S10_NOT_MINE, 0));
    b[11] = 1;
    CHECK(is(s10_receive(&c, b, n - 1, &got), S10_DATAGRAM_LENGTH, 0));
    CHECK(same_client(&c, &was) && !memcmp(&got, &before, sizeof got));
    CHECK(is(s10_receive(&c, b, n, &got), S10_OK, 0) && got.day == 20000 &&
          !strcmp(got.texts[0], "RA000000005GB"));
    CHECK(c.taken == 1 && c.pending.len == 0);
    CHECK(is(s10_receive(&c, b, n, &got), S10_IDLE, 0)); /* once only */

    CHECK(is(s10_submit(&c, &draw), S10_OK, 0) && c.taken == 2 && c.pending.bytes[11] == 2);
    CHECK(is(s10_give_up(&c), S10_OK, 0) && c.taken == 2 && c.pending.len == 0);
    CHECK(is(s10_submit(&c, &draw), S10_OK, 0) && c.taken == 3 && c.pending.bytes[11] == 3);
    CHECK(is(s10_give_up(&c), S10_OK, 0));
    was = c;
    CHECK(is(s10_submit(&c, &draw), S10_NUMBERS_SPENT, 0) && same_client(&c, &was));

    /* states that no client comes to: a length beyond the buffer, too many numbers taken, no number
     */
    c.pending.len = 29;
    memcpy(c.pending.bytes, "S1\1\2\0\0\0\7\0\0\0\1RAGB", 16);
    CHECK(is(s10_receive(&c, b, n, &got), S10_IDLE, 0) && is(s10_submit(&c, &draw), S10_BUSY, 0));
    CHECK(is(s10_give_up(&c), S10_OK, 0) && c.pending.len == 0);
    c = (struct s10_client){.taken = UINT64_MAX, .first = 1, .last = 3};
    CHECK(is(s10_submit(&c, &draw), S10_NUMBERS_SPENT, 0));
    c = (struct s10_client){.first = 2, .last = 1};
    CHECK(is(s10_submit(&c, &draw), S10_NUMBERS_SPENT, 0));
    c = (struct s10_client){.taken = UINT32_MAX, .first = 0, .last = UINT32_MAX};
    CHECK(is(s10_submit(&c, &draw), S10_OK, 0) && c.taken == 0x100000000 &&
          c.pending.bytes[8] == 0xff);
    CHECK(is(s10_give_up(&c), S10_OK, 0) && is(s10_submit(&c, &draw), S10_NUMBERS_SPENT, 0));
}

static void refusals(void) {
    uint8_t b[64];
    struct s10_request q;
    struct s10_frame f;
    CHECK(
        is(s10_decode(b, hex("53310102 00000007 00000006 524147", b), &q), S10_DATAGRAM_LENGTH, 0));
    CHECK(is(s10_decode(b, hex("53300102 00000007 00000006 52414742", b), &q), S10_MAGIC, 0));
    CHECK(is(s10_decode(b, hex("53310302 00000007 00000006 52414742", b), &q), S10_VERSION, 0));
    CHECK(is(s10_decode(b, hex("53310105 00000007 00000006 52414742 01", b), &q), S10_KIND, 0));
    CHECK(is(s10_decode(b, hex("53310205 00000007 00000006 52414742 11", b), &q), S10_FIELD, 16));
    CHECK(is(s10_decode(b, hex("53310102 00000007 00000006 52416742", b), &q), S10_FIELD, 14));
    CHECK(is(s10_encode(&(struct s10_request){.kind = 7}, &f), S10_BAD_KIND, 0));
    CHECK(is(
        s10_encode(&(struct s10_request){.kind = S10_DRAW, .service = "ra", .country = "GB"}, &f),
        S10_BAD_SERVICE, 0));
    CHECK(is(s10_encode(&(struct s10_request){.kind = S10_DRAW, .service = "RA"}, &f),
             S10_BAD_COUNTRY, 0));
    CHECK(is(s10_encode(
                 &(struct s10_request){
                     .kind = S10_DRAW_MANY, .service = "RA", .country = "GB", .count = 17},
                 &f),
             S10_BAD_COUNT, 0));
    CHECK(is(s10_encode(
                 &(struct s10_request){
                     .kind = S10_GRANT, .service = "RA", .country = "GB", .last = 100000000},
                 &f),
             S10_BAD_LAST, 0));
    CHECK(is(s10_encode(&(struct s10_request){.kind = S10_VOID, .text = "RA000000015GB"}, &f),
             S10_CHECK_DIGIT, 0));
    CHECK(is(s10_encode(&(struct s10_request){.kind = S10_QUERY, .text = "RA0000000x5GB"}, &f),
             S10_DIGIT, 9));
    struct s10_word w;
    s10_word(S10_CHECK_DIGIT, &w);
    CHECK(!strcmp(w.text, "check-digit"));
    s10_word(99, &w);
    CHECK(!strcmp(w.text, "no-such-code"));
}

static void lines(void) {
    static const char *const rows[][2] = {
        {"53310101 00000000 00000001 00000007 52414742 00000000 00000002",
         "request grant customer 0 number 1 holder 7 RA GB 00000000 00000002\n"},
        {"53310181 00000000 00000001 00000007 52414742 00000000 00000002 00 00000001",
         "reply grant customer 0 number 1 holder 7 RA GB 00000000 00000002 done range 1\n"},
        {"53310182 00000007 00000001 52414742 00 00004e20 52413030303030303030354742",
         "reply draw customer 7 number 1 RA GB done day 20000 RA000000005GB\n"},
        {"53310182 00000007 00000004 52414742 05",
         "reply draw customer 7 number 4 RA GB none-free\n"},
        {"53310184 00000007 00000009 52413030303030303031344742 00 02 00004e3e",
         "reply query customer 7 number 9 RA000000014GB done issued 20030\n"},
        {"53310286 00000000 00000003 00000002 00", "reply withdraw customer 0 number 3 2 done\n"}};
    uint8_t b[512];
    struct s10_line line;
    for (size_t i = 0; i < sizeof rows / sizeof *rows; i++) {
        size_t n = hex(rows[i][0], b);
        struct s10_result r =
            b[3] < 0x80 ? s10_request_line(b, n, &line) : s10_reply_line(b, n, &line);
        CHECK(is(r, S10_OK, 0) && line.len == strlen(rows[i][1]) && !strcmp(line.text, rows[i][1]));
    }
    /* the longest line: a sheet of sixteen identifiers and numbers of ten digits */
    size_t n = hex("53310285 ffffffff ffffffff 52414742 10 00 ffffffff", b);
    for (int i = 0; i < 16; i++, n += 13) memcpy(b + n, "RA000000005GB", 13);
    CHECK(is(s10_reply_line(b, n, &line), S10_OK, 0) && line.len == 307 && line.text[306] == '\n');
    CHECK(is(s10_reply_line(b, n - 1, &line), S10_DATAGRAM_LENGTH, 0));
}

int main(void) {
    identifiers();
    lines();
    datagrams();
    changed_bytes();
    client();
    refusals();
    printf("%d passed, %d failed\n", passed, failed);
    return failed != 0;
}
