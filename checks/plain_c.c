/* Compares each function of contrib/c/s10_plain.c with that of the library: the code, what is written, and what is not. The
 * datagrams are those of requests and replies with fields by a seeded choice; half of them are changed in up to three bytes, or cut
 * or lengthened. Each code of s10.h but S10_NO_ROOM must come.
 *
 *     plain_c DATAGRAMS
 *
 * Here the functions of s10_plain.c are compiled as plain_* . */
#include "s10.h"
#include <stdio.h>
#include <stdlib.h>
#include <string.h>

#define PLAIN(name) extern __typeof__(s10_##name) plain_##name
PLAIN(read);
PLAIN(read_label);
PLAIN(make);
PLAIN(encode);
PLAIN(decode);
PLAIN(accept);
PLAIN(submit);
PLAIN(receive);
PLAIN(give_up);
PLAIN(request_line);
PLAIN(reply_line);
PLAIN(word);

enum { MAX_BYTES = 300 };

struct bytes {
    size_t len;
    uint8_t at[MAX_BYTES];
};

static uint64_t state = 88172645463325252u;
static unsigned long seen[S10_NO_ROOM + 1], compared;

/* A number below another, or any if that is 0. */
static uint32_t pick(uint32_t below) {
    state ^= state << 13;
    state ^= state >> 7;
    state ^= state << 17;
    uint32_t number = (uint32_t)(state >> 16);
    return below == 0 ? number : number % below;
}

/* ---- Comparing ------------------------------------------------------------------------------ */

static void differ(const char *name, const void *input, size_t len) {
    printf("failed: %s differs over", name);
    for (size_t i = 0; i < len; i++) printf(" %02x", ((const uint8_t *)input)[i]);
    puts("");
    exit(1);
}

/* Compares two results, and `size` bytes of what both wrote. */
static int same(struct s10_result a, struct s10_result b, const void *written, const void *plain, size_t size) {
    compared++;
    if (a.code <= S10_NO_ROOM) seen[a.code]++;
    return a.code == b.code && a.at == b.at && memcmp(written, plain, size) == 0;
}

/* The bytes of a struct that are not padding. */
enum {
    OUTCOME_BYTES = offsetof(struct s10_outcome, texts) + 16 * 14,
    FRAME_BYTES = offsetof(struct s10_frame, bytes) + S10_MAX_REQUEST,
    ID_TEXTS = offsetof(struct s10_id, country) + 2
};

static int same_ids(struct s10_result a, struct s10_result b, const struct s10_id *id, const struct s10_id *plain) {
    return same(a, b, id, plain, ID_TEXTS) && id->serial == plain->serial && id->group == plain->group;
}

static int same_clients(struct s10_result a, struct s10_result b, const struct s10_client *c, const struct s10_client *plain) {
    return same(a, b, &c->pending, &plain->pending, FRAME_BYTES) && c->taken == plain->taken && c->customer == plain->customer &&
           c->first == plain->first && c->last == plain->last;
}

static void compare_texts(const struct bytes *text) {
    struct s10_id id, plain;
    memset(&id, 0x5a, sizeof id);
    plain = id;
    if (!same_ids(s10_read(text->at, text->len, &id), plain_read(text->at, text->len, &plain), &id, &plain))
        differ("s10_read", text->at, text->len);
    if (!same_ids(s10_read_label(text->at, text->len, &id), plain_read_label(text->at, text->len, &plain), &id, &plain))
        differ("s10_read_label", text->at, text->len);
}

static void compare_made(const char service[2], uint32_t serial, const char country[2]) {
    struct s10_id id, plain;
    memset(&id, 0x5a, sizeof id);
    plain = id;
    if (!same_ids(s10_make(service, serial, country, &id), plain_make(service, serial, country, &plain), &id, &plain))
        differ("s10_make", &serial, sizeof serial);
}

static void compare_encoded(const struct s10_request *request) {
    struct s10_frame frame, plain;
    memset(&frame, 0x5a, sizeof frame);
    plain = frame;
    struct s10_result found = s10_encode(request, &frame);
    if (!same(found, plain_encode(request, &plain), &frame, &plain, FRAME_BYTES)) differ("s10_encode", request, sizeof *request);
}

static void compare_request(const struct bytes *sent) {
    struct s10_request request, plain;
    struct s10_line line, plain_line;
    memset(&request, 0x5a, sizeof request);
    plain = request;
    struct s10_result found = s10_decode(sent->at, sent->len, &request);
    if (!same(found, plain_decode(sent->at, sent->len, &plain), &request, &plain, sizeof plain))
        differ("s10_decode", sent->at, sent->len);
    memset(&line, 0x5a, sizeof line);
    plain_line = line;
    found = s10_request_line(sent->at, sent->len, &line);
    if (!same(found, plain_request_line(sent->at, sent->len, &plain_line), &line, &plain_line, sizeof line))
        differ("s10_request_line", sent->at, sent->len);
}

static void compare_reply(const struct bytes *sent, const struct bytes *reply) {
    struct s10_outcome outcome, plain;
    struct s10_line line, plain_line;
    memset(&outcome, 0x5a, sizeof outcome);
    plain = outcome;
    struct s10_result found = s10_accept(sent->at, sent->len, reply->at, reply->len, &outcome);
    struct s10_result wanted = plain_accept(sent->at, sent->len, reply->at, reply->len, &plain);
    if (!same(found, wanted, &outcome, &plain, OUTCOME_BYTES)) differ("s10_accept", reply->at, reply->len);
    memset(&line, 0x5a, sizeof line);
    plain_line = line;
    found = s10_reply_line(reply->at, reply->len, &line);
    if (!same(found, plain_reply_line(reply->at, reply->len, &plain_line), &line, &plain_line, sizeof line))
        differ("s10_reply_line", reply->at, reply->len);
}

/* Submits a request, receives a datagram as its reply, or gives up. */
static void compare_client(struct s10_client client, const struct s10_request *request, const struct bytes *reply) {
    struct s10_client plain = client;
    struct s10_outcome outcome, plain_outcome;
    memset(&outcome, 0x5a, sizeof outcome);
    plain_outcome = outcome;
    if (!same_clients(s10_submit(&client, request), plain_submit(&plain, request), &client, &plain))
        differ("s10_submit", request, sizeof *request);
    struct s10_result found = s10_receive(&client, reply->at, reply->len, &outcome);
    struct s10_result wanted = plain_receive(&plain, reply->at, reply->len, &plain_outcome);
    if (!same_clients(found, wanted, &client, &plain) || memcmp(&outcome, &plain_outcome, OUTCOME_BYTES) != 0)
        differ("s10_receive", reply->at, reply->len);
    if (!same_clients(s10_give_up(&client), plain_give_up(&plain), &client, &plain)) differ("s10_give_up", &client, sizeof client);
}

static void compare_words(void) {
    for (uint32_t code = 0; code < 1000; code++) {
        struct s10_word word, plain;
        s10_word(code, &word);
        plain_word(code, &plain);
        if (memcmp(&word, &plain, sizeof word) != 0) differ("s10_word", &code, sizeof code);
    }
}

/* ---- Choosing ------------------------------------------------------------------------------- */

static uint32_t any_number(void) {
    static const uint32_t edges[] = {0, 1, 7, 0xff, 0x7fffffff, 0x80000000, 0xfffffffe, 0xffffffff};
    return pick(2) ? pick(0) : edges[pick(8)];
}

static uint32_t any_serial(void) {
    static const uint32_t edges[] = {0, 8, 47312482, 99999998, 99999999, 100000000, 100000001, 0xffffffff};
    return pick(8) ? pick(100000000) : edges[pick(8)];
}

static uint8_t any_byte(void) {
    static const char edges[] = "@AMZ[/059: az\1\2\6\7\x10\x11\x80\x86";
    return pick(2) ? (uint8_t)pick(256) : (uint8_t)edges[pick(sizeof edges - 1)];
}

static void put_letters(char letters[2]) {
    for (int i = 0; i < 2; i++) letters[i] = pick(64) ? (char)('A' + pick(26)) : (char)any_byte();
}

/* An identifier with the right check digit; sometimes not. */
static void put_text(uint8_t *text) {
    char service[2] = {(char)('A' + pick(26)), (char)('A' + pick(26))};
    struct s10_id id;
    s10_make(service, pick(100000000), service, &id);
    memcpy(text, id.text, S10_TEXT_LEN);
    if (pick(32) == 0) text[pick(S10_TEXT_LEN)] = any_byte();
}

static struct s10_request any_request(void) {
    struct s10_request request;
    memset(&request, 0, sizeof request);
    request.kind = (uint8_t)(pick(64) ? 1 + pick(6) : pick(256));
    request.count = (uint8_t)(pick(16) ? 1 + pick(16) : pick(256));
    request.customer = any_number();
    request.number = any_number();
    request.holder = any_number();
    request.range = any_number();
    request.first = any_serial();
    request.last = any_serial();
    put_letters(request.service);
    put_letters(request.country);
    put_text((uint8_t *)request.text);
    request.text[13] = (char)pick(256);
    return request;
}

static void put_number(struct bytes *datagram, uint32_t number) {
    for (int shift = 24; shift >= 0; shift -= 8) datagram->at[datagram->len++] = (uint8_t)(number >> shift);
}

/* A reply to the datagram of a request. */
static struct bytes any_reply(const struct bytes *sent) {
    struct bytes reply = *sent;
    uint8_t kind = sent->at[3];
    reply.at[3] |= 0x80;
    uint8_t code = (uint8_t)(pick(3) ? 0 : pick(14));
    reply.at[reply.len++] = code;
    if (code != 0) return reply;
    int count = kind == S10_DRAW ? 1 : kind == S10_DRAW_MANY && sent->at[16] <= 16 ? sent->at[16] : 0;
    if (kind == S10_QUERY) reply.at[reply.len++] = (uint8_t)pick(5);
    if (kind == S10_GRANT || count > 0) put_number(&reply, any_number());
    if (kind == S10_QUERY) put_number(&reply, pick(2) ? 0 : any_number());
    for (int i = 0; i < count; i++, reply.len += S10_TEXT_LEN) put_text(reply.at + reply.len);
    return reply;
}

/* Changes, cuts or lengthens half of the datagrams. */
static void change(struct bytes *datagram) {
    if (pick(2)) return;
    for (uint32_t changes = pick(4); changes > 0 && datagram->len > 0; changes--)
        datagram->at[pick((uint32_t)datagram->len)] = any_byte();
    if (pick(8) == 0) datagram->len = pick(4) ? datagram->len + pick(2) : pick((uint32_t)datagram->len + 1);
}

static struct s10_client any_client(const struct s10_request *request) {
    struct s10_client client;
    memset(&client, 0, sizeof client);
    client.customer = request->customer;
    client.first = pick(8) ? request->number : any_number();
    client.last = pick(8) ? 0xffffffff : any_number();
    client.taken = pick(8) ? 0 : any_number();
    client.pending.len = pick(8) ? 0 : pick(40);
    for (int i = 0; client.pending.len > 0 && i < S10_MAX_REQUEST; i++) client.pending.bytes[i] = any_byte();
    return client;
}

int main(int argc, char **argv) {
    unsigned long datagrams = argc == 2 ? strtoul(argv[1], NULL, 10) : 0;
    compare_words();
    for (unsigned long done = 0; done < datagrams; done += 2) {
        struct s10_request request = any_request();
        struct s10_frame frame;
        struct bytes sent, reply, text = {S10_TEXT_LEN, {0}};
        memset(&sent, 0, sizeof sent);
        put_text(text.at);
        change(&text);
        compare_texts(&text);
        compare_made(request.service, request.first, request.country);
        compare_encoded(&request);
        if (s10_encode(&request, &frame).code != S10_OK) frame.len = pick(S10_MAX_REQUEST + 1);
        sent.len = frame.len;
        memcpy(sent.at, frame.bytes, frame.len);
        reply = sent.len < 17 && sent.len != 16 ? sent : any_reply(&sent);
        change(&reply);
        compare_reply(&sent, &reply);
        compare_client(any_client(&request), &request, &reply);
        change(&sent);
        compare_request(&sent);
        compare_reply(&sent, &reply);
    }
    for (uint32_t code = 0; code < S10_NO_ROOM; code++) {
        struct s10_word word;
        s10_word(code, &word);
        if (strcmp(word.text, "no-such-code") != 0 && seen[code] < datagrams / 100000)
            return printf("failed: the code %u came %lu times\n", code, seen[code]), 1;
    }
    printf("%lu datagrams, %lu calls: the plain C does what the library does\n", datagrams, compared);
    return datagrams == 0;
}
