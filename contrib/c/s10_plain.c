/* s10_plain.c: the functions of s10.h in plain C. NOT PROVED: tested against the proved library.
 *
 * For machines for which the library cannot be built, such as 32-bit ones, little-endian or
 * big-endian. Compile this file into your program, and define S10_PLAIN_C wherever you include s10.h:
 *
 *     cc -std=c99 -DS10_PLAIN_C program.c s10_plain.c
 *
 * checks/plain_c.sh compares every function with that of the library, over ten million datagrams. */
#ifndef S10_PLAIN_C
#define S10_PLAIN_C
#endif
#include "s10.h"
#include <string.h>

enum { HEADER = 12, REPLY = 0x80, LAST_SERIAL = 99999999 };

static struct s10_result result_of(uint32_t code, size_t at) {
    struct s10_result result;
    result.code = code;
    result.at = (uint32_t)at;
    return result;
}

static struct s10_result ok(void) { return result_of(S10_OK, 0); }

static int is_letter(uint8_t byte) { return byte >= 'A' && byte <= 'Z'; }

static int is_digit(uint8_t byte) { return byte >= '0' && byte <= '9'; }

static int are_letters(const uint8_t *bytes) { return is_letter(bytes[0]) && is_letter(bytes[1]); }

static uint32_t number_at(const uint8_t *bytes) {
    return (uint32_t)bytes[0] << 24 | (uint32_t)bytes[1] << 16 | (uint32_t)bytes[2] << 8 | bytes[3];
}

static void put_number(uint8_t *bytes, uint32_t number) {
    for (int at = 0; at < 4; at++) bytes[at] = (uint8_t)(number >> (24 - 8 * at));
}

/* ---- Identifiers --------------------------------------------------------------------------- */

static uint8_t check_digit(const uint8_t digits[8]) {
    static const uint8_t weights[8] = {8, 6, 4, 2, 3, 5, 9, 7};
    uint32_t sum = 0;
    for (int at = 0; at < 8; at++) sum += weights[at] * (digits[at] - (uint32_t)'0');
    uint32_t digit = 11 - sum % 11;
    return (uint8_t)('0' + (digit == 10 ? 0 : digit == 11 ? 5 : digit));
}

static uint32_t group_of(char letter) {
    switch (letter) {
    case 'C': return S10_PARCEL;
    case 'E': return S10_EMS;
    case 'R': return S10_REGISTERED;
    case 'V': return S10_INSURED;
    default: return S10_OTHER;
    }
}

static void fill_id(struct s10_id *out, const uint8_t text[S10_TEXT_LEN], uint32_t serial) {
    memset(out, 0, sizeof *out);
    memcpy(out->text, text, S10_TEXT_LEN);
    memcpy(out->service, text, 2);
    memcpy(out->country, text + 11, 2);
    out->serial = serial;
    out->group = group_of(out->service[0]);
}

/* Reads 13 characters. */
static struct s10_result read_text(const uint8_t *text, struct s10_id *out) {
    uint32_t serial = 0;
    for (size_t at = 0; at < S10_TEXT_LEN; at++) {
        if (at < 2 || at > 10) {
            if (!is_letter(text[at])) return result_of(S10_LETTER, at);
        } else {
            if (!is_digit(text[at])) return result_of(S10_DIGIT, at);
            if (at < 10) serial = 10 * serial + (text[at] - (uint32_t)'0');
        }
    }
    if (text[10] != check_digit(text + 2)) return result_of(S10_CHECK_DIGIT, 0);
    fill_id(out, text, serial);
    return ok();
}

static int is_identifier(const uint8_t *text) {
    struct s10_id id;
    return read_text(text, &id).code == S10_OK;
}

struct s10_result s10_read(const uint8_t *text, size_t len, struct s10_id *out) {
    return len == S10_TEXT_LEN ? read_text(text, out) : result_of(S10_LENGTH, 0);
}

struct s10_result s10_read_label(const uint8_t *text, size_t len, struct s10_id *out) {
    uint8_t strict[S10_TEXT_LEN];
    size_t count = 0;
    for (size_t at = 0; at < len; at++) {
        if (text[at] == ' ') continue;
        if (count == S10_TEXT_LEN) return result_of(S10_LENGTH, 0);
        int is_small = text[at] >= 'a' && text[at] <= 'z';
        strict[count++] = (uint8_t)(is_small ? text[at] - 'a' + 'A' : text[at]);
    }
    return s10_read(strict, count, out);
}

struct s10_result s10_make(const char service[2], uint32_t serial, const char country[2],
                           struct s10_id *out) {
    if (!are_letters((const uint8_t *)service)) return result_of(S10_BAD_SERVICE, 0);
    if (serial > LAST_SERIAL) return result_of(S10_BAD_SERIAL, 0);
    if (!are_letters((const uint8_t *)country)) return result_of(S10_BAD_COUNTRY, 0);
    uint8_t text[S10_TEXT_LEN];
    uint32_t rest = serial;
    memcpy(text, service, 2);
    for (int at = 9; at > 1; at--, rest /= 10) text[at] = (uint8_t)('0' + rest % 10);
    text[10] = check_digit(text + 2);
    memcpy(text + 11, country, 2);
    fill_id(out, text, serial);
    return ok();
}

/* ---- Requests ------------------------------------------------------------------------------ */

/* The bytes of a request of each kind, and its version. */
static const uint8_t lengths[] = {0, 28, 16, 25, 25, 17, 16};
static const uint8_t versions[] = {0, 1, 1, 1, 1, 2, 2};

static int has_pair(uint8_t kind) {
    return kind == S10_GRANT || kind == S10_DRAW || kind == S10_DRAW_MANY;
}

static int has_text(uint8_t kind) { return kind == S10_VOID || kind == S10_QUERY; }

/* The first field of a request that is wrong. */
static struct s10_result check_request(const struct s10_request *request) {
    uint8_t kind = request->kind;
    if (kind < S10_GRANT || kind > S10_WITHDRAW) return result_of(S10_BAD_KIND, 0);
    if (has_pair(kind)) {
        if (!are_letters((const uint8_t *)request->service)) return result_of(S10_BAD_SERVICE, 0);
        if (!are_letters((const uint8_t *)request->country)) return result_of(S10_BAD_COUNTRY, 0);
    }
    if (kind == S10_GRANT && request->first > LAST_SERIAL) return result_of(S10_BAD_SERIAL, 0);
    if (kind == S10_GRANT && request->last > LAST_SERIAL) return result_of(S10_BAD_LAST, 0);
    if (kind == S10_DRAW_MANY && (request->count < 1 || request->count > S10_MAX_SHEET))
        return result_of(S10_BAD_COUNT, 0);
    struct s10_id id;
    return has_text(kind) ? read_text((const uint8_t *)request->text, &id) : ok();
}

struct s10_result s10_encode(const struct s10_request *request, struct s10_frame *out) {
    struct s10_result result = check_request(request);
    if (result.code != S10_OK) return result;
    uint8_t kind = request->kind;
    memset(out, 0, sizeof *out);
    out->len = lengths[kind];
    memcpy(out->bytes, "S1", 2);
    out->bytes[2] = versions[kind];
    out->bytes[3] = kind;
    put_number(out->bytes + 4, request->customer);
    put_number(out->bytes + 8, request->number);
    uint8_t *body = out->bytes + HEADER;
    if (kind == S10_GRANT) {
        put_number(body, request->holder);
        put_number(body + 8, request->first);
        put_number(body + 12, request->last);
        body += 4;
    }
    if (has_pair(kind)) {
        memcpy(body, request->service, 2);
        memcpy(body + 2, request->country, 2);
    }
    if (has_text(kind)) memcpy(body, request->text, S10_TEXT_LEN);
    if (kind == S10_DRAW_MANY) body[4] = request->count;
    if (kind == S10_WITHDRAW) put_number(body, request->range);
    return ok();
}

/* Reads the header of a request or, with 0x80 as the mark, of a reply. Returns the kind. */
static struct s10_result read_header(const uint8_t *bytes, size_t len, uint8_t mark,
                                     uint8_t *kind) {
    if (len < HEADER) return result_of(S10_SHORT, 0);
    if (bytes[0] != 'S' || bytes[1] != '1') return result_of(S10_MAGIC, 0);
    if (bytes[2] != 1 && bytes[2] != 2) return result_of(S10_VERSION, 0);
    *kind = (uint8_t)(bytes[3] - mark);
    if (*kind < S10_GRANT || *kind > S10_WITHDRAW || versions[*kind] != bytes[2])
        return result_of(S10_KIND, 0);
    return ok();
}

/* Reads the fields after a header. */
static struct s10_result read_fields(uint8_t kind, const uint8_t *bytes, struct s10_request *out) {
    struct s10_request request;
    memset(&request, 0, sizeof request);
    request.kind = kind;
    request.customer = number_at(bytes + 4);
    request.number = number_at(bytes + 8);
    size_t at = kind == S10_GRANT ? 16 : HEADER;
    if (has_pair(kind)) {
        if (!are_letters(bytes + at)) return result_of(S10_FIELD, at);
        if (!are_letters(bytes + at + 2)) return result_of(S10_FIELD, at + 2);
        memcpy(request.service, bytes + at, 2);
        memcpy(request.country, bytes + at + 2, 2);
    }
    if (kind == S10_GRANT) {
        request.holder = number_at(bytes + 12);
        request.first = number_at(bytes + 20);
        request.last = number_at(bytes + 24);
        if (request.first > LAST_SERIAL) return result_of(S10_FIELD, 20);
        if (request.last > LAST_SERIAL) return result_of(S10_FIELD, 24);
    } else if (kind == S10_DRAW_MANY) {
        request.count = bytes[16];
        if (request.count < 1 || request.count > S10_MAX_SHEET) return result_of(S10_FIELD, 16);
    } else if (kind == S10_WITHDRAW) {
        request.range = number_at(bytes + 12);
    } else if (has_text(kind)) {
        if (!is_identifier(bytes + at)) return result_of(S10_FIELD, at);
        memcpy(request.text, bytes + at, S10_TEXT_LEN);
    }
    *out = request;
    return ok();
}

struct s10_result s10_decode(const uint8_t *bytes, size_t len, struct s10_request *out) {
    uint8_t kind;
    struct s10_result result = read_header(bytes, len, 0, &kind);
    if (result.code != S10_OK) return result;
    if (len != lengths[kind]) return result_of(S10_DATAGRAM_LENGTH, 0);
    return read_fields(kind, bytes, out);
}

/* ---- Replies ------------------------------------------------------------------------------- */

/* The bytes after the outcome byte of a reply to a request of this kind that is done. */
static size_t done_length(uint8_t kind, const uint8_t *bytes) {
    switch (kind) {
    case S10_GRANT: return 4;
    case S10_DRAW: return 4 + S10_TEXT_LEN;
    case S10_QUERY: return 5;
    case S10_DRAW_MANY: return 4 + (size_t)S10_TEXT_LEN * bytes[16];
    default: return 0;
    }
}

/* Whether a refusal fits a kind of request. */
static int fits(uint8_t kind, uint8_t code) {
    switch (code) {
    case S10_NOT_THE_POST: return kind == S10_GRANT || kind == S10_WITHDRAW;
    case S10_BAD_GRANT:
    case S10_OVERLAP: return kind == S10_GRANT;
    case S10_NO_RANGE:
    case S10_NONE_FREE: return kind == S10_DRAW || kind == S10_DRAW_MANY;
    case S10_NOT_YOURS: return has_text(kind);
    case S10_NOT_ISSUED:
    case S10_ALREADY_VOID: return kind == S10_VOID;
    case S10_NUMBER_REUSED: return 1;
    case S10_NO_SUCH_RANGE:
    case S10_CLOSED: return kind == S10_WITHDRAW;
    default: return 0;
    }
}

/* Reads what follows the outcome byte of a reply that is done, which is at `at`. */
static struct s10_result read_done(const struct s10_request *request, const uint8_t *bytes,
                                   size_t at, struct s10_outcome *out) {
    uint8_t kind = request->kind;
    if (kind == S10_GRANT) {
        out->range = number_at(bytes + at + 1);
    } else if (kind == S10_QUERY) {
        out->status = bytes[at + 1];
        out->day = number_at(bytes + at + 2);
        if (out->status > S10_VOIDED) return result_of(S10_FIELD, at + 1);
        if (out->status < S10_ISSUED && out->day != 0) return result_of(S10_FIELD, at + 2);
    } else if (kind == S10_DRAW || kind == S10_DRAW_MANY) {
        out->day = number_at(bytes + at + 1);
        out->count = kind == S10_DRAW ? 1 : request->count;
        for (int i = 0; i < out->count; i++) {
            size_t text = at + 5 + (size_t)S10_TEXT_LEN * (size_t)i;
            if (!is_identifier(bytes + text)) return result_of(S10_FIELD, text);
            memcpy(out->texts[i], bytes + text, S10_TEXT_LEN);
        }
    }
    return ok();
}

/* Reads the request and the outcome of a reply. */
static struct s10_result read_reply(const uint8_t *bytes, size_t len, struct s10_request *request,
                                    struct s10_outcome *out) {
    uint8_t kind;
    struct s10_result result = read_header(bytes, len, REPLY, &kind);
    if (result.code != S10_OK) return result;
    size_t at = lengths[kind];
    if (len <= at || len != at + 1 + (bytes[at] == S10_DONE ? done_length(kind, bytes) : 0))
        return result_of(S10_DATAGRAM_LENGTH, 0);
    result = read_fields(kind, bytes, request);
    if (result.code != S10_OK) return result;
    memset(out, 0, sizeof *out);
    out->code = bytes[at];
    if (out->code == S10_DONE) return read_done(request, bytes, at, out);
    return fits(kind, out->code) ? ok() : result_of(S10_OUTCOME, 0);
}

struct s10_result s10_accept(const uint8_t *sent, size_t sent_len, const uint8_t *datagram,
                             size_t datagram_len, struct s10_outcome *out) {
    struct s10_request asked, replied;
    struct s10_outcome outcome;
    struct s10_result result = read_reply(datagram, datagram_len, &replied, &outcome);
    if (result.code != S10_OK) return result;
    if (s10_decode(sent, sent_len, &asked).code != S10_OK) return result_of(S10_IDLE, 0);
    /* The bytes of a request are its fields. */
    if (sent[3] != (uint8_t)(datagram[3] - REPLY) || memcmp(sent, datagram, 3) != 0 ||
        memcmp(sent + 4, datagram + 4, sent_len - 4) != 0)
        return result_of(S10_NOT_MINE, 0);
    *out = outcome;
    return ok();
}

/* ---- A client ------------------------------------------------------------------------------ */

struct s10_result s10_submit(struct s10_client *client, const struct s10_request *request) {
    struct s10_request next = *request;
    struct s10_frame frame;
    if (client->pending.len != 0) return result_of(S10_BUSY, 0);
    if (client->first > client->last || client->taken > client->last - client->first)
        return result_of(S10_NUMBERS_SPENT, 0);
    next.customer = client->customer;
    next.number = client->first + (uint32_t)client->taken;
    struct s10_result result = s10_encode(&next, &frame);
    if (result.code != S10_OK) return result;
    client->pending = frame;
    client->taken++;
    return ok();
}

struct s10_result s10_receive(struct s10_client *client, const uint8_t *datagram, size_t len,
                              struct s10_outcome *out) {
    const struct s10_frame *pending = &client->pending;
    size_t sent_len = pending->len <= S10_MAX_REQUEST ? pending->len : 0;
    struct s10_result result = s10_accept(pending->bytes, sent_len, datagram, len, out);
    if (result.code == S10_OK) memset(&client->pending, 0, sizeof client->pending);
    return result;
}

struct s10_result s10_give_up(struct s10_client *client) {
    if (client->pending.len == 0) return result_of(S10_IDLE, 0);
    memset(&client->pending, 0, sizeof client->pending);
    return ok();
}

/* ---- Text ---------------------------------------------------------------------------------- */

static const char *const kinds[] = {"", "grant", "draw", "void", "query", "draw-many", "withdraw"};
static const char *const statuses[] = {"unknown", "never", "issued", "voided"};
static const char *const outcomes[] = {
    "done",       "not-the-post", "bad-grant",     "overlap",       "no-range",     "none-free",
    "not-yours",  "not-issued",   "already-void",  "number-reused", "no-such-range", "closed"};

/* Adds characters to a line. No line is longer than it has space for: the longest has 307. */
static void add(struct s10_line *line, const char *text, size_t len) {
    memcpy(line->text + line->len, text, len);
    line->len += len;
}

static void add_word(struct s10_line *line, const char *word) {
    add(line, " ", 1);
    add(line, word, strlen(word));
}

static void add_letters(struct s10_line *line, const char letters[2]) {
    add(line, " ", 1);
    add(line, letters, 2);
}

/* Adds a number with at least so many digits. */
static void add_number(struct s10_line *line, uint32_t number, size_t least) {
    char digits[10];
    size_t at = sizeof digits;
    do {
        digits[--at] = (char)('0' + number % 10);
        number /= 10;
    } while (number > 0 || sizeof digits - at < least);
    add(line, " ", 1);
    add(line, digits + at, sizeof digits - at);
}

static void add_request(struct s10_line *line, const struct s10_request *request) {
    uint8_t kind = request->kind;
    add_word(line, kinds[kind]);
    add_word(line, "customer");
    add_number(line, request->customer, 1);
    add_word(line, "number");
    add_number(line, request->number, 1);
    if (kind == S10_GRANT) {
        add_word(line, "holder");
        add_number(line, request->holder, 1);
    }
    if (has_pair(kind)) {
        add_letters(line, request->service);
        add_letters(line, request->country);
    }
    if (kind == S10_GRANT) {
        add_number(line, request->first, 8);
        add_number(line, request->last, 8);
    }
    if (kind == S10_DRAW_MANY) add_number(line, request->count, 1);
    if (kind == S10_WITHDRAW) add_number(line, request->range, 1);
    if (has_text(kind)) add_word(line, request->text);
}

static void add_outcome(struct s10_line *line, uint8_t kind, const struct s10_outcome *outcome) {
    add_word(line, outcomes[outcome->code]);
    if (outcome->code != S10_DONE) return;
    if (kind == S10_GRANT) {
        add_word(line, "range");
        add_number(line, outcome->range, 1);
    } else if (kind == S10_QUERY) {
        add_word(line, statuses[outcome->status]);
        if (outcome->status >= S10_ISSUED) add_number(line, outcome->day, 1);
    } else if (outcome->count > 0) {
        add_word(line, "day");
        add_number(line, outcome->day, 1);
        for (int i = 0; i < outcome->count; i++) add_word(line, outcome->texts[i]);
    }
}

struct s10_result s10_request_line(const uint8_t *bytes, size_t len, struct s10_line *out) {
    struct s10_request request;
    struct s10_result result = s10_decode(bytes, len, &request);
    if (result.code != S10_OK) return result;
    memset(out, 0, sizeof *out);
    add(out, "request", 7);
    add_request(out, &request);
    add(out, "\n", 1);
    return ok();
}

struct s10_result s10_reply_line(const uint8_t *bytes, size_t len, struct s10_line *out) {
    struct s10_request request;
    struct s10_outcome outcome;
    struct s10_result result = read_reply(bytes, len, &request, &outcome);
    if (result.code != S10_OK) return result;
    memset(out, 0, sizeof *out);
    add(out, "reply", 5);
    add_request(out, &request);
    add_outcome(out, request.kind, &outcome);
    add(out, "\n", 1);
    return ok();
}

void s10_word(uint32_t code, struct s10_word *out) {
    static const struct {
        uint32_t code;
        char word[16];
    } words[] = {{S10_OK, "ok"},
                 {S10_LENGTH, "length"},
                 {S10_LETTER, "letter"},
                 {S10_DIGIT, "digit"},
                 {S10_CHECK_DIGIT, "check-digit"},
                 {S10_SHORT, "short"},
                 {S10_MAGIC, "magic"},
                 {S10_VERSION, "version"},
                 {S10_KIND, "kind"},
                 {S10_DATAGRAM_LENGTH, "length"},
                 {S10_FIELD, "field"},
                 {S10_OUTCOME, "outcome"},
                 {S10_IDLE, "idle"},
                 {S10_NOT_MINE, "not-mine"},
                 {S10_BUSY, "busy"},
                 {S10_NUMBERS_SPENT, "numbers-spent"},
                 {S10_BAD_KIND, "bad-kind"},
                 {S10_BAD_SERVICE, "bad-service"},
                 {S10_BAD_COUNTRY, "bad-country"},
                 {S10_BAD_SERIAL, "bad-serial"},
                 {S10_BAD_LAST, "bad-last"},
                 {S10_BAD_COUNT, "bad-count"},
                 {S10_NO_ROOM, "no-room"}};
    memset(out, 0, sizeof *out);
    strcpy(out->text, "no-such-code");
    for (size_t at = 0; at < sizeof words / sizeof *words; at++)
        if (words[at].code == code) memcpy(out->text, words[at].word, sizeof out->text);
}
