/* s10.h: S10 item identifiers, and the requests and replies of the s10 service, for C and C++.
 *
 * Link with -ls10. For 64-bit little-endian machines. For others s10_plain.c has the same functions,
 * which are not proved: compile it into your program, and define S10_PLAIN_C before this header.
 *
 * Each function is proved to do what its comment says, for every input. It allocates no memory,
 * keeps no state, does not block and always returns. It calls no function but memcpy, memmove and
 * memset. Any thread may call it.
 *
 * The caller must keep these rules. Nothing checks them:
 *   - No pointer is NULL, not even with a length of 0.
 *   - `const uint8_t *p, size_t n` means n readable bytes at p.
 *   - What a function writes (`out`, `client`) overlaps nothing else that it is passed, and no
 *     other thread uses it during the call.
 *
 * If a call is refused (its code is not S10_OK), `*out` and `*client` are unchanged. */
#ifndef S10_H
#define S10_H
#include <stddef.h>
#include <stdint.h>
#ifdef __cplusplus
extern "C" {
#endif

/* The version of the library, as text and as a number: 10000 x major + 100 x minor + patch. */
#define S10_LIBRARY_VERSION "0.2.0"
#define S10_LIBRARY_VERSION_NUMBER 200

enum {
    S10_TEXT_LEN = 13,        /* characters of an identifier */
    S10_MAX_REQUEST = 28,     /* bytes of the longest request */
    S10_MAX_REPLY = 230,      /* bytes of the longest reply */
    S10_MAX_SHEET = 16,       /* identifiers of one request */
    S10_MAX_LINE = 512        /* characters of a line */
};

/* Why a call is refused: the first cause that applies, in the order of each comment below. */
enum s10_code {
    S10_OK = 0,

    /* The text is no identifier. */
    S10_LENGTH = 1,           /* it has not 13 characters */
    S10_LETTER = 2,           /* the leftmost wrong character, at index `at`, must be A to Z */
    S10_DIGIT = 3,            /* the leftmost wrong character, at index `at`, must be 0 to 9 */
    S10_CHECK_DIGIT = 4,

    /* The bytes are no request, or no reply. */
    S10_SHORT = 11,           /* shorter than the header */
    S10_MAGIC = 12,
    S10_VERSION = 13,
    S10_KIND = 14,
    S10_DATAGRAM_LENGTH = 15,
    S10_FIELD = 16,           /* the first wrong field begins at offset `at` */
    S10_OUTCOME = 17,

    /* The reply is not accepted, or the request is not submitted. */
    S10_IDLE = 21,            /* no request is pending; to s10_accept: `sent` is no request */
    S10_NOT_MINE = 22,        /* it is the reply to another request: continue to wait */
    S10_BUSY = 23,            /* a request is pending */
    S10_NUMBERS_SPENT = 24,   /* the last request number is taken */

    /* A field that the caller filled in is wrong. */
    S10_BAD_KIND = 31,
    S10_BAD_SERVICE = 32,     /* not two capital letters */
    S10_BAD_COUNTRY = 33,     /* not two capital letters */
    S10_BAD_SERIAL = 34,      /* the first or only serial is above 99,999,999 */
    S10_BAD_LAST = 35,        /* the last serial is above 99,999,999 */
    S10_BAD_COUNT = 36,       /* not 1 to 16 */

    S10_NO_ROOM = 41          /* the line is too long; not excluded by the proof, never observed */
};

struct s10_result {
    uint32_t code;            /* enum s10_code */
    uint32_t at;              /* for S10_LETTER, S10_DIGIT and S10_FIELD, from 0; otherwise 0 */
};

/* ---- Identifiers --------------------------------------------------------------------------- */

enum s10_group {
    S10_PARCEL = 1, S10_EMS = 2, S10_REGISTERED = 3, S10_INSURED = 4, S10_OTHER = 5
};

struct s10_id {
    char text[14];            /* "RA473124829US", with a closing zero */
    char service[2];          /* "RA", with no closing zero */
    char country[2];          /* "US", with no closing zero */
    uint32_t serial;          /* 0 to 99,999,999 */
    uint32_t group;           /* enum s10_group, by the first letter of the service */
};

/* Reads the 13 characters of an identifier.
 * Refused: S10_LENGTH; S10_LETTER or S10_DIGIT, whichever is leftmost; S10_CHECK_DIGIT. */
struct s10_result s10_read(const uint8_t *text, size_t len, struct s10_id *out);

/* Reads an identifier as printed on a label: spaces (0x20) are ignored, letters may be small.
 * Refused: as s10_read; `at` does not count spaces. */
struct s10_result s10_read_label(const uint8_t *text, size_t len, struct s10_id *out);

/* Makes an identifier with its check digit. `service` and `country` are two bytes each.
 * Refused: S10_BAD_SERVICE, S10_BAD_SERIAL, S10_BAD_COUNTRY. */
struct s10_result s10_make(const char service[2], uint32_t serial, const char country[2],
                           struct s10_id *out);

/* ---- Requests ------------------------------------------------------------------------------ */

enum s10_kind {
    S10_GRANT = 1, S10_DRAW = 2, S10_VOID = 3, S10_QUERY = 4, S10_DRAW_MANY = 5, S10_WITHDRAW = 6
};

/* Each field names the kinds that have it. Encoding ignores the other fields; decoding clears them.
 *     struct s10_request draw = {.kind = S10_DRAW, .service = "RA", .country = "GB"};
 * (In C++, copy the letters with memcpy: a string is too long for `char[2]` there.) */
struct s10_request {
    uint32_t customer;        /* all; 0 is the post */
    uint32_t number;          /* all; the customer must never use it for another request */
    uint32_t holder;          /* GRANT */
    uint32_t first;           /* GRANT, 0 to 99,999,999 */
    uint32_t last;            /* GRANT, 0 to 99,999,999 */
    uint32_t range;           /* WITHDRAW */
    uint8_t kind;             /* enum s10_kind */
    uint8_t count;            /* DRAW_MANY, 1 to 16 */
    char service[2];          /* GRANT, DRAW, DRAW_MANY */
    char country[2];          /* GRANT, DRAW, DRAW_MANY */
    char text[14];            /* VOID, QUERY: 13 characters; the last byte is ignored */
};

/* The datagram of a request: bytes[0] to bytes[len - 1], then zeros. */
struct s10_frame {
    size_t len;
    uint8_t bytes[S10_MAX_REQUEST];
};

/* Writes the datagram of a request. To ask again, send the same bytes again.
 * Refused: S10_BAD_KIND; then the fields of the kind, in order: S10_BAD_SERVICE, S10_BAD_COUNTRY,
 * S10_BAD_SERIAL, S10_BAD_LAST, S10_BAD_COUNT; for a text as s10_read. */
struct s10_result s10_encode(const struct s10_request *request, struct s10_frame *out);

/* Reads the datagram of a request.
 * Refused: S10_SHORT to S10_FIELD, the first that applies. */
struct s10_result s10_decode(const uint8_t *bytes, size_t len, struct s10_request *out);

/* ---- Replies ------------------------------------------------------------------------------- */

enum s10_outcome_code {
    S10_DONE = 0, S10_NOT_THE_POST = 1, S10_BAD_GRANT = 2, S10_OVERLAP = 3, S10_NO_RANGE = 4,
    S10_NONE_FREE = 5, S10_NOT_YOURS = 6, S10_NOT_ISSUED = 7, S10_ALREADY_VOID = 8,
    S10_NUMBER_REUSED = 9, S10_NO_SUCH_RANGE = 10, S10_CLOSED = 11
};

enum s10_status { S10_UNKNOWN = 0, S10_NEVER = 1, S10_ISSUED = 2, S10_VOIDED = 3 };

/* The outcome of a request. The fields that it lacks are 0. */
struct s10_outcome {
    uint32_t day;             /* of a DRAW or DRAW_MANY that is done, or of the issue of a QUERY */
    uint32_t range;           /* of a GRANT that is done */
    uint8_t code;             /* enum s10_outcome_code */
    uint8_t status;           /* of a QUERY that is done: enum s10_status */
    uint8_t count;            /* the number of identifiers, 0 to 16 */
    char texts[S10_MAX_SHEET][14];  /* the identifiers, each with a closing zero */
};

/* Accepts a datagram only as the reply to the request that was sent, compared in every field.
 * Unless it returns S10_OK, no reply came: continue to wait. Receive into at least
 * S10_MAX_REPLY + 1 bytes, so that a longer datagram is not cut to a valid one.
 * Refused: S10_SHORT to S10_OUTCOME, the first that applies; S10_IDLE; S10_NOT_MINE. */
struct s10_result s10_accept(const uint8_t *sent, size_t sent_len, const uint8_t *datagram,
                             size_t datagram_len, struct s10_outcome *out);

/* ---- A client ------------------------------------------------------------------------------ */

/* A client of one customer: it takes the numbers first to last in turn and has at most one pending
 * request. No two clients of a customer may share a number. To begin:
 *     struct s10_client client = {.customer = 7, .first = 1, .last = 999999};
 *
 * The struct is the client's only memory. Store it after each s10_submit, before the first send:
 * if the machine stops, load it and send `pending` again. A client that forgets a number uses it
 * twice. */
struct s10_client {
    uint64_t taken;           /* how many numbers are taken, 0 to last - first + 1 */
    uint32_t customer;
    uint32_t first;
    uint32_t last;
    struct s10_frame pending; /* the datagram of the pending request; len 0 if there is none */
};

/* Makes a request pending. `request->customer` and `request->number` are ignored: the request gets
 * the customer and the next number of the client. Then send `client->pending`.
 * Refused: S10_BUSY; S10_NUMBERS_SPENT; as s10_encode. */
struct s10_result s10_submit(struct s10_client *client, const struct s10_request *request);

/* Accepts a datagram only as the reply to the pending request, as s10_accept. Then no request is
 * pending.
 * Refused: as s10_accept. */
struct s10_result s10_receive(struct s10_client *client, const uint8_t *datagram, size_t len,
                              struct s10_outcome *out);

/* Stops waiting for the pending request, which may have been executed or not. Its number stays
 * taken.
 * Refused: S10_IDLE if no request is pending. */
struct s10_result s10_give_up(struct s10_client *client);

/* ---- Text ---------------------------------------------------------------------------------- */

/* A line with its line feed: text[0] to text[len - 1], then zeros. */
struct s10_line {
    size_t len;
    char text[S10_MAX_LINE];
};

/* Writes the line that `s10 show` prints for the datagram of a request.
 * Refused: as s10_decode; S10_NO_ROOM. */
struct s10_result s10_request_line(const uint8_t *bytes, size_t len, struct s10_line *out);

/* Writes the line that `s10 show` prints for the datagram of a reply.
 * Refused: S10_SHORT to S10_OUTCOME, the first that applies; S10_NO_ROOM. */
struct s10_result s10_reply_line(const uint8_t *bytes, size_t len, struct s10_line *out);

/* A word, for example "check-digit", padded with zeros. */
struct s10_word {
    char text[16];
};

/* Writes the word of an enum s10_code, or "no-such-code". */
void s10_word(uint32_t code, struct s10_word *out);

#if defined __cplusplus
#define S10_LAYOUT(condition) static_assert(condition, #condition)
#elif defined __STDC_VERSION__ && __STDC_VERSION__ >= 201112L
#define S10_LAYOUT(condition) _Static_assert(condition, #condition)
#else
#define S10_LAYOUT(condition) extern char s10_layout[(condition) ? 1 : -1]
#endif
/* These structs have one layout on all machines. */
S10_LAYOUT(sizeof(struct s10_result) == 8 && sizeof(struct s10_word) == 16);
S10_LAYOUT(sizeof(struct s10_id) == 28 && offsetof(struct s10_id, serial) == 20);
S10_LAYOUT(sizeof(struct s10_request) == 44 && offsetof(struct s10_request, kind) == 24);
S10_LAYOUT(offsetof(struct s10_request, text) == 30);
S10_LAYOUT(sizeof(struct s10_outcome) == 236 && offsetof(struct s10_outcome, texts) == 11);
#ifndef S10_PLAIN_C
/* The others have a size_t. The library is built for one of 64 bits. */
S10_LAYOUT(sizeof(size_t) == 8);
S10_LAYOUT(sizeof(struct s10_frame) == 40 && offsetof(struct s10_frame, bytes) == 8);
S10_LAYOUT(sizeof(struct s10_client) == 64 && offsetof(struct s10_client, pending) == 24);
S10_LAYOUT(sizeof(struct s10_line) == 520 && offsetof(struct s10_line, text) == 8);
#endif
#undef S10_LAYOUT

#ifdef __cplusplus
}
#endif
#endif
