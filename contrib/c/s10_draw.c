/* Draws identifiers from an s10 server.
 *
 *     s10_draw create NOTES CUSTOMER FIRST LAST
 *     s10_draw NOTES ADDRESS PORT SERVICE COUNTRY [COUNT [WAIT]]
 *
 * The first form creates the notes of a client. The second draws COUNT identifiers, by default 1. If
 * the run before was stopped, it first asks its last request again. It sends a request up to 5 times
 * and waits WAIT milliseconds after each, by default 1000. It prints a line for each reply: the
 * number of the request, and the day and the identifier, or the word of the refusal. A line with a
 * number that was printed before repeats that line. At the end it records that the last one was
 * printed.
 *
 * Status: 0 done, 1 refused by a rule, 2 wrong words, 3 no reply, or the notes, the socket or the
 * output failed. After a line that was not printed it draws no more; the next run repeats it. */
#define _POSIX_C_SOURCE 200809L
#include "s10_client.h"
#include <errno.h>
#include <fcntl.h>
#include <stdio.h>
#include <stdlib.h>
#include <string.h>
#include <unistd.h>

static int usage(void) {
    fputs("s10_draw create NOTES CUSTOMER FIRST LAST\n"
          "s10_draw NOTES ADDRESS PORT SERVICE COUNTRY [COUNT [WAIT]]\n",
          stderr);
    return 2;
}

/* Prints why a call failed. */
static int fail(int code) {
    struct s10_word word;
    s10_word((uint32_t)code, &word);
    fprintf(stderr, "s10_draw: %s\n",
            code == S10_SYSTEM        ? strerror(errno)
            : code == S10_GAVE_UP     ? "gave-up"
            : code == S10_BAD_NOTES   ? "no notes"
            : code == S10_BAD_ADDRESS ? "no IPv4 address"
            : code == S10_LINKED_NOTES ? "the notes are linked"
                                      : word.text);
    return code == S10_BAD_ADDRESS || (code >= S10_BAD_KIND && code <= S10_BAD_COUNT) ? 2 : 3;
}

/* Reads a number of 32 bits. */
static int number(const char *text, uint32_t *out) {
    char *end;
    errno = 0;
    unsigned long long value = strtoull(text, &end, 10);
    *out = (uint32_t)value;
    return *text >= '0' && *text <= '9' && *end == '\0' && errno == 0 && value <= UINT32_MAX;
}

/* Reports that the output failed. */
static int fail_output(void) {
    fputs("s10_draw: the output cannot be written\n", stderr);
    return 3;
}

/* Prints the word of a refusal, which is the last one in the line of its reply. */
static void print_refusal(const struct s10_frame *sent, uint32_t number, uint8_t code) {
    uint8_t reply[S10_MAX_REQUEST + 1];
    memcpy(reply, sent->bytes, sent->len);
    reply[3] |= 0x80;
    reply[sent->len] = code;
    struct s10_line line;
    s10_reply_line(reply, sent->len + 1, &line);
    line.text[line.len - 1] = '\0';
    printf("%u refused%s\n", number, strrchr(line.text, ' '));
}

/* Prints a reply. Returns 1 if the request is done, 0 if it is refused, -1 if the output failed. */
static int print(const struct s10_frame *sent, const struct s10_outcome *outcome) {
    struct s10_request request;
    s10_decode(sent->bytes, sent->len, &request);
    if (outcome->code != S10_DONE)
        print_refusal(sent, request.number, outcome->code);
    else if (outcome->count == 0)
        printf("%u done\n", request.number);
    for (int i = 0; i < outcome->count; i++)
        printf("%u day %u %s\n", request.number, outcome->day, outcome->texts[i]);
    if (fflush(stdout) != 0 || ferror(stdout)) return -1;
    return outcome->code == S10_DONE;
}

int main(int argc, char **argv) {
    uint32_t customer, first, last, port, count = 1, wait = 1000;
    if (argc == 6 && strcmp(argv[1], "create") == 0) {
        if (!number(argv[3], &customer) || !number(argv[4], &first) || !number(argv[5], &last))
            return usage();
        int code = s10_notes_create(argv[2], customer, first, last);
        return code == 0 ? 0 : fail(code);
    }
    if (argc < 6 || argc > 8 || !number(argv[3], &port) || port > 65535 || strlen(argv[4]) != 2 ||
        strlen(argv[5]) != 2 || (argc > 6 && !number(argv[6], &count)) ||
        (argc > 7 && (!number(argv[7], &wait) || wait > 60000)))
        return usage();

    /* Otherwise the system gives its number to the file of the lock, which then gets the lines. */
    if (fcntl(STDOUT_FILENO, F_GETFD) == -1) return fail_output();
    struct s10_request draw = {.kind = S10_DRAW};
    memcpy(draw.service, argv[4], 2);
    memcpy(draw.country, argv[5], 2);
    struct s10_session session;
    struct s10_outcome outcome;
    int code = s10_session_open(&session, argv[1], argv[2], (uint16_t)port);
    if (code != 0) return fail(code);
    session.wait = (int)wait;
    int done = 1;
    struct s10_frame sent = session.client.pending;
    if (sent.len > 0) code = s10_session_again(&session, &outcome);
    if (sent.len > 0 && code == 0 && print(&sent, &outcome) < 0) done = -1;
    for (; code == 0 && done > 0 && count > 0; count--) {
        struct s10_client before = session.client;
        code = s10_session_call(&session, &draw, &outcome);
        if (code == 0) {
            draw.customer = before.customer;
            draw.number = (uint32_t)(before.first + before.taken);
            s10_encode(&draw, &sent);
            done = print(&sent, &outcome);
        }
    }
    if (code == 0 && done >= 0) code = s10_session_record(&session);
    s10_session_close(&session);
    return code != 0 ? fail(code) : done < 0 ? fail_output() : !done;
}
