/* s10_client.h: a client of an s10 server for POSIX systems, with its notes in a file.
 *
 * A printer's whole duty: each request is written to the notes, with its number, before it is sent;
 * it is sent again until its reply comes; and after a stop it is asked again before any other. So
 * no number is used for two requests, and no identifier is lost.
 *
 * The notes are one line of JSON, as contrib/README.md says ("The format of notes"). NOTES.lock is
 * locked while a session has the notes open, and NOTES.new is the next state before it is renamed.
 *
 * A session is for one thread at a time. */
#ifndef S10_CLIENT_H
#define S10_CLIENT_H
#include "s10.h"
#ifdef __cplusplus
extern "C" {
#endif

/* What a function here returns: 0, an enum s10_code of s10_submit, or one of these. */
enum s10_session_code {
    S10_GAVE_UP = 61,         /* no reply came; the request stays pending: s10_session_again */
    S10_SYSTEM = 62,          /* a file or the socket failed: errno says why */
    S10_BAD_NOTES = 63,       /* the file holds no notes, or was changed: its check value says so */
    S10_BAD_ADDRESS = 64,     /* not an IPv4 address */
    S10_LINKED_NOTES = 65     /* the file has another name too, a hard link */
};

struct s10_session {
    struct s10_client client; /* client.pending.len is not 0 while a request waits for its reply */
    int tries;                /* how often a request is sent, 5 after opening */
    int wait;                 /* milliseconds to wait after each send, 1000 after opening */
    int socket;
    int lock;
    int notes;
    int recorded;             /* whether the notes have no request, or its reply was recorded */
    char path[4000];
};

/* Creates the notes of a client with the request numbers first to last, at a path with no file.
 * If notes are lost, create them with numbers that were certainly never used. */
int s10_notes_create(const char *path, uint32_t customer, uint32_t first, uint32_t last);

/* Opens a session with the notes at `path` and the server at an IPv4 address and port. If the notes
 * have a request, it is pending: call s10_session_again first. (The run before did not record that
 * its reply came. To ask again changes nothing at the server.) Fails with EWOULDBLOCK if another
 * session has the notes open. */
int s10_session_open(struct s10_session *session, const char *path, const char *address,
                     uint16_t port);

/* Submits a request, writes it to the notes, sends it until its reply comes, and writes the outcome
 * to `*out`. The customer and the number are those of the notes. Unless it returns 0, `*out` is
 * unchanged. If the notes cannot be written, nothing is sent and no number is taken. */
int s10_session_call(struct s10_session *session, const struct s10_request *request,
                     struct s10_outcome *out);

/* Sends the pending request until its reply comes, and writes the outcome to `*out`.
 * Returns S10_IDLE if no request is pending. */
int s10_session_again(struct s10_session *session, struct s10_outcome *out);

/* Records in the notes that the last reply came, so that the next session does not ask for it again.
 * Call it once the reply was used, such as after its label was printed: a stop before leaves the
 * request in the notes. The next call records it too. Does nothing while a request is pending. */
int s10_session_record(struct s10_session *session);

/* Closes the session. A request stays in the notes unless its reply was recorded. */
void s10_session_close(struct s10_session *session);

#ifdef __cplusplus
}
#endif
#endif
