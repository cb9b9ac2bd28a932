#define _POSIX_C_SOURCE 200809L
#define _DEFAULT_SOURCE /* flock, realpath */
#define _FILE_OFFSET_BITS 64 /* files with a number of 64 bits, on machines of 32 */
#include "s10_client.h"
#include <arpa/inet.h>
#include <errno.h>
#include <fcntl.h>
#include <inttypes.h>
#include <poll.h>
#include <stdio.h>
#include <stdlib.h>
#include <string.h>
#include <sys/file.h>
#include <sys/socket.h>
#include <sys/stat.h>
#include <time.h>
#include <unistd.h>

enum { MAX_NOTES = 256, MAX_PATH = sizeof((struct s10_session *)0)->path };

/* Closes a file, and keeps errno. */
static void close_file(int *fd) {
    int cause = errno;
    if (*fd >= 0) close(*fd);
    *fd = -1;
    errno = cause;
}

/* The path of a file beside the notes. */
static const char *path_beside(char beside[MAX_PATH + 8], const char *path, const char *end) {
    snprintf(beside, MAX_PATH + 8, "%s%s", path, end);
    return beside;
}

/* Opens and locks a file. Another that is no regular file is refused: to open a pipe could wait. */
static int open_locked(const char *path, int flags, mode_t mode) {
    struct stat found;
    if (stat(path, &found) == 0 && !S_ISREG(found.st_mode)) return errno = EINVAL, -1;
    int fd = open(path, flags | O_CLOEXEC, mode);
    if (fd >= 0 && flock(fd, LOCK_EX | LOCK_NB) != 0) close_file(&fd);
    return fd;
}

/* Locks the file `.lock` beside, which stays when a rename replaces the notes. */
static int lock_beside(const char *path) {
    char beside[MAX_PATH + 8];
    return open_locked(path_beside(beside, path, ".lock"), O_WRONLY | O_CREAT | O_APPEND, 0666);
}

/* Refuses notes that have another name, and others than those that are open. A rename would replace
   one name, and clients by the others would use their numbers again. */
static int check_name(const char *path, int notes) {
    struct stat held, found;
    if (fstat(notes, &held) != 0 || lstat(path, &found) != 0) return S10_SYSTEM;
    if (held.st_ino != found.st_ino || held.st_dev != found.st_dev) return errno = ENOENT, S10_SYSTEM;
    return found.st_nlink == 1 ? 0 : S10_LINKED_NOTES;
}

/* Writes all bytes to a new file and syncs it. */
static int write_file(int fd, const char *text, size_t len) {
    while (len > 0) {
        ssize_t n = write(fd, text, len);
        if (n < 0 && errno != EINTR) return -1;
        if (n > 0) text += n, len -= (size_t)n;
    }
    return fsync(fd);
}

/* Syncs the folder of a path, so that a rename in it is durable. */
static int sync_folder(const char *path) {
    char folder[MAX_PATH];
    const char *slash = strrchr(path, '/');
    size_t len = slash == NULL ? 0 : slash == path ? 1 : (size_t)(slash - path);
    memcpy(folder, path, len);
    strcpy(folder + len, len == 0 ? "." : "");
    int fd = open(folder, O_RDONLY | O_DIRECTORY | O_CLOEXEC);
    if (fd < 0) return -1;
    int failed = fsync(fd), cause = errno;
    close(fd);
    errno = cause;
    return failed;
}

/* The check value of a text: CRC-32, as IEEE 802.3 and zlib have it. */
static uint32_t check_value(const char *text, size_t len) {
    uint32_t remainder = UINT32_MAX;
    for (size_t i = 0; i < len; i++) {
        remainder ^= (uint8_t)text[i];
        for (int bit = 0; bit < 8; bit++)
            remainder = remainder & 1 ? remainder >> 1 ^ 0xEDB88320 : remainder >> 1;
    }
    return ~remainder;
}

/* The members of the notes of a client as text, without the end of the line. */
static size_t members_of(const struct s10_client *client, char text[MAX_NOTES]) {
    char request[2 * S10_MAX_REQUEST + 3] = "null";
    const struct s10_frame *pending = &client->pending;
    if (pending->len > 0) {
        strcpy(request, "\"");
        for (size_t i = 0; i < pending->len; i++)
            sprintf(request + 1 + 2 * i, "%02x", pending->bytes[i]);
        strcat(request, "\"");
    }
    return (size_t)snprintf(text, MAX_NOTES,
                            "{\"customer\": %" PRIu32 ", \"next\": %" PRIu64 ", \"last\": %" PRIu32
                            ", \"request\": %s",
                            client->customer, client->first + client->taken, client->last, request);
}

/* The notes of a client as text: a line that ends with the check value of all that is before it. */
static size_t notes_of(const struct s10_client *client, char text[MAX_NOTES]) {
    size_t len = members_of(client, text);
    return len + (size_t)snprintf(text + len, MAX_NOTES - len, ", \"check\": \"%08" PRIx32 "\"}\n",
                                  check_value(text, len));
}

/* Whether a text is that of the notes, or the one of earlier versions, which has no check value. */
static int is_text_of(const struct s10_client *client, const char *text, size_t len) {
    char right[MAX_NOTES];
    if (len == notes_of(client, right) && memcmp(text, right, len) == 0) return 1;
    size_t members = members_of(client, right);
    return len == members + 2 && memcmp(text, right, members) == 0 &&
           memcmp(text + members, "}\n", 2) == 0;
}

/* Creates the file `.new` beside and locks it, since it will be the notes. Removes that of a client
   which was stopped. It has the mode of the notes that it will replace, and for root their owner. */
static int create_beside(const char *beside, int replaced) {
    struct stat found;
    if (lstat(beside, &found) == 0) {
        if (!S_ISREG(found.st_mode)) return errno = EINVAL, -1;
        if (unlink(beside) != 0) return -1;
    }
    int fd = open_locked(beside, O_RDWR | O_CREAT | O_EXCL, 0600);
    if (fd < 0 || replaced < 0) return fd;
    if (fstat(replaced, &found) != 0 ||
        (fchown(fd, found.st_uid, found.st_gid) != 0 && errno != EPERM) ||
        fchmod(fd, found.st_mode & 07777) != 0)
        close_file(&fd);
    return fd;
}

/* Writes the notes beside their file, and renames them into place. Returns their file, locked. */
static int write_notes(const char *path, const struct s10_client *client, int replaced) {
    char text[MAX_NOTES], beside[MAX_PATH + 8];
    size_t len = notes_of(client, text);
    int fd = create_beside(path_beside(beside, path, ".new"), replaced);
    if (fd < 0) return -1;
    if (write_file(fd, text, len) != 0 || rename(beside, path) != 0 || sync_folder(path) != 0)
        close_file(&fd);
    return fd;
}

/* Replaces the notes of a session. */
static int replace_notes(struct s10_session *session, const struct s10_client *client) {
    int code = check_name(session->path, session->notes);
    if (code != 0) return code;
    int fd = write_notes(session->path, client, session->notes);
    if (fd < 0) return S10_SYSTEM;
    close_file(&session->notes);
    session->notes = fd;
    session->recorded = client->pending.len == 0;
    return 0;
}

/* Reads the number of a key of the notes, up to `most`. */
static int read_number(const char *text, const char *key, uint64_t most, uint64_t *number) {
    const char *at = strstr(text, key);
    if (at == NULL || at[strlen(key)] < '0' || at[strlen(key)] > '9') return 0;
    errno = 0;
    *number = strtoull(at + strlen(key), NULL, 10);
    return errno == 0 && *number <= most;
}

/* Reads the text of the notes. An earlier process may have stopped before it synced their file or its
   name, so both are synced first: what is read stays. */
static ssize_t read_text(const char *path, int notes, char text[MAX_NOTES]) {
    if (sync_folder(path) != 0 || fsync(notes) != 0) return -1;
    return read(notes, text, MAX_NOTES - 1);
}

/* Reads the datagram of the request of the notes, if there is one: it is pending. */
static int read_pending(const char *text, struct s10_client *client, uint64_t next) {
    struct s10_request asked;
    unsigned byte;
    if (strncmp(text, "null", 4) == 0) return 1;
    if (*text++ != '"') return 0;
    for (; *text != '"'; text += 2) {
        if (client->pending.len == S10_MAX_REQUEST || sscanf(text, "%2x", &byte) != 1 ||
            text[1] == '"')
            return 0;
        client->pending.bytes[client->pending.len++] = (uint8_t)byte;
    }
    return s10_decode(client->pending.bytes, client->pending.len, &asked).code == S10_OK &&
           asked.customer == client->customer && asked.number + UINT64_C(1) == next;
}

/* Reads the notes: the request is pending if there is one, and the next number follows it. The text
   must be the one that is written for what was read. */
static int read_notes(const char *path, int notes, struct s10_client *client) {
    char text[MAX_NOTES];
    ssize_t len = read_text(path, notes, text);
    if (len < 0) return S10_SYSTEM;
    text[len] = '\0';

    uint64_t customer, next, last;
    const char *request = strstr(text, "\"request\": ");
    if (len == 0 || text[len - 1] != '\n' || request == NULL ||
        !read_number(text, "\"customer\": ", UINT32_MAX, &customer) ||
        !read_number(text, "\"last\": ", UINT32_MAX, &last) ||
        !read_number(text, "\"next\": ", last + 1, &next))
        return S10_BAD_NOTES;
    memset(client, 0, sizeof *client);
    client->customer = (uint32_t)customer;
    client->last = (uint32_t)last;
    client->first = (uint32_t)(next > last ? last : next);
    client->taken = next - client->first;
    if (!read_pending(request + strlen("\"request\": "), client, next) ||
        !is_text_of(client, text, (size_t)len))
        return S10_BAD_NOTES;
    return 0;
}

int s10_notes_create(const char *path, uint32_t customer, uint32_t first, uint32_t last) {
    struct s10_client client = {.customer = customer, .first = first, .last = last};
    struct stat found;
    if (strlen(path) >= MAX_PATH) return errno = ENAMETOOLONG, S10_SYSTEM;
    if (first > last) return S10_NUMBERS_SPENT;
    if (lstat(path, &found) == 0) return errno = EEXIST, S10_SYSTEM;
    int lock = lock_beside(path);
    if (lock < 0) return S10_SYSTEM;
    int fd = lstat(path, &found) == 0 ? (errno = EEXIST, -1) : write_notes(path, &client, -1);
    int code = fd < 0 ? S10_SYSTEM : 0;
    close_file(&fd);
    close_file(&lock);
    return code;
}

/* Writes the path without symbolic links to the session: a rename would replace a link, and not the
   notes. */
static int resolve(struct s10_session *session, const char *path) {
    char *real = realpath(path, NULL);
    if (real == NULL) return -1;
    size_t len = strlen(real);
    if (len < MAX_PATH) memcpy(session->path, real, len + 1);
    free(real);
    return len < MAX_PATH ? 0 : (errno = ENAMETOOLONG, -1);
}

/* Locks and reads the notes at a path. */
static int open_notes(struct s10_session *session, const char *path) {
    struct stat found;
    if (resolve(session, path) != 0 || stat(session->path, &found) != 0) return S10_SYSTEM;
    if (!S_ISREG(found.st_mode)) return S10_BAD_NOTES;
    if ((session->lock = lock_beside(session->path)) < 0) return S10_SYSTEM;
    if ((session->notes = open_locked(session->path, O_RDWR, 0)) < 0) return S10_SYSTEM;
    int code = check_name(session->path, session->notes);
    if (code == 0) code = read_notes(session->path, session->notes, &session->client);
    session->recorded = session->client.pending.len == 0;
    return code;
}

int s10_session_open(struct s10_session *session, const char *path, const char *address,
                     uint16_t port) {
    struct sockaddr_in server = {.sin_family = AF_INET, .sin_port = htons(port)};
    memset(session, 0, sizeof *session);
    session->socket = session->lock = session->notes = -1;
    session->tries = 5;
    session->wait = 1000;
    if (inet_pton(AF_INET, address, &server.sin_addr) != 1) return S10_BAD_ADDRESS;
    int code = open_notes(session, path);
    if (code == 0) {
        /* Connected, the socket receives from the server's address alone. */
        session->socket = socket(AF_INET, SOCK_DGRAM, 0);
        if (session->socket < 0 || fcntl(session->socket, F_SETFD, FD_CLOEXEC) != 0 ||
            connect(session->socket, (struct sockaddr *)&server, sizeof server) != 0)
            code = S10_SYSTEM;
    }
    if (code != 0) s10_session_close(session);
    return code;
}

static int64_t now(void) {
    struct timespec time;
    clock_gettime(CLOCK_MONOTONIC, &time);
    return time.tv_sec * INT64_C(1000) + time.tv_nsec / 1000000;
}

int s10_session_again(struct s10_session *session, struct s10_outcome *out) {
    struct s10_client *client = &session->client;
    if (client->pending.len == 0) return S10_IDLE;
    for (int tried = 0; tried < session->tries; tried++) {
        int64_t end = now() + session->wait, left;
        /* A failed send is as a lost datagram. */
        (void)send(session->socket, client->pending.bytes, client->pending.len, 0);
        while ((left = end - now()) > 0) {
            struct pollfd ready = {.fd = session->socket, .events = POLLIN};
            if (poll(&ready, 1, (int)left) <= 0) continue;
            uint8_t datagram[512];
            ssize_t len = recv(session->socket, datagram, sizeof datagram, MSG_DONTWAIT);
            if (len < 0) {
                /* No server listens, for example. It may do so later. */
                poll(NULL, 0, left < 50 ? (int)left : 50);
            } else if (s10_receive(client, datagram, (size_t)len, out).code == S10_OK) {
                return 0;
            }
        }
    }
    return S10_GAVE_UP;
}

int s10_session_call(struct s10_session *session, const struct s10_request *request,
                     struct s10_outcome *out) {
    struct s10_client next = session->client;
    struct s10_result result = s10_submit(&next, request);
    if (result.code != S10_OK) return (int)result.code;
    int code = replace_notes(session, &next);
    if (code != 0) return code;
    session->client = next;
    return s10_session_again(session, out);
}

int s10_session_record(struct s10_session *session) {
    if (session->recorded || session->client.pending.len > 0) return 0;
    return replace_notes(session, &session->client);
}

void s10_session_close(struct s10_session *session) {
    close_file(&session->socket);
    close_file(&session->notes);
    close_file(&session->lock);
}
