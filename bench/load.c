/* A client of shadowd that is not the limit of what it measures: so many connections in one thread, over epoll. See serve.md.
 *
 *   load PORT CONNECTIONS COUNT keep|close sessions FIRST [TOKEN]       COUNT whole sessions, of the bookings from FIRST
 *   load PORT CONNECTIONS COUNT keep|close METHOD PATH BODY [TOKEN]     COUNT requests of one kind
 *
 * Each connection has one request under way. With `close` each request has a connection of its own. A request without a reply, or
 * with a status from 500, counts as a fault and is sent again. One line is printed: words and numbers, times in microseconds.
 */
#define _GNU_SOURCE
#include <arpa/inet.h>
#include <errno.h>
#include <netinet/tcp.h>
#include <stdio.h>
#include <stdlib.h>
#include <string.h>
#include <sys/epoll.h>
#include <sys/resource.h>
#include <time.h>
#include <unistd.h>

enum { ROOM = 65536, LIMIT = 60000, MOST_FAULTS = 10000 };

typedef struct {
    int socket, is_open, is_sent, size;
    long long begun, asked;
    int length;
    char message[2048], kept[ROOM];
} Seat;

static struct sockaddr_in server;
static int poll_of_all, closes, is_session, left, running;
static unsigned long long next_booking, draws = 7;
static const char *method, *path, *body;
static char token[1200];
static unsigned *times, *connects;
static long count, connected, answered, faults, room;

static long long now(void) {
    struct timespec at;
    clock_gettime(CLOCK_MONOTONIC, &at);
    return at.tv_sec * 1000000LL + at.tv_nsec / 1000;
}

static void fail(const char *why) {
    fprintf(stderr, "load: %s\n", why);
    exit(1);
}

static int response(void) {
    draws = draws * 6364136223846793005ULL + 1442695040888963407ULL;
    return draws >> 33 & 1;
}

static void write_message(Seat *seat, const char *how, const char *where, const char *text) {
    seat->length = snprintf(seat->message, sizeof seat->message, "%s %s HTTP/1.1\r\nHost: exam\r\n%s%sContent-Length: %zu\r\n\r\n%s",
                            how, where, token, closes ? "Connection: close\r\n" : "", strlen(text), text);
    seat->asked = now();
}

/* The first request of the next session, or the next one of its kind; 0 if there is no other. */
static int begin(Seat *seat) {
    char text[64];
    if (left == 0)
        return 0;
    left--;
    if (is_session) {
        snprintf(text, sizeof text, "{\"booking\":%llu}", next_booking++);
        write_message(seat, "POST", "/sessions", text);
    } else
        write_message(seat, method, path, body);
    return 1;
}

static long member(const char *text, const char *name) {
    const char *found = strstr(text, name);
    return found ? atol(found + strlen(name)) : -1;
}

/* The request that follows this reply; 0 if there is no other. */
static int go_on(Seat *seat, const char *text) {
    char where[64], answer[64];
    if (!is_session)
        return begin(seat);
    long session = member(text, "\"session\":"), step = member(text, "\"step\":");
    answered += strstr(text, "\"complete\"") != NULL || step > 0;
    if (!strstr(text, "\"waiting\""))
        return begin(seat);
    snprintf(where, sizeof where, "/sessions/%ld/answers", session);
    snprintf(answer, sizeof answer, "{\"step\":%ld,\"response\":%d}", step, response());
    write_message(seat, "POST", where, answer);
    return 1;
}

static void leave(Seat *seat) {
    if (seat->socket >= 0)
        close(seat->socket);
    seat->socket = -1;
    seat->is_open = seat->size = 0;
}

static void open_seat(Seat *seat) {
    int yes = 1;
    seat->socket = socket(AF_INET, SOCK_STREAM | SOCK_NONBLOCK, 0);
    if (seat->socket < 0)
        fail("no socket");
    setsockopt(seat->socket, IPPROTO_TCP, TCP_NODELAY, &yes, sizeof yes);
    seat->begun = now();
    if (connect(seat->socket, (struct sockaddr *)&server, sizeof server) && errno != EINPROGRESS)
        fail("no connection");
    struct epoll_event wanted = {EPOLLIN | EPOLLOUT, {.ptr = seat}};
    epoll_ctl(poll_of_all, EPOLL_CTL_ADD, seat->socket, &wanted);
}

static void watch(Seat *seat, unsigned what) {
    struct epoll_event wanted = {what, {.ptr = seat}};
    epoll_ctl(poll_of_all, EPOLL_CTL_MOD, seat->socket, &wanted);
}

/* Sends the message of a seat, on a new connection if it has none. */
static void ask(Seat *seat) {
    if (closes)
        leave(seat);
    if (seat->socket < 0)
        open_seat(seat);
    else if (send(seat->socket, seat->message, seat->length, MSG_NOSIGNAL) != seat->length) {
        leave(seat);
        open_seat(seat);
    }
}

static void again(Seat *seat) {
    if (++faults > MOST_FAULTS)
        fail("too many faults");
    leave(seat);
    open_seat(seat);
}

static void is_writable(Seat *seat) {
    seat->is_open = 1;
    connects[connected++ % room] = now() - seat->begun;
    watch(seat, EPOLLIN);
    if (send(seat->socket, seat->message, seat->length, MSG_NOSIGNAL) != seat->length)
        again(seat);
}

/* Reads what is there; at a whole reply the next request is sent. */
static void is_readable(Seat *seat) {
    int more = recv(seat->socket, seat->kept + seat->size, ROOM - 1 - seat->size, 0);
    if (more < 0 && (errno == EAGAIN || errno == EINTR))
        return;
    if (more <= 0) {
        again(seat);
        return;
    }
    seat->size += more;
    seat->kept[seat->size] = 0;
    char *end = strstr(seat->kept, "\r\n\r\n"), *length = strcasestr(seat->kept, "\r\ncontent-length:");
    if (!end)
        return;
    if (!length || length > end)
        fail("a reply without a length");
    if (seat->size < end + 4 - seat->kept + atol(length + 17))
        return;
    int status = atoi(seat->kept + 9), closed = strcasestr(seat->kept, "\r\nconnection: close") != NULL;
    if (status >= 500) {
        again(seat);
        return;
    }
    if (count == room)
        fail("more replies than expected");
    times[count++] = now() - seat->asked;
    if (is_session && status != 200 && status != 201)
        fail(end + 4);
    int goes_on = go_on(seat, end + 4);
    seat->size = 0;
    if (closed)
        leave(seat);
    if (goes_on)
        ask(seat);
    else {
        leave(seat);
        running--;
    }
}

static int by_size(const void *one, const void *other) {
    unsigned a = *(const unsigned *)one, b = *(const unsigned *)other;
    return (a > b) - (a < b);
}

static unsigned at_share(const unsigned *sorted, long size, double share) {
    long at = size * share;
    return size ? sorted[at < size ? at : size - 1] : 0;
}

static void report(long long begun) {
    struct rusage used;
    getrusage(RUSAGE_SELF, &used);
    double took = (now() - begun) / 1e6;
    double busy = used.ru_utime.tv_sec + used.ru_stime.tv_sec + (used.ru_utime.tv_usec + used.ru_stime.tv_usec) / 1e6;
    if (connected > room)
        connected = room;
    qsort(times, count, sizeof *times, by_size);
    qsort(connects, connected, sizeof *connects, by_size);
    printf("replies %ld answered %ld faults %ld seconds %.6f median %u p95 %u p99 %u longest %u connect %u connect-p99 %u client %.3f\n",
           count, answered, faults, took, at_share(times, count, 0.5), at_share(times, count, 0.95), at_share(times, count, 0.99),
           at_share(times, count, 1), at_share(connects, connected, 0.5), at_share(connects, connected, 0.99), busy / took);
}

int main(int words, char **word) {
    if (words < 7)
        fail("usage: load PORT CONNECTIONS COUNT keep|close sessions FIRST [TOKEN] | ... METHOD PATH BODY [TOKEN]");
    int seats = atoi(word[2]), first_of_token;
    left = atoi(word[3]);
    closes = strcmp(word[4], "close") == 0;
    is_session = strcmp(word[5], "sessions") == 0;
    first_of_token = is_session ? 7 : 8;
    if (is_session)
        next_booking = strtoull(word[6], NULL, 10);
    else if (words < 8)
        fail("a request has a method, a path and a body");
    else
        method = word[5], path = word[6], body = word[7];
    if (words > first_of_token)
        snprintf(token, sizeof token, "Authorization: Bearer %s\r\n", word[first_of_token]);
    room = (long)left * (is_session ? 256 : 1) + 1;
    times = malloc(room * sizeof *times);
    connects = malloc(room * sizeof *connects);
    Seat *all = calloc(seats, sizeof *all);
    if (!times || !connects || !all)
        fail("out of memory");
    server.sin_family = AF_INET;
    server.sin_port = htons(atoi(word[1]));
    inet_pton(AF_INET, "127.0.0.1", &server.sin_addr);
    poll_of_all = epoll_create1(0);
    long long begun = now();
    for (int k = 0; k < seats; k++) {
        all[k].socket = -1;
        if (begin(&all[k])) {
            running++;
            ask(&all[k]);
        }
    }
    struct epoll_event ready[256];
    while (running) {
        int found = epoll_wait(poll_of_all, ready, 256, LIMIT);
        if (found == 0)
            fail("no reply in a minute");
        for (int k = 0; k < found; k++) {
            Seat *seat = ready[k].data.ptr;
            if (!seat->is_open && ready[k].events & EPOLLOUT)
                is_writable(seat);
            else if (ready[k].events & (EPOLLHUP | EPOLLERR) && !seat->is_open)
                again(seat);
            else
                is_readable(seat);
        }
    }
    report(begun);
    return 0;
}
