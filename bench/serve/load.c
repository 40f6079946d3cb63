/* load PORT CLIENTS LINES WINDOW KIND: so many clients of 127.0.0.1 at once send LINES lines in all, each with at most WINDOW of its lines not
 * answered yet, and read the replies. Prints the lines a second. Of KIND `put` each puts a value into the slot of a number that it holds (64
 * are taken before), of `incr` each is a client of Redis that counts a key. `idle` opens the connections, prints `idle`, and stays until its
 * input ends. */
#define _GNU_SOURCE
#include <arpa/inet.h>
#include <errno.h>
#include <fcntl.h>
#include <netinet/tcp.h>
#include <stdio.h>
#include <stdlib.h>
#include <string.h>
#include <sys/epoll.h>
#include <sys/socket.h>
#include <time.h>
#include <unistd.h>

enum { SLOTS = 64, EVENTS = 1024, PATIENCE = 60000 };

struct client {
    int socket;
    long sent, answered; /* lines */
    long part;           /* bytes of the next line that are sent */
    char line[64];
    int length;
};

static void fail(const char *what) {
    perror(what);
    exit(1);
}

static double seconds(void) {
    struct timespec now;
    clock_gettime(CLOCK_MONOTONIC, &now);
    return now.tv_sec + now.tv_nsec * 1e-9;
}

static int dial(int port) {
    int one = 1, made = socket(AF_INET, SOCK_STREAM, 0);
    struct sockaddr_in address = {.sin_family = AF_INET, .sin_port = htons(port)};
    address.sin_addr.s_addr = htonl(INADDR_LOOPBACK);
    if (made < 0 || connect(made, (struct sockaddr *)&address, sizeof address))
        fail("connect");
    setsockopt(made, IPPROTO_TCP, TCP_NODELAY, &one, sizeof one);
    return made;
}

static long lines_in(const char *text, ssize_t length) {
    long lines = 0;
    for (ssize_t at = 0; at < length; at++)
        lines += text[at] == '\n';
    return lines;
}

/* Each identity from 1 to 64 holds the number that is its own. */
static void take_numbers(int port) {
    int made = dial(port);
    for (int id = 1; id <= SLOTS; id++) {
        char text[2048], *end = text + sprintf(text, "enter %d\n", id);
        for (int at = 0; at < id; at++)
            end += sprintf(end, "probe %d\n", id);
        if (write(made, text, end - text) != end - text)
            fail("write");
        for (long left = id + 1; left > 0;) {
            ssize_t got = read(made, text, sizeof text);
            if (got <= 0)
                fail("read");
            left -= lines_in(text, got);
        }
    }
    close(made);
}

/* Reads what has come: whether anything had. */
static int take(struct client *c) {
    static char room[1 << 18];
    ssize_t got = read(c->socket, room, sizeof room);
    if (got == 0) {
        fprintf(stderr, "closed early\n");
        exit(1);
    }
    if (got < 0)
        return 0;
    c->answered += lines_in(room, got);
    return 1;
}

/* Sends lines up to this one: whether any byte was taken. */
static int give(struct client *c, long most) {
    static char room[1 << 16];
    int moved = 0;
    while (c->sent < most) {
        long filled = 0, line = c->sent, part = c->part;
        for (; line < most && filled + c->length <= (long)sizeof room; line++) {
            memcpy(room + filled, c->line + part, c->length - part);
            filled += c->length - part;
            part = 0;
        }
        ssize_t took = write(c->socket, room, filled);
        if (took <= 0)
            break;
        moved = 1;
        c->sent += (c->part + took) / c->length;
        c->part = (c->part + took) % c->length;
        if (took < filled)
            break;
    }
    return moved;
}

static void idle(int port, int clients) {
    char end;
    for (int at = 0; at < clients; at++)
        dial(port);
    printf("idle\n");
    fflush(stdout);
    while (read(0, &end, 1) > 0) {
    }
}

int main(int count, char **words) {
    if (count != 6)
        return 2;
    int port = atoi(words[1]), clients = atoi(words[2]), watch = epoll_create1(0);
    long each = atol(words[3]) / clients, window = atol(words[4]);
    const char *kind = words[5];
    if (!strcmp(kind, "idle")) {
        idle(port, clients);
        return 0;
    }
    if (!strcmp(kind, "put"))
        take_numbers(port);
    struct client *all = calloc(clients, sizeof *all);
    for (int at = 0; at < clients; at++) {
        struct client *c = &all[at];
        c->socket = dial(port);
        c->length = !strcmp(kind, "put") ? sprintf(c->line, "put %d 7\n", at % SLOTS + 1) : sprintf(c->line, "incr %d\r\n", at % SLOTS + 1);
        fcntl(c->socket, F_SETFL, O_NONBLOCK);
        struct epoll_event event = {.events = EPOLLIN | EPOLLOUT | EPOLLET, .data.ptr = c};
        epoll_ctl(watch, EPOLL_CTL_ADD, c->socket, &event);
    }
    double begun = seconds();
    for (int left = clients; left > 0;) {
        struct epoll_event events[EVENTS];
        int told = epoll_wait(watch, events, EVENTS, PATIENCE);
        if (told <= 0)
            fail("stalled");
        for (int at = 0; at < told; at++) {
            struct client *c = events[at].data.ptr;
            for (int moved = 1; moved && c->socket >= 0;) {
                moved = take(c);
                /* Whole windows, so that a lone client does not send line by line. */
                int due = c->answered == c->sent || each - c->sent < window || c->part > 0;
                long most = due ? c->answered + window : c->sent;
                moved |= give(c, most < each ? most : each);
                if (c->answered >= each) {
                    close(c->socket);
                    c->socket = -1;
                    left--;
                }
            }
        }
    }
    printf("%.0f\n", each * clients / (seconds() - begun));
    return 0;
}
