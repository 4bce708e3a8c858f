/* An endpoint that answers each request after a fixed delay and closes: endpoint PORT MILLISECONDS
   It answers `GET /slow` after 5 seconds. One thread and one epoll set, so it serves thousands of connections at a
   time. A request is its head. */
#define _GNU_SOURCE
#include <arpa/inet.h>
#include <errno.h>
#include <fcntl.h>
#include <netinet/in.h>
#include <signal.h>
#include <stdio.h>
#include <stdlib.h>
#include <string.h>
#include <sys/epoll.h>
#include <sys/resource.h>
#include <sys/socket.h>
#include <time.h>
#include <unistd.h>

enum { MOST = 1 << 17, EVENTS = 256, SLOW_MILLISECONDS = 5000 };

/* Requests that wait for the same time, so their answers are due in the order of arrival. */
struct queue {
    double delay;
    size_t first, last;
    struct { int fd; double due; } waiting[MOST];
};
static struct queue usual, slow = { .delay = SLOW_MILLISECONDS };

static const char answer[] =
    "HTTP/1.1 200 OK\r\nContent-Length: 2\r\nConnection: close\r\n\r\nok";

static double now(void) {
    struct timespec t;
    clock_gettime(CLOCK_MONOTONIC, &t);
    return t.tv_sec * 1e3 + t.tv_nsec / 1e6;
}

static void reply(int fd) {
    if (write(fd, answer, sizeof answer - 1) < 0) { /* the client has gone */ }
    close(fd);
}

static void accept_all(int set, int listener) {
    for (;;) {
        int fd = accept4(listener, NULL, NULL, SOCK_NONBLOCK | SOCK_CLOEXEC);
        if (fd < 0) return;
        struct epoll_event e = { .events = EPOLLIN, .data.fd = fd };
        epoll_ctl(set, EPOLL_CTL_ADD, fd, &e);
    }
}

static void reply_to_due(struct queue *q) {
    for (double t = now(); q->first != q->last && q->waiting[q->first % MOST].due <= t; q->first++)
        reply(q->waiting[q->first % MOST].fd);
}

/* The milliseconds until the next answer is due, at most `most`. */
static double until_due(const struct queue *q, double most) {
    if (q->first == q->last) return most;
    double left = q->waiting[q->first % MOST].due - now();
    return left < 0 ? 0 : left < most ? left : most;
}

static void take_request(int set, int fd) {
    char text[16384];
    ssize_t count = read(fd, text, sizeof text - 1);
    if (count <= 0) {
        if (count == 0 || errno != EAGAIN) close(fd);
        return;
    }
    text[count] = 0;
    if (!strstr(text, "\r\n\r\n")) return; /* the heads of the bench come in one piece */
    struct queue *q = strncmp(text, "GET /slow", 9) ? &usual : &slow;
    if (q->delay <= 0) {
        reply(fd);
        return;
    }
    epoll_ctl(set, EPOLL_CTL_DEL, fd, NULL);
    q->waiting[q->last % MOST].fd = fd;
    q->waiting[q->last % MOST].due = now() + q->delay;
    q->last++;
}

int main(int count, char **words) {
    if (count != 3) return 2;
    usual.delay = atof(words[2]);
    signal(SIGPIPE, SIG_IGN);
    struct rlimit files;
    getrlimit(RLIMIT_NOFILE, &files);
    files.rlim_cur = files.rlim_max;
    setrlimit(RLIMIT_NOFILE, &files);
    int listener = socket(AF_INET, SOCK_STREAM | SOCK_NONBLOCK | SOCK_CLOEXEC, 0), on = 1;
    setsockopt(listener, SOL_SOCKET, SO_REUSEADDR, &on, sizeof on);
    struct sockaddr_in home = { .sin_family = AF_INET, .sin_port = htons(atoi(words[1])),
                                .sin_addr.s_addr = htonl(INADDR_LOOPBACK) };
    if (bind(listener, (struct sockaddr *)&home, sizeof home) || listen(listener, 4096)) return 1;
    int set = epoll_create1(EPOLL_CLOEXEC);
    struct epoll_event events[EVENTS], e = { .events = EPOLLIN, .data.fd = listener };
    epoll_ctl(set, EPOLL_CTL_ADD, listener, &e);
    for (;;) {
        double left = until_due(&usual, until_due(&slow, 60000));
        int ready = epoll_wait(set, events, EVENTS, left > 0 ? (int)left + 1 : 0);
        for (int i = 0; i < ready; i++) {
            if (events[i].data.fd == listener) accept_all(set, listener);
            else take_request(set, events[i].data.fd);
        }
        reply_to_due(&usual);
        reply_to_due(&slow);
    }
}
