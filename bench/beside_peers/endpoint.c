/* An endpoint that answers each request after a fixed delay: endpoint PORT MILLISECONDS PROCESSES
   It keeps a connection for further requests unless a request has `Connection: close`. Each process has a listener at
   the port and an epoll set of its own, so it serves thousands of connections at a time, and answers by a timer. A
   request is its head, which comes in one piece. A connection on which anything else comes is closed, so that it
   counts as an error. The processes end with the one that started them. */
#define _GNU_SOURCE
#include <arpa/inet.h>
#include <netinet/in.h>
#include <netinet/tcp.h>
#include <signal.h>
#include <stdbool.h>
#include <stdio.h>
#include <stdlib.h>
#include <string.h>
#include <sys/epoll.h>
#include <sys/prctl.h>
#include <sys/resource.h>
#include <sys/socket.h>
#include <sys/timerfd.h>
#include <time.h>
#include <unistd.h>

enum { EVENTS = 512, BACKLOG = 4096, MOST_WAITING = 1 << 17, LARGEST_HEAD = 16384, BILLION = 1000000000 };

struct connection {
    int fd; /* -1 once it is closed */
    bool is_waiting, is_kept;
};

/* The requests that wait for their answers, in the order of arrival; all wait for the same time. */
static struct { struct connection *at; long long due; } waiting[MOST_WAITING];
static size_t first, last;
static long long delay; /* nanoseconds */
static int set, listener, timer;
static const int on = 1;

static const char kept[] = "HTTP/1.1 200 OK\r\nContent-Length: 2\r\n\r\nok";
static const char closed[] = "HTTP/1.1 200 OK\r\nContent-Length: 2\r\nConnection: close\r\n\r\nok";

static long long now(void) {
    struct timespec t;
    clock_gettime(CLOCK_MONOTONIC, &t);
    return (long long)t.tv_sec * BILLION + t.tv_nsec;
}

/* Closes a connection. While a request of it waits, the queue still names it. */
static void end(struct connection *c) {
    if (c->fd >= 0) close(c->fd);
    c->fd = -1;
    if (!c->is_waiting) free(c);
}

static void answer(struct connection *c) {
    const char *text = c->is_kept ? kept : closed;
    if (c->fd < 0 || write(c->fd, text, strlen(text)) < 0 || !c->is_kept) end(c);
}

static void watch(int fd, void *name) {
    struct epoll_event e = { .events = EPOLLIN, .data.ptr = name };
    epoll_ctl(set, EPOLL_CTL_ADD, fd, &e);
}

static void accept_all(void) {
    for (int fd; (fd = accept4(listener, NULL, NULL, SOCK_NONBLOCK | SOCK_CLOEXEC)) >= 0;) {
        struct connection *c = calloc(1, sizeof *c);
        if (!c) exit(1);
        setsockopt(fd, IPPROTO_TCP, TCP_NODELAY, &on, sizeof on);
        c->fd = fd;
        watch(fd, c);
    }
}

/* The timer goes off when the first answer is due. */
static void set_timer(void) {
    struct itimerspec at = { 0 };
    at.it_value.tv_sec = waiting[first % MOST_WAITING].due / BILLION;
    at.it_value.tv_nsec = waiting[first % MOST_WAITING].due % BILLION;
    timerfd_settime(timer, TFD_TIMER_ABSTIME, &at, NULL);
}

static void take_request(struct connection *c) {
    char head[LARGEST_HEAD + 1];
    ssize_t count = read(c->fd, head, LARGEST_HEAD);
    head[count > 0 ? count : 0] = 0;
    const char *empty_line = strstr(head, "\r\n\r\n");
    if (c->is_waiting || !empty_line || empty_line + 4 != head + count) {
        end(c);
        return;
    }
    c->is_kept = !strcasestr(head, "\r\nConnection: close\r\n");
    if (!delay) {
        answer(c);
        return;
    }
    if (last - first == MOST_WAITING) exit(1);
    c->is_waiting = true;
    waiting[last % MOST_WAITING].at = c;
    waiting[last % MOST_WAITING].due = now() + delay;
    if (last++ == first) set_timer();
}

static void answer_due(void) {
    unsigned long long times;
    if (read(timer, &times, sizeof times) < 0) return;
    for (; first != last && waiting[first % MOST_WAITING].due <= now(); first++) {
        struct connection *c = waiting[first % MOST_WAITING].at;
        c->is_waiting = false;
        answer(c);
    }
    if (first != last) set_timer();
}

static bool listen_at(int port) {
    struct sockaddr_in home = { .sin_family = AF_INET, .sin_port = htons(port),
                                .sin_addr.s_addr = htonl(INADDR_LOOPBACK) };
    listener = socket(AF_INET, SOCK_STREAM | SOCK_NONBLOCK | SOCK_CLOEXEC, 0);
    setsockopt(listener, SOL_SOCKET, SO_REUSEADDR, &on, sizeof on);
    setsockopt(listener, SOL_SOCKET, SO_REUSEPORT, &on, sizeof on);
    return bind(listener, (struct sockaddr *)&home, sizeof home) == 0 && listen(listener, BACKLOG) == 0;
}

int main(int count, char **words) {
    if (count != 4) return 2;
    delay = atof(words[2]) * 1e6;
    signal(SIGPIPE, SIG_IGN);
    struct rlimit files;
    getrlimit(RLIMIT_NOFILE, &files);
    files.rlim_cur = files.rlim_max;
    setrlimit(RLIMIT_NOFILE, &files);
    for (int left = atoi(words[3]); left > 1 && fork(); left--) {}
    prctl(PR_SET_PDEATHSIG, SIGTERM);
    if (!listen_at(atoi(words[1]))) {
        perror("endpoint");
        return 1;
    }
    set = epoll_create1(EPOLL_CLOEXEC);
    timer = timerfd_create(CLOCK_MONOTONIC, TFD_NONBLOCK | TFD_CLOEXEC);
    watch(listener, &listener);
    watch(timer, &timer);
    for (struct epoll_event events[EVENTS];;) {
        bool is_due = false;
        int ready = epoll_wait(set, events, EVENTS, -1);
        for (int i = 0; i < ready; i++) {
            void *name = events[i].data.ptr;
            if (name == &listener) accept_all();
            else if (name == &timer) is_due = true;
            else take_request(name);
        }
        if (is_due) answer_due(); /* last, since it may free a connection that has an event */
    }
}
