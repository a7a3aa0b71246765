// The plain ends of bench/links: what sends and takes the same bytes as `forces` by epoll, and clients that load an element.
//
//   links serve PORT SCRIPT            takes one connection and plays the script on it
//   links play MARK PORT.. < SCRIPTS   dials all ports at once, plays a script on each, and prints the nanoseconds from the first connect
//                                      to the last step called MARK
//   links beats PORT COUNT SECONDS     associates over so many connections, each of which asks for heartbeats without a pause, and prints
//                                      how many answers came in so many seconds
//   links trips PORT COUNT             connects so often, one after the other, takes the setup, and prints the nanoseconds
//   links mute PORT COUNT SECONDS      asks over so many connections and takes no answer, and hangs up after so many seconds
//
// A script is lines: `s HEX` sends, `r N` takes so many bytes, `b` waits until each script is there, `m NAME` marks.
#define _GNU_SOURCE
#include <arpa/inet.h>
#include <errno.h>
#include <fcntl.h>
#include <netinet/in.h>
#include <netinet/tcp.h>
#include <stdint.h>
#include <stdio.h>
#include <stdlib.h>
#include <string.h>
#include <sys/epoll.h>
#include <sys/socket.h>
#include <time.h>
#include <unistd.h>

enum { MOST = 256, PIECE = 65536 };

struct step {
    char kind;
    size_t length;
    unsigned char *bytes;
    char name[16];
};

struct end {
    int fd;
    struct step *steps;
    size_t count, at, done;
    int waits;
};

static void fail(const char *what) {
    perror(what);
    exit(1);
}

static uint64_t now(void) {
    struct timespec t;
    clock_gettime(CLOCK_MONOTONIC, &t);
    return (uint64_t)t.tv_sec * 1000000000u + (uint64_t)t.tv_nsec;
}

static struct sockaddr_in at_port(int port) {
    struct sockaddr_in a = {.sin_family = AF_INET, .sin_port = htons((uint16_t)port), .sin_addr.s_addr = htonl(INADDR_LOOPBACK)};
    return a;
}

static int unblocked(int fd) {
    if (fcntl(fd, F_SETFL, fcntl(fd, F_GETFL) | O_NONBLOCK) != 0) fail("fcntl");
    return fd;
}

static int connected(int port) {
    struct sockaddr_in a = at_port(port);
    int fd = socket(AF_INET, SOCK_STREAM, 0);
    if (fd < 0 || connect(fd, (struct sockaddr *)&a, sizeof a) != 0) fail("connect");
    return fd;
}

// Reads scripts: each ends with an empty line or with the file.
static size_t scripts(FILE *file, struct end *ends) {
    char *line = NULL;
    size_t room = 0, count = 0;
    int open = 0;
    while (getline(&line, &room, file) > 0) {
        if (line[0] == '\n') {
            open = 0;
            continue;
        }
        if (!open) {
            if (count == MOST) exit(2);
            memset(&ends[count++], 0, sizeof *ends);
            open = 1;
        }
        struct end *end = &ends[count - 1];
        end->steps = realloc(end->steps, (end->count + 1) * sizeof *end->steps);
        struct step *step = &end->steps[end->count++];
        memset(step, 0, sizeof *step);
        step->kind = line[0];
        if (step->kind == 'r') step->length = strtoul(line + 2, NULL, 10);
        if (step->kind == 'm') sscanf(line + 2, "%15s", step->name);
        if (step->kind == 's') {
            size_t digits = strcspn(line + 2, "\n");
            step->length = digits / 2;
            step->bytes = malloc(step->length + 1);
            for (size_t i = 0; i < step->length; i++) sscanf(line + 2 + 2 * i, "%2hhx", &step->bytes[i]);
        }
    }
    free(line);
    return count;
}

// Goes on with a script as far as it can; whether it is at a barrier, and what it marks.
static uint64_t go(struct end *end, const char *mark) {
    uint64_t marked = 0;
    static unsigned char taken[PIECE];
    end->waits = 0;
    while (end->at < end->count) {
        struct step *step = &end->steps[end->at];
        if (step->kind == 'b') {
            end->waits = 1;
            return marked;
        }
        if (step->kind == 'm') {
            if (strcmp(step->name, mark) == 0) marked = now();
        } else {
            while (end->done < step->length) {
                size_t left = step->length - end->done;
                ssize_t n = step->kind == 's' ? send(end->fd, step->bytes + end->done, left, MSG_NOSIGNAL) : recv(end->fd, taken, left < PIECE ? left : PIECE, 0);
                if (n < 0 && (errno == EAGAIN || errno == EWOULDBLOCK || errno == ENOTCONN)) return marked;
                if (n < 0 && errno == EINTR) continue;
                if (n <= 0) fail(step->kind == 's' ? "send" : "recv");
                end->done += (size_t)n;
            }
            end->done = 0;
        }
        end->at++;
    }
    return marked;
}

static int over(struct end *ends, size_t count) {
    for (size_t i = 0; i < count; i++)
        if (ends[i].at < ends[i].count) return 0;
    return 1;
}

static uint64_t play(struct end *ends, size_t count, const char *mark) {
    uint64_t last = 0, marked;
    int poll = epoll_create1(0);
    for (size_t i = 0; i < count; i++) {
        struct epoll_event e = {.events = EPOLLIN | EPOLLOUT | EPOLLET, .data.u64 = i};
        if (epoll_ctl(poll, EPOLL_CTL_ADD, ends[i].fd, &e) != 0) fail("epoll_ctl");
    }
    while (!over(ends, count)) {
        struct epoll_event got[MOST];
        int n = epoll_wait(poll, got, MOST, 30000);
        if (n == 0 || (n < 0 && errno != EINTR)) fail("epoll_wait");
        for (int i = 0; i < n; i++)
            if ((marked = go(&ends[got[i].data.u64], mark)) > last) last = marked;
        size_t waiting = 0;
        for (size_t i = 0; i < count; i++) waiting += ends[i].waits != 0;
        if (waiting == count)
            for (size_t i = 0; i < count; i++) {
                ends[i].at++;
                if ((marked = go(&ends[i], mark)) > last) last = marked;
            }
    }
    close(poll);
    return last;
}

static void serve(int port, const char *path) {
    static struct end ends[MOST];
    FILE *file = fopen(path, "r");
    if (!file || scripts(file, ends) != 1) exit(2);
    struct sockaddr_in a = at_port(port);
    int one = 1, listener = socket(AF_INET, SOCK_STREAM, 0);
    setsockopt(listener, SOL_SOCKET, SO_REUSEADDR, &one, sizeof one);
    if (bind(listener, (struct sockaddr *)&a, sizeof a) != 0 || listen(listener, 16) != 0) fail("listen");
    printf("ready\n");
    fflush(stdout);
    int fd = accept(listener, NULL, NULL);
    if (fd < 0) fail("accept");
    setsockopt(fd, IPPROTO_TCP, TCP_NODELAY, &one, sizeof one);
    ends[0].fd = unblocked(fd);
    play(ends, 1, "");
    char rest[256];
    unsigned char byte;
    (void)rest;
    fcntl(fd, F_SETFL, fcntl(fd, F_GETFL) & ~O_NONBLOCK);
    while (recv(fd, &byte, 1, 0) > 0) {
    }
}

static void dial(const char *mark, int count, char **ports) {
    static struct end ends[MOST];
    if (scripts(stdin, ends) != (size_t)count) exit(2);
    int one = 1;
    uint64_t start = now();
    for (int i = 0; i < count; i++) {
        struct sockaddr_in a = at_port(atoi(ports[i]));
        int fd = unblocked(socket(AF_INET, SOCK_STREAM, 0));
        if (connect(fd, (struct sockaddr *)&a, sizeof a) != 0 && errno != EINPROGRESS) fail("connect");
        setsockopt(fd, IPPROTO_TCP, TCP_NODELAY, &one, sizeof one);
        ends[i].fd = fd;
    }
    uint64_t last = play(ends, (size_t)count, mark);
    if (last == 0) exit(2);
    printf("%llu\n", (unsigned long long)(last - start));
}

static void put(unsigned char *at, uint32_t n) {
    for (int i = 0; i < 4; i++) at[i] = (unsigned char)(n >> (24 - 8 * i));
}

// A message of a control element to element 1: its type, its flags, and eight bytes of a result where it has one.
static size_t message(unsigned char *into, int kind, uint32_t control, uint32_t flags, int has_result) {
    size_t length = has_result ? 32 : 24;
    memset(into, 0, length);
    into[0] = 0x10;
    into[1] = (unsigned char)kind;
    into[3] = (unsigned char)(length / 4);
    put(into + 4, control);
    put(into + 8, 1);
    put(into + 20, flags);
    if (has_result) {
        into[25] = 0x10;
        into[27] = 8;
    }
    return length;
}

static void all_sent(int fd, const unsigned char *bytes, size_t length) {
    while (length > 0) {
        ssize_t n = send(fd, bytes, length, MSG_NOSIGNAL);
        if (n <= 0) fail("send");
        bytes += n;
        length -= (size_t)n;
    }
}

static void all_taken(int fd, size_t length) {
    unsigned char bytes[256];
    while (length > 0) {
        ssize_t n = recv(fd, bytes, length < sizeof bytes ? length : sizeof bytes, 0);
        if (n <= 0) fail("recv");
        length -= (size_t)n;
    }
}

// A connection over which the control element with this number is associated.
static int associated(int port, int number) {
    unsigned char bytes[64];
    int fd = connected(port);
    all_taken(fd, 24);
    all_sent(fd, bytes, message(bytes, 0x11, 0x40000001u + (uint32_t)number, 0, 1));
    return fd;
}

static void beats(int port, int count, double seconds) {
    static int fds[MOST];
    static size_t ahead[MOST];
    static unsigned char block[MOST][24 * 512], taken[PIECE];
    int poll = epoll_create1(0);
    for (int i = 0; i < count; i++) {
        fds[i] = unblocked(associated(port, i));
        for (size_t j = 0; j < sizeof block[i]; j += 24) message(block[i] + j, 0x0F, 0x40000001u + (uint32_t)i, 0xC0000000u, 0);
        struct epoll_event e = {.events = EPOLLIN | EPOLLOUT, .data.u64 = (uint64_t)i};
        epoll_ctl(poll, EPOLL_CTL_ADD, fds[i], &e);
    }
    uint64_t start = now(), end = start + (uint64_t)(seconds * 1e9), came = 0;
    while (now() < end) {
        struct epoll_event got[MOST];
        int n = epoll_wait(poll, got, MOST, 1000);
        for (int i = 0; i < n; i++) {
            size_t k = got[i].data.u64;
            if (got[i].events & EPOLLIN) {
                ssize_t m = recv(fds[k], taken, PIECE, 0);
                if (m == 0 || (m < 0 && errno != EAGAIN)) fail("recv");
                if (m > 0) came += (uint64_t)m;
            }
            if (got[i].events & EPOLLOUT) {
                ssize_t m = send(fds[k], block[k] + ahead[k], sizeof block[k] - ahead[k], MSG_NOSIGNAL);
                if (m < 0 && errno != EAGAIN) fail("send");
                if (m > 0) ahead[k] = (ahead[k] + (size_t)m) % sizeof block[k];
            }
        }
    }
    printf("%.0f\n", (double)came / 24 / ((double)(now() - start) / 1e9));
}

static void trips(int port, int count) {
    uint64_t start = now();
    for (int i = 0; i < count; i++) {
        int fd = connected(port);
        all_taken(fd, 24);
        close(fd);
    }
    printf("%llu\n", (unsigned long long)(now() - start));
}

static void mute(int port, int count, int seconds) {
    static int fds[MOST];
    static unsigned char block[24 * 512];
    for (int i = 0; i < count; i++) {
        fds[i] = associated(port, i);
        unblocked(fds[i]);
    }
    uint64_t end = now() + (uint64_t)seconds * 1000000000u;
    int gone = 0;
    while (now() < end && gone < count) {
        gone = 0;
        for (int i = 0; i < count; i++) {
            if (fds[i] < 0) {
                gone++;
                continue;
            }
            for (size_t j = 0; j < sizeof block; j += 24) message(block + j, 0x0F, 0x40000001u + (uint32_t)i, 0xC0000000u, 0);
            ssize_t n = send(fds[i], block, sizeof block, MSG_NOSIGNAL);
            if (n < 0 && errno != EAGAIN) {
                close(fds[i]);
                fds[i] = -1;
            }
        }
        usleep(1000);
    }
    printf("%d\n", gone);
}

int main(int count, char **words) {
    if (count >= 4 && strcmp(words[1], "serve") == 0) serve(atoi(words[2]), words[3]);
    else if (count >= 4 && strcmp(words[1], "play") == 0) dial(words[2], count - 3, words + 3);
    else if (count == 5 && strcmp(words[1], "beats") == 0) beats(atoi(words[2]), atoi(words[3]), atof(words[4]));
    else if (count == 4 && strcmp(words[1], "trips") == 0) trips(atoi(words[2]), atoi(words[3]));
    else if (count == 5 && strcmp(words[1], "mute") == 0) mute(atoi(words[2]), atoi(words[3]), atoi(words[4]));
    else return 2;
    return 0;
}
