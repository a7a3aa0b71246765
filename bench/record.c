// Stands under `forces control`, before the C library, and notes what goes over each connection and when.
//
// At the end of the process it writes to the file that RECORD names one line for each call: nanoseconds, `c`, `s` or `r`, the descriptor, and
// the bytes as hexadecimal digits.
//
// cc -shared -fPIC -o record.so bench/record.c
#define _GNU_SOURCE
#include <dlfcn.h>
#include <stdint.h>
#include <stdio.h>
#include <stdlib.h>
#include <string.h>
#include <sys/socket.h>
#include <sys/uio.h>
#include <time.h>
#include <unistd.h>

enum { CALLS = 1 << 20, ROOM = 64 << 20 };

static struct {
    uint64_t when;
    char kind;
    int fd;
    uint32_t at, length;
} *calls;
static unsigned char *bytes;
static size_t count, used;

__attribute__((constructor)) static void begin(void) {
    calls = malloc(sizeof *calls * CALLS);
    bytes = malloc(ROOM);
}

static void note(char kind, int fd, const void *data, ssize_t length) {
    struct timespec t;
    if (length < 0 || fd < 3 || count == CALLS || used + (size_t)length > ROOM || !calls || !bytes) return;
    clock_gettime(CLOCK_MONOTONIC, &t);
    calls[count].when = (uint64_t)t.tv_sec * 1000000000u + (uint64_t)t.tv_nsec;
    calls[count].kind = kind;
    calls[count].fd = fd;
    calls[count].at = (uint32_t)used;
    calls[count++].length = (uint32_t)length;
    if (length > 0) memcpy(bytes + used, data, (size_t)length);
    used += (size_t)length;
}

__attribute__((destructor)) static void end(void) {
    const char *path = getenv("RECORD");
    FILE *file = path ? fopen(path, "w") : NULL;
    if (!file) return;
    for (size_t i = 0; i < count; i++) {
        fprintf(file, "%llu %c %d ", (unsigned long long)calls[i].when, calls[i].kind, calls[i].fd);
        for (uint32_t j = 0; j < calls[i].length; j++) fprintf(file, "%02x", bytes[calls[i].at + j]);
        fputc('\n', file);
    }
    fclose(file);
}

#define REAL(type, name, parameters)                                                                \
    static type(*real) parameters;                                                                 \
    if (!real) real = (type(*) parameters)dlsym(RTLD_NEXT, #name)

int connect(int fd, const struct sockaddr *a, socklen_t n) {
    REAL(int, connect, (int, const struct sockaddr *, socklen_t));
    note('c', fd, NULL, 0);
    return real(fd, a, n);
}

ssize_t send(int fd, const void *p, size_t n, int o) {
    REAL(ssize_t, send, (int, const void *, size_t, int));
    ssize_t m = real(fd, p, n, o);
    note('s', fd, p, m);
    return m;
}

ssize_t write(int fd, const void *p, size_t n) {
    REAL(ssize_t, write, (int, const void *, size_t));
    ssize_t m = real(fd, p, n);
    note('s', fd, p, m);
    return m;
}

ssize_t recv(int fd, void *p, size_t n, int o) {
    REAL(ssize_t, recv, (int, void *, size_t, int));
    ssize_t m = real(fd, p, n, o);
    note('r', fd, p, m);
    return m;
}

ssize_t read(int fd, void *p, size_t n) {
    REAL(ssize_t, read, (int, void *, size_t));
    ssize_t m = real(fd, p, n);
    note('r', fd, p, m);
    return m;
}
