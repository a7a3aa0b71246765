// Stands under the program, before the C library, and lets one of its calls fail.
//
// The variable REFUSE has the name of the call, or `memory` for all that allocate, the first and the last one that fail, counted from
// 1, the number of the error, and a descriptor on which a byte tells that the first one was reached: `write 3 3 5 7`.
//
// cc -shared -fPIC -o shim.so checks/shim.c
#define _GNU_SOURCE
#include <dlfcn.h>
#include <errno.h>
#include <fcntl.h>
#include <netdb.h>
#include <stdarg.h>
#include <stdio.h>
#include <stdlib.h>
#include <string.h>
#include <sys/epoll.h>
#include <sys/file.h>
#include <sys/socket.h>
#include <sys/stat.h>
#include <sys/syscall.h>
#include <time.h>
#include <unistd.h>

static char wanted[32];
static long first, last, count;
static int error, teller;

__attribute__((constructor)) static void begin(void) {
    const char *told = getenv("REFUSE");
    if (told) sscanf(told, "%31s %ld %ld %d %d", wanted, &first, &last, &error, &teller);
}

static int refused(const char *name) {
    if (strcmp(name, wanted) != 0 || ++count < first || count > last) return 0;
    if (count == first) syscall(SYS_write, teller, "!", 1);
    errno = error;
    return 1;
}

#define REFUSABLE(type, name, group, failed, parameters, arguments)                                \
    type name parameters {                                                                         \
        static type(*real) parameters;                                                             \
        if (!real) real = (type(*) parameters)dlsym(RTLD_NEXT, #name);                             \
        return refused(group) ? failed : real arguments;                                           \
    }
#define MEMORY(name, parameters, arguments) REFUSABLE(void *, name, "memory", NULL, parameters, arguments)
#define CALL(name, parameters, arguments) REFUSABLE(int, name, #name, -1, parameters, arguments)
#define MOVE(name, parameters, arguments) REFUSABLE(ssize_t, name, #name, -1, parameters, arguments)

MEMORY(malloc, (size_t n), (n))
MEMORY(calloc, (size_t n, size_t m), (n, m))
MEMORY(realloc, (void *p, size_t n), (p, n))
MEMORY(aligned_alloc, (size_t a, size_t n), (a, n))
MEMORY(memalign, (size_t a, size_t n), (a, n))
REFUSABLE(int, posix_memalign, "memory", error, (void **p, size_t a, size_t n), (p, a, n))

MOVE(read, (int f, void *p, size_t n), (f, p, n))
MOVE(write, (int f, const void *p, size_t n), (f, p, n))
MOVE(recv, (int f, void *p, size_t n, int o), (f, p, n, o))
MOVE(send, (int f, const void *p, size_t n, int o), (f, p, n, o))
CALL(socket, (int d, int t, int p), (d, t, p))
CALL(bind, (int f, const struct sockaddr *a, socklen_t n), (f, a, n))
CALL(listen, (int f, int n), (f, n))
CALL(connect, (int f, const struct sockaddr *a, socklen_t n), (f, a, n))
CALL(accept4, (int f, struct sockaddr *a, socklen_t *n, int o), (f, a, n, o))
CALL(getsockopt, (int f, int l, int o, void *p, socklen_t *n), (f, l, o, p, n))
CALL(setsockopt, (int f, int l, int o, const void *p, socklen_t n), (f, l, o, p, n))
CALL(shutdown, (int f, int h), (f, h))
CALL(getpeername, (int f, struct sockaddr *a, socklen_t *n), (f, a, n))
CALL(epoll_create1, (int o), (o))
CALL(epoll_ctl, (int e, int o, int f, struct epoll_event *v), (e, o, f, v))
CALL(epoll_wait, (int e, struct epoll_event *v, int n, int t), (e, v, n, t))
CALL(ioctl, (int f, unsigned long r, void *p), (f, r, p))
CALL(flock, (int f, int o), (f, o))
CALL(fsync, (int f), (f))
CALL(rename, (const char *p, const char *q), (p, q))
CALL(unlink, (const char *p), (p))
CALL(statx, (int d, const char *p, int o, unsigned m, struct statx *s), (d, p, o, m, s))
REFUSABLE(char *, realpath, "realpath", NULL, (const char *p, char *r), (p, r))
CALL(clock_gettime, (clockid_t c, struct timespec *t), (c, t))
CALL(nanosleep, (const struct timespec *t, struct timespec *r), (t, r))
REFUSABLE(int, getaddrinfo, "getaddrinfo", EAI_SYSTEM,
    (const char *h, const char *s, const struct addrinfo *a, struct addrinfo **r), (h, s, a, r))
int open(const char *p, int o, ...) {
    va_list more;
    va_start(more, o);
    mode_t mode = va_arg(more, mode_t);
    va_end(more);
    return refused("open") ? -1 : openat(AT_FDCWD, p, o, mode);
}
// What it closes is closed, whatever it tells.
int close(int f) {
    int told = syscall(SYS_close, f);
    return refused("close") ? -1 : told;
}
