/* A client of a Socket.IO server: a connection over loopback, and a WebSocket with its frames. */
#define _GNU_SOURCE
#include <arpa/inet.h>
#include <errno.h>
#include <fcntl.h>
#include <netinet/in.h>
#include <netinet/tcp.h>
#include <pthread.h>
#include <stdio.h>
#include <stdlib.h>
#include <string.h>
#include <sys/epoll.h>
#include <sys/socket.h>
#include <time.h>
#include <unistd.h>

static int port, size = 16;

static double now(void) { struct timespec t; clock_gettime(CLOCK_MONOTONIC, &t); return t.tv_sec + t.tv_nsec / 1e9; }
static void die(const char *why) { printf("{\"error\":\"%s\"}\n", why); exit(1); }

static int cmp(const void *a, const void *b) { double x = *(double *)a, y = *(double *)b; return x < y ? -1 : x > y; }
/* What says `size` letters to a room. */
static char *event(size_t *n, const char *room) {
    char *t = malloc(size + 64); int k = sprintf(t, "42[\"say\",\"%s\",\"", room);
    memset(t + k, 'x', size); *n = k + size + sprintf(t + k + size, "\"]"); return t;
}

static int dial(void) {
    struct sockaddr_in a = { .sin_family = AF_INET, .sin_port = htons(port) };
    a.sin_addr.s_addr = htonl(INADDR_LOOPBACK);
    int one = 1, fd = socket(AF_INET, SOCK_STREAM, 0);
    struct timeval tv = { 10, 0 };
    setsockopt(fd, IPPROTO_TCP, TCP_NODELAY, &one, sizeof one);
    setsockopt(fd, SOL_SOCKET, SO_RCVTIMEO, &tv, sizeof tv);
    if (connect(fd, (void *)&a, sizeof a)) { close(fd); return -1; }
    return fd;
}
static int put(int fd, const char *b, size_t n) {
    while (n) { ssize_t k = send(fd, b, n, MSG_NOSIGNAL); if (k <= 0) return -1; b += k; n -= k; }
    return 0;
}

/* ---- WebSocket */
typedef struct { int fd; char *buf; size_t start, len, cap; long got; } Ws;

static int ws_send(Ws *w, const char *t, size_t n) {
    char small[4096], *f = n + 16 > sizeof small ? malloc(n + 16) : small;
    size_t h = 2;
    f[0] = (char)0x81;
    if (n < 126) f[1] = (char)(0x80 | n);
    else if (n < 65536) { f[1] = (char)0xfe; f[2] = n >> 8; f[3] = n; h = 4; }
    else { f[1] = (char)0xff; for (int i = 0; i < 8; i++) f[2 + i] = (char)((unsigned long)n >> (56 - 8 * i)); h = 10; }
    memset(f + h, 0, 4);
    memcpy(f + h + 4, t, n);
    int r = put(w->fd, f, h + 4 + n);
    if (f != small) free(f);
    return r;
}
static int ws_fill(Ws *w) {
    if (w->start && w->start == w->len) w->start = w->len = 0;
    if (w->cap - w->len < 32768) {
        if (w->start) { memmove(w->buf, w->buf + w->start, w->len - w->start); w->len -= w->start; w->start = 0; }
        if (w->cap - w->len < 32768) { w->cap = w->cap ? w->cap * 2 : 65536; w->buf = realloc(w->buf, w->cap); }
    }
    ssize_t k = recv(w->fd, w->buf + w->len, w->cap - w->len, 0);
    if (k > 0) w->len += k;
    return (int)k;
}
/* The next whole frame in the buffer: its payload, or 0. */
static char *ws_next(Ws *w, size_t *n, int *op) {
    unsigned char *b = (unsigned char *)w->buf + w->start;
    size_t have = w->len - w->start, h = 2, m;
    if (have < 2) return 0;
    m = b[1] & 127;
    if (m == 126) { if (have < 4) return 0; m = b[2] << 8 | b[3]; h = 4; }
    else if (m == 127) { if (have < 10) return 0; m = 0; for (int i = 2; i < 10; i++) m = m << 8 | b[i]; h = 10; }
    if (have < h + m) return 0;
    *n = m; *op = b[0] & 15;
    w->start += h + m;
    return (char *)b + h;
}
/* Blocks for the next text that is no ping; 0 at the end. */
static char *ws_recv(Ws *w, size_t *n) {
    for (;;) {
        int op; char *p = ws_next(w, n, &op);
        if (p) {
            if (op == 1 && *n == 1 && p[0] == '2') { ws_send(w, "3", 1); continue; }
            if (op == 1) return p;
            if (op == 8) return 0;
            continue;
        }
        if (ws_fill(w) <= 0) return 0;
    }
}
static int ws_open(Ws *w, int join) {
    char req[512]; size_t n; char *p;
    memset(w, 0, sizeof *w);
    if ((w->fd = dial()) < 0) return -1;
    int k = snprintf(req, sizeof req, "GET /socket.io/?EIO=4&transport=websocket HTTP/1.1\r\nHost: 127.0.0.1:%d\r\nUpgrade: websocket\r\nConnection: Upgrade\r\n"
                     "Sec-WebSocket-Key: dGhlIHNhbXBsZSBub25jZQ==\r\nSec-WebSocket-Version: 13\r\n\r\n", port);
    if (put(w->fd, req, k)) return -1;
    char *e;
    do { if (ws_fill(w) <= 0) return -1; w->buf[w->len < w->cap ? w->len : w->cap - 1] = 0; } while (!(e = memmem(w->buf, w->len, "\r\n\r\n", 4)));
    if (memcmp(w->buf, "HTTP/1.1 101", 12)) return -1;
    w->start = e + 4 - w->buf;
    if (!(p = ws_recv(w, &n)) || p[0] != '0') return -1;
    if (ws_send(w, "40", 2) || !(p = ws_recv(w, &n)) || memcmp(p, "40{", 3)) return -1;
    if (join) {
        if (ws_send(w, "420[\"join\",\"r\"]", 15) || !(p = ws_recv(w, &n)) || memcmp(p, "430", 3)) return -1;
    }
    return 0;
}
