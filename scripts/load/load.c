/* load: drives a Socket.IO server (RelayApp's events): over many WebSockets, or by polling.
   gcc -O2 -pthread -o load load.c
   load --port P .. --test relay|rooms|idle [--rooms R] [--members M] [--all 1] [--idle N] [--seconds S] [--window W]
        [--threads T] [--pid SERVER] [--beside APP] [--size B]
   load --port P --test latency|broadcast [--members M] [--seconds S] [--window W] [--size B]      by polling
   load --port P --test setup [--transport ws|polling] [--seconds S] [--threads T]
   SERVER and APP are ids of processes with commas between, of whose times and memory it tells the sums. With several ports, of
   nodes, the members of a room take turns, and who sends is at the first; a relay goes from the first to the last.
   Last line: one JSON object.  Status 0; 1 where the server did not answer as it should. */
#include "client.h"

static int members = 2, window = 16, threads = 4, idle, rooms_n = 8, all_send, ports[16], port_count;
static double seconds = 3;
static const char *test = "relay", *transport = "polling";

/* ---- WebSockets */
typedef struct { long of[64]; int n; } Processes;
static Processes server, app;

static Processes processes(const char *ids) {
    Processes p = { .n = 0 };
    for (char *e; *ids; ids = *e == ',' ? e + 1 : e) { if (p.n == 64) die("arguments"); p.of[p.n++] = strtol(ids, &e, 10); if (e == ids) die("arguments"); }
    return p;
}
static double cpu_of(const Processes *p) {
    double sum = 0; clockid_t c; struct timespec t;
    for (int i = 0; i < p->n; i++) { if (clock_getcpuclockid(p->of[i], &c) || clock_gettime(c, &t)) die("a process has ended"); sum += t.tv_sec + t.tv_nsec / 1e9; }
    return sum;
}
static double cpu(void) { return cpu_of(&server); }
static void *idle_part(void *x) { long n = (long)x; for (long i = 0; i < n; i++) { Ws *w = malloc(sizeof *w); if (ws_open(w, 0)) die("idle open"); free(w->buf); } return 0; }
static void open_idle(void) { pthread_t t[4]; if (!idle) return; for (int i = 0; i < 4; i++) pthread_create(&t[i], 0, idle_part, (void *)(long)(idle / 4)); for (int i = 0; i < 4; i++) pthread_join(t[i], 0); usleep(200000); }
static void join_room(Ws *w, const char *r) { char b[64]; size_t n; char *p; int k = sprintf(b, "420[\"join\",\"%s\"]", r); if (ws_send(w, b, k) || !(p = ws_recv(w, &n)) || memcmp(p, "430", 3)) die("join"); }
static void relay(void) {
    double *v = malloc(sizeof *v * 2000000), t, start, end, c0; int n = 0; size_t len, m; char *ev = event(&len, "r"); Ws a, b;
    port = ports[0];
    if (ws_open(&a, 1)) die("open");
    port = ports[port_count - 1];
    if (ws_open(&b, 1)) die("open");
    open_idle();
    for (int i = 0; i < 200; i++) { ws_send(&a, ev, len); if (!ws_recv(&b, &m)) die("receive"); }
    c0 = cpu();
    for (start = now(), end = start + seconds; (t = now()) < end && n < 2000000;) { if (ws_send(&a, ev, len)) die("send"); if (!ws_recv(&b, &m)) die("receive"); v[n++] = now() - t; }
    double spent = now() - start, c1 = cpu(); qsort(v, n, sizeof *v, cmp);
    printf("{\"n\":%d,\"p10_us\":%.1f,\"p50_us\":%.1f,\"p99_us\":%.1f,\"per_second\":%.0f,\"cpu_us_each\":%.2f,\"cpu_s_100k\":%.3f}\n", n, v[n / 10] * 1e6, v[n / 2] * 1e6, v[(int)(n * .99)] * 1e6, n / spent, (c1 - c0) / n * 1e6, (c1 - c0) / n * 1e5);
}
/* rooms_n rooms of `members`; threads load threads; all_send: every member sends in turn, else a sender outside */
static double t_from, t_end; static long total_all; static pthread_barrier_t bar;
typedef struct { Ws *m; long *own; int ep; long sent; char *ev; size_t len; Ws tx; } Rm;
static Rm *rm;
static void *room_thread(void *x) {
    long id = (long)x; struct epoll_event out[256]; long base = 0; int based = 0; long mine = 0;
    int ep = epoll_create1(0);
    for (int r = id; r < rooms_n; r += threads) for (int i = 0; i < members; i++) { struct epoll_event e = { .events = EPOLLIN, .data.u64 = (unsigned long)r << 32 | i }; fcntl(rm[r].m[i].fd, F_SETFL, O_NONBLOCK); epoll_ctl(ep, EPOLL_CTL_ADD, rm[r].m[i].fd, &e); }
    pthread_barrier_wait(&bar);
    double t;
    char *dirty = calloc(rooms_n, 1); for (int r = id; r < rooms_n; r += threads) dirty[r] = 1;
    while ((t = now()) < t_end) {
        if (!based && t >= t_from) { based = 1; base = mine; }
        for (int r = id; r < rooms_n; r += threads) if (dirty[r]) {
            Rm *q = &rm[r]; long least = 1l << 60; dirty[r] = 0;
            for (int i = 0; i < members; i++) { long g = q->m[i].got + q->own[i]; if (g < least) least = g; }
            while (q->sent - least < window) {
                if (all_send) { int k = q->sent % members; if (ws_send(&q->m[k], q->ev, q->len)) die("send"); q->own[k]++; }
                else if (ws_send(&q->tx, q->ev, q->len)) die("send");
                q->sent++;
            }
        }
        int k = epoll_wait(ep, out, 256, 5000);
        if (k <= 0) die("stalled");
        for (int j = 0; j < k; j++) {
            int r = out[j].data.u64 >> 32, i = (int)(out[j].data.u64 & 0xffffffff); Ws *w = &rm[r].m[i]; int op, s; size_t m; char *p;
            dirty[r] = 1;
            while ((s = ws_fill(w)) > 0 && w->cap - w->len == 0);
            if (s == 0) die("closed");
            while ((p = ws_next(w, &m, &op))) {
                if (op == 1 && m == 1 && *p == '2') ws_send(w, "3", 1);
                else if (op == 1 && m > 8 && !memcmp(p, "42[\"say\"", 8)) { w->got++; mine++; }
                else if (op == 8) die("closed");
            }
        }
    }
    __sync_fetch_and_add(&total_all, mine - base);
    return 0;
}
static void rooms(void) {
    rm = calloc(rooms_n, sizeof *rm); pthread_t th[64];
    for (int r = 0; r < rooms_n; r++) {
        char name[16]; sprintf(name, "r%d", r);
        rm[r].m = calloc(members, sizeof(Ws)); rm[r].own = calloc(members, sizeof(long)); rm[r].ev = event(&rm[r].len, name);
        port = ports[0];
        if (!all_send && ws_open(&rm[r].tx, 0)) die("open");
        for (int i = 0; i < members; i++) { port = ports[i % port_count]; if (ws_open(&rm[r].m[i], 0)) die("open"); join_room(&rm[r].m[i], name); }
    }
    open_idle();
    pthread_barrier_init(&bar, 0, threads + 1);
    t_from = now() + 0.3 ; t_end = t_from + seconds;
    for (long i = 0; i < threads; i++) pthread_create(&th[i], 0, room_thread, (void *)i);
    pthread_barrier_wait(&bar);
    double s = t_from - now(); if (s > 0) usleep(s * 1e6);
    double c0 = cpu(), b0 = cpu_of(&app); s = t_end - now(); if (s > 0) usleep(s * 1e6); double c1 = cpu(), b1 = cpu_of(&app);
    for (int i = 0; i < threads; i++) pthread_join(th[i], 0);
    if (!total_all) die("none");
    printf("{\"rooms\":%d,\"members\":%d,\"idle\":%d,\"delivered\":%ld,\"delivered_per_second\":%.0f,\"cpu_s_100k\":%.3f,\"beside_s_100k\":%.3f,\"cores\":%.2f}\n", rooms_n, members, idle, total_all, total_all / seconds, (c1 - c0) / total_all * 1e5, (b1 - b0) / total_all * 1e5, (c1 - c0) / seconds);
}
static long rss_of(long pid) { char p[64], line[256]; long kb = 0; snprintf(p, sizeof p, "/proc/%ld/status", pid); FILE *f = fopen(p, "r"); if (!f) die("a process has ended"); while (fgets(line, sizeof line, f)) if (sscanf(line, "VmRSS: %ld", &kb) == 1) break; fclose(f); return kb; }
static long rss(void) { long sum = 0; for (int i = 0; i < server.n; i++) sum += rss_of(server.of[i]); return sum; }
static void at_rest(void) {
    if (!server.n) die("idle needs --pid");
    Ws w; if (ws_open(&w, 1)) die("open"); usleep(300000);
    long r0 = rss(); double t0 = now(), k0 = cpu(); open_idle(); double t1 = now(), k1 = cpu(); usleep(200000); long r1 = rss(); double c0 = cpu(); usleep(seconds * 1e6); double c1 = cpu();
    printf("{\"idle\":%d,\"kb_per_connection\":%.2f,\"opens_per_second\":%.0f,\"cpu_ms_per_open\":%.4f,\"idle_cores\":%.4f}\n", idle, (r1 - r0) / (double)idle, idle / (t1 - t0 - 0.2), (k1 - k0) * 1e3 / idle, (c1 - c0) / seconds);
}

/* ---- polling: one connection for each request, since each answer closes its connection */
/* Puts the chunks of a body together, where they stand, and says how long it is. */
static size_t join_chunks(char *body, size_t n) {
    char *to = body, *from = body, *end = body + n; size_t size;
    while (from < end && (size = strtoul(from, &from, 16)) && size + 4 <= (size_t)(end - from)) {
        memmove(to, from + 2, size);
        to += size; from += size + 4;
    }
    return to - body;
}
static int http(const char *method, const char *sid, const char *body, size_t blen, char *out, size_t cap) {
    char req[8192]; int fd = dial();
    if (fd < 0) return -1;
    int k = snprintf(req, sizeof req, "%s /socket.io/?EIO=4&transport=polling%s%s HTTP/1.1\r\nHost: 127.0.0.1:%d\r\nConnection: close\r\n",
                     method, sid ? "&sid=" : "", sid ? sid : "", port);
    if (body) k += snprintf(req + k, sizeof req - k, "Content-Type: text/plain;charset=UTF-8\r\nContent-Length: %zu\r\n", blen);
    k += snprintf(req + k, sizeof req - k, "\r\n");
    if (body && blen + k < sizeof req) { memcpy(req + k, body, blen); k += blen; body = 0; }
    if (put(fd, req, k) || (body && put(fd, body, blen))) { close(fd); return -1; }
    size_t n = 0; char *e = 0; long want = -1; int chunked = 0;
    for (;;) {
        ssize_t r = recv(fd, out + n, cap - 1 - n, 0);
        if (r <= 0) break;
        n += r; out[n] = 0;
        if (!e && (e = strstr(out, "\r\n\r\n"))) {
            char *c = strcasestr(out, "content-length:");
            want = c && c < e ? e + 4 - out + atol(c + 15) : -1;
            c = strcasestr(out, "transfer-encoding: chunked");
            chunked = c && c < e;
        }
        if (want >= 0 && (long)n >= want) break;
    }
    close(fd);
    if (!e || memcmp(out, "HTTP/1.1 200", 12)) return -1;
    size_t len = out + n - (e + 4);
    memmove(out, e + 4, len);
    if (chunked) len = join_chunks(out, len);
    out[len] = 0;
    return (int)len;
}
typedef struct { char sid[64]; char *buf; long got; } Poll;
enum { CAP = 1 << 20 };
static int poll_open(Poll *p, int join) {
    p->buf = malloc(CAP); p->got = 0;
    if (http("GET", 0, 0, 0, p->buf, CAP) < 0) return -1;
    char *s = strstr(p->buf, "\"sid\":\"");
    if (!s || sscanf(s + 7, "%63[^\"]", p->sid) != 1) return -1;
    if (http("POST", p->sid, "40", 2, p->buf, CAP) < 0) return -1;
    do { if (http("GET", p->sid, 0, 0, p->buf, CAP) < 0) return -1; } while (memcmp(p->buf, "40{", 3));
    if (join && http("POST", p->sid, "42[\"join\",\"r\"]", 14, p->buf, CAP) < 0) return -1;
    return 0;
}
/* One GET: the number of `say` events in its payload; -1 on a fault. */
static long poll_get(Poll *p) {
    int n = http("GET", p->sid, 0, 0, p->buf, CAP);
    if (n < 0) return -1;
    long c = 0;
    for (char *x = p->buf, *e; x; x = e ? e + 1 : 0) {
        e = strchr(x, 0x1e);
        if (!strncmp(x, "42[\"say\"", 8)) c++;
        if (x[0] == '2' && (x[1] == 0 || x[1] == 0x1e)) { char t[1024]; http("POST", p->sid, "3", 1, t, sizeof t); }
    }
    return c;
}

static volatile int go;
static volatile double heard_at;
static void *poller(void *x) {
    Poll *p = x;
    while (go) {
        long c = poll_get(p);
        if (c < 0) { if (go) p->got = -1000000000; return 0; }
        if (c) { heard_at = now(); __sync_fetch_and_add(&p->got, c); }
    }
    return 0;
}
static void latency(void) {
    double *v = malloc(sizeof *v * 2000000), end, t, start;
    int n = 0; size_t len; char *ev = event(&len, "r");
    Poll a, b; pthread_t th;
    if (poll_open(&a, 1) || poll_open(&b, 1)) die("open");
    go = 1;
    pthread_create(&th, 0, poller, &b);
    usleep(50000);
    for (start = now(), end = start + seconds; (t = now()) < end;) {
        long before = b.got;
        if (http("POST", a.sid, ev, len, a.buf, CAP) < 0) die("post");
        while (b.got == before) { if (now() - t > 10) die("receive"); usleep(20); }
        if (b.got < 0) die("get");
        v[n++] = heard_at - t;
        usleep(2000);                       /* lets the next GET begin to wait */
    }
    go = 0;
    if (!n) die("none");
    double spent = now() - start;
    qsort(v, n, sizeof *v, cmp);
    printf("{\"test\":\"latency\",\"transport\":\"polling\",\"n\":%d,\"p50_us\":%.1f,\"p99_us\":%.1f,\"max_us\":%.1f,\"per_second\":%.0f}\n",
           n, v[n / 2] * 1e6, v[(int)(n * 0.99)] * 1e6, v[n - 1] * 1e6, n / spent);
}

static void broadcast(void) {
    size_t len; char *ev = event(&len, "r");
    long sent = 0; double start, end, t;
    Poll tx, *rx = calloc(members, sizeof *rx); pthread_t *th = calloc(members, sizeof *th);
    if (poll_open(&tx, 0)) die("open");
    for (int i = 0; i < members; i++) if (poll_open(&rx[i], 1)) die("open");
    go = 1;
    for (int i = 0; i < members; i++) pthread_create(&th[i], 0, poller, &rx[i]);
    usleep(100000);
    for (start = now(), end = start + seconds; (t = now()) < end;) {
        long least = rx[0].got;
        for (int i = 1; i < members; i++) if (rx[i].got < least) least = rx[i].got;
        if (least < 0) die("get");
        if (sent - least < window) { if (http("POST", tx.sid, ev, len, tx.buf, CAP) < 0) die("post"); sent++; }
        else usleep(50);
    }
    long total = 0; for (int i = 0; i < members; i++) total += rx[i].got;
    if (!total) die("none");
    go = 0;
    printf("{\"test\":\"broadcast\",\"transport\":\"polling\",\"members\":%d,\"window\":%d,\"delivered\":%ld,"
           "\"delivered_per_second\":%.0f,\"sent_per_second\":%.0f}\n",
           members, window, total, total / (t - start), sent / (t - start));
}

static double deadline; static long done_all, failed_all;
static void *setter(void *x) {
    (void)x;
    while (now() < deadline) {
        int bad;
        if (!strcmp(transport, "ws")) { Ws w; bad = ws_open(&w, 0); if (w.fd >= 0) close(w.fd); free(w.buf); }
        else { Poll p; bad = poll_open(&p, 0); if (!bad) http("POST", p.sid, "1", 1, p.buf, CAP); free(p.buf); }
        __sync_fetch_and_add(bad ? &failed_all : &done_all, 1);
        if (bad && failed_all > 200) break;
    }
    return 0;
}
static void setup(void) {
    pthread_t th[64]; double start = now(); deadline = start + seconds;
    for (int i = 0; i < threads; i++) pthread_create(&th[i], 0, setter, 0);
    for (int i = 0; i < threads; i++) pthread_join(th[i], 0);
    if (failed_all) die("some set-ups failed");
    printf("{\"test\":\"setup\",\"transport\":\"%s\",\"threads\":%d,\"connected\":%ld,\"per_second\":%.0f}\n",
           transport, threads, done_all, done_all / (now() - start));
}

static const struct { const char *name; int *to; } NUMBERS[] = {
    { "--members", &members }, { "--rooms", &rooms_n }, { "--window", &window }, { "--threads", &threads }, { "--idle", &idle },
    { "--size", &size }, { "--all", &all_send },
};
static const struct { const char *name; void (*run)(void); } TESTS[] = {
    { "relay", relay }, { "rooms", rooms }, { "idle", at_rest }, { "latency", latency }, { "broadcast", broadcast }, { "setup", setup },
};
static void take(const char *key, const char *value) {
    for (size_t i = 0; i < sizeof NUMBERS / sizeof *NUMBERS; i++) if (!strcmp(key, NUMBERS[i].name)) { *NUMBERS[i].to = atoi(value); return; }
    if (!strcmp(key, "--port") && port_count < 16) port = ports[port_count++] = atoi(value);
    else if (!strcmp(key, "--test")) test = value;
    else if (!strcmp(key, "--transport")) transport = value;
    else if (!strcmp(key, "--seconds")) seconds = atof(value);
    else if (!strcmp(key, "--pid")) server = processes(value);
    else if (!strcmp(key, "--beside")) app = processes(value);
    else die("arguments");
}
int main(int argc, char **argv) {
    for (int i = 1; i + 1 < argc; i += 2) take(argv[i], argv[i + 1]);
    if (!port || threads > 64) die("arguments");
    for (size_t i = 0; i < sizeof TESTS / sizeof *TESTS; i++) if (!strcmp(test, TESTS[i].name)) { TESTS[i].run(); return 0; }
    die("arguments");
}
