/* An example of a name server over the proved core: UDP and TCP at one address, one process a worker.
 *
 *   server ADDRESS PORT WORKERS ORIGIN ZONEFILE [ORIGIN ZONEFILE ..]
 *
 * SIGHUP loads the zones again; one whose file is refused stays as it was.
 */
#define _GNU_SOURCE
#include "soarnef.h"
#include <arpa/inet.h>
#include <errno.h>
#include <poll.h>
#include <signal.h>
#include <stdio.h>
#include <stdlib.h>
#include <string.h>
#include <sys/prctl.h>
#include <sys/socket.h>
#include <sys/wait.h>
#include <time.h>
#include <unistd.h>

enum { BATCH = 64, MESSAGE = 4096, REPLY = 65535, STREAMS = 64, PATIENCE = 10 };

struct stream { /* a connection: its frames as far as they have come */
    int fd;
    time_t used;
    size_t have;
    struct sockaddr_storage from;
    uint8_t in[2 + 65535];
};

static soarnef *core;
static uint8_t received[BATCH][MESSAGE + 64]; /* (rows that don't fall on the same lines of the cache) */
static uint8_t replies[BATCH * REPLY], framed[2 + REPLY];
static struct stream streams[STREAMS];
static struct pollfd polled[2 + STREAMS];
static volatile sig_atomic_t reload;

static void fail(const char *what) {
    fprintf(stderr, "%s%s%s\n", what, errno ? ": " : "", errno ? strerror(errno) : "");
    exit(1);
}

static size_t serve(const uint8_t *message, size_t len, const struct sockaddr_storage *from, bool stream,
                    uint8_t *reply) {
    if (len > 2 && (message[2] & 0x80)) return 0; /* a reply */
    const struct sockaddr_in *v4 = (const void *)from;
    const struct sockaddr_in6 *v6 = (const void *)from;
    bool is_v4 = from->ss_family == AF_INET;
    int64_t n = soarnef_serve(core, message, len, is_v4 ? (const uint8_t *)&v4->sin_addr : v6->sin6_addr.s6_addr,
                              is_v4 ? 4 : 16, ntohs(is_v4 ? v4->sin_port : v6->sin6_port), stream,
                              (uint64_t)time(NULL), reply, REPLY);
    return n > 0 ? (size_t)n : 0;
}

static void datagrams(int fd) {
    static struct sockaddr_storage from[BATCH];
    static struct iovec in[BATCH], out[BATCH];
    static struct mmsghdr got[BATCH], sent[BATCH];
    for (int i = 0; i < BATCH; i++) {
        in[i] = (struct iovec){received[i], MESSAGE};
        got[i].msg_hdr = (struct msghdr){.msg_name = &from[i], .msg_namelen = sizeof from[i], .msg_iov = &in[i],
                                         .msg_iovlen = 1};
    }
    int count = recvmmsg(fd, got, BATCH, MSG_DONTWAIT, NULL), answers = 0;
    uint8_t *reply = replies;
    for (int i = 0; i < count; i++) {
        if (got[i].msg_hdr.msg_flags & MSG_TRUNC) continue;
        size_t n = serve(received[i], got[i].msg_len, &from[i], false, reply);
        if (!n) continue;
        out[answers] = (struct iovec){reply, n};
        reply += n;
        sent[answers].msg_hdr = (struct msghdr){.msg_name = &from[i], .msg_namelen = got[i].msg_hdr.msg_namelen,
                                                .msg_iov = &out[answers], .msg_iovlen = 1};
        answers++;
    }
    for (int done = 0; done < answers;) {
        int n = sendmmsg(fd, sent + done, answers - done, 0);
        done += n > 0 ? n : 1; /* one that can't be sent is left out */
    }
}

static void leave(struct stream *s) {
    close(s->fd);
    s->fd = -1;
}

static void connected(int listener) { /* takes the place of the one that was silent longest */
    struct stream *s = streams;
    for (int i = 1; i < STREAMS && s->fd >= 0; i++)
        if (streams[i].fd < 0 || streams[i].used < s->used) s = &streams[i];
    if (s->fd >= 0) leave(s);
    socklen_t len = sizeof s->from;
    s->fd = accept4(listener, (struct sockaddr *)&s->from, &len, SOCK_CLOEXEC);
    if (s->fd < 0) return;
    struct timeval limit = {1, 0}; /* who doesn't read his replies is left */
    setsockopt(s->fd, SOL_SOCKET, SO_SNDTIMEO, &limit, sizeof limit);
    s->used = time(NULL);
    s->have = 0;
}

static void frames(struct stream *s) {
    ssize_t n = recv(s->fd, s->in + s->have, sizeof s->in - s->have, MSG_DONTWAIT);
    if (n <= 0) {
        if (n == 0 || errno != EAGAIN) leave(s);
        return;
    }
    s->used = time(NULL);
    s->have += (size_t)n;
    size_t at = 0, len;
    for (; s->have - at >= 2 && s->have - at - 2 >= (len = s->in[at] << 8 | s->in[at + 1]); at += 2 + len) {
        size_t reply = serve(s->in + at + 2, len, &s->from, true, framed + 2);
        framed[0] = (uint8_t)(reply >> 8), framed[1] = (uint8_t)reply;
        if (reply && send(s->fd, framed, 2 + reply, MSG_NOSIGNAL) != (ssize_t)(2 + reply)) return leave(s);
    }
    memmove(s->in, s->in + at, s->have -= at);
}

static int bound(const struct sockaddr_storage *address, socklen_t len, int type) {
    int fd = socket(address->ss_family, type | SOCK_CLOEXEC, 0), on = 1, room = 1 << 20;
    if (fd < 0 || setsockopt(fd, SOL_SOCKET, SO_REUSEADDR, &on, sizeof on)
        || setsockopt(fd, SOL_SOCKET, SO_REUSEPORT, &on, sizeof on) || bind(fd, (const void *)address, len)
        || (type == SOCK_STREAM && listen(fd, 128)))
        fail("socket");
    if (setsockopt(fd, SOL_SOCKET, SO_RCVBUFFORCE, &room, sizeof room)) /* for bursts; root's right */
        setsockopt(fd, SOL_SOCKET, SO_RCVBUF, &room, sizeof room);
    return fd;
}

static uint8_t *file(const char *path, size_t *len) {
    FILE *f = fopen(path, "rb");
    uint8_t *text = NULL;
    long end = f && !fseek(f, 0, SEEK_END) ? ftell(f) : -1;
    if (end >= 0 && !fseek(f, 0, SEEK_SET) && (text = malloc((size_t)end + 1))) *len = fread(text, 1, (size_t)end, f);
    if (!text || ferror(f)) perror(path), free(text), text = NULL;
    if (f) fclose(f);
    return text;
}

static bool loaded(char **words) { /* a zone that is refused stays as it was */
    bool all = true;
    for (size_t len; *words; words += 2) {
        uint8_t why[64] = "", *text = file(words[1], &len);
        int64_t n = !text ? 0 : soarnef_add_zone(core, SOARNEF_PRIMARY, (uint8_t *)words[0], strlen(words[0]), text,
                                                 len, why, sizeof why - 1);
        if (n) fprintf(stderr, "%s: %s (%lld)\n", words[1], why, (long long)n);
        all = all && text && !n;
        free(text);
    }
    return all;
}

static void hangup(int signal) { (void)signal, reload = 1; }

static void work(const struct sockaddr_storage *address, socklen_t len, char **words) {
    int udp = bound(address, len, SOCK_DGRAM), tcp = bound(address, len, SOCK_STREAM);
    for (int i = 0; i < STREAMS; i++) streams[i].fd = -1;
    for (;;) {
        polled[0] = (struct pollfd){udp, POLLIN, 0};
        polled[1] = (struct pollfd){tcp, POLLIN, 0};
        for (int i = 0; i < STREAMS; i++) polled[2 + i] = (struct pollfd){streams[i].fd, POLLIN, 0};
        int ready = poll(polled, 2 + STREAMS, 1000);
        if (reload) reload = 0, loaded(words);
        if (ready < 0) continue;
        for (int i = 0; i < STREAMS; i++) {
            struct stream *s = &streams[i];
            if (s->fd >= 0 && polled[2 + i].revents) frames(s);
            else if (s->fd >= 0 && time(NULL) - s->used > PATIENCE) leave(s);
        }
        if (polled[1].revents) connected(tcp);
        if (polled[0].revents) datagrams(udp);
    }
}

int main(int argc, char **argv) {
    static pid_t workers[64];
    struct sockaddr_storage address = {0};
    struct sockaddr_in *v4 = (void *)&address;
    struct sockaddr_in6 *v6 = (void *)&address;
    int count = argc > 3 ? atoi(argv[3]) : 0;
    if (argc < 6 || argc % 2 || count < 1 || count > 64)
        fail("usage: server ADDRESS PORT WORKERS ORIGIN ZONEFILE [ORIGIN ZONEFILE ..]");
    bool is_v4 = inet_pton(AF_INET, argv[1], &v4->sin_addr) == 1;
    if (!is_v4 && inet_pton(AF_INET6, argv[1], &v6->sin6_addr) != 1) fail(argv[1]);
    address.ss_family = is_v4 ? AF_INET : AF_INET6;
    *(is_v4 ? &v4->sin_port : &v6->sin6_port) = htons((uint16_t)atoi(argv[2]));
    if (!(core = malloc(soarnef_size()))) fail("malloc");
    soarnef_open(core);
    if (!loaded(argv + 4)) return 3;
    sigaction(SIGHUP, &(struct sigaction){.sa_handler = hangup}, NULL);
    for (int i = 0; i < count; i++)
        if ((workers[i] = fork()) == 0) {
            prctl(PR_SET_PDEATHSIG, SIGTERM);
            work(&address, is_v4 ? sizeof *v4 : sizeof *v6, argv + 4);
        }
    while (wait(NULL) > 0 || errno == EINTR)
        if (reload)
            for (int i = reload = 0; i < count; i++) kill(workers[i], SIGHUP);
}
