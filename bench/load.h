/* What load.c and load_others.c share: clients' streams and their updates, the feed's pace, latencies and the run.
 *
 * A program that includes it has `hear_bytes` and `hear_message`, sets the variables without a value before it calls
 * `make_streams` and `run`, and adds to `published` and `total_published` what its feed publishes. */
#define _GNU_SOURCE
#include <arpa/inet.h>
#include <errno.h>
#include <netinet/in.h>
#include <netinet/tcp.h>
#include <poll.h>
#include <pthread.h>
#include <semaphore.h>
#include <stdarg.h>
#include <stdatomic.h>
#include <stdbool.h>
#include <stdint.h>
#include <stdio.h>
#include <stdlib.h>
#include <string.h>
#include <sys/epoll.h>
#include <sys/resource.h>
#include <sys/socket.h>
#include <time.h>
#include <unistd.h>

enum {
    FIELDS = 4,           /* seq, stamp, price, size */
    LONGEST_VALUE = 32,
    BUFFER = 16384,       /* what is read of a stream at once */
    BATCH = 64,           /* streams that are opened side by side */
    WINDOW = 64,          /* updates that the feed publishes beyond what is answered, or read */
    MOST_EVENTS = 256,    /* of one epoll_wait */
    KEPT = 1024,          /* seqs whose price and size are kept as text */
    TEXT = 0x81,          /* what a whole frame of a WebSocket begins with */
    MOST_MICROS = 4000000 /* latencies beyond this count as this */
};

#define SECOND 1000000000ull
#define PATIENCE (20 * SECOND)

struct stream {
    int fd;
    int number;
    int item;
    bool head_over;
    bool subscribed;
    bool has_row;
    bool is_unread;
    char session[24]; /* or another name to fail with */
    char row[FIELDS][LONGEST_VALUE];
    uint64_t seq;
    uint64_t lost; /* by OV, since the last update */
    size_t have;
    char buffer[BUFFER];
};

struct published {
    uint64_t seq;
    char price[LONGEST_VALUE];
    char size[LONGEST_VALUE];
};

static int streams, items, rate;
static bool raw;
static double seconds;
static double filling; /* how many seconds the feed publishes before anything is counted */
static const char *head_wanted; /* what a stream's head begins with */
static struct stream **all;
static uint64_t *published; /* the last seq of each item; the feed's thread writes it */
static _Atomic bool feed_over;
static _Atomic uint64_t total_published;
static uint64_t published_before; /* anything was counted */
static uint64_t lines, probes, lost;
static uint64_t left_out; /* updates that a later one came in place of */
static uint32_t *latencies;
static sem_t room; /* updates that may be published, as far as what is read holds the feed back */

/* Hears what is whole among bytes after a stream's head. Gives how many bytes that is. */
static size_t hear_bytes(struct stream *s, const char *bytes, size_t length, uint64_t at);

/* Hears a frame of a WebSocket, which begins with that byte. */
static void hear_message(struct stream *s, unsigned first, const char *bytes, size_t length, uint64_t at);

static void fail(const char *form, ...) {
    va_list rest;
    va_start(rest, form);
    fprintf(stderr, "%s: ", program_invocation_short_name);
    vfprintf(stderr, form, rest);
    fputc('\n', stderr);
    va_end(rest);
    exit(1);
}

static uint64_t now(void) {
    struct timespec t;
    clock_gettime(CLOCK_MONOTONIC, &t);
    return (uint64_t)t.tv_sec * SECOND + (uint64_t)t.tv_nsec;
}

static int connected(int to, int room) {
    int fd = socket(AF_INET, SOCK_STREAM, 0), one = 1;
    struct sockaddr_in address = {.sin_family = AF_INET, .sin_port = htons((uint16_t)to)};
    struct timeval patience = {.tv_sec = PATIENCE / SECOND};
    address.sin_addr.s_addr = htonl(INADDR_LOOPBACK);
    if (room > 0)
        setsockopt(fd, SOL_SOCKET, SO_RCVBUF, &room, sizeof room);
    if (fd < 0 || connect(fd, (struct sockaddr *)&address, sizeof address) != 0)
        fail("connect to port %d: %s", to, strerror(errno));
    setsockopt(fd, IPPROTO_TCP, TCP_NODELAY, &one, sizeof one);
    setsockopt(fd, SOL_SOCKET, SO_RCVTIMEO, &patience, sizeof patience);
    return fd;
}

static void send_all(int fd, const char *bytes, size_t length) {
    while (length > 0) {
        ssize_t sent = send(fd, bytes, length, MSG_NOSIGNAL);
        if (sent < 0) {
            if (errno == EINTR)
                continue;
            fail("send: %s", strerror(errno));
        }
        bytes += sent;
        length -= (size_t)sent;
    }
}

/* A message of a client, whose frame begins with that byte. A mask of zeros leaves the payload as it is. */
static void send_frame(int fd, unsigned first, const char *bytes, size_t length) {
    size_t begin;
    char frame[1024] = {(char)first};
    if (length < 126) {
        frame[1] = (char)(0x80 | length);
        begin = 2;
    } else {
        frame[1] = (char)(0x80 | 126);
        frame[2] = (char)(length >> 8);
        frame[3] = (char)length;
        begin = 4;
    }
    memset(frame + begin, 0, 4);
    memcpy(frame + begin + 4, bytes, length);
    send_all(fd, frame, begin + 4 + length);
}

/* Asks for a WebSocket, with that path and subprotocol. */
static void send_upgrade(int fd, const char *path, const char *subprotocol) {
    char text[512];
    int length = sprintf(text, "GET %s HTTP/1.1\r\nHost: localhost\r\nConnection: Upgrade\r\n"
                               "Upgrade: websocket\r\nSec-WebSocket-Version: 13\r\n"
                               "Sec-WebSocket-Key: dGhlIHNhbXBsZSBub25jZQ==\r\n%s%s%s\r\n", path,
                         subprotocol ? "Sec-WebSocket-Protocol: " : "", subprotocol ? subprotocol : "",
                         subprotocol ? "\r\n" : "");
    send_all(fd, text, (size_t)length);
}

/* Coded fields */

static int digit(char c) {
    if (c >= '0' && c <= '9')
        return c - '0';
    if (c >= 'A' && c <= 'F')
        return c - 'A' + 10;
    if (c >= 'a' && c <= 'f')
        return c - 'a' + 10;
    return -1;
}

static void decode_value(char *value, const char *token, size_t length) {
    size_t made = 0;
    for (size_t at = 0; at < length; at++) {
        char c = token[at];
        if (c == '%' && at + 2 < length && digit(token[at + 1]) >= 0 && digit(token[at + 2]) >= 0) {
            c = (char)(digit(token[at + 1]) * 16 + digit(token[at + 2]));
            at += 2;
        }
        if (made + 1 >= LONGEST_VALUE)
            fail("a value is too long");
        value[made++] = c;
    }
    value[made] = 0;
}

/* Decodes coded fields into the row of a stream. */
static void decode_row(struct stream *s, const char *coded, size_t length) {
    const char *end = coded + length;
    int field = 0;
    for (;;) {
        const char *bar = memchr(coded, '|', (size_t)(end - coded));
        size_t token = (size_t)((bar ? bar : end) - coded);
        int unchanged = token == 0 ? 1 : coded[0] == '^' ? atoi(coded + 1) : 0;
        if (field + (unchanged ? unchanged : 1) > FIELDS || (coded[0] == '^' && token > 0 && unchanged < 1))
            fail("fields that can't be: %.*s", (int)length, end - length);
        if (unchanged && !s->has_row)
            fail("a field is unchanged before there is a row");
        if (unchanged)
            field += unchanged;
        else if (token == 1 && (coded[0] == '#' || coded[0] == '$'))
            s->row[field++][0] = 0;
        else
            decode_value(s->row[field++], coded, token);
        if (!bar)
            break;
        coded = bar + 1;
    }
    if (field != FIELDS)
        fail("%d fields", field);
    s->has_row = true;
}

/* What the feed publishes with a seq, the stamp aside. */
static void price_of(char *text, uint64_t seq) {
    sprintf(text, "%u.%02u", (unsigned)(seq * 7 % 1000), (unsigned)(seq * 31 % 100));
}

static void size_of(char *text, uint64_t seq) {
    sprintf(text, "%u", (unsigned)(seq / 8 % 100000));
}

/* What was published with a seq. The last ones are kept, since many streams are told of each. */
static const struct published *published_with(uint64_t seq) {
    static struct published kept[KEPT];
    struct published *it = &kept[seq % KEPT];
    if (it->seq != seq) {
        it->seq = seq;
        price_of(it->price, seq);
        size_of(it->size, seq);
    }
    return it;
}

static void hear_update(struct stream *s, const char *coded, size_t length, uint64_t at) {
    decode_row(s, coded, length);
    uint64_t seq = strtoull(s->row[0], NULL, 10), stamp = strtoull(s->row[1], NULL, 10);
    const struct published *wanted = published_with(seq);
    if (seq <= s->seq)
        fail("%s: seq %llu comes after %llu", s->session, (unsigned long long)seq, (unsigned long long)s->seq);
    if (strcmp(wanted->price, s->row[2]) != 0 || strcmp(wanted->size, s->row[3]) != 0)
        fail("%s: %s, %s isn't the row of seq %llu", s->session, s->row[2], s->row[3], (unsigned long long)seq);
    if (raw && s->seq != 0 && seq != s->seq + 1 + s->lost)
        fail("%s: seq %llu comes after %llu and %llu lost", s->session, (unsigned long long)seq,
             (unsigned long long)s->seq, (unsigned long long)s->lost);
    left_out += seq - s->seq - 1;
    if (s->number >= streams - items)
        for (uint64_t read = s->seq; read < seq; read++)
            sem_post(&room);
    s->seq = seq;
    s->lost = 0;
    lines++;
    uint64_t micros = at > stamp ? (at - stamp) / 1000 : 0;
    latencies[micros < MOST_MICROS ? micros : MOST_MICROS]++;
}

/* Bytes of a stream */

static bool begins(const char *line, size_t length, const char *with) {
    return length >= strlen(with) && memcmp(line, with, strlen(with)) == 0;
}

/* Hears the messages that are whole among bytes of a WebSocket. Gives how many bytes they are. */
static size_t hear_frames(struct stream *s, const char *bytes, size_t length, uint64_t at) {
    size_t begin = 0;
    while (length - begin >= 2) {
        const unsigned char *frame = (const unsigned char *)bytes + begin;
        size_t head = 2, payload = frame[1];
        if (payload == 126) {
            if (length - begin < 4)
                break;
            head = 4;
            payload = (size_t)frame[2] << 8 | frame[3];
        } else if (payload > 126) {
            fail("a frame that is masked or longer than any line");
        }
        if (length - begin < head + payload)
            break;
        hear_message(s, frame[0], bytes + begin + head, payload, at);
        begin += head + payload;
    }
    return begin;
}

static size_t hear_head(struct stream *s) {
    const char *end = memmem(s->buffer, s->have, "\r\n\r\n", 4);
    if (!end)
        return 0;
    if (!begins(s->buffer, s->have, head_wanted))
        fail("a head that begins with %.20s", s->buffer);
    s->head_over = true;
    return (size_t)(end - s->buffer) + 4;
}

/* Reads a stream once, and hears what came. Gives whether there were bytes. */
static bool receive(struct stream *s, int flags) {
    ssize_t got = recv(s->fd, s->buffer + s->have, BUFFER - s->have, flags);
    if (got < 0 && (errno == EINTR || ((flags & MSG_DONTWAIT) && errno == EAGAIN)))
        return false;
    if (got <= 0)
        fail("%s: the stream has ended: %s", s->session, got < 0 ? strerror(errno) : "closed");
    uint64_t at = now();
    s->have += (size_t)got;
    size_t used = s->head_over ? 0 : hear_head(s);
    if (s->head_over)
        used += hear_bytes(s, s->buffer + used, s->have - used, at);
    s->have -= used;
    memmove(s->buffer, s->buffer + used, s->have);
    if (s->have == BUFFER)
        fail("a line is too long");
    return true;
}

/* The feed's pace */

static void sleep_until(uint64_t moment) {
    struct timespec t = {.tv_sec = (time_t)(moment / SECOND), .tv_nsec = (long)(moment % SECOND)};
    while (clock_nanosleep(CLOCK_MONOTONIC, TIMER_ABSTIME, &t, NULL) == EINTR)
        ;
}

/* Waits until an update may be published. Gives how many may, up to so many. What the last stream of each item has read
 * holds the feed back. */
static int room_for(int most) {
    struct timespec until;
    int count = 1;
    if (most <= 0)
        return 0;
    clock_gettime(CLOCK_REALTIME, &until);
    until.tv_sec += PATIENCE / SECOND;
    while (sem_timedwait(&room, &until) != 0)
        if (errno != EINTR)
            fail("nothing that is published is read");
    while (count < most && sem_trywait(&room) == 0)
        count++;
    return count;
}

/* The run */

static bool all_came(void) {
    for (int i = 0; i < streams; i++)
        if (all[i]->seq != published[all[i]->item])
            return false;
    return true;
}

/* Hears the streams: until a time, or until the feed is over and all of them have come to its last updates. */
static void hear_for(int poll_fd, bool by_time, uint64_t until) {
    struct epoll_event events[MOST_EVENTS];
    uint64_t last = now();
    for (;;) {
        int ready = epoll_wait(poll_fd, events, MOST_EVENTS, 50);
        for (int i = 0; i < ready; i++)
            receive(events[i].data.ptr, MSG_DONTWAIT);
        uint64_t at = now();
        if (ready > 0)
            last = at;
        if (by_time ? at >= until : atomic_load(&feed_over) && all_came())
            return;
        if (!by_time && at - last > PATIENCE)
            fail("nothing came for %llu s, and the streams haven't the last state", PATIENCE / SECOND);
    }
}

static double processor_time(void) {
    struct rusage used;
    getrusage(RUSAGE_SELF, &used);
    return (double)(used.ru_utime.tv_sec + used.ru_stime.tv_sec) +
           (double)(used.ru_utime.tv_usec + used.ru_stime.tv_usec) / 1e6;
}

static uint64_t percentile(double part) {
    uint64_t wanted = (uint64_t)((double)lines * part), seen = 0;
    for (uint64_t micros = 0; micros <= MOST_MICROS; micros++)
        if ((seen += latencies[micros]) > wanted)
            return micros;
    return MOST_MICROS;
}

static uint64_t greatest(void) {
    uint64_t micros = MOST_MICROS;
    while (micros > 0 && latencies[micros] == 0)
        micros--;
    return micros;
}

static void wait_for_line(void) {
    for (int c = getchar(); c != '\n' && c != EOF;)
        c = getchar();
}

/* Makes the streams that are heard, and so many more. */
static void make_streams(int more) {
    all = calloc((size_t)(streams + more), sizeof *all);
    published = calloc((size_t)items, sizeof *published);
    latencies = calloc(MOST_MICROS + 1, sizeof *latencies);
    sem_init(&room, 0, WINDOW);
    for (int i = 0; i < streams + more; i++) {
        all[i] = calloc(1, sizeof **all);
        all[i]->number = i;
        all[i]->item = i % items;
        all[i]->is_unread = i >= streams;
    }
}

static void report(double took, double used) {
    printf("seconds %.3f\npublished %llu\nlines %llu\nprobes %llu\nlost %llu\nleft_out %llu\n", took,
           (unsigned long long)(total_published - published_before), (unsigned long long)lines, (unsigned long long)probes,
           (unsigned long long)lost, (unsigned long long)left_out);
    printf("median %llu\nmost_of_99 %llu\ngreatest %llu\nown_time %.2f\ndone\n", (unsigned long long)percentile(0.5),
           (unsigned long long)percentile(0.99), (unsigned long long)greatest(), used);
    fflush(stdout);
}

static pthread_t begun(void *(*thread)(void *)) {
    pthread_t it;
    if (pthread_create(&it, NULL, thread, NULL) != 0)
        fail("no thread");
    return it;
}

/* Has counts begin anew. */
static void forget(void) {
    published_before = total_published;
    lines = probes = lost = left_out = 0;
    memset(latencies, 0, (MOST_MICROS + 1) * sizeof *latencies);
}

/* Runs the feed, and the other thread where there is one, while it hears the streams that are open. Where it fills first, it
 * then prints `filled` and waits for a line. */
static void run(void *(*feed)(void *), void *(*beside)(void *)) {
    int poll_fd = epoll_create1(0);
    for (int i = 0; i < streams; i++) {
        struct epoll_event event = {.events = EPOLLIN, .data.ptr = all[i]};
        epoll_ctl(poll_fd, EPOLL_CTL_ADD, all[i]->fd, &event);
    }
    puts("ready");
    fflush(stdout);
    wait_for_line();
    double used = processor_time();
    uint64_t began = now();
    pthread_t feeds = 0;
    if (beside)
        begun(beside);
    if (rate >= 0)
        feeds = begun(feed);
    if (filling > 0) {
        hear_for(poll_fd, true, began + (uint64_t)(filling * (double)SECOND));
        puts("filled");
        fflush(stdout);
        wait_for_line();
        forget();
        used = processor_time();
        began = now();
    }
    hear_for(poll_fd, rate < 0, began + (uint64_t)(seconds * (double)SECOND));
    double took = (double)(now() - began) / (double)SECOND;
    used = processor_time() - used;
    if (rate >= 0)
        pthread_join(feeds, NULL);
    report(took, used);
    wait_for_line();
}
