/* Loads a server over loopback: clients' streams, and a feed. bench/serve compiles and runs it.
 *
 * usage: load PORT FEED http|ws MERGE|RAW STREAMS ITEMS RATE SECONDS UNREAD SLOW ok|read
 *
 * Each stream is a session of its own, which subscribes to one item in that mode: stream i to item i modulo ITEMS.
 * The items are named i0, i1 and so on and have the fields seq, stamp, price and size. RATE is how many updates a
 * second the feed publishes, over all items by turns; 0 is as fast as it can, with at most WINDOW lines that have no
 * reply, and with `read` at most WINDOW updates ahead of what the last stream of each item has read, or was told that
 * it lost; -1 is no feed. UNREAD more streams, of the same items, have small buffers and aren't read, so they may be
 * lost. SLOW more have small buffers, too, and are read SLOW_BYTES a second each.
 *
 * It prints `ready` when all streams are subscribed, and waits for a line. Where some are read slowly, the feed then
 * publishes for FILLING seconds of which nothing is counted, and it prints `filled` and waits for a line. Then the feed
 * publishes for so many seconds, and all streams must come to the last update of their items. It prints what was counted, a name and a number on each
 * line, then `done`, and waits for another line before it closes the streams.
 *
 * Each client decodes each line. It ends the program with status 1 where a seq doesn't rise, in RAW one is left out
 * that no OV counts, a row isn't the one that was published with its seq, or a line has no place here. A latency is the
 * time from just before the feed's write to just after the client's read. */
#include "load.h"

enum {
    UNREAD_ROOM = 4096, /* of the socket of a stream that isn't read, or slowly */
    SLOW_BYTES = 1024,  /* that a stream which is read slowly is read in a second */
    FILLING = 20        /* seconds after which what the system keeps of these streams is full */
};

static int port, feed_port, unread, slow;
static bool ws, held_by_reads;

/* Lines of a stream */

static void hear_line(struct stream *s, const char *line, size_t length, uint64_t at) {
    if (begins(line, length, "U,1,1,")) {
        hear_update(s, line + 6, length - 6, at);
    } else if (begins(line, length, "CONOK,")) {
        const char *comma = memchr(line + 6, ',', length - 6);
        if (!comma || (size_t)(comma - line - 6) >= sizeof s->session)
            fail("%.*s", (int)length, line);
        memcpy(s->session, line + 6, (size_t)(comma - line - 6));
        s->session[comma - line - 6] = 0;
    } else if (raw && begins(line, length, "OV,1,1,")) {
        s->lost += strtoull(line + 7, NULL, 10);
        lost++;
    } else if (begins(line, length, "CONF,1,")) {
        s->subscribed = true;
    } else if (begins(line, length, "PROBE")) {
        probes++;
    } else if (!begins(line, length, "SERVNAME,") && !begins(line, length, "CONS,") &&
               !begins(line, length, "SUBOK,1,1,4") && !begins(line, length, "REQOK,")) {
        fail("%s is told %.*s", s->session, (int)length, line);
    }
}

/* Hears the lines that are whole among bytes of a body. Gives how many bytes they are. */
static size_t hear_lines(struct stream *s, const char *bytes, size_t length, uint64_t at) {
    const char *begin = bytes, *end = bytes + length, *feed;
    while ((feed = memchr(begin, '\n', (size_t)(end - begin))) != NULL) {
        if (feed == begin || feed[-1] != '\r')
            fail("a line without CR");
        hear_line(s, begin, (size_t)(feed - 1 - begin), at);
        begin = feed + 1;
    }
    return (size_t)(begin - bytes);
}

static size_t hear_bytes(struct stream *s, const char *bytes, size_t length, uint64_t at) {
    return ws ? hear_frames(s, bytes, length, at) : hear_lines(s, bytes, length, at);
}

static void hear_message(struct stream *s, unsigned first, const char *bytes, size_t length, uint64_t at) {
    if (first != TEXT)
        fail("a frame that begins with %02x", first);
    if (hear_lines(s, bytes, length, at) != length)
        fail("a message that isn't whole lines");
}

/* Opening */

static void send_text(int fd, const char *text) {
    send_frame(fd, TEXT, text, strlen(text));
}

static const char *add_text(char *text, const struct stream *s, int number) {
    sprintf(text, "LS_reqId=%d&LS_session=%s&LS_op=add&LS_subId=1&LS_mode=%s&LS_group=i%d"
                  "&LS_schema=seq+stamp+price+size\r\n", number, s->session, raw ? "RAW" : "MERGE", s->item);
    return text;
}

static void ask_for_stream(struct stream *s) {
    /* A stream that is long enough for any run. */
    static const char *create = "POST /lightstreamer/create_session.txt?LS_protocol=TLCP-2.1.0 HTTP/1.1\r\n"
                                "Host: localhost\r\nContent-Length: 31\r\n\r\nLS_content_length=1000000000000";
    s->fd = connected(port, s->is_unread ? UNREAD_ROOM : 0);
    if (ws)
        send_upgrade(s->fd, "/lightstreamer", "TLCP-2.1.0.lightstreamer.com");
    else
        send_all(s->fd, create, strlen(create));
}

/* Subscribes the sessions of a batch by one request, which has a line for each. */
static void subscribe_by_http(int first, int past) {
    static char body[BATCH * 256], head[256], answer[BUFFER];
    size_t length = 0, have = 0;
    for (int i = first; i < past; i++)
        length += strlen(add_text(body + length, all[i], i));
    int fd = connected(port, 0);
    sprintf(head, "POST /lightstreamer/control.txt?LS_protocol=TLCP-2.1.0 HTTP/1.1\r\nHost: localhost\r\n"
                  "Content-Length: %zu\r\n\r\n", length);
    send_all(fd, head, strlen(head));
    send_all(fd, body, length);
    for (ssize_t got; (got = recv(fd, answer + have, sizeof answer - 1 - have, 0)) > 0;)
        have += (size_t)got;
    answer[have] = 0;
    int done = 0;
    for (const char *at = answer; (at = strstr(at, "\r\nREQOK,")) != NULL; at += 2)
        done++;
    if (done != past - first)
        fail("of %d subscriptions %d are done: %s", past - first, done, answer);
    close(fd);
}

static void open_batch(int first, int past) {
    char text[256];
    for (int i = first; i < past; i++)
        ask_for_stream(all[i]);
    for (int i = first; ws && i < past; i++) {
        while (!all[i]->head_over)
            receive(all[i], 0);
        send_text(all[i]->fd, "create_session\r\n");
    }
    for (int i = first; i < past; i++) {
        while (!all[i]->session[0])
            receive(all[i], 0);
        if (ws) {
            char message[300] = "control\r\n";
            send_text(all[i]->fd, strcat(message, add_text(text, all[i], i)));
        }
    }
    if (!ws)
        subscribe_by_http(first, past);
    for (int i = first; i < past; i++)
        while (!all[i]->subscribed)
            receive(all[i], 0);
}

/* The feed */

struct feed {
    int fd;
    int waiting;
    int next_item;
    char rest[BUFFER];
    size_t have;
};

/* Appends the next line of the feed. Gives its length. */
static size_t append_event(struct feed *f, char *line) {
    char price[LONGEST_VALUE], size[LONGEST_VALUE];
    int item = f->next_item;
    uint64_t seq = ++published[item];
    f->next_item = (item + 1) % items;
    price_of(price, seq);
    size_of(size, seq);
    return (size_t)sprintf(line, "i%d %llu seq=%llu&stamp=%llu&price=%s&size=%s\n", item, (unsigned long long)seq,
                           (unsigned long long)seq, (unsigned long long)now(), price, size);
}

static void publish(struct feed *f, int count) {
    static char batch[WINDOW * 192];
    size_t length = 0;
    for (int i = 0; i < count; i++)
        length += append_event(f, batch + length);
    send_all(f->fd, batch, length);
    f->waiting += count;
    total_published += (uint64_t)count;
}

/* Reads replies that came, and waits for one where that is asked for. */
static void hear_replies(struct feed *f, bool wait) {
    ssize_t got = recv(f->fd, f->rest + f->have, sizeof f->rest - f->have, wait ? 0 : MSG_DONTWAIT);
    if (got < 0 && errno == EAGAIN && !wait)
        return;
    if (got <= 0)
        fail("the feed's connection has ended");
    f->have += (size_t)got;
    char *begin = f->rest, *end;
    while ((end = memchr(begin, '\n', f->have - (size_t)(begin - f->rest))) != NULL) {
        if (!begins(begin, (size_t)(end - begin), "ok "))
            fail("the feed is told %.*s", (int)(end - begin), begin);
        f->waiting--;
        begin = end + 1;
    }
    f->have -= (size_t)(begin - f->rest);
    memmove(f->rest, begin, f->have);
}

static void *feed_for_seconds(void *unused) {
    static struct feed f;
    (void)unused;
    f.fd = connected(feed_port, 0);
    send_all(f.fd, "feed 1\n", 7);
    uint64_t began = now(), ends = began + (uint64_t)((filling + seconds) * (double)SECOND);
    for (uint64_t turn = 1; now() < ends; turn++) {
        if (rate > 0) {
            sleep_until(began + turn * SECOND / (uint64_t)rate);
            publish(&f, 1);
            hear_replies(&f, f.waiting >= WINDOW);
        } else {
            int most = WINDOW - f.waiting;
            publish(&f, held_by_reads ? room_for(most) : most);
            hear_replies(&f, true);
        }
    }
    while (f.waiting > 0)
        hear_replies(&f, true);
    atomic_store(&feed_over, true);
    return NULL;
}

/* Reads the last streams slowly, each once a second. What they are told isn't looked at. */
static void *read_slowly(void *unused) {
    char bytes[SLOW_BYTES];
    uint64_t began = now();
    (void)unused;
    for (uint64_t turn = 1;; turn++) {
        for (int i = 0; i < slow; i++) {
            recv(all[streams + unread + i]->fd, bytes, sizeof bytes, MSG_DONTWAIT);
            sleep_until(began + (turn * (uint64_t)slow + (uint64_t)i) * SECOND / (uint64_t)slow);
        }
    }
    return NULL;
}

int main(int count, char **words) {
    if (count != 12)
        fail("usage: load PORT FEED http|ws MERGE|RAW STREAMS ITEMS RATE SECONDS UNREAD SLOW ok|read");
    port = atoi(words[1]);
    feed_port = atoi(words[2]);
    ws = strcmp(words[3], "ws") == 0;
    raw = strcmp(words[4], "RAW") == 0;
    streams = atoi(words[5]);
    items = atoi(words[6]);
    rate = atoi(words[7]);
    seconds = atof(words[8]);
    unread = atoi(words[9]);
    slow = atoi(words[10]);
    held_by_reads = strcmp(words[11], "read") == 0;
    filling = slow > 0 ? FILLING : 0;
    head_wanted = ws ? "HTTP/1.1 101 " : "HTTP/1.1 200 ";
    int many = streams + unread + slow;
    make_streams(unread + slow);
    for (int i = 0; i < many; i += BATCH)
        open_batch(i, i + BATCH < many ? i + BATCH : many);
    run(feed_for_seconds, slow > 0 ? read_slowly : NULL);
    return 0;
}
