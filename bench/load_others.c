/* Loads a push server that isn't `tlcpd` over loopback: subscribers over WebSocket, and a publisher. bench/others
 * compiles and runs it.
 *
 * usage: load_others PORT FEED nats|mqtt|nchan STREAMS ITEMS RATE SECONDS ALIVE
 *
 * Stream i subscribes to the topic i modulo ITEMS; the topics are named i0, i1 and so on. RATE is how many messages a
 * second are published, over all topics by turns; 0 is as fast as it can be, -1 is none. The publisher has a connection
 * to FEED without WebSocket: the protocol's own, or HTTP. It is at most WINDOW messages ahead of what the last stream
 * of each topic has read, of all topics together. With nchan at most WINDOW requests have no reply either. Each client
 * of MQTT pings each ALIVE seconds, where that isn't 0.
 *
 * A message is seq|stamp|price|size, which is what the fields of an update line of `tlcpd` are. What it prints, and
 * when, is as load.c does it. It ends with status 1 where a seq doesn't rise, a message isn't the one that was
 * published with its seq, the last one doesn't come, or a server says what has no place here. */
#include "load.h"

enum {
    BINARY = 0x82,
    WEBSOCKET_PING = 0x89,
    WEBSOCKET_PONG = 0x8a,
    MQTT_CONNACK = 0x20,
    MQTT_PUBLISH = 0x30,
    MQTT_SUBACK = 0x90,
    MQTT_PINGRESP = 0xd0,
    MQTT_ALIVE = 60, /* the seconds of most clients of MQTT */
    LONGEST_PACKET = 512
};

struct feed {
    int fd;
    int waiting; /* requests without a reply */
    int next_item;
    char rest[BUFFER];
    size_t have;
};

/* How a server is spoken to. */
struct protocol {
    const char *name;
    const char *subprotocol;
    /* Asks for a stream's topic, when its head is over. */
    void (*subscribe)(struct stream *s);
    /* Hears what is whole among bytes that a WebSocket's frames hold. Gives how many bytes that is. */
    size_t (*hear)(struct stream *s, const char *bytes, size_t length, uint64_t at);
    void (*greet)(struct feed *f);
    /* Writes what publishes a message. Gives its length. */
    size_t (*write)(char *packet, int item, const char *text, size_t length);
    /* Hears a reply that is whole among bytes. Gives its length, or 0 where none is. */
    size_t (*hear_reply)(struct feed *f, const char *bytes, size_t length);
};

/* What frames have told a stream that isn't a whole packet yet. */
struct unframed {
    size_t have;
    char bytes[2 * BUFFER];
};

static int port, feed_port, alive;
static const struct protocol *spoken;
static struct unframed *unframed;

static bool is_topic(const struct stream *s, const char *name, size_t length) {
    char topic[LONGEST_VALUE];
    return (size_t)sprintf(topic, "i%d", s->item) == length && memcmp(topic, name, length) == 0;
}

/* NATS */

static const char nats_greeting[] = "CONNECT {\"verbose\":false,\"pedantic\":false,\"lang\":\"c\",\"version\":\"1\","
                                    "\"protocol\":1}\r\n";

static void nats_subscribe(struct stream *s) {
    char text[LONGEST_PACKET];
    int length = sprintf(text, "%sSUB i%d 1\r\nPING\r\n", nats_greeting, s->item);
    send_frame(s->fd, BINARY, text, (size_t)length);
}

/* Hears `MSG topic 1 length`, and the message after it. Gives how many bytes these are, or 0. */
static size_t nats_hear_message(struct stream *s, const char *line, size_t head, size_t have, uint64_t at) {
    const char *name = line + 4, *name_end = memchr(name, ' ', head - 4);
    if (!name_end || !is_topic(s, name, (size_t)(name_end - name)) || !begins(name_end, head - 4, " 1 "))
        fail("%s is told %.*s", s->session, (int)head, line);
    size_t length = strtoul(name_end + 3, NULL, 10);
    if (have < head + length + 2)
        return 0;
    hear_update(s, line + head, length, at);
    return head + length + 2;
}

static size_t nats_hear(struct stream *s, const char *bytes, size_t length, uint64_t at) {
    size_t begin = 0;
    const char *end;
    while ((end = memchr(bytes + begin, '\n', length - begin)) != NULL) {
        const char *line = bytes + begin;
        size_t used = (size_t)(end + 1 - line);
        if (begins(line, used, "MSG "))
            used = nats_hear_message(s, line, used, length - begin, at);
        else if (begins(line, used, "PING\r"))
            probes++, send_frame(s->fd, BINARY, "PONG\r\n", 6);
        else if (begins(line, used, "PONG\r"))
            s->subscribed = true;
        else if (!begins(line, used, "INFO "))
            fail("%s is told %.*s", s->session, (int)used, line);
        if (used == 0)
            break;
        begin += used;
    }
    return begin;
}

static void nats_greet(struct feed *f) {
    send_all(f->fd, nats_greeting, strlen(nats_greeting));
}

static size_t nats_write(char *packet, int item, const char *text, size_t length) {
    return (size_t)sprintf(packet, "PUB i%d %zu\r\n%.*s\r\n", item, length, (int)length, text);
}

static size_t nats_hear_reply(struct feed *f, const char *bytes, size_t length) {
    const char *end = memchr(bytes, '\n', length);
    size_t used = end ? (size_t)(end + 1 - bytes) : 0;
    if (used > 0 && begins(bytes, used, "PING\r"))
        send_all(f->fd, "PONG\r\n", 6);
    else if (used > 0 && !begins(bytes, used, "INFO "))
        fail("the publisher is told %.*s", (int)used, bytes);
    return used;
}

/* MQTT 3.1.1 */

/* The length of a packet that is whole among bytes, and where its body begins; or 0. */
static size_t mqtt_packet(const unsigned char *bytes, size_t have, size_t *body) {
    size_t rest = 0, at = 1;
    for (int shift = 0; at < have && shift < 28; shift += 7) {
        rest |= (size_t)(bytes[at] & 127) << shift;
        if (bytes[at++] < 128) {
            *body = at;
            return have >= at + rest ? at + rest : 0;
        }
    }
    return 0;
}

static size_t mqtt_connect(char *packet, int number) {
    char client[LONGEST_VALUE];
    int length = sprintf(client, "c%d", number);
    static const char form[] = "\x10%c%c\x04MQTT\x04\x02%c%c%c%c%s";
    return (size_t)sprintf(packet, form, 12 + length, 0, 0, alive ? alive : MQTT_ALIVE, 0, length, client);
}

static void mqtt_subscribe(struct stream *s) {
    char packets[LONGEST_PACKET], topic[LONGEST_VALUE];
    size_t length = mqtt_connect(packets, s->number);
    int name = sprintf(topic, "i%d", s->item);
    length += (size_t)sprintf(packets + length, "\x82%c%c\x01%c%c%s%c", 5 + name, 0, 0, name, topic, 0);
    send_frame(s->fd, BINARY, packets, length);
}

static void mqtt_hear_message(struct stream *s, const char *body, size_t length, uint64_t at) {
    size_t name = length < 2 ? length : (size_t)(unsigned char)body[0] << 8 | (unsigned char)body[1];
    if (name + 2 > length || !is_topic(s, body + 2, name))
        fail("%s is told of a topic that isn't its own", s->session);
    hear_update(s, body + 2 + name, length - 2 - name, at);
}

static size_t mqtt_hear(struct stream *s, const char *bytes, size_t length, uint64_t at) {
    size_t begin = 0, used, body;
    while ((used = mqtt_packet((const unsigned char *)bytes + begin, length - begin, &body)) > 0) {
        const char *packet = bytes + begin;
        unsigned kind = (unsigned char)packet[0];
        bool is_good = used == body + (kind == MQTT_SUBACK ? 3 : 2) && packet[used - 1] == 0;
        if (kind == MQTT_PUBLISH)
            mqtt_hear_message(s, packet + body, used - body, at);
        else if (kind == MQTT_SUBACK && is_good)
            s->subscribed = true;
        else if (kind == MQTT_PINGRESP)
            probes++;
        else if (kind != MQTT_CONNACK || !is_good)
            fail("%s is told a packet that begins with %02x", s->session, kind);
        begin += used;
    }
    return begin;
}

static void mqtt_greet(struct feed *f) {
    char packet[LONGEST_PACKET];
    send_all(f->fd, packet, mqtt_connect(packet, streams));
}

static size_t mqtt_write(char *packet, int item, const char *text, size_t length) {
    char topic[LONGEST_VALUE];
    int name = sprintf(topic, "i%d", item);
    return (size_t)sprintf(packet, "%c%c%c%c%s%.*s", MQTT_PUBLISH, 2 + name + (int)length, 0, name, topic, (int)length,
                           text);
}

static size_t mqtt_hear_reply(struct feed *f, const char *bytes, size_t length) {
    size_t body;
    (void)f;
    if (length > 0 && (unsigned char)bytes[0] != MQTT_CONNACK)
        fail("the publisher is told a packet that begins with %02x", (unsigned char)bytes[0]);
    return mqtt_packet((const unsigned char *)bytes, length, &body);
}

/* Pings for all clients, spread over the time between two pings of one. Who connected first comes first. */
static void *keep_alive(void *unused) {
    uint64_t began = now(), between = (uint64_t)alive * SECOND / (uint64_t)streams;
    (void)unused;
    for (uint64_t turn = 0;; turn++) {
        sleep_until(began + turn * between);
        send_frame(all[turn % (uint64_t)streams]->fd, BINARY, "\xc0", 2);
    }
    return NULL;
}

/* nchan */

static void nchan_subscribe(struct stream *s) {
    s->subscribed = true;
}

static size_t nchan_hear(struct stream *s, const char *bytes, size_t length, uint64_t at) {
    hear_update(s, bytes, length, at);
    return length;
}

static void nchan_greet(struct feed *f) {
    (void)f;
}

static size_t nchan_write(char *packet, int item, const char *text, size_t length) {
    static const char form[] = "POST /publish/i%d HTTP/1.1\r\nHost: localhost\r\nContent-Length: %zu\r\n\r\n%.*s";
    return (size_t)sprintf(packet, form, item, length, (int)length, text);
}

static size_t nchan_hear_reply(struct feed *f, const char *bytes, size_t length) {
    const char *end = memmem(bytes, length, "\r\n\r\n", 4), *told;
    if (!end)
        return 0;
    size_t head = (size_t)(end - bytes) + 4;
    if (!begins(bytes, head, "HTTP/1.1 201 ") && !begins(bytes, head, "HTTP/1.1 202 "))
        fail("the publisher is told %.*s", (int)head, bytes);
    told = memmem(bytes, head, "Content-Length: ", 16);
    if (!told)
        fail("a reply without a length");
    size_t whole = head + strtoul(told + 16, NULL, 10);
    if (length < whole)
        return 0;
    f->waiting--;
    return whole;
}

static const struct protocol protocols[] = {
    {"nats", NULL, nats_subscribe, nats_hear, nats_greet, nats_write, nats_hear_reply},
    {"mqtt", "mqtt", mqtt_subscribe, mqtt_hear, mqtt_greet, mqtt_write, mqtt_hear_reply},
    {"nchan", NULL, nchan_subscribe, nchan_hear, nchan_greet, nchan_write, nchan_hear_reply},
};

/* Streams */

static size_t hear_bytes(struct stream *s, const char *bytes, size_t length, uint64_t at) {
    return hear_frames(s, bytes, length, at);
}

static void hear_message(struct stream *s, unsigned first, const char *bytes, size_t length, uint64_t at) {
    struct unframed *u = &unframed[s->number];
    if (first == WEBSOCKET_PING) {
        probes++;
        send_frame(s->fd, WEBSOCKET_PONG, bytes, length);
        return;
    }
    if (first != TEXT && first != BINARY)
        fail("%s: a frame that begins with %02x", s->session, first);
    if (length > sizeof u->bytes - u->have)
        fail("%s: a packet is too long", s->session);
    memcpy(u->bytes + u->have, bytes, length);
    u->have += length;
    size_t used = spoken->hear(s, u->bytes, u->have, at);
    u->have -= used;
    memmove(u->bytes, u->bytes + used, u->have);
}

static void open_batch(int first, int past) {
    char path[LONGEST_VALUE];
    for (int i = first; i < past; i++) {
        all[i]->fd = connected(port, 0);
        sprintf(all[i]->session, "stream %d", i);
        sprintf(path, "/subscribe/i%d", all[i]->item);
        send_upgrade(all[i]->fd, path, spoken->subprotocol);
    }
    for (int i = first; i < past; i++) {
        while (!all[i]->head_over)
            receive(all[i], 0);
        spoken->subscribe(all[i]);
    }
    for (int i = first; i < past; i++)
        while (!all[i]->subscribed)
            receive(all[i], 0);
}

/* The publisher */

static size_t append_message(struct feed *f, char *packet) {
    char text[4 * LONGEST_VALUE], price[LONGEST_VALUE], size[LONGEST_VALUE];
    int item = f->next_item;
    uint64_t seq = ++published[item];
    f->next_item = (item + 1) % items;
    price_of(price, seq);
    size_of(size, seq);
    int length = sprintf(text, "%llu|%llu|%s|%s", (unsigned long long)seq, (unsigned long long)now(), price, size);
    return spoken->write(packet, item, text, (size_t)length);
}

/* Reads replies that came, and waits for one where that is asked for. */
static void hear_replies(struct feed *f, bool wait) {
    ssize_t got = recv(f->fd, f->rest + f->have, sizeof f->rest - f->have, wait ? 0 : MSG_DONTWAIT);
    if (got < 0 && errno == EAGAIN && !wait)
        return;
    if (got <= 0)
        fail("the publisher's connection has ended");
    f->have += (size_t)got;
    size_t begin = 0, used;
    while ((used = spoken->hear_reply(f, f->rest + begin, f->have - begin)) > 0)
        begin += used;
    f->have -= begin;
    memmove(f->rest, f->rest + begin, f->have);
}

static void publish(struct feed *f, int count) {
    static char batch[WINDOW * LONGEST_PACKET];
    size_t length = 0;
    for (int i = 0; i < count; i++)
        length += append_message(f, batch + length);
    send_all(f->fd, batch, length);
    f->waiting += count;
    total_published += (uint64_t)count;
}

static void *feed_for_seconds(void *unused) {
    static struct feed f;
    bool has_replies = strcmp(spoken->name, "nchan") == 0;
    (void)unused;
    f.fd = connected(feed_port, 0);
    spoken->greet(&f);
    uint64_t began = now(), ends = began + (uint64_t)(seconds * (double)SECOND);
    for (uint64_t turn = 1; now() < ends; turn++) {
        int most = has_replies ? WINDOW - f.waiting : WINDOW;
        if (rate > 0)
            sleep_until(began + turn * SECOND / (uint64_t)rate);
        publish(&f, room_for(rate > 0 ? 1 : most));
        hear_replies(&f, has_replies && f.waiting >= WINDOW);
    }
    while (has_replies && f.waiting > 0)
        hear_replies(&f, true);
    atomic_store(&feed_over, true);
    return NULL;
}

int main(int count, char **words) {
    if (count != 9)
        fail("usage: load_others PORT FEED nats|mqtt|nchan STREAMS ITEMS RATE SECONDS ALIVE");
    port = atoi(words[1]);
    feed_port = atoi(words[2]);
    for (size_t i = 0; i < sizeof protocols / sizeof *protocols; i++)
        if (strcmp(words[3], protocols[i].name) == 0)
            spoken = &protocols[i];
    if (!spoken)
        fail("no protocol has the name %s", words[3]);
    streams = atoi(words[4]);
    items = atoi(words[5]);
    rate = atoi(words[6]);
    seconds = atof(words[7]);
    alive = atoi(words[8]);
    head_wanted = "HTTP/1.1 101 ";
    make_streams(0);
    unframed = calloc((size_t)streams, sizeof *unframed);
    for (int i = 0; i < streams; i += BATCH)
        open_batch(i, i + BATCH < streams ? i + BATCH : streams);
    run(feed_for_seconds, alive > 0 && strcmp(spoken->name, "mqtt") == 0 ? keep_alive : NULL);
    return 0;
}
