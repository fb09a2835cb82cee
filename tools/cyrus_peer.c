/*
 * A server and a client of Cyrus SASL's GSSAPI, for tools/sasl_peers. Each message has its length in front, in four octets; without a layer, too.
 *
 *     cyrus_peer serve PORT MASK SIZE               one connection: each message is sent back
 *     cyrus_peer ask PORT MASK SIZE LENGTH TIMES    so many echoes of so many octets; prints the layer
 *
 * MASK is a sum of the layers 1 (none), 2 (integrity) and 4 (privacy). The status is 0, 11 where an end refused, and 1 where all else fails.
 */
#include <arpa/inet.h>
#include <sasl/sasl.h>
#include <stdint.h>
#include <stdio.h>
#include <stdlib.h>
#include <string.h>
#include <sys/socket.h>
#include <unistd.h>

enum { REFUSED = 11, MOST = 1 << 20 };

static int link_fd;
static char heard[MOST + 4];

static void fail(const char *what) {
    fprintf(stderr, "cyrus_peer: %s\n", what);
    exit(1);
}

static void refuse(const char *what, sasl_conn_t *end) {
    fprintf(stderr, "cyrus_peer: %s: %s\n", what, end ? sasl_errdetail(end) : "");
    exit(REFUSED);
}

/* Reads so many octets; 0 where the stream ends before the first. */
static int filled(char *to, size_t size) {
    for (size_t at = 0; at < size;) {
        ssize_t count = read(link_fd, to + at, size - at);
        if (count <= 0) {
            if (at == 0 && count == 0)
                return 0;
            fail("the stream ended inside a message");
        }
        at += (size_t)count;
    }
    return 1;
}

static void put(const char *from, size_t size) {
    for (size_t at = 0; at < size;) {
        ssize_t count = write(link_fd, from + at, size - at);
        if (count <= 0)
            fail("a write");
        at += (size_t)count;
    }
}

/* The next message, behind its length; its size is handed out, and the answer is 0 at the end of the stream. */
static int next_message(unsigned *size) {
    uint32_t word;
    if (!filled(heard, 4))
        return 0;
    memcpy(&word, heard, 4);
    *size = ntohl(word);
    if (*size > MOST)
        fail("a message is too long");
    if (*size > 0 && !filled(heard + 4, *size))
        fail("the stream ended inside a message");
    return 1;
}

static void put_message(const char *octets, unsigned size) {
    static char framed[MOST + 4];
    uint32_t word = htonl(size);
    memcpy(framed, &word, 4);
    if (size > 0)
        memcpy(framed + 4, octets, size);
    put(framed, size + 4);
}

static int layer_of(sasl_conn_t *end) {
    const void *strength;
    sasl_getprop(end, SASL_SSF, &strength);
    unsigned value = *(const unsigned *)strength;
    return value == 0 ? 1 : value == 1 ? 2 : 4;
}

/* Under a layer Cyrus's library puts the length in front itself. */
static void send_under(sasl_conn_t *end, const char *octets, unsigned size) {
    const char *out;
    unsigned count;
    if (layer_of(end) == 1) {
        put_message(octets, size);
        return;
    }
    if (sasl_encode(end, octets, size, &out, &count) != SASL_OK)
        refuse("encode", end);
    put(out, count);
}

static int take_under(sasl_conn_t *end, const char **octets, unsigned *size) {
    unsigned count;
    if (!next_message(&count))
        return 0;
    *octets = heard + 4;
    *size = count;
    if (layer_of(end) != 1 && sasl_decode(end, heard, count + 4, octets, size) != SASL_OK)
        refuse("decode", end);
    return 1;
}

static void wish(sasl_conn_t *end, int mask, unsigned size) {
    sasl_security_properties_t wished = {0};
    wished.min_ssf = mask & 1 ? 0 : mask & 2 ? 1 : 2;
    wished.max_ssf = mask & 4 ? 256 : mask & 2 ? 1 : 0;
    wished.maxbufsize = size;
    sasl_setprop(end, SASL_SEC_PROPS, &wished);
}

/* No authorization identity, and whatever name the ticket has. */
static int nobody(void *context, int id, const char **name, unsigned *size) {
    (void)context;
    *name = id == SASL_CB_USER ? "" : "alice";
    if (size)
        *size = (unsigned)strlen(*name);
    return SASL_OK;
}

static void serve(int mask, unsigned size) {
    sasl_callback_t none[] = {{SASL_CB_LIST_END, NULL, NULL}};
    sasl_conn_t *end;
    const char *out;
    unsigned count;
    if (sasl_server_init(none, "cyrus_peer") != SASL_OK || sasl_server_new("rpc", "localhost", NULL, NULL, NULL, none, 0, &end) != SASL_OK)
        fail("the library can't begin");
    wish(end, mask, size);
    if (!next_message(&count))
        fail("no message came");
    int state = sasl_server_start(end, "GSSAPI", heard + 4, count, &out, &count);
    while (state == SASL_CONTINUE) {
        put_message(out, count);
        if (!next_message(&count))
            fail("the stream ended");
        state = sasl_server_step(end, heard + 4, count, &out, &count);
    }
    if (state != SASL_OK)
        refuse("server", end);
    while (take_under(end, &out, &count)) {
        char *copy = malloc(count + 1);
        memcpy(copy, out, count);
        send_under(end, copy, count);
        free(copy);
    }
}

static void ask(int mask, unsigned size, unsigned length, long times) {
    sasl_callback_t names[] = {{SASL_CB_USER, (int (*)(void))(void (*)(void))nobody, NULL}, {SASL_CB_AUTHNAME, (int (*)(void))(void (*)(void))nobody, NULL}, {SASL_CB_LIST_END, NULL, NULL}};
    sasl_conn_t *end;
    const char *out, *name;
    unsigned count;
    if (sasl_client_init(names) != SASL_OK || sasl_client_new("rpc", "localhost", NULL, NULL, names, 0, &end) != SASL_OK)
        fail("the library can't begin");
    wish(end, mask, size);
    int state = sasl_client_start(end, "GSSAPI", NULL, &out, &count, &name);
    while (state == SASL_CONTINUE) {
        put_message(out, count);
        if (!next_message(&count))
            refuse("the server ended", NULL);
        state = sasl_client_step(end, heard + 4, count, NULL, &out, &count);
    }
    if (state != SASL_OK)
        refuse("client", end);
    put_message(out, count);
    printf("layer %d\n", layer_of(end));
    char *octets = malloc(length + 1);
    for (unsigned at = 0; at < length; at++)
        octets[at] = (char)(at * 7 + 1);
    for (long time = 0; time < times; time++) {
        send_under(end, octets, length);
        if (!take_under(end, &out, &count) || count != length || memcmp(out, octets, length) != 0)
            refuse("another echo", NULL);
    }
}

int main(int count, char **words) {
    struct sockaddr_in address = {0};
    if (count < 5)
        fail("usage: cyrus_peer serve PORT MASK SIZE, or cyrus_peer ask PORT MASK SIZE LENGTH TIMES");
    address.sin_family = AF_INET;
    address.sin_port = htons((uint16_t)atoi(words[2]));
    address.sin_addr.s_addr = htonl(INADDR_LOOPBACK);
    link_fd = socket(AF_INET, SOCK_STREAM, 0);
    int mask = atoi(words[3]), one = 1;
    unsigned size = (unsigned)atoi(words[4]);
    if (strcmp(words[1], "serve") == 0) {
        int listener = link_fd;
        setsockopt(listener, SOL_SOCKET, SO_REUSEADDR, &one, sizeof one);
        if (bind(listener, (struct sockaddr *)&address, sizeof address) != 0 || listen(listener, 1) != 0)
            fail("the port can't be listened at");
        link_fd = accept(listener, NULL, NULL);
        serve(mask, size);
        return 0;
    }
    if (connect(link_fd, (struct sockaddr *)&address, sizeof address) != 0)
        fail("no connection");
    ask(mask, size, (unsigned)atoi(words[5]), atol(words[6]));
    return 0;
}
