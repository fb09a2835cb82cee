/*
 * A server and a client of GNU SASL's GSSAPI, for tools/sasl_peers. Each message has its length in front, in four octets; without a layer, too.
 * GNU SASL has no layer but none.
 *
 *     gsasl_peer serve PORT                  one connection: each message is sent back
 *     gsasl_peer ask PORT LENGTH TIMES       so many echoes of so many octets; prints the layer
 *
 * The status is 0, 11 where an end refused, and 1 where all else fails.
 */
#include <arpa/inet.h>
#include <gsasl.h>
#include <stdint.h>
#include <stdio.h>
#include <stdlib.h>
#include <string.h>
#include <sys/socket.h>
#include <unistd.h>

enum { REFUSED = 11, MOST = 1 << 20 };

static int link_fd;
static char heard[MOST];

static void fail(const char *what) {
    fprintf(stderr, "gsasl_peer: %s\n", what);
    exit(1);
}

static void refuse(int code) {
    fprintf(stderr, "gsasl_peer: %s\n", gsasl_strerror(code));
    exit(REFUSED);
}

static int filled(char *to, size_t size) {
    for (size_t at = 0; at < size;) {
        ssize_t count = read(link_fd, to + at, size - at);
        if (count <= 0) {
            if (at == 0 && count == 0)
                return 0;
            fail("the stream ended inside a message");
        }
        at += (size_t)count;
    }
    return 1;
}

static int next_message(size_t *size) {
    uint32_t word;
    if (!filled((char *)&word, 4))
        return 0;
    *size = ntohl(word);
    if (*size > MOST)
        fail("a message is too long");
    return *size == 0 || filled(heard, *size);
}

static void put_message(const char *octets, size_t size) {
    static char framed[MOST + 4];
    uint32_t word = htonl((uint32_t)size);
    memcpy(framed, &word, 4);
    if (size > 0)
        memcpy(framed + 4, octets, size);
    for (size_t at = 0; at < size + 4;) {
        ssize_t count = write(link_fd, framed + at, size + 4 - at);
        if (count <= 0)
            fail("a write");
        at += (size_t)count;
    }
}

/* Whoever has a ticket may speak. */
static int callback(Gsasl *library, Gsasl_session *end, Gsasl_property property) {
    (void)library;
    (void)end;
    return property == GSASL_VALIDATE_GSSAPI ? GSASL_OK : GSASL_NO_CALLBACK;
}

/* The exchange; a client sends the first message. */
static void exchange(Gsasl_session *end, int is_client) {
    size_t size = 0, count;
    char *out;
    for (int step = 0;; step++) {
        if ((step > 0 || !is_client) && !next_message(&size))
            fail("the stream ended");
        int code = gsasl_step(end, heard, size, &out, &count);
        if (code != GSASL_OK && code != GSASL_NEEDS_MORE)
            refuse(code);
        if (code == GSASL_NEEDS_MORE || (is_client && code == GSASL_OK))
            put_message(out, count);
        gsasl_free(out);
        if (code == GSASL_OK)
            return;
    }
}

static void talk(Gsasl_session *end, int is_client, size_t length, long times) {
    size_t size;
    exchange(end, is_client);
    if (!is_client) {
        while (next_message(&size))
            put_message(heard, size);
        return;
    }
    printf("layer 1\n");
    char *octets = malloc(length + 1);
    for (size_t at = 0; at < length; at++)
        octets[at] = (char)(at * 7 + 1);
    for (long time = 0; time < times; time++) {
        put_message(octets, length);
        if (!next_message(&size) || size != length || memcmp(heard, octets, length) != 0)
            fail("another echo");
    }
}

int main(int count, char **words) {
    struct sockaddr_in address = {0};
    Gsasl *library;
    Gsasl_session *end;
    if (count < 3)
        fail("usage: gsasl_peer serve PORT, or gsasl_peer ask PORT LENGTH TIMES");
    int is_client = strcmp(words[1], "ask") == 0, one = 1;
    address.sin_family = AF_INET;
    address.sin_port = htons((uint16_t)atoi(words[2]));
    address.sin_addr.s_addr = htonl(INADDR_LOOPBACK);
    link_fd = socket(AF_INET, SOCK_STREAM, 0);
    if (is_client) {
        if (connect(link_fd, (struct sockaddr *)&address, sizeof address) != 0)
            fail("no connection");
    } else {
        int listener = link_fd;
        setsockopt(listener, SOL_SOCKET, SO_REUSEADDR, &one, sizeof one);
        if (bind(listener, (struct sockaddr *)&address, sizeof address) != 0 || listen(listener, 1) != 0)
            fail("the port can't be listened at");
        link_fd = accept(listener, NULL, NULL);
    }
    if (gsasl_init(&library) != GSASL_OK)
        fail("the library can't begin");
    gsasl_callback_set(library, callback);
    int code = is_client ? gsasl_client_start(library, "GSSAPI", &end) : gsasl_server_start(library, "GSSAPI", &end);
    if (code != GSASL_OK)
        fail(gsasl_strerror(code));
    gsasl_property_set(end, GSASL_SERVICE, "rpc");
    gsasl_property_set(end, GSASL_HOSTNAME, "localhost");
    talk(end, is_client, is_client ? (size_t)atol(words[3]) : 0, is_client ? atol(words[4]) : 0);
    return 0;
}
