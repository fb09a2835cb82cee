/* What the clients of tools/ready_client.c and tools/months_client.c share: contexts by libtirpc and by the SPNEGO of MIT Kerberos, records of calls that
 * are made beforehand, and the replies to them. What fails at this end, or at the
 * connection, ends the program with status 1. */
#include <gssapi/gssapi.h>
#include <gssapi/gssapi_krb5.h>
#include <rpc/rpc.h>
#include <rpc/auth_gss.h>
#include <arpa/inet.h>
#include <netinet/tcp.h>
#include <stdint.h>
#include <stdio.h>
#include <stdlib.h>
#include <string.h>
#include <time.h>
#include <unistd.h>

enum { PROGRAM = 0x20004753, VERSION = 1, NOTHING = 0, ECHO = 1, RPC_VERSION = 2, GSS_VERSION = 1, DATA = 0, CREATION = 1 };
enum { LAST_FRAGMENT = (int)0x80000000, BUFFER = 200000 };

static gss_OID_desc spnego = { 6, "\x2b\x06\x01\x05\x05\x02" };

/* Octets that grow. */
struct octets {
    size_t count, room;
    unsigned char *at;
};

static void put(struct octets *to, const void *from, size_t count)
{
    if (to->count + count > to->room) {
        to->room = 2 * (to->count + count);
        to->at = realloc(to->at, to->room);
        if (to->at == NULL)
            exit(1);
    }
    memcpy(to->at + to->count, from, count);
    to->count += count;
}

static void put_word(struct octets *to, uint32_t word)
{
    uint32_t sent = htonl(word);
    put(to, &sent, 4);
}

/* Octets behind their length, padded to words. */
static void put_opaque(struct octets *to, const void *from, size_t count)
{
    put_word(to, count);
    put(to, from, count);
    put(to, "\0\0\0", (4 - count % 4) % 4);
}

static void put_mic(struct octets *to, gss_ctx_id_t context, const struct octets *over)
{
    gss_buffer_desc message = { over->count, over->at }, mic;
    OM_uint32 minor;
    if (gss_get_mic(&minor, context, GSS_C_QOP_DEFAULT, &message, &mic) != GSS_S_COMPLETE)
        exit(1);
    put_opaque(to, mic.value, mic.length);
    gss_release_buffer(&minor, &mic);
}

static void put_sealed(struct octets *to, gss_ctx_id_t context, const struct octets *plain)
{
    gss_buffer_desc message = { plain->count, plain->at }, sealed;
    OM_uint32 minor;
    if (gss_wrap(&minor, context, 1, GSS_C_QOP_DEFAULT, &message, NULL, &sealed) != GSS_S_COMPLETE)
        exit(1);
    put_opaque(to, sealed.value, sealed.length);
    gss_release_buffer(&minor, &sealed);
}

static int connected(int port)
{
    struct sockaddr_in address = { .sin_family = AF_INET, .sin_port = htons(port) };
    int link = socket(AF_INET, SOCK_STREAM, 0), yes = 1;
    inet_pton(AF_INET, "127.0.0.1", &address.sin_addr);
    setsockopt(link, IPPROTO_TCP, TCP_NODELAY, &yes, sizeof yes);
    if (connect(link, (struct sockaddr *)&address, sizeof address) != 0)
        exit(1);
    return link;
}

static gss_name_t name_of(char *text)
{
    gss_buffer_desc octets = { strlen(text), text };
    gss_name_t name;
    OM_uint32 minor;
    if (gss_import_name(&minor, &octets, (gss_OID)GSS_KRB5_NT_PRINCIPAL_NAME, &name) != GSS_S_COMPLETE)
        exit(1);
    return name;
}

/* A context of a service, by its handle, over a connection, which stays open. */
static struct authgss_private_data created(int link, int port, char *server, int service)
{
    struct rpc_gss_sec wanted = { &spnego, GSS_C_QOP_DEFAULT, service, GSS_C_NO_CREDENTIAL, GSS_C_MUTUAL_FLAG };
    struct sockaddr_in address = { .sin_family = AF_INET, .sin_port = htons(port) };
    struct authgss_private_data made;
    inet_pton(AF_INET, "127.0.0.1", &address.sin_addr);
    CLIENT *client = clnttcp_create(&address, PROGRAM, VERSION, &link, BUFFER, BUFFER);
    if (client == NULL)
        exit(1);
    client->cl_auth = authgss_create(client, name_of(server), &wanted);
    if (client->cl_auth == NULL || !authgss_get_private_data(client->cl_auth, &made))
        exit(1);
    clnt_destroy(client);
    return made;
}

/* The arguments: none of NULL, octets of ECHO. */
static void put_arguments(struct octets *to, const void *octets, size_t size)
{
    if (size > 0)
        put_opaque(to, octets, size);
}

/* One record: a call with this number. */
static void put_call(struct octets *to, const struct authgss_private_data *by, int service, uint32_t number, const void *octets, size_t size)
{
    struct octets call = { 0, 0, NULL }, plain = { 0, 0, NULL };
    const uint32_t head[] = { number, 0, RPC_VERSION, PROGRAM, VERSION, size > 0 ? ECHO : NOTHING };
    for (int i = 0; i < 6; i++)
        put_word(&call, head[i]);
    if (service == 0) {
        for (int i = 0; i < 4; i++)
            put_word(&call, 0);
        put_arguments(&call, octets, size);
    } else {
        put_word(&call, RPCSEC_GSS);
        put_word(&call, 16 + 4 + (by->pd_ctx_hndl.length + 3) / 4 * 4);
        const uint32_t cred[] = { GSS_VERSION, DATA, number, service };
        for (int i = 0; i < 4; i++)
            put_word(&call, cred[i]);
        put_opaque(&call, by->pd_ctx_hndl.value, by->pd_ctx_hndl.length);
        struct octets header = call;
        struct octets mic = { 0, 0, NULL };
        put_mic(&mic, by->pd_ctx, &header);
        put_word(&call, RPCSEC_GSS);
        put(&call, mic.at, mic.count);
        free(mic.at);
        put_word(&plain, number);
        put_arguments(&plain, octets, size);
        if (service == RPCSEC_GSS_SVC_PRIVACY) {
            put_sealed(&call, by->pd_ctx, &plain);
        } else {
            put_opaque(&call, plain.at, plain.count);
            put_mic(&call, by->pd_ctx, &plain);
        }
    }
    put_word(to, LAST_FRAGMENT | call.count);
    put(to, call.at, call.count);
    free(call.at);
    free(plain.at);
}

/* One record: a call that creates a context, by a first token. */
static void put_creation(struct octets *to, gss_name_t server, uint32_t number)
{
    struct octets call = { 0, 0, NULL };
    gss_ctx_id_t context = GSS_C_NO_CONTEXT;
    gss_buffer_desc token = GSS_C_EMPTY_BUFFER;
    OM_uint32 minor;
    if (gss_init_sec_context(&minor, GSS_C_NO_CREDENTIAL, &context, server, &spnego, GSS_C_MUTUAL_FLAG, 0, GSS_C_NO_CHANNEL_BINDINGS,
            GSS_C_NO_BUFFER, NULL, &token, NULL, NULL) != GSS_S_CONTINUE_NEEDED)
        exit(1);
    const uint32_t head[] = { number, 0, RPC_VERSION, PROGRAM, VERSION, NOTHING, RPCSEC_GSS, 20,
        GSS_VERSION, CREATION, 0, RPCSEC_GSS_SVC_INTEGRITY, 0, 0, 0 };
    for (int i = 0; i < 15; i++)
        put_word(&call, head[i]);
    put_opaque(&call, token.value, token.length);
    put_word(to, LAST_FRAGMENT | call.count);
    put(to, call.at, call.count);
    free(call.at);
    gss_release_buffer(&minor, &token);
    gss_delete_sec_context(&minor, &context, GSS_C_NO_BUFFER);
}

static void send_all(int link, const unsigned char *at, size_t count)
{
    while (count > 0) {
        ssize_t sent = write(link, at, count);
        if (sent <= 0)
            exit(1);
        at += sent;
        count -= sent;
    }
}

static uint32_t word_at(const unsigned char *at)
{
    uint32_t word;
    memcpy(&word, at, 4);
    return ntohl(word);
}

/* Octets that were read, from `from` on not yet looked at. */
struct read {
    size_t from, end, room;
    unsigned char *at;
};

/* Whether a whole reply of one fragment lies there. */
static int is_whole(const struct read *got)
{
    size_t count = got->end - got->from;
    return count >= 4 && count >= 4 + (size_t)(word_at(got->at + got->from) & 0x7fffffff);
}

/* The octets of a word and of the padded octets that it counts. */
static size_t counted(const unsigned char *at)
{
    return 4 + ((size_t)word_at(at) + 3) / 4 * 4;
}

/* Whether an accepted reply says success (RFC 5531 section 9), and where it creates a context that this is complete: behind the handle stands the
 * major status 0 (RFC 2203 section 5.2.3.1). */
static int is_done(const unsigned char *reply, size_t length, int creates)
{
    size_t at = 20 + counted(reply + 20);
    if (at + 4 > length || word_at(reply + at) != 0)
        return 0;
    if (!creates)
        return 1;
    if (at + 8 > length)
        return 0;
    at += 4 + counted(reply + at + 4);
    return at + 4 <= length && word_at(reply + at) == GSS_S_COMPLETE;
}

/* Takes a reply; whether its call was done. */
static int take_reply(struct read *got, int creates)
{
    const unsigned char *reply = got->at + got->from;
    size_t length = 4 + (word_at(reply) & 0x7fffffff);
    got->from += length;
    return length >= 28 && word_at(reply + 8) == 1 && word_at(reply + 12) == 0 && is_done(reply, length, creates);
}

/* Reads so many replies; how many of them say that their call was done. */
static int read_replies(int link, struct read *got, int wanted, int creates)
{
    int done = 0;
    while (wanted > 0) {
        if (is_whole(got)) {
            done += take_reply(got, creates);
            wanted--;
            continue;
        }
        memmove(got->at, got->at + got->from, got->end - got->from);
        got->end -= got->from;
        got->from = 0;
        ssize_t count = read(link, got->at + got->end, got->room - got->end);
        if (count <= 0)
            exit(1);
        got->end += count;
    }
    return done;
}
