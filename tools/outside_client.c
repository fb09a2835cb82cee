/* A client of the server over a system's own libraries: contexts by libtirpc and by the SPNEGO of MIT Kerberos, calls over them.
 * Compiled with MIT_RPC, RPCSEC_GSS is by libgssrpc, the RPC library of MIT Kerberos. With BARE of the environment contexts are by Kerberos
 * without SPNEGO.
 *
 *   outside_client PORT SERVER SERVICE CALLS [CONTEXTS [NULLS]]
 *
 * SERVER is a principal, as rpc/localhost@REALM.TEST; SERVICE is none, integrity or privacy. Each context makes CALLS calls of each procedure
 * from ECHO to COUNT, whose results are compared with what they are to be, and NULLS calls of NULL, and is destroyed. By none, which the
 * server takes of NULL alone, there are only these. The environment's
 * POSTS is how many posts there were before; with BESIDE others post meanwhile, so that only the order of numbers is compared. The status
 * is 0 where all were right.
 *
 * Compiled with DATAGRAMS, calls go over UDP, and have at most 7,900 octets; PATIENCE of the environment is for how many seconds a call is
 * sent again, 10 without it. */
#include <gssapi/gssapi.h>
#include <gssapi/gssapi_krb5.h>
#ifdef MIT_RPC
#include <gssrpc/rpc.h>
#include <gssrpc/auth_gss.h>
#else
#include <rpc/rpc.h>
#include <rpc/auth_gss.h>
#endif
#include <arpa/inet.h>
#include <stdio.h>
#include <stdlib.h>
#include <string.h>
#include <time.h>
#include <unistd.h>

/* The library marshals a call's whole body in the buffer that it sends from. */
enum { BUFFER = 200000, DATAGRAM = 8192 };
enum { PROGRAM = 0x20004753, VERSION = 1, NOTHING = 0, ECHO = 1, WHOAMI = 2, POST = 3, COUNT = 4 };
#ifdef DATAGRAMS
enum { LARGEST = 7900 };
#else
enum { LARGEST = 65536 };
#endif

static gss_OID_desc spnego = { 6, "\x2b\x06\x01\x05\x05\x02" };
/* RFC 4121 section 1. */
static gss_OID_desc kerberos = { 9, "\x2a\x86\x48\x86\xf7\x12\x01\x02\x02" };
static struct timeval patience = { 10, 0 };

struct octets {
    u_int count;
    char *at;
};

static bool_t xdr_octets(XDR *xdr, struct octets *octets)
{
    return xdr_bytes(xdr, &octets->at, &octets->count, 65536);
}

static double seconds(void)
{
    struct timespec now;
    clock_gettime(CLOCK_MONOTONIC, &now);
    return now.tv_sec + now.tv_nsec / 1e9;
}

static CLIENT *connected(int port)
{
    struct sockaddr_in address = { .sin_family = AF_INET, .sin_port = htons(port) };
    int socket = RPC_ANYSOCK;
    inet_pton(AF_INET, "127.0.0.1", &address.sin_addr);
#ifdef DATAGRAMS
    struct timeval until_again = { 1, 0 };
    return clntudp_bufcreate(&address, PROGRAM, VERSION, until_again, &socket, DATAGRAM, DATAGRAM);
#else
    return clnttcp_create(&address, PROGRAM, VERSION, &socket, BUFFER, BUFFER);
#endif
}

static gss_name_t name_of(char *text)
{
    gss_buffer_desc buffer = { strlen(text), text };
    gss_name_t name = GSS_C_NO_NAME;
    OM_uint32 minor;
    if (gss_import_name(&minor, &buffer, (gss_OID)GSS_KRB5_NT_PRINCIPAL_NAME, &name) != GSS_S_COMPLETE)
        fprintf(stderr, "%s is no name\n", text);
    return name;
}

/* One call, whose result is put at `result`; whether it was answered. */
static int call(CLIENT *client, int procedure, xdrproc_t in, void *argument, xdrproc_t out, void *result)
{
    enum clnt_stat stat = clnt_call(client, procedure, in, argument, out, result, patience);
    if (stat != RPC_SUCCESS)
        fprintf(stderr, "procedure %d: %s\n", procedure, clnt_sperror(client, ""));
    return stat == RPC_SUCCESS;
}

/* ECHO gives its argument back. */
static int echoes(CLIENT *client, u_int size)
{
    struct octets sent = { size, malloc(size + 1) }, got = { 0, NULL };
    memset(sent.at, size & 255, size);
    int right = call(client, ECHO, (xdrproc_t)xdr_octets, &sent, (xdrproc_t)xdr_octets, &got)
        && got.count == size && memcmp(got.at, sent.at, size) == 0;
    free(sent.at);
    free(got.at);
    return right;
}

/* WHOAMI gives a name, which is printed the first time. */
static int names(CLIENT *client, int first)
{
    struct octets name = { 0, NULL };
    if (!call(client, WHOAMI, (xdrproc_t)xdr_void, NULL, (xdrproc_t)xdr_octets, &name))
        return 0;
    if (first)
        printf("whoami %.*s\n", (int)name.count, name.at);
    free(name.at);
    return 1;
}

/* POST and COUNT give the same number, which is one more than the last; where others post meanwhile, greater ones each time. */
static int counts(CLIENT *client, u_int *posts)
{
    int beside = getenv("BESIDE") != NULL;
    struct octets sent = { 3, "abc" };
    u_int posted = 0, counted = 0;
    int right = call(client, POST, (xdrproc_t)xdr_octets, &sent, (xdrproc_t)xdr_u_int, &posted)
        && call(client, COUNT, (xdrproc_t)xdr_void, NULL, (xdrproc_t)xdr_u_int, &counted)
        && (beside ? posted <= counted && posted > *posts : posted == counted && posted == *posts + 1);
    *posts = posted;
    return right;
}

static int all_calls(CLIENT *client, int calls, int first, u_int *posts)
{
    for (int i = 0; i < calls; i++)
        if (!echoes(client, i % 64) || !names(client, first && i == 0) || !counts(client, posts))
            return 0;
    return !first || (echoes(client, 0) && echoes(client, 4095) && echoes(client, LARGEST));
}

/* NULL calls, each after the reply to the one before. The time that they take is added to `spent`. */
static int nulls(CLIENT *client, int calls, double *spent)
{
    double start = seconds();
    for (int i = 0; i < calls; i++)
        if (!call(client, NOTHING, (xdrproc_t)xdr_void, NULL, (xdrproc_t)xdr_void, NULL))
            return 0;
    *spent += seconds() - start;
    return 1;
}

/* A context, and calls over it; whether all was right. */
static int context(int port, gss_name_t server, int service, int calls, int null_calls, int first, u_int *posts, double *making, double *spent)
{
    gss_OID mechanism = getenv("BARE") != NULL ? &kerberos : &spnego;
    struct rpc_gss_sec wanted = { mechanism, GSS_C_QOP_DEFAULT, service, GSS_C_NO_CREDENTIAL, GSS_C_MUTUAL_FLAG };
    CLIENT *client = connected(port);
    if (client == NULL) {
        clnt_pcreateerror("no connection");
        return 0;
    }
    double start = seconds();
    client->cl_auth = authgss_create(client, server, &wanted);
    *making += seconds() - start;
    if (client->cl_auth == NULL) {
        clnt_pcreateerror("no context");
        return 0;
    }
    int right = (service == RPCSEC_GSS_SVC_NONE || all_calls(client, calls, first, posts)) && nulls(client, null_calls, spent);
    auth_destroy(client->cl_auth);
    clnt_destroy(client);
    return right;
}

static int service_of(const char *word)
{
    if (strcmp(word, "none") == 0)
        return RPCSEC_GSS_SVC_NONE;
    return strcmp(word, "privacy") == 0 ? RPCSEC_GSS_SVC_PRIVACY : RPCSEC_GSS_SVC_INTEGRITY;
}

int main(int argc, char **argv)
{
    if (argc < 5)
        return 2;
    int service = service_of(argv[3]);
    int calls = atoi(argv[4]), contexts = argc > 5 ? atoi(argv[5]) : 1, null_calls = argc > 6 ? atoi(argv[6]) : 0;
    gss_name_t server = name_of(argv[2]);
    u_int posts = 0;
    double making = 0, spent = 0, start = seconds();
    if (getenv("PATIENCE") != NULL)
        patience.tv_sec = atoi(getenv("PATIENCE"));
    if (getenv("POSTS") != NULL)
        posts = atoi(getenv("POSTS"));
    for (int i = 0; i < contexts; i++)
        if (!context(atoi(argv[1]), server, service, calls, null_calls, i == 0, &posts, &making, &spent))
            return 1;
    double whole = seconds() - start;
    printf("%d contexts, each in %.0f microseconds; %d calls by %s in %.3f seconds\n", contexts, making / contexts * 1e6,
        contexts * calls * 4, argv[3], whole - making - spent);
    if (null_calls > 0)
        printf("%d NULL calls by %s, %.0f a second\n", contexts * null_calls, argv[3], contexts * null_calls / spent);
    return 0;
}
