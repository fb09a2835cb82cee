/* A server of the program over a system's own libraries: RPCSEC_GSS by libtirpc, contexts by the SPNEGO of MIT Kerberos.
 * Compiled with MIT_RPC, RPCSEC_GSS is by libgssrpc, the RPC library of MIT Kerberos. With BARE of the environment contexts are by Kerberos without
 * SPNEGO. Compiled with DATAGRAMS, it serves over UDP; with CACHED of
 * the environment the library then keeps so many replies, and answers a call that comes again by them.
 *
 *   outside_server PORT SERVER
 *
 * SERVER is its own principal, as rpc/localhost@REALM.TEST, whose key stands in the keytab that KRB5_KTNAME names. It serves on loopback until
 * it is stopped: NULL, ECHO, WHOAMI, POST and COUNT of the program 0x20004753, version 1. */
#define _GNU_SOURCE
#include <gssapi/gssapi.h>
#include <gssapi/gssapi_ext.h>
#include <gssapi/gssapi_krb5.h>
#ifdef MIT_RPC
#include <gssrpc/rpc.h>
#define AUTH_OF(transport) (transport)->xp_auth
#else
#include <rpc/rpc.h>
#include <rpc/auth_gss.h>
#include <rpc/svc_auth_gss.h>
#include <rpc/svc_mt.h>
#define AUTH_OF(transport) &SVC_XP_AUTH(transport)
#endif
#include <arpa/inet.h>
#include <dlfcn.h>
#include <stdio.h>
#include <stdlib.h>
#include <string.h>
#include <unistd.h>

/* The library marshals a reply's whole body in the buffer that it sends from. */
enum { BUFFER = 200000, DATAGRAM = 8800 };
enum { PROGRAM = 0x20004753, VERSION = 1, NOTHING = 0, ECHO = 1, WHOAMI = 2, POST = 3, COUNT = 4 };

static gss_OID_desc spnego = { 6, "\x2b\x06\x01\x05\x05\x02" };
/* RFC 4121 section 1. */
static gss_OID_desc kerberos = { 9, "\x2a\x86\x48\x86\xf7\x12\x01\x02\x02" };

/* Stands in for the library's function of this name: both libraries ask for credentials of the default mechanisms, among which SPNEGO isn't. */
OM_uint32 gss_acquire_cred(OM_uint32 *minor, gss_name_t name, OM_uint32 seconds, gss_OID_set mechanisms, gss_cred_usage_t usage, gss_cred_id_t *credential, gss_OID_set *got, OM_uint32 *lasts)
{
    gss_OID_set_desc taken = { 1, getenv("BARE") != NULL ? &kerberos : &spnego };
    (void)mechanisms;
    return gss_acquire_cred_from(minor, name, seconds, &taken, usage, NULL, credential, got, lasts);
}

typedef OM_uint32 get_mic(OM_uint32 *minor, gss_ctx_id_t context, gss_qop_t protection, gss_buffer_t message, gss_buffer_t mic);

/* Stands in for the library's function of this name: libtirpc signs the window in each reply to a creation, also while the context isn't complete,
 * where nothing can be signed yet, and RFC 2203 section 5.2.3.1 wants no verifier. That MIC is empty. */
OM_uint32 gss_get_mic(OM_uint32 *minor, gss_ctx_id_t context, gss_qop_t protection, gss_buffer_t message, gss_buffer_t mic)
{
    get_mic *real = (get_mic *)dlsym(RTLD_NEXT, "gss_get_mic");
    OM_uint32 status = real(minor, context, protection, message, mic);
    if (status != GSS_S_NO_CONTEXT)
        return status;
    mic->length = 0;
    mic->value = NULL;
    return GSS_S_COMPLETE;
}

struct octets {
    u_int count;
    char *at;
};

static u_int posts;

static bool_t xdr_octets(XDR *xdr, struct octets *octets)
{
    return xdr_bytes(xdr, &octets->at, &octets->count, 65536);
}

static bool_t xdr_name(XDR *xdr, char **name)
{
    return xdr_string(xdr, name, 1024);
}

/* ECHO and POST. */
static void answer_octets(SVCXPRT *transport, int procedure)
{
    struct octets octets = { 0, NULL };
    if (!svc_getargs(transport, (xdrproc_t)xdr_octets, (caddr_t)&octets)) {
        svcerr_decode(transport);
        return;
    }
    if (procedure == ECHO) {
        svc_sendreply(transport, (xdrproc_t)xdr_octets, (caddr_t)&octets);
    } else {
        posts++;
        svc_sendreply(transport, (xdrproc_t)xdr_u_int, (caddr_t)&posts);
    }
    svc_freeargs(transport, (xdrproc_t)xdr_octets, (caddr_t)&octets);
}

static void answer_name(SVCXPRT *transport)
{
    char *name = svcauth_gss_get_principal(AUTH_OF(transport));
    if (name == NULL) {
        svcerr_systemerr(transport);
        return;
    }
    svc_sendreply(transport, (xdrproc_t)xdr_name, (caddr_t)&name);
    free(name);
}

static void answer(struct svc_req *request, SVCXPRT *transport)
{
    int procedure = request->rq_proc;
    if (procedure != NOTHING && request->rq_cred.oa_flavor != RPCSEC_GSS) {
        svcerr_weakauth(transport);
        return;
    }
    if (procedure == ECHO || procedure == POST) {
        answer_octets(transport, procedure);
        return;
    }
    if (procedure > COUNT) {
        svcerr_noproc(transport);
        return;
    }
    if (!svc_getargs(transport, (xdrproc_t)xdr_void, NULL)) {
        svcerr_decode(transport);
        return;
    }
    if (procedure == WHOAMI)
        answer_name(transport);
    else if (procedure == COUNT)
        svc_sendreply(transport, (xdrproc_t)xdr_u_int, (caddr_t)&posts);
    else
        svc_sendreply(transport, (xdrproc_t)xdr_void, NULL);
}

static int listening(int port, int is_stream)
{
    struct sockaddr_in address = { .sin_family = AF_INET, .sin_port = htons(port) };
    int one = 1, listener = socket(AF_INET, is_stream ? SOCK_STREAM : SOCK_DGRAM, 0);
    inet_pton(AF_INET, "127.0.0.1", &address.sin_addr);
    setsockopt(listener, SOL_SOCKET, SO_REUSEADDR, &one, sizeof one);
    if (bind(listener, (struct sockaddr *)&address, sizeof address) != 0 || (is_stream && listen(listener, 16) != 0))
        return -1;
    return listener;
}

#ifdef DATAGRAMS
static SVCXPRT *transport_at(int port)
{
    int listener = listening(port, 0);
    SVCXPRT *transport = listener < 0 ? NULL : svcudp_bufcreate(listener, DATAGRAM, DATAGRAM);
    if (transport != NULL && getenv("CACHED") != NULL)
        svc_dg_enablecache(transport, atoi(getenv("CACHED")));
    return transport;
}
#else
static SVCXPRT *transport_at(int port)
{
    int listener = listening(port, 1);
    return listener < 0 ? NULL : svctcp_create(listener, BUFFER, BUFFER);
}
#endif

static bool_t has_name(char *text)
{
    gss_buffer_desc buffer = { strlen(text), text };
    gss_name_t name = GSS_C_NO_NAME;
    OM_uint32 minor;
    if (gss_import_name(&minor, &buffer, (gss_OID)GSS_KRB5_NT_PRINCIPAL_NAME, &name) != GSS_S_COMPLETE)
        return FALSE;
    return svcauth_gss_set_svc_name(name);
}

int main(int count, char **words)
{
    SVCXPRT *transport;
    if (count != 3) {
        fprintf(stderr, "usage: outside_server PORT SERVER\n");
        return 2;
    }
    transport = transport_at(atoi(words[1]));
    if (transport == NULL) {
        fprintf(stderr, "the port can't be listened at\n");
        return 5;
    }
    if (!has_name(words[2]) || !svc_register(transport, PROGRAM, VERSION, answer, 0)) {
        fprintf(stderr, "there is no key for %s\n", words[2]);
        return 4;
    }
    svc_run();
    return 1;
}
