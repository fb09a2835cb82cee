/* SCRAM-SHA-1 (1.3.6.1.5.5.14, RFC 5802) as a plug-in for the mechglue of MIT's libgssapi, over the handles of scram_c.h.
   Here are names, credentials from files, a lock for each context and one for the verifiers, the clock and random octets; texts, keys and
   tokens are the library's. The initiator's default credential is "USER:PASSWORD" in the file $VM_SCRAM_USER, the acceptor's verifiers are the
   lines in $VM_SCRAM_VERIFIERS, as gss_files makes them; both variables are passed over in a program that was given rights of another user. */
#define _GNU_SOURCE
#include "scram_c.h"
#include <gssapi/gssapi.h>
#include <gssapi/gssapi_ext.h>
#include <pthread.h>
#include <stdio.h>
#include <stdlib.h>
#include <string.h>
#include <sys/random.h>
#include <time.h>

#define UNUSED __attribute__((unused))

static gss_OID_desc scram_oid = {6, "\x2b\x06\x01\x05\x05\x0e"};

typedef struct { size_t len; char text[]; } name_t;
typedef struct { name_t *user; size_t password_len; char *password; } cred_t;
typedef struct { pthread_mutex_t lock; vm_scram end; int initiator, ready; name_t *own; } ctx_t;

enum { NO_RANDOM = 100 }; /* what the plug-in adds to the library's statuses */

static pthread_mutex_t host_lock = PTHREAD_MUTEX_INITIALIZER;
static vm_verifiers host;

static uint64_t now_micros(void) {
    struct timespec t;
    clock_gettime(CLOCK_REALTIME, &t);
    return (uint64_t)t.tv_sec * 1000000 + (uint64_t)t.tv_nsec / 1000;
}

static int drawn(uint8_t *out, size_t len) { return getrandom(out, len, 0) == (ssize_t)len; }

static name_t *name_of(const void *text, size_t len) {
    name_t *n = malloc(sizeof *n + len + 1);
    if (n) { n->len = len; memcpy(n->text, text, len); n->text[len] = 0; }
    return n;
}
static name_t *copy_of(gss_name_t name) { return name ? name_of(((name_t *)name)->text, ((name_t *)name)->len) : NULL; }
static bool is_named(const name_t *n, const void *text, size_t len) { return n->len == len && !memcmp(n->text, text, len); }

/* a slice's pointer is never NULL, though its length may be 0 */
static const uint8_t *at_of(gss_buffer_t b) { return b && b->value ? b->value : (const uint8_t *)""; }
static size_t len_of(gss_buffer_t b) { return b && b->value ? b->length : 0; }
/* the application data of channel bindings */
static gss_buffer_t data_of(gss_channel_bindings_t b) { return b ? &b->application_data : GSS_C_NO_BUFFER; }

/* the file that a variable names, whole and wiped by gone, or NULL */
enum { MOST_FILE = 1 << 20 };
static uint8_t *file_of(const char *variable, size_t *len) {
    const char *path = secure_getenv(variable);
    FILE *f = path ? fopen(path, "rbe") : NULL;
    uint8_t *at = f ? malloc(MOST_FILE) : NULL;
    if (at) {
        setvbuf(f, NULL, _IONBF, 0);
        *len = fread(at, 1, MOST_FILE, f);
        if (ferror(f) || *len == MOST_FILE) { explicit_bzero(at, MOST_FILE); free(at); at = NULL; }
    }
    if (f) fclose(f);
    return at;
}
static void gone(void *at, size_t len) {
    if (at) explicit_bzero(at, len);
    free(at);
}

/* what is handed out: a buffer that has nothing, one with octets and a NUL behind them, a name, and a set */
static void empty(gss_buffer_t out) { out->value = NULL; out->length = 0; }
static OM_uint32 buffer(OM_uint32 *minor, gss_buffer_t out, const void *at, size_t len) {
    *minor = 0;
    empty(out);
    if (!(out->value = calloc(1, len + 1))) return GSS_S_FAILURE;
    memcpy(out->value, at, len);
    out->length = len;
    return GSS_S_COMPLETE;
}
static OM_uint32 named(OM_uint32 *minor, gss_name_t *out, name_t *made) {
    *minor = 0;
    *out = (gss_name_t)made;
    return made ? GSS_S_COMPLETE : GSS_S_FAILURE;
}
static OM_uint32 set_of(OM_uint32 *minor, gss_OID_set *out, gss_const_OID *members, size_t count) {
    OM_uint32 unused, major = gss_create_empty_oid_set(minor, out);
    for (size_t i = 0; i < count && major == GSS_S_COMPLETE; i++) major = gss_add_oid_set_member(minor, (gss_OID)members[i], out);
    if (major != GSS_S_COMPLETE) gss_release_oid_set(&unused, out);
    return major;
}

/* ---- names ---- */
OM_uint32 gss_import_name(OM_uint32 *minor, gss_buffer_t in, UNUSED gss_OID type, gss_name_t *out) {
    return named(minor, out, name_of(at_of(in), len_of(in)));
}
OM_uint32 gss_display_name(OM_uint32 *minor, gss_name_t name, gss_buffer_t out, gss_OID *type) {
    name_t *n = (name_t *)name;
    if (type) *type = GSS_C_NT_USER_NAME;
    return buffer(minor, out, n->text, n->len);
}
OM_uint32 gss_release_name(OM_uint32 *minor, gss_name_t *name) {
    free(*name);
    named(minor, name, NULL);
    return GSS_S_COMPLETE;
}
OM_uint32 gss_duplicate_name(OM_uint32 *minor, const gss_name_t name, gss_name_t *out) { return named(minor, out, copy_of(name)); }
OM_uint32 gss_canonicalize_name(OM_uint32 *minor, const gss_name_t name, UNUSED const gss_OID mech, gss_name_t *out) {
    return named(minor, out, copy_of(name));
}
OM_uint32 gss_compare_name(OM_uint32 *minor, gss_name_t a, gss_name_t b, int *equal) {
    *minor = 0;
    *equal = is_named((name_t *)a, ((name_t *)b)->text, ((name_t *)b)->len);
    return GSS_S_COMPLETE;
}
OM_uint32 gss_inquire_name(OM_uint32 *minor, UNUSED gss_name_t name, int *is_mn, gss_OID *mech, gss_buffer_set_t *attributes) {
    *minor = 0;
    if (is_mn) *is_mn = 1;
    if (mech) *mech = &scram_oid;
    if (attributes) *attributes = GSS_C_NO_BUFFER_SET;
    return GSS_S_COMPLETE;
}
OM_uint32 gss_inquire_names_for_mech(OM_uint32 *minor, UNUSED gss_OID mech, gss_OID_set *types) {
    return set_of(minor, types, (gss_const_OID[]){GSS_C_NT_USER_NAME, GSS_C_NT_HOSTBASED_SERVICE}, 2);
}

/* ---- credentials: an acceptor's has no user ---- */
static void dropped(cred_t *c) {
    if (c) { gone(c->password, c->password_len); free(c->user); free(c); }
}
static cred_t *cred_of(const void *user, size_t user_len, const void *password, size_t password_len) {
    cred_t *c = calloc(1, sizeof *c);
    if (!c) return NULL;
    c->user = name_of(user, user_len);
    c->password = malloc(password_len + 1);
    if (!c->user || !c->password) { dropped(c); return NULL; }
    memcpy(c->password, password, c->password_len = password_len);
    return c;
}
/* the credential of the file of a user, where it is this one's or anybody's */
static cred_t *own_cred(const name_t *wanted) {
    size_t len = 0;
    uint8_t *at = file_of("VM_SCRAM_USER", &len), *colon = at ? memchr(at, ':', len) : NULL;
    size_t text = len && at && at[len - 1] == '\n' ? len - 1 : len;
    bool fits = colon && (!wanted || is_named(wanted, at, colon - at));
    cred_t *c = fits ? cred_of(at, colon - at, colon + 1, at + text - colon - 1) : NULL;
    gone(at, len);
    return c;
}
static int host_opened(void) {
    pthread_mutex_lock(&host_lock);
    if (!host.full) {
        size_t len = 0;
        uint8_t *at = file_of("VM_SCRAM_VERIFIERS", &len);
        if (at) vm_verifiers_read(&host, at, len);
        gone(at, len);
    }
    int stands = host.full;
    pthread_mutex_unlock(&host_lock);
    return stands;
}
static OM_uint32 granted(OM_uint32 *minor, cred_t *c, gss_cred_id_t *out, gss_OID_set *mechs, OM_uint32 *time) {
    *minor = 0;
    if (!c) return GSS_S_NO_CRED;
    *out = (gss_cred_id_t)c;
    if (mechs) *mechs = GSS_C_NO_OID_SET;
    if (time) *time = GSS_C_INDEFINITE;
    return GSS_S_COMPLETE;
}
OM_uint32 gss_acquire_cred(OM_uint32 *minor, gss_name_t want, UNUSED OM_uint32 time_req, UNUSED gss_OID_set desired, gss_cred_usage_t usage,
                           gss_cred_id_t *out, gss_OID_set *mechs, OM_uint32 *time) {
    cred_t *c = usage != GSS_C_ACCEPT ? own_cred((name_t *)want) : host_opened() ? cred_of("", 0, "", 0) : NULL;
    return granted(minor, c, out, mechs, time);
}
OM_uint32 gssspi_acquire_cred_with_password(OM_uint32 *minor, const gss_name_t name, const gss_buffer_t password, UNUSED OM_uint32 time_req,
                                            UNUSED const gss_OID_set desired, int usage, gss_cred_id_t *out, gss_OID_set *mechs, OM_uint32 *time) {
    name_t *n = usage == GSS_C_ACCEPT ? NULL : (name_t *)name;
    return granted(minor, n ? cred_of(n->text, n->len, at_of(password), len_of(password)) : NULL, out, mechs, time);
}
OM_uint32 gss_release_cred(OM_uint32 *minor, gss_cred_id_t *cred) {
    *minor = 0;
    dropped((cred_t *)*cred);
    *cred = GSS_C_NO_CREDENTIAL;
    return GSS_S_COMPLETE;
}
OM_uint32 gss_inquire_cred(OM_uint32 *minor, gss_cred_id_t cred, gss_name_t *name, OM_uint32 *time, gss_cred_usage_t *usage, gss_OID_set *mechs) {
    cred_t *c = (cred_t *)cred;
    bool initiates = c && c->user->len;
    *minor = 0;
    if (name) *name = initiates ? (gss_name_t)copy_of((gss_name_t)c->user) : GSS_C_NO_NAME;
    if (time) *time = GSS_C_INDEFINITE;
    if (usage) *usage = initiates ? GSS_C_INITIATE : GSS_C_ACCEPT;
    if (mechs) *mechs = GSS_C_NO_OID_SET;
    return GSS_S_COMPLETE;
}

/* ---- contexts ---- */
static void freed(ctx_t *c) {
    if (!c) return;
    vm_scram_free(&c->end);
    pthread_mutex_destroy(&c->lock);
    free(c->own);
    free(c);
}
static ctx_t *ctx_of(int initiator) {
    ctx_t *c = calloc(1, sizeof *c);
    if (c) { pthread_mutex_init(&c->lock, NULL); c->initiator = initiator; }
    return c;
}
/* what a status of the library is in GSS-API: as docs/TROUBLESHOOTING.md has it, whose numbers the minor status says */
static OM_uint32 major_of(OM_uint32 *minor, uint32_t status) {
    *minor = status == VM_MORE ? 0 : status;
    switch (status) {
    case VM_DONE: return GSS_S_COMPLETE;
    case VM_MORE: return GSS_S_CONTINUE_NEEDED;
    case VM_EMPTY: case VM_NOT_DUE: return GSS_S_NO_CONTEXT;
    case VM_NO_VERIFIERS: return GSS_S_NO_CRED;
    case VM_TEXT: case VM_TOKEN_LENGTH: case VM_TOKEN_KIND: return GSS_S_DEFECTIVE_TOKEN;
    case VM_NO_USER: case VM_PROOF: return GSS_S_UNAUTHORIZED;
    case VM_BINDINGS: case VM_LONG_BINDINGS: return GSS_S_BAD_BINDINGS;
    case VM_TOKEN_DIRECTION: case VM_TOKEN_SUBKEY: case VM_TOKEN_FILLER: case VM_TOKEN_CHECKSUM: case VM_TOKEN_EXTRA: case VM_TOKEN_HEADER:
        return GSS_S_BAD_SIG;
    default: return GSS_S_FAILURE;
    }
}
/* what a step hands out: the token that is due, if one is, the mechanism and its services */
#define FLAGS (GSS_C_MUTUAL_FLAG | GSS_C_INTEG_FLAG | GSS_C_CONF_FLAG | GSS_C_PROT_READY_FLAG)
static OM_uint32 stepped(OM_uint32 *minor, ctx_t *c, uint32_t status, gss_buffer_t out, gss_OID *mech, OM_uint32 *flags) {
    OM_uint32 major = major_of(minor, status);
    size_t len = GSS_ERROR(major) ? 0 : vm_scram_token_len(&c->end);
    if (len && !(out->value = malloc(len))) return major_of(minor, VM_NO_MEMORY);
    out->length = len;
    if (len && (status = vm_scram_token(&c->end, out->value, len)) != VM_DONE) return major_of(minor, status);
    if (mech) *mech = &scram_oid;
    if (flags) *flags = FLAGS;
    return major;
}
static const uint8_t unused_nonce[VM_NONCE_OCTETS];
/* the seconds that a context lasts yet; an initiator's doesn't end by itself */
static OM_uint32 left_of(ctx_t *c) {
    uint64_t ends = 0, now = now_micros();
    pthread_mutex_lock(&c->lock);
    uint32_t status = vm_scram_ends(&c->end, &ends);
    pthread_mutex_unlock(&c->lock);
    if (status != VM_DONE || ends <= now) return 0;
    return (ends - now) / 1000000 >= GSS_C_INDEFINITE ? GSS_C_INDEFINITE : (OM_uint32)((ends - now) / 1000000);
}
/* an initiator's context by a credential, with the library's status; NULL where it doesn't begin */
static ctx_t *begun(cred_t *k, gss_buffer_t data, uint32_t *status) {
    uint8_t nonce[VM_NONCE_OCTETS];
    ctx_t *c = ctx_of(1);
    *status = !c ? VM_NO_MEMORY : !drawn(nonce, sizeof nonce) ? NO_RANDOM : VM_DONE;
    if (*status == VM_DONE)
        *status = vm_scram_init(&c->end, (uint8_t *)k->user->text, k->user->len, (uint8_t *)k->password, k->password_len, nonce, at_of(data), len_of(data));
    if (*status != VM_MORE) { freed(c); return NULL; }
    c->own = copy_of((gss_name_t)k->user);
    return c;
}
OM_uint32 gss_init_sec_context(OM_uint32 *minor, gss_cred_id_t cred, gss_ctx_id_t *ctx, UNUSED gss_name_t target, UNUSED gss_OID mech,
                               UNUSED OM_uint32 req, UNUSED OM_uint32 time_req, gss_channel_bindings_t bindings, gss_buffer_t in, gss_OID *actual,
                               gss_buffer_t out, OM_uint32 *flags, OM_uint32 *time) {
    ctx_t *c = (ctx_t *)*ctx;
    uint32_t status;
    *minor = 0;
    empty(out);
    if (c) {
        vm_verifiers none = {0};
        pthread_mutex_lock(&c->lock);
        status = vm_scram_step(&c->end, &none, at_of(in), len_of(in), 0, unused_nonce);
        c->ready |= status == VM_DONE;
        pthread_mutex_unlock(&c->lock);
    } else {
        cred_t *own = cred ? NULL : own_cred(NULL), *k = cred ? (cred_t *)cred : own;
        if (!k) return GSS_S_NO_CRED;
        *ctx = (gss_ctx_id_t)(c = begun(k, data_of(bindings), &status));
        dropped(own);
    }
    if (time) *time = GSS_C_INDEFINITE;
    return stepped(minor, c, status, out, actual, flags);
}
/* a step of the acceptor, which finds its user among the verifiers of all contexts */
static uint32_t accepted(ctx_t *c, gss_buffer_t in, const uint8_t *nonce) {
    pthread_mutex_lock(&host_lock);
    uint32_t status = vm_scram_step(&c->end, &host, at_of(in), len_of(in), now_micros(), nonce);
    pthread_mutex_unlock(&host_lock);
    uint8_t name[VM_NAME_MOST];
    size_t len = 0;
    c->ready |= status == VM_DONE;
    if (status == VM_DONE && vm_scram_initiator(&c->end, name, sizeof name, &len) == VM_DONE) c->own = name_of(name, len);
    return status;
}
OM_uint32 gss_accept_sec_context(OM_uint32 *minor, gss_ctx_id_t *ctx, UNUSED gss_cred_id_t cred, gss_buffer_t in, gss_channel_bindings_t bindings,
                                 gss_name_t *source, gss_OID *mech, gss_buffer_t out, OM_uint32 *flags, OM_uint32 *time, gss_cred_id_t *delegated) {
    ctx_t *c = (ctx_t *)*ctx;
    uint8_t nonce[VM_NONCE_OCTETS];
    *minor = 0;
    empty(out);
    if (!host_opened()) return GSS_S_NO_CRED;
    if (!drawn(nonce, sizeof nonce)) return major_of(minor, NO_RANDOM);
    if (!c) {
        c = ctx_of(0);
        uint32_t begins = c ? vm_scram_accept(&c->end, at_of(data_of(bindings)), len_of(data_of(bindings))) : VM_NO_MEMORY;
        if (begins != VM_DONE) { freed(c); return major_of(minor, begins); }
        *ctx = (gss_ctx_id_t)c;
    }
    pthread_mutex_lock(&c->lock);
    uint32_t status = accepted(c, in, nonce);
    OM_uint32 major = stepped(minor, c, status, out, mech, flags);
    pthread_mutex_unlock(&c->lock);
    if (source) *source = (gss_name_t)copy_of((gss_name_t)c->own);
    if (time) *time = status == VM_DONE ? left_of(c) : 0;
    if (delegated) *delegated = GSS_C_NO_CREDENTIAL;
    return major;
}
OM_uint32 gss_delete_sec_context(OM_uint32 *minor, gss_ctx_id_t *ctx, gss_buffer_t out) {
    *minor = 0;
    if (out) empty(out);
    freed((ctx_t *)*ctx);
    *ctx = GSS_C_NO_CONTEXT;
    return GSS_S_COMPLETE;
}
OM_uint32 gss_inquire_context(OM_uint32 *minor, gss_ctx_id_t ctx, gss_name_t *source, gss_name_t *target, OM_uint32 *time, gss_OID *mech, OM_uint32 *flags,
                              int *local, int *open) {
    ctx_t *c = (ctx_t *)ctx;
    *minor = 0;
    if (source) *source = (gss_name_t)copy_of((gss_name_t)c->own);
    if (target) *target = (gss_name_t)name_of("", 0);
    if (time) *time = left_of(c);
    if (mech) *mech = &scram_oid;
    if (flags) *flags = FLAGS;
    if (local) *local = c->initiator;
    if (open) *open = c->ready;
    return GSS_S_COMPLETE;
}
OM_uint32 gss_context_time(OM_uint32 *minor, gss_ctx_id_t ctx, OM_uint32 *time) {
    *minor = 0;
    *time = left_of((ctx_t *)ctx);
    return *time ? GSS_S_COMPLETE : GSS_S_CONTEXT_EXPIRED;
}

/* ---- messages ---- */
OM_uint32 gss_get_mic(OM_uint32 *minor, gss_ctx_id_t ctx, UNUSED gss_qop_t qop, gss_buffer_t message, gss_buffer_t out) {
    ctx_t *c = (ctx_t *)ctx;
    uint8_t mic[28];
    pthread_mutex_lock(&c->lock);
    uint32_t status = vm_scram_get_mic(&c->end, at_of(message), len_of(message), mic);
    pthread_mutex_unlock(&c->lock);
    return status == VM_DONE ? buffer(minor, out, mic, 28) : major_of(minor, status);
}
OM_uint32 gss_verify_mic(OM_uint32 *minor, gss_ctx_id_t ctx, gss_buffer_t message, gss_buffer_t token, gss_qop_t *qop) {
    ctx_t *c = (ctx_t *)ctx;
    pthread_mutex_lock(&c->lock);
    uint32_t status = vm_scram_verify_mic(&c->end, at_of(message), len_of(message), at_of(token), len_of(token));
    pthread_mutex_unlock(&c->lock);
    if (qop) *qop = GSS_C_QOP_DEFAULT;
    return major_of(minor, status);
}
OM_uint32 gss_wrap(OM_uint32 *minor, gss_ctx_id_t ctx, int conf, UNUSED gss_qop_t qop, gss_buffer_t message, int *state, gss_buffer_t out) {
    ctx_t *c = (ctx_t *)ctx;
    uint8_t confounder[16];
    size_t room = len_of(message) + VM_WRAP_MORE;
    *minor = 0;
    empty(out);
    if (!drawn(confounder, sizeof confounder) || !(out->value = malloc(room))) return GSS_S_FAILURE;
    pthread_mutex_lock(&c->lock);
    uint32_t status = vm_scram_wrap(&c->end, conf != 0, confounder, at_of(message), len_of(message), out->value, room, &out->length);
    pthread_mutex_unlock(&c->lock);
    if (status != VM_DONE) { free(out->value); empty(out); }
    if (state) *state = conf != 0;
    return major_of(minor, status);
}
OM_uint32 gss_unwrap(OM_uint32 *minor, gss_ctx_id_t ctx, gss_buffer_t token, gss_buffer_t out, int *state, gss_qop_t *qop) {
    ctx_t *c = (ctx_t *)ctx;
    bool sealed = false;
    *minor = 0;
    empty(out);
    if (!(out->value = malloc(len_of(token) + 1))) return GSS_S_FAILURE;
    pthread_mutex_lock(&c->lock);
    uint32_t status = vm_scram_unwrap(&c->end, at_of(token), len_of(token), out->value, len_of(token) + 1, &out->length, &sealed);
    pthread_mutex_unlock(&c->lock);
    if (status != VM_DONE) { free(out->value); empty(out); }
    if (state) *state = sealed;
    if (qop) *qop = GSS_C_QOP_DEFAULT;
    return major_of(minor, status);
}
OM_uint32 gss_wrap_size_limit(OM_uint32 *minor, UNUSED gss_ctx_id_t ctx, UNUSED int conf, UNUSED gss_qop_t qop, OM_uint32 size, OM_uint32 *most) {
    *minor = 0;
    *most = size > VM_WRAP_MORE ? size - VM_WRAP_MORE : 0;
    return GSS_S_COMPLETE;
}

/* ---- messages in pieces: header, data and trailer one behind another are the token of gss_wrap, which isn't rotated ---- */
static gss_iov_buffer_desc *piece_of(gss_iov_buffer_desc *iov, int count, OM_uint32 type) {
    for (int i = 0; i < count; i++)
        if (GSS_IOV_BUFFER_TYPE(iov[i].type) == type) return &iov[i];
    return NULL;
}
/* how many octets the data have, or a whole token; they are moved out to the pieces or in from them where `at` isn't NULL */
static size_t moved(gss_iov_buffer_desc *iov, int count, bool whole, bool out, uint8_t *at) {
    size_t len = 0;
    for (int i = 0; i < count; i++) {
        OM_uint32 type = GSS_IOV_BUFFER_TYPE(iov[i].type);
        bool ends = type == GSS_IOV_BUFFER_TYPE_HEADER || type == GSS_IOV_BUFFER_TYPE_TRAILER;
        if (type != GSS_IOV_BUFFER_TYPE_DATA && !(whole && ends)) continue;
        if (at && iov[i].buffer.length) memcpy(out ? iov[i].buffer.value : at + len, out ? at + len : iov[i].buffer.value, iov[i].buffer.length);
        len += iov[i].buffer.length;
    }
    return len;
}
/* gives a piece so many octets, and where `fill` the room for them; a piece that isn't there has none */
static bool roomy(gss_iov_buffer_desc *b, size_t len, bool fill) {
    if (!b) return len == 0;
    bool is_made = fill && b->type & GSS_IOV_BUFFER_FLAG_ALLOCATE;
    if (fill && !is_made && b->buffer.length < len) return false;
    if (is_made && !(b->buffer.value = malloc(len ? len : 1))) return false;
    if (is_made) b->type |= GSS_IOV_BUFFER_FLAG_ALLOCATED;
    b->buffer.length = len;
    return true;
}
/* the pieces of a token's length beside its data, made where `fill` */
static bool framed(gss_iov_buffer_desc *iov, int count, int conf, bool fill) {
    gss_iov_buffer_desc *only = piece_of(iov, count, GSS_IOV_BUFFER_TYPE_SIGN_ONLY);
    return !(only && only->buffer.length) && roomy(piece_of(iov, count, GSS_IOV_BUFFER_TYPE_HEADER), conf ? 32 : 16, fill)
        && roomy(piece_of(iov, count, GSS_IOV_BUFFER_TYPE_TRAILER), conf ? 28 : 12, fill) && roomy(piece_of(iov, count, GSS_IOV_BUFFER_TYPE_PADDING), 0, fill);
}
OM_uint32 gss_wrap_iov_length(OM_uint32 *minor, UNUSED gss_ctx_id_t ctx, int conf, UNUSED gss_qop_t qop, int *state, gss_iov_buffer_desc *iov, int count) {
    *minor = 0;
    if (state) *state = conf != 0;
    return framed(iov, count, conf, false) ? GSS_S_COMPLETE : GSS_S_FAILURE;
}
OM_uint32 gss_wrap_iov(OM_uint32 *minor, gss_ctx_id_t ctx, int conf, gss_qop_t qop, int *state, gss_iov_buffer_desc *iov, int count) {
    size_t len = moved(iov, count, false, false, NULL);
    gss_buffer_desc message = {len, malloc(len + 1)}, token = {0, NULL};
    OM_uint32 unused, major = GSS_S_FAILURE;
    *minor = 0;
    if (message.value && framed(iov, count, conf, true)) {
        moved(iov, count, false, false, message.value);
        major = gss_wrap(minor, ctx, conf, qop, &message, state, &token);
        if (major == GSS_S_COMPLETE && token.length != moved(iov, count, true, false, NULL)) major = GSS_S_FAILURE;
        if (major == GSS_S_COMPLETE) moved(iov, count, true, true, token.value);
    }
    gone(message.value, len);
    gss_release_buffer(&unused, &token);
    return major;
}
OM_uint32 gss_unwrap_iov(OM_uint32 *minor, gss_ctx_id_t ctx, int *state, gss_qop_t *qop, gss_iov_buffer_desc *iov, int count) {
    gss_iov_buffer_desc *stream = piece_of(iov, count, GSS_IOV_BUFFER_TYPE_STREAM), *data = piece_of(iov, count, GSS_IOV_BUFFER_TYPE_DATA);
    size_t len = stream ? stream->buffer.length : moved(iov, count, true, false, NULL);
    gss_buffer_desc token = {len, malloc(len + 1)}, message = {0, NULL};
    OM_uint32 major = GSS_S_FAILURE;
    *minor = 0;
    if (token.value) {
        if (stream && len) memcpy(token.value, stream->buffer.value, len);
        if (!stream) moved(iov, count, true, false, token.value);
        major = gss_unwrap(minor, ctx, &token, &message, state, qop);
        if (major == GSS_S_COMPLETE && stream && !(data && roomy(data, message.length, true))) major = GSS_S_FAILURE;
        if (major == GSS_S_COMPLETE && message.length != moved(iov, count, false, false, NULL)) major = GSS_S_FAILURE;
        if (major == GSS_S_COMPLETE) moved(iov, count, false, true, message.value);
    }
    free(token.value);
    gone(message.value, message.length);
    return major;
}

/* ---- the mechanism itself ---- */
OM_uint32 gss_indicate_mechs(OM_uint32 *minor, gss_OID_set *set) { return set_of(minor, set, (gss_const_OID[]){&scram_oid}, 1); }
static const struct { uint32_t status; const char *text; } texts[] = {
    {VM_NO_MEMORY, "no memory was to be had"}, {VM_EMPTY, "there is no context"}, {VM_NOT_DUE, "the context isn't where this call may come"},
    {VM_NO_VERIFIERS, "the acceptor has no verifiers"}, {VM_NOT_TEXT, "the user or the password is no UTF-8"},
    {VM_LONG_BINDINGS, "the channel bindings have more than 32,768 octets"}, {VM_TEXT, "a text of SCRAM isn't in its grammar"},
    {VM_MANDATORY, "an extension is asked for that must be understood"}, {VM_NONCE, "the nonce isn't the one that is due"},
    {VM_ROUNDS, "the rounds are fewer than 4,096 or more than 200,000"}, {VM_NO_USER, "the verifiers have no line of the user"},
    {VM_BINDINGS, "the channel bindings are others"}, {VM_PROOF, "the password isn't the one of the user's line"},
    {VM_SIGNATURE, "the acceptor's signature isn't one by the user's line"}, {VM_PEER_ERROR, "the acceptor answered an error of SCRAM"},
    {VM_TOKEN_LENGTH, "the token has too few octets, or too many"}, {VM_TOKEN_KIND, "the token is of another kind"},
    {VM_TOKEN_DIRECTION, "the token isn't from the other end"}, {VM_TOKEN_SUBKEY, "the token is by another key"},
    {VM_TOKEN_FILLER, "the token has a wrong filler"}, {VM_TOKEN_CHECKSUM, "the token's checksum is another"},
    {VM_TOKEN_EXTRA, "the token's extra count is wrong"}, {VM_TOKEN_HEADER, "the token's inner header is another"},
};
OM_uint32 gss_display_status(OM_uint32 *minor, OM_uint32 value, int type, UNUSED gss_OID mech, OM_uint32 *context, gss_buffer_t out) {
    char text[128];
    const char *said = value == NO_RANDOM ? "no random octets were to be had" : "no text";
    *context = 0;
    if (type != GSS_C_MECH_CODE) return GSS_S_BAD_STATUS;
    for (size_t i = 0; i < sizeof texts / sizeof *texts; i++)
        if (texts[i].status == value) said = texts[i].text;
    int len = snprintf(text, sizeof text, "SCRAM-SHA-1 %u: %s", (unsigned)value, said);
    return buffer(minor, out, text, (size_t)len);
}
OM_uint32 gss_inquire_attrs_for_mech(OM_uint32 *minor, UNUSED gss_const_OID mech, gss_OID_set *attrs, gss_OID_set *known) {
    gss_const_OID own[] = {GSS_C_MA_MECH_CONCRETE, GSS_C_MA_AUTH_INIT, GSS_C_MA_AUTH_TARG, GSS_C_MA_INTEG_PROT, GSS_C_MA_CONF_PROT, GSS_C_MA_MIC, GSS_C_MA_WRAP};
    *minor = 0;
    if (known) *known = GSS_C_NO_OID_SET;
    return attrs ? set_of(minor, attrs, own, sizeof own / sizeof *own) : GSS_S_COMPLETE;
}
OM_uint32 gss_inquire_saslname_for_mech(OM_uint32 *minor, UNUSED const gss_OID mech, gss_buffer_t sasl, gss_buffer_t name, gss_buffer_t description) {
    *minor = 0;
    bool fails = (sasl && buffer(minor, sasl, "SCRAM-SHA-1", 11)) || (name && buffer(minor, name, "scram-sha-1", 11))
        || (description && buffer(minor, description, "SCRAM-SHA-1 (RFC 5802)", 22));
    return fails ? GSS_S_FAILURE : GSS_S_COMPLETE;
}
