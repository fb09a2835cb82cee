/* Both ends of contexts in one process, through MIT's libgssapi: gss_init_sec_context against gss_accept_sec_context, from some threads at once.
   usage: loop MECH-OID THREADS TIMES [USER PASSWORD [DATA]]
   The initiator's channel bindings have the application data "data", and so have the acceptor's without DATA. */
#include <gssapi/gssapi.h>
#include <gssapi/gssapi_ext.h>
#include <pthread.h>
#include <stdio.h>
#include <stdlib.h>
#include <string.h>

static void due(OM_uint32 major, OM_uint32 minor, const char *what) {
    if (!GSS_ERROR(major)) return;
    OM_uint32 m, more = 0;
    gss_buffer_desc t;
    gss_display_status(&m, major, GSS_C_GSS_CODE, GSS_C_NO_OID, &more, &t);
    printf("%s: %.*s", what, (int)t.length, (char *)t.value);
    more = 0;
    gss_display_status(&m, minor, GSS_C_MECH_CODE, GSS_C_NO_OID, &more, &t);
    printf(" (%u: %.*s)\n", minor, (int)t.length, (char *)t.value);
    exit(1);
}

/* A message of two pieces, wrapped in pieces, and unwrapped in pieces and as a stream. */
static void in_pieces(gss_ctx_id_t from, gss_ctx_id_t to, int conf) {
    OM_uint32 minor = 0;
    char text[] = "a message", whole[128];
    size_t len = 0;
    int sealed = !conf;
    gss_iov_buffer_desc pieces[] = {{GSS_IOV_BUFFER_TYPE_HEADER | GSS_IOV_BUFFER_FLAG_ALLOCATE, GSS_C_EMPTY_BUFFER}, {GSS_IOV_BUFFER_TYPE_DATA, {4, text}},
                                    {GSS_IOV_BUFFER_TYPE_DATA, {5, text + 4}}, {GSS_IOV_BUFFER_TYPE_TRAILER | GSS_IOV_BUFFER_FLAG_ALLOCATE, GSS_C_EMPTY_BUFFER}};
    due(gss_wrap_iov(&minor, from, conf, 0, &sealed, pieces, 4), minor, "wrap in pieces");
    for (int n = 0; n < 4; len += pieces[n++].buffer.length) memcpy(whole + len, pieces[n].buffer.value, pieces[n].buffer.length);
    gss_iov_buffer_desc stream[] = {{GSS_IOV_BUFFER_TYPE_STREAM, {len, whole}}, {GSS_IOV_BUFFER_TYPE_DATA | GSS_IOV_BUFFER_FLAG_ALLOCATE, GSS_C_EMPTY_BUFFER}};
    due(gss_unwrap_iov(&minor, to, &sealed, NULL, pieces, 4), minor, "unwrap in pieces");
    if (sealed != conf || memcmp(text, "a message", 9)) { puts("another message in pieces"); exit(1); }
    due(gss_unwrap_iov(&minor, to, &sealed, NULL, stream, 2), minor, "unwrap a stream");
    if (sealed != conf || stream[1].buffer.length != 9 || memcmp(stream[1].buffer.value, "a message", 9)) { puts("another message of a stream"); exit(1); }
    gss_release_iov_buffer(&minor, pieces, 4);
    gss_release_iov_buffer(&minor, stream, 2);
}

static char **words;
static int count;

static void both_ends(void) {
    OM_uint32 major = 0, minor = 0, i = GSS_S_CONTINUE_NEEDED, a = GSS_S_CONTINUE_NEEDED, flags = 0, m;
    gss_OID mech;
    gss_buffer_desc s = {strlen(words[1]), words[1]}, in = {0}, out = {0};
    due(gss_str_to_oid(&minor, &s, &mech), minor, "oid");
    gss_OID_set_desc one = {1, mech};
    gss_cred_id_t icred = GSS_C_NO_CREDENTIAL, acred = GSS_C_NO_CREDENTIAL;
    gss_ctx_id_t ic = GSS_C_NO_CONTEXT, ac = GSS_C_NO_CONTEXT;
    gss_name_t target, user, source = GSS_C_NO_NAME;
    gss_buffer_desc t = {9, "host@host"};
    due(gss_import_name(&minor, &t, GSS_C_NT_HOSTBASED_SERVICE, &target), minor, "target");
    if (count > 5) {
        gss_buffer_desc u = {strlen(words[4]), words[4]}, p = {strlen(words[5]), words[5]};
        due(gss_import_name(&minor, &u, GSS_C_NT_USER_NAME, &user), minor, "user");
        due(gss_acquire_cred_with_password(&minor, user, &p, 0, &one, GSS_C_INITIATE, &icred, NULL, NULL), minor, "password");
        gss_release_name(&m, &user);
    } else due(gss_acquire_cred(&minor, GSS_C_NO_NAME, 0, &one, GSS_C_INITIATE, &icred, NULL, NULL), minor, "credential");
    due(gss_acquire_cred(&minor, GSS_C_NO_NAME, 0, &one, GSS_C_ACCEPT, &acred, NULL, NULL), minor, "acceptor's credential");
    struct gss_channel_bindings_struct theirs = {.application_data = {4, "data"}}, ours = theirs;
    if (count > 6) ours.application_data = (gss_buffer_desc){strlen(words[6]), words[6]};
    int legs = 0;
    gss_OID actual = GSS_C_NO_OID;
    while (i == GSS_S_CONTINUE_NEEDED || a == GSS_S_CONTINUE_NEEDED) {
        if (i == GSS_S_CONTINUE_NEEDED) {
            i = gss_init_sec_context(&minor, icred, &ic, target, mech, GSS_C_MUTUAL_FLAG | GSS_C_INTEG_FLAG | GSS_C_CONF_FLAG, 0, &theirs, &in, &actual, &out, &flags, NULL);
            due(i, minor, "init");
            gss_release_buffer(&m, &in);
            if (out.length) legs++;
        }
        if (!out.length) break;
        a = gss_accept_sec_context(&minor, &ac, acred, &out, &ours, &source, NULL, &in, NULL, NULL, NULL);
        due(a, minor, "accept");
        gss_release_buffer(&m, &out);
        if (in.length) legs++;
        if (!in.length) break;
    }
    if (i || a) { puts("a context does not stand"); exit(1); }
    gss_buffer_desc name = {0}, oid = {0};
    due(gss_display_name(&minor, source, &name, NULL), minor, "name");
    due(gss_oid_to_str(&minor, actual, &oid), minor, "mech");
    if (count > 5 && (name.length != strlen(words[4]) || memcmp(name.value, words[4], name.length))) { puts("another name"); exit(1); }
    OM_uint32 left = 0;
    due(gss_context_time(&minor, ac, &left), minor, "time");
    if (left < 86000 || left > 86400) { printf("the context lasts %u seconds\n", left); exit(1); }
    gss_buffer_desc msg = {9, "a message"}, w, p, mic;
    int conf;
    due(gss_wrap(&minor, ic, 1, 0, &msg, &conf, &w), minor, "wrap");
    due(gss_unwrap(&minor, ac, &w, &p, &conf, NULL), minor, "unwrap");
    if (p.length != msg.length || memcmp(p.value, msg.value, msg.length) || !conf) { puts("another message"); exit(1); }
    due(gss_get_mic(&minor, ac, 0, &msg, &mic), minor, "mic");
    due(gss_verify_mic(&minor, ic, &msg, &mic, NULL), minor, "verify");
    ((char *)mic.value)[20] ^= 1;
    major = gss_verify_mic(&minor, ic, &msg, &mic, NULL);
    if (major != GSS_S_BAD_SIG) { puts("a changed MIC was taken"); exit(1); }
    in_pieces(ic, ac, 0);
    in_pieces(ac, ic, 1);
    gss_release_buffer(&m, &w); gss_release_buffer(&m, &p); gss_release_buffer(&m, &mic); gss_release_buffer(&m, &name); gss_release_buffer(&m, &oid);
    gss_release_name(&m, &source); gss_release_name(&m, &target); gss_release_cred(&m, &icred); gss_release_cred(&m, &acred);
    gss_delete_sec_context(&m, &ic, NULL); gss_delete_sec_context(&m, &ac, NULL); gss_release_oid(&m, &mech);
}

static void *runs(void *times) {
    for (int n = 0; n < *(int *)times; n++) both_ends();
    return NULL;
}

int main(int argc, char **argv) {
    pthread_t threads[64];
    if (argc < 4) return 2;
    words = argv;
    count = argc;
    int many = atoi(argv[2]), times = atoi(argv[3]);
    for (int n = 0; n < many && n < 64; n++)
        if (pthread_create(&threads[n], NULL, runs, &times)) return 1;
    for (int n = 0; n < many && n < 64; n++) pthread_join(threads[n], NULL);
    printf("%d contexts from %d threads\n", many * times, many);
    return 0;
}
