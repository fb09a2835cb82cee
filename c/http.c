/* A server of HTTP on loopback that answers GET with the caller's name, once he has authenticated by Negotiate (RFC 4559 section 4).
   One connection is served after the other, and each has one context. usage: http PORT */
#include <arpa/inet.h>
#include <gssapi/gssapi.h>
#include <stdio.h>
#include <stdlib.h>
#include <string.h>
#include <unistd.h>

static const char digits[] = "ABCDEFGHIJKLMNOPQRSTUVWXYZabcdefghijklmnopqrstuvwxyz0123456789+/";

/* base64 (RFC 4648 section 4) */
static void encode(const unsigned char *in, size_t len, char *out) {
    for (size_t i = 0; i < len; i += 3) {
        unsigned word = in[i] << 16 | (i + 1 < len ? in[i + 1] << 8 : 0) | (i + 2 < len ? in[i + 2] : 0);
        for (int k = 0; k < 4; k++) *out++ = i + k > len ? '=' : digits[word >> (18 - 6 * k) & 63];
    }
    *out = 0;
}
static size_t decode(const char *in, unsigned char *out) {
    unsigned word = 0, bits = 0;
    size_t len = 0;
    for (const char *at; *in && (at = strchr(digits, *in)); in++) {
        word = word << 6 | (unsigned)(at - digits);
        if ((bits += 6) >= 8) out[len++] = (unsigned char)(word >> (bits -= 8));
    }
    return len;
}

/* answers one request of a connection's context; 0 where that is the last */
static int answered(FILE *asked, FILE *peer, gss_ctx_id_t *context) {
    static char line[1 << 16], text[1 << 16], sent[1 << 17];
    static unsigned char token[1 << 16];
    OM_uint32 minor, major = GSS_S_FAILURE;
    gss_buffer_desc in = {0, token}, out = GSS_C_EMPTY_BUFFER, name = GSS_C_EMPTY_BUFFER;
    gss_name_t caller = GSS_C_NO_NAME;
    if (!fgets(line, sizeof line, asked)) return 0;
    while (fgets(line, sizeof line, asked) && strcmp(line, "\r\n"))
        if (sscanf(line, "Authorization: Negotiate %65000s", text) == 1) in.length = decode(text, token);
    if (in.length) {
        major = gss_accept_sec_context(&minor, context, GSS_C_NO_CREDENTIAL, &in, GSS_C_NO_CHANNEL_BINDINGS, &caller, NULL, &out, NULL, NULL, NULL);
        printf("a token of %zu octets: %u, %u\n", in.length, major, minor);
        fflush(stdout);
    }
    encode(out.value, out.length, sent);
    if (major == GSS_S_COMPLETE) gss_display_name(&minor, caller, &name, NULL);
    fprintf(peer, "HTTP/1.1 %s\r\nWWW-Authenticate: Negotiate %s\r\nContent-Length: %zu\r\n\r\n%.*s", major == GSS_S_COMPLETE ? "200 OK" : "401 Unauthorized", sent,
            name.length, (int)name.length, name.length ? (char *)name.value : "");
    fflush(peer);
    gss_release_buffer(&minor, &out);
    gss_release_buffer(&minor, &name);
    gss_release_name(&minor, &caller);
    return !in.length || !GSS_ERROR(major);
}

int main(int count, char **words) {
    int listener = socket(AF_INET, SOCK_STREAM, 0), one = 1;
    struct sockaddr_in address = {.sin_family = AF_INET, .sin_port = htons(count == 2 ? atoi(words[1]) : 0), .sin_addr.s_addr = htonl(INADDR_LOOPBACK)};
    setsockopt(listener, SOL_SOCKET, SO_REUSEADDR, &one, sizeof one);
    if (count != 2 || bind(listener, (struct sockaddr *)&address, sizeof address) || listen(listener, 16)) return 1;
    for (;;) {
        gss_ctx_id_t context = GSS_C_NO_CONTEXT;
        OM_uint32 minor;
        int link = accept(listener, NULL, NULL);
        FILE *asked = link < 0 ? NULL : fdopen(link, "r"), *peer = link < 0 ? NULL : fdopen(dup(link), "w");
        if (!asked || !peer) return 1;
        while (answered(asked, peer, &context)) continue;
        gss_delete_sec_context(&minor, &context, NULL);
        fclose(asked);
        fclose(peer);
    }
}
