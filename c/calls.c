/* Calls every export: both ends of an exchange, messages both ways, and what has to be refused. Ends with status 0, or says which line errs.
   usage: calls VERIFIERS USER PASSWORD WRONG-PASSWORD */
#include "scram_c.h"
#include <stdio.h>
#include <stdlib.h>
#include <string.h>

static const uint8_t none[1] = "";
static const uint8_t nonce_i[18] = "0123456789abcdefg", nonce_a[18] = "gfedcba9876543210", confounder[16] = "fedcba987654321";

#define WANT(e) do { if (!(e)) { printf("line %d: %s\n", __LINE__, #e); exit(1); } } while (0)

static size_t file_of(const char *path, uint8_t *room, size_t most) {
    FILE *f = fopen(path, "rb");
    WANT(f);
    size_t n = fread(room, 1, most, f);
    fclose(f);
    return n;
}
static const uint8_t *text(const char *s) { return (const uint8_t *)s; }

static size_t token_of(vm_scram *h, uint8_t *room, size_t most) {
    size_t n = vm_scram_token_len(h);
    WANT(n <= most && vm_scram_token(h, room, n ? n : 1) == VM_DONE);
    if (n > 1) WANT(vm_scram_token(h, room, n - 1) == VM_NO_ROOM);
    return n;
}

/* both ends up to the acceptor's last token; the last status of each */
static void both(vm_scram *i, vm_scram *a, vm_verifiers *v, const char *user, const char *password, const char *bind_i, const char *bind_a,
                 uint32_t *said_i, uint32_t *said_a) {
    uint8_t t[2048];
    vm_verifiers empty = {0};
    WANT(vm_scram_init(i, text(user), strlen(user), text(password), strlen(password), nonce_i, text(bind_i), strlen(bind_i)) == VM_MORE);
    WANT(vm_scram_accept(a, text(bind_a), strlen(bind_a)) == VM_DONE);
    WANT(vm_scram_token_len(a) == 0);
    size_t n = token_of(i, t, sizeof t);
    WANT(vm_scram_step(a, &empty, t, n, 1000000, nonce_a) == VM_NO_VERIFIERS);
    *said_i = VM_MORE;
    *said_a = vm_scram_step(a, v, t, n, 1000000, nonce_a);
    while (*said_a == VM_MORE || (*said_a == VM_DONE && *said_i == VM_MORE)) {
        n = token_of(a, t, sizeof t);
        *said_i = vm_scram_step(i, &empty, t, n, 0, nonce_i);
        if (*said_i != VM_MORE) break;
        n = token_of(i, t, sizeof t);
        *said_a = vm_scram_step(a, v, t, n, 2000000, nonce_a);
    }
}

static void messages(vm_scram *from, vm_scram *to) {
    const uint8_t *m = text("a message");
    uint8_t mic[28], kept[28], room[256], back[256];
    size_t n = 7, k = 7;
    bool sealed = false;
    WANT(vm_scram_get_mic(from, m, 9, mic) == VM_DONE);
    WANT(vm_scram_verify_mic(to, m, 9, mic, 28) == VM_DONE);
    WANT(vm_scram_verify_mic(to, m, 8, mic, 28) == VM_TOKEN_CHECKSUM);
    WANT(vm_scram_verify_mic(to, m, 9, mic, 27) == VM_TOKEN_LENGTH);
    /* one that this end made itself comes from the wrong side */
    WANT(vm_scram_verify_mic(from, m, 9, mic, 28) == VM_TOKEN_DIRECTION);
    memcpy(kept, mic, 28);
    WANT(vm_scram_get_mic(from, m, 9, mic) == VM_DONE && memcmp(kept, mic, 28));
    for (int conf = 0; conf < 2; conf++) {
        WANT(vm_scram_wrap(from, conf, confounder, m, 9, room, 20, &n) == VM_NO_ROOM && n == (conf ? 69u : 37u));
        WANT(vm_scram_wrap(from, conf, confounder, m, 9, room, sizeof room, &n) == VM_DONE && n == (conf ? 69u : 37u));
        WANT(vm_scram_unwrap(to, room, n, back, 8, &k, &sealed) == VM_NO_ROOM && k == 9);
        WANT(vm_scram_unwrap(to, room, n, back, 9, &k, &sealed) == VM_DONE && k == 9 && !memcmp(back, m, 9) && sealed == (conf == 1));
        WANT(vm_scram_unwrap(from, room, n, back, 9, &k, &sealed) == VM_TOKEN_DIRECTION);
        room[n - 1] ^= 1;
        WANT(vm_scram_unwrap(to, room, n, back, 9, &k, &sealed) == VM_TOKEN_CHECKSUM);
        WANT(vm_scram_wrap(from, conf, confounder, none, 0, room, sizeof room, &n) == VM_DONE && n == (conf ? 60u : 28u));
        WANT(vm_scram_unwrap(to, room, n, back, 1, &k, &sealed) == VM_DONE && k == 0);
    }
}

int main(int argc, char **argv) {
    static uint8_t file[1 << 16];
    WANT(argc == 5);
    const char *user = argv[2], *password = argv[3];
    size_t n = file_of(argv[1], file, sizeof file), count = 7;
    vm_verifiers v = {0};
    vm_scram i = {0}, a = {0}, b = {0};
    uint32_t said_i, said_a;
    uint8_t room[2048], mic[28];
    uint64_t ends = 0;
    bool sealed = false;
    WANT(vm_verifiers_read(&v, file, n - 1) == VM_LINE && !v.full);
    WANT(vm_verifiers_read(&v, file, n) == VM_DONE);
    WANT(vm_verifiers_read(&v, file, n) == VM_DONE);
    memcpy(file + n, file, n);
    WANT(vm_verifiers_read(&v, file, 2 * n) == VM_TWICE);
    /* empty handles */
    WANT(vm_scram_step(&i, &v, none, 0, 0, nonce_i) == VM_EMPTY && vm_scram_token_len(&i) == 0);
    WANT(vm_scram_initiator(&i, room, 255, &count) == VM_EMPTY && count == 7 && vm_scram_ends(&i, &ends) == VM_EMPTY);
    WANT(vm_scram_get_mic(&i, none, 0, mic) == VM_EMPTY && vm_scram_verify_mic(&i, none, 0, none, 0) == VM_EMPTY);
    WANT(vm_scram_wrap(&i, true, confounder, none, 0, room, 1, &count) == VM_EMPTY);
    WANT(vm_scram_unwrap(&i, none, 0, room, 1, &count, &sealed) == VM_EMPTY);
    /* what is no text, no user, too long */
    WANT(vm_scram_init(&i, text("\xff"), 1, none, 0, nonce_i, none, 0) == VM_NOT_TEXT && !i.full);
    WANT(vm_scram_init(&i, none, 0, text("p"), 1, nonce_i, none, 0) == VM_TEXT && !i.full);
    static uint8_t long_bindings[32769];
    WANT(vm_scram_init(&i, text("u"), 1, text("p"), 1, nonce_i, long_bindings, 32769) == VM_LONG_BINDINGS);
    WANT(vm_scram_accept(&a, long_bindings, 32769) == VM_LONG_BINDINGS && !a.full);
    /* a context, with and without bindings */
    for (int bound = 0; bound < 2; bound++) {
        const char *data = bound ? "tls-exporter:abc" : "";
        both(&i, &a, &v, user, password, data, data, &said_i, &said_a);
        WANT(said_i == VM_DONE && said_a == VM_DONE);
        WANT(vm_scram_initiator(&a, room, 255, &count) == VM_DONE && count == strlen(user) && !memcmp(room, user, count));
        WANT(vm_scram_initiator(&a, room, 0, &count) == VM_NO_ROOM && count == strlen(user));
        WANT(vm_scram_ends(&a, &ends) == VM_DONE && ends == 2000000 + 86400000000u);
        messages(&i, &a);
        messages(&a, &i);
        WANT(vm_scram_step(&i, &v, none, 0, 0, nonce_i) == VM_NOT_DUE);
        WANT(vm_scram_step(&a, &v, none, 0, 0, nonce_i) == VM_NOT_DUE);
    }
    /* a token of another context */
    WANT(vm_scram_get_mic(&i, none, 0, mic) == VM_DONE);
    both(&b, &a, &v, user, password, "", "", &said_i, &said_a);
    WANT(said_a == VM_DONE && vm_scram_verify_mic(&a, none, 0, mic, 28) == VM_TOKEN_CHECKSUM);
    /* refused: bindings, password, user, garbage; the handle is over then */
    both(&i, &a, &v, user, password, "x", "y", &said_i, &said_a);
    WANT(said_a == VM_BINDINGS && vm_scram_token_len(&a) == 0 && vm_scram_get_mic(&a, none, 0, mic) == VM_NOT_DUE);
    both(&i, &a, &v, user, argv[4], "", "", &said_i, &said_a);
    WANT(said_a == VM_PROOF && vm_scram_initiator(&a, room, 255, &count) == VM_NOT_DUE);
    both(&i, &a, &v, "nobody", password, "", "", &said_i, &said_a);
    WANT(said_a == VM_NO_USER && vm_scram_step(&a, &v, none, 0, 0, nonce_a) == VM_NOT_DUE);
    WANT(vm_scram_step(&i, &v, text("v=AAAAAAAAAAAAAAAAAAAAAAAAAAA="), 30, 0, nonce_i) == VM_TEXT);
    WANT(vm_scram_get_mic(&i, none, 0, mic) == VM_NOT_DUE);
    vm_scram_free(&i);
    vm_scram_free(&i);
    vm_scram_free(&a);
    vm_scram_free(&b);
    vm_verifiers_free(&v);
    WANT(!i.full && !a.full && !v.full);
    puts("every export was called");
    return 0;
}
