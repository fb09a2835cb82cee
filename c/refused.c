/* Refuses the library each allocation of each call in turn: the call then answers VM_NO_MEMORY, and made again it goes as if nothing was.
   Linked with --wrap=malloc and --wrap=realloc. usage: refused VERIFIERS USER PASSWORD */
#include "scram_c.h"
#include <stdio.h>
#include <stdlib.h>
#include <string.h>

void *__real_malloc(size_t size);
void *__real_realloc(void *old, size_t size);

static long left = -1, refusals;

static int is_refused(void) {
    if (left < 0) return 0;
    if (left-- > 0) return 0;
    refusals++;
    return 1;
}
void *__wrap_malloc(size_t size) { return is_refused() ? NULL : __real_malloc(size); }
void *__wrap_realloc(void *old, size_t size) { return is_refused() ? NULL : __real_realloc(old, size); }

/* the first call that isn't refused; all before it answer VM_NO_MEMORY */
#define EACH(call, want) do { \
        for (long at = 0;; at++) { \
            long before = refusals; \
            left = at; \
            uint32_t said = call; \
            left = -1; \
            if (refusals == before) { if (said != (want)) { printf("line %d: %u\n", __LINE__, said); return 1; } break; } \
            if (said != VM_NO_MEMORY) { printf("line %d: %u at allocation %ld\n", __LINE__, said, at); return 1; } \
        } \
    } while (0)

static uint8_t token[2048];
static size_t token_of(vm_scram *h) {
    size_t n = vm_scram_token_len(h);
    return n <= sizeof token && vm_scram_token(h, token, n ? n : 1) == VM_DONE ? n : 0;
}

int main(int argc, char **argv) {
    static uint8_t file[1 << 16];
    const uint8_t *bindings = (const uint8_t *)"data";
    uint8_t nonce[18] = "0123456789abcdefg", confounder[16] = "fedcba987654321", room[256], back[256];
    vm_verifiers v = {0}, none = {0};
    vm_scram i = {0}, a = {0};
    size_t n, k;
    bool sealed;
    FILE *f = argc == 4 ? fopen(argv[1], "rb") : NULL;
    if (!f) return 2;
    n = fread(file, 1, sizeof file, f);
    fclose(f);
    EACH(vm_verifiers_read(&v, file, n), VM_DONE);
    EACH(vm_scram_init(&i, (uint8_t *)argv[2], strlen(argv[2]), (uint8_t *)argv[3], strlen(argv[3]), nonce, bindings, 4), VM_MORE);
    EACH(vm_scram_accept(&a, bindings, 4), VM_DONE);
    n = token_of(&i);
    EACH(vm_scram_step(&a, &v, token, n, 0, nonce), VM_MORE);
    n = token_of(&a);
    EACH(vm_scram_step(&i, &none, token, n, 0, nonce), VM_MORE);
    n = token_of(&i);
    EACH(vm_scram_step(&a, &v, token, n, 0, nonce), VM_DONE);
    n = token_of(&a);
    EACH(vm_scram_step(&i, &none, token, n, 0, nonce), VM_DONE);
    EACH(vm_scram_wrap(&i, true, confounder, file, 9, room, sizeof room, &n), VM_DONE);
    EACH(vm_scram_unwrap(&a, room, n, back, sizeof back, &k, &sealed), VM_DONE);
    EACH(vm_scram_wrap(&a, false, confounder, file, 9, room, sizeof room, &n), VM_DONE);
    EACH(vm_scram_unwrap(&i, room, n, back, sizeof back, &k, &sealed), VM_DONE);
    vm_scram_free(&i);
    vm_scram_free(&a);
    vm_verifiers_free(&v);
    printf("%ld allocations were refused\n", refusals);
    return refusals > 20 ? 0 : 1;
}
