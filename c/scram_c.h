/* SCRAM-SHA-1 as a GSS-API mechanism, behind handles: the exports of the crate scram_c.
   A slice is a pointer and then a length. The pointer isn't NULL, though the length may be 0. docs/C.md says what a caller owes. */
#ifndef SCRAM_C_H
#define SCRAM_C_H
#include <stdbool.h>
#include <stddef.h>
#include <stdint.h>

/* Each begins as {0}, is never copied, and has one call at a time. Its words are the library's. */
typedef struct { bool full; void *at; } vm_scram;
typedef struct { bool full; void *at; } vm_verifiers;

/* What a call answers. 201 to 209 are the refusals of an exchange that docs/TROUBLESHOOTING.md lists; 301 to 308 those of a message's token. */
enum {
    VM_DONE = 0, VM_MORE = 1, VM_NO_MEMORY = 2, VM_EMPTY = 3, VM_NOT_DUE = 4, VM_NO_VERIFIERS = 5, VM_NO_ROOM = 6,
    VM_NOT_TEXT = 7, VM_LONG_BINDINGS = 8, VM_LINE = 9, VM_TWICE = 10,
    VM_TEXT = 201, VM_MANDATORY, VM_NONCE, VM_ROUNDS, VM_NO_USER, VM_BINDINGS, VM_PROOF, VM_SIGNATURE, VM_PEER_ERROR,
    VM_TOKEN_LENGTH = 301, VM_TOKEN_KIND, VM_TOKEN_DIRECTION, VM_TOKEN_SUBKEY, VM_TOKEN_FILLER, VM_TOKEN_CHECKSUM, VM_TOKEN_EXTRA,
    VM_TOKEN_HEADER
};

/* Octets that a Wrap token has at most beyond its message. */
enum { VM_WRAP_MORE = 60, VM_MIC = 28, VM_NONCE_OCTETS = 18, VM_CONFOUNDER = 16, VM_NAME_MOST = 255 };

uint32_t vm_scram_init(vm_scram *h, const uint8_t *user, size_t user_len, const uint8_t *password, size_t password_len,
                       const uint8_t nonce[18], const uint8_t *bindings, size_t bindings_len);
uint32_t vm_scram_accept(vm_scram *h, const uint8_t *bindings, size_t bindings_len);
uint32_t vm_scram_step(vm_scram *h, vm_verifiers *verifiers, const uint8_t *token, size_t token_len, uint64_t now, const uint8_t nonce[18]);
void vm_scram_free(vm_scram *h);

size_t vm_scram_token_len(vm_scram *h);
uint32_t vm_scram_token(vm_scram *h, uint8_t *room, size_t room_len);
uint32_t vm_scram_initiator(vm_scram *h, uint8_t *room, size_t room_len, size_t *count);
uint32_t vm_scram_ends(vm_scram *h, uint64_t *ends);

uint32_t vm_scram_get_mic(vm_scram *h, const uint8_t *message, size_t message_len, uint8_t mic[28]);
uint32_t vm_scram_verify_mic(vm_scram *h, const uint8_t *message, size_t message_len, const uint8_t *token, size_t token_len);
uint32_t vm_scram_wrap(vm_scram *h, bool sealed, const uint8_t confounder[16], const uint8_t *message, size_t message_len,
                       uint8_t *room, size_t room_len, size_t *count);
uint32_t vm_scram_unwrap(vm_scram *h, const uint8_t *token, size_t token_len, uint8_t *room, size_t room_len, size_t *count, bool *sealed);

uint32_t vm_verifiers_read(vm_verifiers *h, const uint8_t *octets, size_t octets_len);
void vm_verifiers_free(vm_verifiers *h);
#endif
