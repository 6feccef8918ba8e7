/* BearSSL as a peer: GHASH by ctmul64, and AES-GCM over it with the constant-time AES of 64-bit words. */
#include <bearssl.h>
#include <string.h>

void bearssl_ghash(const unsigned char *key, const unsigned char *data, size_t len, unsigned char *tag)
{
    memset(tag, 0, 16);
    br_ghash_ctmul64(tag, key, data, len);
}

/* Encrypts or decrypts text in place, the key's schedule included, as a sealing that gets a key does. */
void bearssl_gcm(int encrypt, const unsigned char *key, size_t key_len, const unsigned char *nonce,
                 unsigned char *text, size_t len, unsigned char *tag)
{
    br_aes_ct64_ctr_keys cipher;
    br_gcm_context gcm;
    br_aes_ct64_ctr_init(&cipher, key, key_len);
    br_gcm_init(&gcm, &cipher.vtable, &br_ghash_ctmul64);
    br_gcm_reset(&gcm, nonce, 12);
    br_gcm_flip(&gcm);
    br_gcm_run(&gcm, encrypt, text, len);
    br_gcm_get_tag(&gcm, tag);
}
