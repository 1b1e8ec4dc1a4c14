/* OpenSSL's library in place of kernels of fsc_speed, the round keys made once: a rival that runs in turn
 * with them. `openssl speed` can't report ciphertext stealing, since that cipher takes one piece a text and
 * every second of its calls is refused there.
 *
 * gcc -O2 -o openssl_ciphers openssl_ciphers.c -lcrypto; openssl_ciphers WORK BYTES COUNT does the work
 * COUNT times: `ecb` and `ecb-back` a text of blocks, `xts` and `xts-back` a unit, `cts` a text with
 * ciphertext stealing, `sha512` a digest of the text, which is put at its start. */
#include <openssl/evp.h>
#include <openssl/params.h>
#include <stdio.h>
#include <stdlib.h>
#include <string.h>

enum { MAX_TEXT = 65536 };

static unsigned char text[MAX_TEXT];

static int digests(int bytes, long count) {
    EVP_MD *hash = EVP_MD_fetch(NULL, "SHA512", NULL);
    EVP_MD_CTX *ctx = EVP_MD_CTX_new();
    if (!hash || !ctx)
        return 1;
    for (long i = 0; i < count; i++)
        if (!EVP_DigestInit_ex2(ctx, hash, NULL) || !EVP_DigestUpdate(ctx, text, (size_t)bytes) ||
            !EVP_DigestFinal_ex(ctx, text, NULL))
            return 1;
    return 0;
}

/* With the initialization vector set before each text, as units and texts of names have theirs. */
static int texts(const char *name, int is_forward, const OSSL_PARAM *form, int bytes, long count) {
    unsigned char key[64], iv[16] = {7};
    int out = 0, has_iv = strstr(name, "ECB") == NULL;
    for (int i = 0; i < 64; i++)
        key[i] = (unsigned char)(i + 1);
    EVP_CIPHER *cipher = EVP_CIPHER_fetch(NULL, name, NULL);
    EVP_CIPHER_CTX *ctx = EVP_CIPHER_CTX_new();
    if (!cipher || !ctx || !EVP_CipherInit_ex2(ctx, cipher, key, has_iv ? iv : NULL, is_forward, form))
        return 1;
    /* Not where an initialization vector is set for each text: that would set the padding again each time. */
    if (!has_iv)
        EVP_CIPHER_CTX_set_padding(ctx, 0);
    for (long i = 0; i < count; i++)
        if ((has_iv && !EVP_CipherInit_ex2(ctx, NULL, NULL, iv, is_forward, NULL)) ||
            !EVP_CipherUpdate(ctx, text, &out, text, bytes) || out != bytes)
            return 1;
    return 0;
}

int main(int argc, char **argv) {
    const OSSL_PARAM stealing[] = {OSSL_PARAM_construct_utf8_string("cts_mode", (char *)"CS3", 0),
                                   OSSL_PARAM_construct_end()};
    if (argc != 4)
        return 2;
    const char *work = argv[1];
    int bytes = atoi(argv[2]), failed = 2;
    long count = atol(argv[3]);
    if (bytes < 16 || bytes > MAX_TEXT)
        return 2;
    if (!strcmp(work, "ecb")) failed = texts("AES-256-ECB", 1, NULL, bytes, count);
    if (!strcmp(work, "ecb-back")) failed = texts("AES-256-ECB", 0, NULL, bytes, count);
    if (!strcmp(work, "xts")) failed = texts("AES-256-XTS", 1, NULL, bytes, count);
    if (!strcmp(work, "xts-back")) failed = texts("AES-256-XTS", 0, NULL, bytes, count);
    if (!strcmp(work, "cts")) failed = texts("AES-256-CBC-CTS", 1, stealing, bytes, count);
    if (!strcmp(work, "sha512")) failed = digests(bytes, count);
    if (!failed) printf("%d\n", text[0]);
    return failed;
}
