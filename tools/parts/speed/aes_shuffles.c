// AES-256 by shuffles (aes_shuffles.h), block after block: the rival in C of the kernel `aes-block`.
//
//     gcc -O3 -march=x86-64-v2 aes_shuffles.c -o aes_shuffles && ./aes_shuffles 400000
#include "aes_shuffles.h"
#include <stdio.h>
#include <stdlib.h>

int main(int argc, char **argv) {
    long count = argc > 1 ? atol(argv[1]) : 400000;
    uint8_t key[32], words[240], out[16];
    for (int i = 0; i < 32; i++) key[i] = 0x5a;
    expand(key, words);
    vector block = _mm_setzero_si128();
    for (long n = 0; n < count; n++) block = encrypt(words, block);
    _mm_storeu_si128((vector *)out, block);
    for (int i = 0; i < 16; i++) printf("%02x", out[i]);
    printf("\n");
    return 0;
}
