/* What the measure has to find, and what it must not report. Each function is given a secret of 32 bytes.
   Found are: AES-256 with a table for its S-box, whose addresses depend on the key; a comparison that ends
   at the first difference; a division of a secret; and secret bytes that the kernel is given. Not reported
   are: a comparison of all bytes, and a shuffle whose places are secret. */
#include <stdint.h>
#include <string.h>
#include <tmmintrin.h>
#include <unistd.h>

static uint8_t box[256];

static uint8_t product(uint8_t a, uint8_t b) {
    uint8_t p = 0;
    for (int i = 0; i < 8; i++) {
        p ^= (b >> i & 1) * a;
        a = (a << 1) ^ ((a >> 7) * 0x1b);
    }
    return p;
}

static void make_box(void) {
    for (int x = 0; x < 256; x++) {
        uint8_t inverse = 0;
        for (int y = 0; y < 256; y++)
            if (product(x, y) == 1) inverse = y;
        uint8_t t = inverse;
        for (int s = 1; s < 5; s++) t ^= (uint8_t)(inverse << s | inverse >> (8 - s));
        box[x] = t ^ 0x63;
    }
}

__attribute__((noinline)) void table_cipher(const uint8_t *key, uint8_t *block) {
    uint8_t w[240], rc = 1;
    memcpy(w, key, 32);
    for (int i = 8; i < 60; i++) {
        uint8_t t[4];
        memcpy(t, w + 4 * i - 4, 4);
        if (i % 8 == 0) {
            uint8_t f = t[0];
            t[0] = box[t[1]] ^ rc, t[1] = box[t[2]], t[2] = box[t[3]], t[3] = box[f];
            rc = product(rc, 2);
        } else if (i % 8 == 4)
            for (int k = 0; k < 4; k++) t[k] = box[t[k]];
        for (int k = 0; k < 4; k++) w[4 * i + k] = w[4 * i - 32 + k] ^ t[k];
    }
    for (int k = 0; k < 16; k++) block[k] ^= w[k];
    for (int r = 1; r < 15; r++) {
        uint8_t s[16];
        for (int k = 0; k < 16; k++) s[k] = box[block[(k + 4 * (k % 4)) % 16]];
        for (int c = 0; c < 16; c += 4)
            for (int k = 0; k < 4; k++) {
                uint8_t a = s[c + k], b = s[c + (k + 1) % 4];
                block[c + k] =
                    r == 14 ? a : product(a, 2) ^ product(b, 3) ^ s[c + (k + 2) % 4] ^ s[c + (k + 3) % 4];
            }
        for (int k = 0; k < 16; k++) block[k] ^= w[16 * r + k];
    }
}

__attribute__((noinline)) int early_exit(const uint8_t *a, const uint8_t *b) {
    for (int i = 0; i < 32; i++)
        if (a[i] != b[i]) return 0;
    return 1;
}

__attribute__((noinline)) void secret_division(const uint8_t *a, uint32_t by, uint32_t *out) {
    uint32_t number;
    memcpy(&number, a, 4);
    *out = number / by;
}

__attribute__((noinline)) long bytes_to_kernel(const uint8_t *a) { return write(1, a, 32) + 1; }

__attribute__((noinline)) void all_bytes(const uint8_t *a, const uint8_t *b, uint8_t *is_same) {
    uint8_t d = 0;
    for (int i = 0; i < 32; i++) d |= a[i] ^ b[i];
    *is_same = ((unsigned)d - 1) >> 8 & 1;
}

__attribute__((noinline)) void secret_shuffle(const uint8_t *places, const uint8_t *table, uint8_t *out) {
    __m128i bytes =
        _mm_shuffle_epi8(_mm_loadu_si128((const __m128i *)table), _mm_loadu_si128((const __m128i *)places));
    _mm_storeu_si128((__m128i *)out, bytes);
}

int main(int count, char **arguments) {
    uint8_t key[32], other[32], block[16] = {0}, out[16], is_same;
    uint32_t quotient;
    (void)arguments;
    for (int i = 0; i < 32; i++) key[i] = 33 + i, other[i] = 33 + i + (i == 9);
    make_box();
    table_cipher(key, block);
    int early = early_exit(key, other);
    secret_division(key, 6 + count, &quotient);
    bytes_to_kernel(key);
    all_bytes(key, other, &is_same);
    secret_shuffle(key, other, out);
    volatile int used = early + is_same + out[0] + block[0] + (int)quotient;
    (void)used;
    return 0;
}
