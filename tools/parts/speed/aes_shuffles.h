// AES-256 by shuffles of 16-byte tables in registers, by the same steps as aes_core takes for one block.
#ifndef AES_SHUFFLES_H
#define AES_SHUFFLES_H

#include <stdint.h>
#include <tmmintrin.h>

typedef __m128i vector;

static vector table(uint64_t low, uint64_t high) { return _mm_set_epi64x((long long)high, (long long)low); }

static vector found(vector table, vector places) { return _mm_shuffle_epi8(table, places); }

static inline vector low_halves(vector bytes) { return _mm_and_si128(bytes, _mm_set1_epi8(15)); }

static inline vector high_halves(vector bytes) {
    return _mm_and_si128(_mm_srli_epi16(bytes, 4), _mm_set1_epi8(15));
}

static inline void inverse_parts(vector basis, vector *first, vector *second) {
    const vector inverses = table(0x0e05060f0d080180, 0x040703090a0b0c02);
    const vector scaled_inverses = table(0x01040a060f0b0780, 0x030d0e0c02050809);
    vector low = low_halves(basis);
    vector high = high_halves(basis);
    vector sum = _mm_xor_si128(high, low);
    vector scaled = found(scaled_inverses, low);
    vector of_high = _mm_xor_si128(found(inverses, high), scaled);
    vector of_sum = _mm_xor_si128(found(inverses, sum), scaled);
    *first = _mm_xor_si128(found(inverses, of_high), sum);
    *second = _mm_xor_si128(found(inverses, of_sum), high);
}

static inline vector substitute(vector bytes) {
    vector first, second;
    inverse_parts(_mm_xor_si128(found(table(0xc2b2e8985a2a7000, 0xcabae09052227808), low_halves(bytes)),
                                found(table(0x4c01307d317c4d00, 0xcd80b1fcb0fdcc81), high_halves(bytes))),
                  &first, &second);
    vector linear = _mm_xor_si128(found(table(0xd0d26d176fbdc700, 0x15aabf7ac502a878), first),
                                  found(table(0xcfe474a55fbb6a00, 0x8e1e90d1412b35fa), second));
    return _mm_xor_si128(linear, _mm_set1_epi8(0x63));
}

static inline vector inverse_substitute(vector bytes) {
    vector first, second;
    inverse_parts(_mm_xor_si128(found(table(0xe7b8b3ece3bcb7e8, 0xfda2a9f6f9a6adf2), low_halves(bytes)),
                                found(table(0x86e383e660056500, 0x12771772f491f194), high_halves(bytes))),
                  &first, &second);
    return _mm_xor_si128(found(table(0x1387ea537ef94000, 0xc7aa6db9d4943e2d), first),
                         found(table(0x12d7560f93441d00, 0xca4b8159d8c58e9c), second));
}

static inline vector shift_rows(vector s) {
    return _mm_shuffle_epi8(s, _mm_setr_epi8(0, 5, 10, 15, 4, 9, 14, 3, 8, 13, 2, 7, 12, 1, 6, 11));
}

static inline vector inverse_shift_rows(vector s) {
    return _mm_shuffle_epi8(s, _mm_setr_epi8(0, 13, 10, 7, 4, 1, 14, 11, 8, 5, 2, 15, 12, 9, 6, 3));
}

static inline vector next_row(vector s) {
    return _mm_shuffle_epi8(s, _mm_setr_epi8(1, 2, 3, 0, 5, 6, 7, 4, 9, 10, 11, 8, 13, 14, 15, 12));
}

static inline vector second_row_on(vector s) {
    return _mm_shuffle_epi8(s, _mm_setr_epi8(2, 3, 0, 1, 6, 7, 4, 5, 10, 11, 8, 9, 14, 15, 12, 13));
}

static inline vector times_x(vector b) {
    vector highest = _mm_cmpgt_epi8(_mm_setzero_si128(), b);
    return _mm_xor_si128(_mm_add_epi8(b, b), _mm_and_si128(highest, _mm_set1_epi8(0x1b)));
}

static inline vector mix_columns(vector s) {
    vector next = next_row(s);
    vector sum = _mm_xor_si128(s, next);
    return _mm_xor_si128(_mm_xor_si128(times_x(sum), next), second_row_on(sum));
}

static inline vector inverse_mix_columns(vector s) {
    vector sum = _mm_xor_si128(s, second_row_on(s));
    return mix_columns(_mm_xor_si128(s, times_x(times_x(sum))));
}

static void substitute_word(uint8_t word[4]) {
    uint8_t bytes[16] = {word[0], word[1], word[2], word[3]};
    vector v = substitute(_mm_loadu_si128((const vector *)bytes));
    _mm_storeu_si128((vector *)bytes, v);
    for (int k = 0; k < 4; k++) word[k] = bytes[k];
}

static void expand(const uint8_t key[32], uint8_t words[240]) {
    for (int i = 0; i < 32; i++) words[i] = key[i];
    for (int i = 8; i < 60; i++) {
        uint8_t w[4];
        for (int k = 0; k < 4; k++) w[k] = words[4 * i - 4 + k];
        if (i % 8 == 0) {
            uint8_t turned[4] = {w[1], w[2], w[3], w[0]};
            substitute_word(turned);
            turned[0] ^= (uint8_t)(1 << (i / 8 - 1));
            for (int k = 0; k < 4; k++) w[k] = turned[k];
        } else if (i % 8 == 4) {
            substitute_word(w);
        }
        for (int k = 0; k < 4; k++) words[4 * i + k] = words[4 * i - 32 + k] ^ w[k];
    }
}

static inline vector encrypt(const uint8_t words[240], vector block) {
    const vector *keys = (const vector *)words;
    vector state = _mm_xor_si128(block, _mm_loadu_si128(keys));
    for (int round = 1; round < 14; round++)
        state = _mm_xor_si128(mix_columns(shift_rows(substitute(state))), _mm_loadu_si128(keys + round));
    return _mm_xor_si128(shift_rows(substitute(state)), _mm_loadu_si128(keys + 14));
}

static inline vector decrypt(const uint8_t words[240], vector block) {
    const vector *keys = (const vector *)words;
    vector state = _mm_xor_si128(block, _mm_loadu_si128(keys + 14));
    for (int round = 13; round > 0; round--)
        state = inverse_mix_columns(
            _mm_xor_si128(inverse_substitute(inverse_shift_rows(state)), _mm_loadu_si128(keys + round)));
    return _mm_xor_si128(inverse_substitute(inverse_shift_rows(state)), _mm_loadu_si128(keys));
}

#endif
