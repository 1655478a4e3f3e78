/* AES-128 by the processor's own instructions, for the second of the Rust's columns. As in RustCrypto's `aes`, a key is expanded for
   both directions at once: 11 round keys to encipher, then 11 to decipher. */
#include <stdint.h>
#include <string.h>

#if defined(__x86_64__)
#include <wmmintrin.h>
typedef __m128i block;
static block load(const uint8_t *p) { return _mm_loadu_si128((const block *)p); }
static void store(uint8_t *p, block b) { _mm_storeu_si128((block *)p, b); }
static block mixed_back(block k) { return _mm_aesimc_si128(k); }
#define NEXT(r, c) k[r] = _mm_xor_si128(spread(k[r - 1]), _mm_shuffle_epi32(_mm_aeskeygenassist_si128(k[r - 1], c), 0xFF))
static block spread(block k) {
    k = _mm_xor_si128(k, _mm_slli_si128(k, 4));
    return _mm_xor_si128(k, _mm_slli_si128(k, 8));
}
static void forward(const uint8_t *key, block *k) {
    k[0] = load(key);
    NEXT(1, 1); NEXT(2, 2); NEXT(3, 4); NEXT(4, 8); NEXT(5, 16); NEXT(6, 32); NEXT(7, 64); NEXT(8, 128); NEXT(9, 27); NEXT(10, 54);
}
static block encipher(const uint8_t *k, block b) {
    b = _mm_xor_si128(b, load(k));
    for (int r = 1; r < 10; r++) b = _mm_aesenc_si128(b, load(k + 16 * r));
    return _mm_aesenclast_si128(b, load(k + 160));
}
static block decipher(const uint8_t *k, block b) {
    b = _mm_xor_si128(b, load(k));
    for (int r = 1; r < 10; r++) b = _mm_aesdec_si128(b, load(k + 16 * r));
    return _mm_aesdeclast_si128(b, load(k + 160));
}

#elif defined(__aarch64__)
#include <arm_neon.h>
typedef uint8x16_t block;
static block load(const uint8_t *p) { return vld1q_u8(p); }
static void store(uint8_t *p, block b) { vst1q_u8(p, b); }
static block mixed_back(block k) { return vaesimcq_u8(k); }
/* SubWord: the instruction's ShiftRows changes nothing where all columns are the same. */
static uint32_t sub_word(uint32_t w) {
    return vgetq_lane_u32(vreinterpretq_u32_u8(vaeseq_u8(vreinterpretq_u8_u32(vdupq_n_u32(w)), vdupq_n_u8(0))), 0);
}
static void forward(const uint8_t *key, block *k) {
    static const uint8_t constant[10] = { 1, 2, 4, 8, 16, 32, 64, 128, 27, 54 };
    uint32_t w[44];
    memcpy(w, key, 16);
    for (int i = 4; i < 44; i += 4) {
        uint32_t t = sub_word(w[i - 1]);
        w[i] = w[i - 4] ^ (t >> 8 | t << 24) ^ constant[i / 4 - 1];
        w[i + 1] = w[i - 3] ^ w[i];
        w[i + 2] = w[i - 2] ^ w[i + 1];
        w[i + 3] = w[i - 1] ^ w[i + 2];
    }
    memcpy(k, w, 176);
}
static block encipher(const uint8_t *k, block b) {
    for (int r = 0; r < 9; r++) b = vaesmcq_u8(vaeseq_u8(b, load(k + 16 * r)));
    return veorq_u8(vaeseq_u8(b, load(k + 144)), load(k + 160));
}
static block decipher(const uint8_t *k, block b) {
    for (int r = 0; r < 9; r++) b = vaesimcq_u8(vaesdq_u8(b, load(k + 16 * r)));
    return veorq_u8(vaesdq_u8(b, load(k + 144)), load(k + 160));
}
#else
#error "no AES instructions known for this processor"
#endif

void hard_expand(const uint8_t *key, uint8_t *out) {
    block k[11];
    forward(key, k);
    for (int i = 0; i <= 10; i++) store(out + 16 * i, k[i]);
    for (int i = 0; i <= 10; i++) store(out + 176 + 16 * i, i % 10 == 0 ? k[10 - i] : mixed_back(k[10 - i]));
}
void hard_encrypt(const uint8_t *keys, uint8_t *b) { store(b, encipher(keys, load(b))); }
void hard_decrypt(const uint8_t *keys, uint8_t *b) { store(b, decipher(keys + 176, load(b))); }
