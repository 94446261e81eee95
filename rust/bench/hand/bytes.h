/* Numbers in memory, for the parts of the hand-tuned C. */
#include <emmintrin.h>
#include <stddef.h>
#include <stdint.h>
#include <string.h>

typedef uint8_t u8;
typedef uint16_t u16;
typedef uint32_t u32;
typedef uint64_t u64;

#define likely(x) __builtin_expect(!!(x), 1)
#define unlikely(x) __builtin_expect(!!(x), 0)
#define INLINE static inline __attribute__((always_inline))

INLINE u32 read32(const void *p) { u32 v; memcpy(&v, p, 4); return v; }
INLINE u64 read64(const void *p) { u64 v; memcpy(&v, p, 8); return v; }
INLINE void write32(void *p, u32 v) { memcpy(p, &v, 4); }
INLINE void write64(void *p, u64 v) { memcpy(p, &v, 8); }
INLINE __m128i read128(const void *p) { return _mm_loadu_si128((const __m128i *)p); }
INLINE void write128(void *p, __m128i v) { _mm_storeu_si128((__m128i *)p, v); }

/* Numbers of the stream, highest byte first. */
INLINE u32 number32(const u8 *p) { return __builtin_bswap32(read32(p)); }
INLINE u32 number16(const u8 *p) { u16 v; memcpy(&v, p, 2); return (u16)(v << 8 | v >> 8); }

/* Four words with their bytes turned round. */
INLINE __m128i turned(__m128i v) {
    v = _mm_or_si128(_mm_srli_epi16(v, 8), _mm_slli_epi16(v, 8));
    v = _mm_shufflelo_epi16(v, _MM_SHUFFLE(2, 3, 0, 1));
    return _mm_shufflehi_epi16(v, _MM_SHUFFLE(2, 3, 0, 1));
}
