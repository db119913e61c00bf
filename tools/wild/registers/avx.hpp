// One store and one load of 32 aligned bytes, by AVX.
#include <immintrin.h>
alignas(64) static record held;
static void open_register(const record &opening) { held = opening; }
static void write_register(int, const record &from) {
    _mm256_store_si256(reinterpret_cast<__m256i *>(&held), _mm256_loadu_si256(reinterpret_cast<const __m256i *>(&from)));
}
static void read_register(int, record &to) {
    asm volatile("" ::: "memory");
    _mm256_storeu_si256(reinterpret_cast<__m256i *>(&to), _mm256_load_si256(reinterpret_cast<const __m256i *>(&held)));
}
