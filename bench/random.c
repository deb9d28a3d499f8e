#include "world.h"

static const uint32_t offsets[] = {
    0x50, 0x58, 0xA0, 0xB8, 0xC0, 0xC8, 0xD0, 0xD8, 0xE8, 0x1000, 0x1040, 0x1080, 0x10C0, 0x1100, 0x1140, 0x1180, 0x3000, 0x3008, 0x3010, 0x3018, 0x3020,
    0x3028, 0x3030, 0x3038, 0x3040, 0x3048, 0x3050, 0x3058, 0x3060, 0x3068, 0x3070, 0x3078, 0x3080, 0x4000, 0x4008, 0x4010, 0x4018, 0x4050, 0x4060, 0x4068,
    0x4070, 0x4078
};
static const uint32_t indices[] = { 0x06, 0x18, 0x19, 0x1C, 0x1E, 0x20, 0x22, 0x28, 0x29, 0x30, 0x32, 0x33, 0x40, 0x44, 0x45, 0xFF };
static const uint32_t modes[] = { 0x10, 0x10, 0x10, 0x30, 0x90, 0xBF, 0x00, 0x11 };

struct access random_access(uint64_t *seed, size_t memory_length) {
    uint32_t r = random_word(seed), kind = r % 64, n = r >> 6;
    struct access a = { PM_REGION_0, 0, random_word(seed) % 2 ? WRITE : READ, 15, 0 };
    a.word = random_word(seed);
    if (random_word(seed) % 4 == 0) a.enables = random_word(seed) % 16;
    if (kind < 16) { /* memory, now and then beyond its end */
        a.target = PM_APERTURE_ONE + n % 2;
        a.offset = random_word(seed) % (uint32_t)(memory_length + 8) & ~3u;
    } else if (kind < 34) { /* palette data */
        a.offset = 0x4008;
        if (n % 8) a.kind = WRITE;
    } else if (kind < 38) { /* an index, or an entry */
        a.offset = n % 2 ? 0x4000 : 0x4018;
        a.word = n / 2 % 2 ? indices[n / 4 % (sizeof indices / sizeof *indices)] : random_word(seed) % 256;
    } else if (kind < 44) {
        a.offset = 0x4050;
        if (n % 2) a.word = modes[n / 2 % 8];
    } else if (kind < 48) { /* where the picture starts, and its stride */
        a.offset = n % 2 ? 0x3000 : 0x3008;
        a.word = random_word(seed) % (n / 2 % 4 ? 4 : (uint32_t)memory_length / 8 + 2);
    } else if (kind < 49) {
        a.offset = 0x4010;
        if (n % 2) a.word = 0xFF;
    } else if (kind < 50) { /* an aperture's mode */
        a.offset = n % 2 ? 0x50 : 0x58;
        if (n / 2 % 4) a.word = n / 8 % 3;
    } else if (kind < 56) {
        a.offset = offsets[n % (sizeof offsets / sizeof *offsets)];
    } else if (kind < 61) {
        a.target = PM_CONFIGURATION;
        a.offset = n % 66 * 4;
    } else if (kind < 62) { /* anywhere */
        a.target = n % 5;
        a.offset = random_word(seed) % 0x5000;
    } else if (kind < 63) {
        a.offset = random_word(seed) % 0x1400 * 4;
    } else { /* of no form */
        a.target = random_word(seed) >> n % 32;
        a.offset = random_word(seed) >> n / 32 % 32;
        a.kind = random_word(seed) % 2 ? WRITE : READ;
        a.enables = random_word(seed) >> n / 1024 % 32;
    }
    return a;
}
