#include "name.h"
#include <stddef.h>
#include <string.h>

static const uint8_t together_mark[4] = { '/', 'a', 'l', 'l' };

static uint64_t rotated(uint64_t word, int bits)
{
    return word << bits | word >> (64 - bits);
}

static void sip_round(uint64_t v[4])
{
    v[0] += v[1], v[1] = rotated(v[1], 13) ^ v[0], v[0] = rotated(v[0], 32);
    v[2] += v[3], v[3] = rotated(v[3], 16) ^ v[2];
    v[0] += v[3], v[3] = rotated(v[3], 21) ^ v[0];
    v[2] += v[1], v[1] = rotated(v[1], 17) ^ v[2], v[2] = rotated(v[2], 32);
}

/* SipHash-1-3 with keys of 0. */
static uint64_t sum_of(const char *bytes, size_t length)
{
    uint64_t v[4] = { 0x736f6d6570736575, 0x646f72616e646f6d, 0x6c7967656e657261, 0x7465646279746573 };
    for (size_t at = 0; at <= length; at += 8) {
        uint64_t word = length - at < 8 ? (uint64_t)length << 56 : 0;
        for (size_t k = 0; k < 8 && at + k < length; k++) word |= (uint64_t)(uint8_t)bytes[at + k] << 8 * k;
        v[3] ^= word;
        sip_round(v);
        v[0] ^= word;
    }
    v[2] ^= 0xff;
    for (int k = 0; k < 3; k++) sip_round(v);
    return v[0] ^ v[1] ^ v[2] ^ v[3];
}

void name_of(const char *path, uint8_t name[NAME])
{
    const char *slash = strrchr(path, '/'), *last = slash == NULL ? path : slash + 1;
    size_t length = strlen(last);
    uint64_t sum = sum_of(last, length);
    memset(name, 0, NAME);
    memcpy(name, last, length <= NAME ? length : NAME / 2);
    for (int k = 0; k < 8 && length > NAME; k++) name[8 + k] = (uint8_t)(sum >> (56 - 8 * k));
}

void name_together(const uint8_t name[NAME], uint32_t texts, uint8_t together[NAME])
{
    memcpy(together, together_mark, 4);
    for (int k = 0; k < 4; k++) together[4 + k] = (uint8_t)(texts >> (24 - 8 * k));
    for (int k = 0; k < 8; k++) together[8 + k] = name[k] ^ name[8 + k];
}

uint32_t texts_together(const uint8_t name[NAME])
{
    uint32_t texts = 0;
    if (memcmp(name, together_mark, 4) != 0) return 0;
    for (int k = 4; k < 8; k++) texts = texts << 8 | name[k];
    return texts;
}
