/* Payloads: random ones, and those made of another. */
#include "secrets.h"

void random_bytes(uint8_t *bytes, size_t len)
{
    static uint64_t x = 0x9E3779B97F4A7C15;
    for (size_t i = 0; i < len; i++) {
        x ^= x << 13;
        x ^= x >> 7;
        x ^= x << 17;
        bytes[i] = (uint8_t)(x >> 32);
    }
}

bool bit_of(const uint8_t *bytes, size_t i)
{
    return bytes[i / 8] >> (7 - i % 8) & 1;
}

void flip(uint8_t *bytes, size_t i)
{
    bytes[i / 8] ^= (uint8_t)(1 << (7 - i % 8));
}

struct payload random_data(size_t count)
{
    struct payload data = {.count = count, .form = DATA};
    random_bytes(data.bytes, PAYLOAD_BYTES);
    return data;
}

/* A payload of a message's layout: random data, eight zero bits and a random MAC. */
struct payload layout(size_t data_bits, size_t width)
{
    struct payload p = random_data(data_bits + 8 + width);
    p.form = MESSAGE;
    p.width = width;
    for (size_t i = data_bits; i < data_bits + 8; i++)
        if (bit_of(p.bytes, i))
            flip(p.bytes, i);
    return p;
}

struct payload with_flip(struct payload p, size_t i)
{
    flip(p.bytes, i);
    return p;
}

struct payload with_count(struct payload p, size_t count)
{
    p.count = count;
    return p;
}
