/* Writes COUNT names whose hashes under a fixed seed (Seed::fixed of kc_value) have the same lowest BITS bits, so that a table of
 * 2^BITS groups keeps them all in one chain; with any other word as a third one, ordinary names. */
#include <stdint.h>
#include <stdio.h>
#include <stdlib.h>

static const uint64_t prime = ((uint64_t)1 << 61) - 1;
static const uint64_t key = 0x9E3779B97F4A7C15 % ((uint64_t)1 << 60);

/* the value of the polynomial with one more coefficient: up to seven bytes, the first lowest, with a 1 above the last */
static uint64_t with_bytes(uint64_t value, const unsigned char *bytes, size_t length)
{
    uint64_t next = 1;
    while (length > 0)
        next = next << 8 | bytes[--length];
    return (unsigned __int128)(value + next) * key % prime;
}

/* the hash of a text, which ends with the byte 255 */
static uint64_t hash_of(const unsigned char *bytes, size_t length)
{
    uint64_t value = 0;
    for (; length > 7; bytes += 7, length -= 7)
        value = with_bytes(value, bytes, 7);
    return with_bytes(with_bytes(value, bytes, length), (const unsigned char *)"\xff", 1) & 0xFFFFFFFF;
}

int main(int count, char **words)
{
    uint64_t wanted = count > 1 ? strtoull(words[1], NULL, 10) : 0, tried = 0;
    uint64_t mask = ((uint64_t)1 << (count > 2 ? atoi(words[2]) : 0)) - 1;
    for (; wanted > 0; tried++) {
        unsigned char name[16] = "N00000000000000";
        for (uint64_t at = 14, rest = tried; rest > 0; at--, rest >>= 4)
            name[at] = "0123456789ABCDEF"[rest & 15];
        uint64_t hash = hash_of(name, 15);
        if (count > 3 || (hash & mask) == 0) {
            printf("%.15s\n", name);
            wanted--;
        }
    }
    return 0;
}
