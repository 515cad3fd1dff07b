/* Prints 4,096 server addresses, four bytes each, for which the address pairs of one client at 10.0.0.1:4000 and port 7 have hashes
   that agree where a table of 4,096 keys looks: in the ten low bits, and in the tag of the eight high ones. The hash is that of the
   kit's tables, FoldHasher with its fixed seed, over the fields one by one; where a kit hashes otherwise these addresses mean nothing. */
#include <stdint.h>
#include <stdio.h>

#define SEED 0x243f6a8885a308d3u
#define MULTIPLIER 0x9e3779b97f4a7c15u
#define LOOKED_AT 0xff0003ffu
#define WANTED 0x01000000u

static uint64_t fold(uint64_t a, uint64_t b)
{
    unsigned __int128 product = (unsigned __int128)a * b;
    return (uint64_t)product ^ (uint64_t)(product >> 64);
}

static uint64_t with_address(uint64_t state, uint64_t value)
{
    return fold(state ^ (value | value << 32), MULTIPLIER ^ 8);
}

static uint64_t with_port(uint64_t state, uint64_t value)
{
    uint64_t high = value >> 8;
    return fold(state ^ ((value & 255) | high << 8 | high << 16), MULTIPLIER ^ 4);
}

int main(void)
{
    uint64_t client = with_port(with_address(SEED, 0x0a000001), 4000);
    int found = 0;
    for (uint64_t server = 1; server >> 32 == 0 && found < 4096; server++) {
        uint64_t hash = with_port(with_address(client, server), 7);
        uint32_t address = (uint32_t)server;
        if (((uint32_t)(hash ^ hash >> 32) & LOOKED_AT) == WANTED)
            found += (int)fwrite(&address, sizeof address, 1, stdout);
    }
    return found == 4096 ? 0 : 1;
}
