/* Prints names of seven letters and digits that all fall into one place of a hash table of 4,096 groups, with one tag, by the fixed hash
 * of the toolchain's indexmap: a slice is its length and then its bytes, each a call of a hasher that folds a product of 128 bits.
 * The first word is how many names. With a second word the hasher first takes a number of 64 bits: SipHash-1-3 of nothing, which is the key
 * of a table whose key depends on no name. */
#include <stdint.h>
#include <stdio.h>
#include <stdlib.h>

#define LETTERS 7

static const uint64_t start = 0x243f6a8885a308d3, multiplier = 0x9e3779b97f4a7c15, nothing = 0xd1fba762150c532c;
static const char signs[] = "ABCDEFGHIJKLMNOPQRSTUVWXYZ0123456789";

static uint64_t fold(uint64_t a, uint64_t b)
{
    unsigned __int128 product = (unsigned __int128)a * b;
    return (uint64_t)product ^ (uint64_t)(product >> 64);
}

static uint64_t write_byte(uint64_t state, char byte)
{
    return fold(state ^ (uint64_t)byte * 0x010101, multiplier ^ 2);
}

static char name[LETTERS + 1];
static long wanted;

/* All names that begin with so many letters, whose state is given. */
static void names(int len, uint64_t state)
{
    const uint32_t mask = 0xff000fff, place = 0x2a000123;
    for (const char *sign = signs; *sign != 0 && wanted > 0; sign++) {
        uint64_t next = write_byte(state, *sign);
        if (len == 0 && *sign >= '0' && *sign <= '9')
            continue;
        name[len] = *sign;
        if (len + 1 < LETTERS)
            names(len + 1, next);
        else if (((uint32_t)(next ^ next >> 32) & mask) == place && wanted-- > 0)
            puts(name);
    }
}

int main(int count, char **words)
{
    const uint64_t factor = multiplier ^ 2 * sizeof(uint64_t);
    wanted = count > 1 ? atol(words[1]) : 0;
    names(0, fold((count > 2 ? fold(start ^ nothing, factor) : start) ^ LETTERS, factor));
    return 0;
}
