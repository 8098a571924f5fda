/* Prints keys that fall on one place of the program's tables, a line each.

       collide COUNT

   A table looks a key up by a hash of 32 bits whose seed is the same in every run. The low bits of the hash say where the search begins, and the
   top eight with which keys the key is compared. These keys agree in both. */

#include <stdint.h>
#include <stdio.h>
#include <stdlib.h>

/* As many low bits as a table of 9,000 keys looks at. */
#define PLACE_BITS 10
#define TOP 77
#define LENGTH 8

static const char letters[] = "abcdefghijklmnopqrstuvwxyz0123456789";
static const uint64_t multiplier = 0x9e3779b97f4a7c15, seed = 0x243f6a8885a308d3;

static uint64_t folded(uint64_t a, uint64_t b)
{
    unsigned __int128 product = (unsigned __int128)a * b;
    return (uint64_t)product ^ (uint64_t)(product >> 64);
}

/* A byte is written as a number of one byte, whose first, middle and last byte it is. */
static uint64_t after(uint64_t state, unsigned char byte) { return folded(state ^ byte * 0x010101u, multiplier ^ 2); }

static int is_chosen(uint64_t state)
{
    uint32_t hash = (uint32_t)(state ^ (state >> 32));
    return (hash & ((1 << PLACE_BITS) - 1)) == 0 && hash >> 24 == TOP;
}

/* Prints the keys that begin so, up to the number that is left, and says how many are left then. */
static long print_keys(char *key, uint64_t state, int at, long left)
{
    for (const char *letter = letters; *letter && left > 0; letter++) {
        uint64_t next = after(state, key[at] = *letter);
        if (at + 1 < LENGTH)
            left = print_keys(key, next, at + 1, left);
        else if (is_chosen(next)) {
            puts(key);
            left--;
        }
    }
    return left;
}

int main(int count, char **words)
{
    char key[LENGTH + 1] = "";
    if (count != 2) return 1;
    /* The length is written first, in eight bytes. */
    return print_keys(key, folded(seed ^ LENGTH, multiplier ^ 16), 0, atol(words[1])) > 0;
}
