/* SHA-256, by FIPS 180-4. */
#ifndef SHA256_H
#define SHA256_H

#include <stdbool.h>
#include <stddef.h>
#include <stdint.h>
#include <stdio.h>

enum { SHA256_DIGITS = 64 };

typedef struct sha256 {
    uint32_t hash[8];
    uint64_t length; /* bytes so far */
    uint8_t block[64];
} sha256;

void sha256_begin(sha256 *sum);
void sha256_add(sha256 *sum, const void *bytes, size_t length);

/* The sum in hexadecimal, small letters, with a 0 at the end. */
void sha256_end(sha256 *sum, char digits[SHA256_DIGITS + 1]);

/* The sum of all that is left of a file; false if it cannot be read. */
bool sha256_of_file(FILE *file, char digits[SHA256_DIGITS + 1]);

#endif
