/* Packs a file by zlib, unpacks it again, and sees that it is the same: zip FILE */
#include <stdio.h>
#include <stdlib.h>
#include <string.h>
#include "zlib.h"

int main(int n, char **words)
{
    enum { MOST = 1 << 22 };
    static unsigned char plain[MOST], again[MOST];
    FILE *file = n == 2 ? fopen(words[1], "rb") : NULL;
    if (!file)
        return 2;
    uLong length = fread(plain, 1, sizeof plain, file);
    uLongf packed = compressBound(length), back = sizeof again;
    unsigned char *out = malloc(packed);
    if (!out || compress2(out, &packed, plain, length, 6) != Z_OK || uncompress(again, &back, out, packed) != Z_OK)
        return 1;
    printf("%lu of %lu\n", packed, length);
    return back != length || memcmp(plain, again, length) != 0;
}
