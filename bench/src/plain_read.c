/* One plain read of bytes, their sum modulo 256: the least that a check of free bytes can take. In C, where
   a loop's place can be asked for: at another place such a loop took half as long again. */
#include <stddef.h>

enum { LANES = 64 };

unsigned char plain_read(const unsigned char *bytes, size_t length) {
    unsigned char lanes[LANES] = {0}, sum = 0;
    size_t i = 0;
    for (; i + LANES <= length; i += LANES)
        for (size_t j = 0; j < LANES; j++) lanes[j] += bytes[i + j];
    for (; i < length; i++) sum += bytes[i];
    for (size_t j = 0; j < LANES; j++) sum += lanes[j];
    return sum;
}
