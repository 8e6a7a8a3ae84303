/* Numbers on a command line. */
#ifndef NUMBER_H
#define NUMBER_H

#include <stdint.h>

/* A decimal number of 32 bits; 0 where the word is none. */
static inline int number_of(const char *word, uint32_t *number)
{
    uint64_t value = 0;

    if (*word == '\0')
        return 0;
    for (; *word != '\0'; word++) {
        if (*word < '0' || *word > '9')
            return 0;
        value = value * 10 + (uint64_t)(*word - '0');
        if (value > UINT32_MAX)
            return 0;
    }
    *number = (uint32_t)value;
    return 1;
}

#endif
