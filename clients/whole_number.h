/* A whole number among the words of a call, as the clients that take several do it. */
#ifndef WHOLE_NUMBER_H
#define WHOLE_NUMBER_H

#include <stdint.h>
#include <stdlib.h>
#include <string.h>

/* Gives 1 and the number of a word of digits, or 0. Of a number above UINT64_MAX it is UINT64_MAX, which is refused too. */
static int whole_number(const char *word, uint64_t *number)
{
    *number = strtoull(word, NULL, 10);
    return *word != '\0' && word[strspn(word, "0123456789")] == '\0';
}

#endif
