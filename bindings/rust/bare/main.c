/* Calls bare_pass: 2 stored, 1 refused, by 1. */
#include <stdint.h>
#include <stdio.h>

uint64_t bare_pass(void);

int main(void)
{
    uint64_t told = bare_pass();
    if (told != 211)
        printf("bare_pass answered %d\n", (int)told);
    return told != 211;
}
