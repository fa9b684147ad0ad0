/* What docs/HOST.md shows: the power-up block for font 0 in hex; or, of the bytes that are its arguments in hex and
   define a user character, its dots. */
#include <stdio.h>
#include <stdlib.h>
#include "sign.h"

static uint8_t block[SIGN_BLOCK], tally[SIGN_TALLY];

static void hex(void) {
    for (int at = 0; at < SIGN_BLOCK; at += 32) {
        printf("%03d:", at);
        for (int i = 0; i < 32; i++) printf(" %02X", block[at + i]);
        printf("\n");
    }
}

static int dots(int n, char **words) {
    uint8_t define[8] = {0};
    if (n != (int)sizeof define) return 1;
    for (int i = 0; i < n; i++) define[i] = (uint8_t)strtoul(words[i], NULL, 16);
    if (sign_run(block, sizeof block, tally, sizeof tally, define, sizeof define) != SIGN_ACCEPTED) return 1;
    for (uint32_t k = 1; k <= 35; k++)
        printf("%c%c", sign_dot(block, sizeof block, define[2], k) == 1 ? '#' : '.', k % 5 == 0 ? '\n' : ' ');
    printf("(%u dots are lit)\n", (unsigned)sign_lit(block, sizeof block, define[2]));
    return 0;
}

int main(int argc, char **argv) {
    if (sign_power_up(0, block, sizeof block) != SIGN_ACCEPTED) return 1;
    if (argc > 1) return dots(argc - 1, argv + 1);
    hex();
    return 0;
}
