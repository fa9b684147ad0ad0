/* Follows the lines in C of docs/HOST.md, and holds them to what the page says of them. */
#include <stdio.h>

static int failed;
static void check(const char *what, int holds) {
    if (!holds) failed = 1, printf("HOST.md: %s\n", what);
}

/* What a tally of version 1 becomes: its fourth number, or 0 where all four are 0. */
static uint32_t widened(uint32_t busy, uint32_t flickerless) {
    uint8_t tally[SIGN_TALLY];
    memset(tally, 0xEE, sizeof tally);
    for (int i = 0; i < 4; i++) {
        tally[i] = 1;
        tally[4 + i] = (uint8_t)(busy >> (8 * i));
        tally[8 + i] = (uint8_t)(flickerless >> (8 * i));
    }
    widen(tally);
    uint32_t worst = sign_tally_number(tally, SIGN_NUMBER_WORST);
    check("widen: the others", sign_tally_number(tally, SIGN_NUMBER_BYTES) == (worst == 0 ? 0 : 0x01010101)
        && sign_tally_number(tally, SIGN_NUMBER_BUSY) == (worst == 0 ? 0 : busy)
        && sign_tally_number(tally, SIGN_NUMBER_FLICKERLESS) == (worst == 0 ? 0 : flickerless));
    return worst;
}

/* What other people's bytes come to, from a sign that was just switched on. */
static void vetted(void) {
    static const uint8_t right[] = {0x0C, 'A', 0x0C}, twice[] = {'A', 0x0C, 'A', 0x0C};
    uint8_t block[SIGN_BLOCK], start[SIGN_BLOCK], after[SIGN_BLOCK], tally[SIGN_TALLY] = {0}, none[SIGN_TALLY] = {0}, codes[SIGN_CELLS];
    memset(codes, ' ', sizeof codes);
    codes[0] = 'A';
    sign_power_up(0, start, sizeof start);
    memcpy(after, start, sizeof after);
    check("run", sign_run(after, sizeof after, none, sizeof none, right, sizeof right) == SIGN_ACCEPTED);
    memset(none, 0, sizeof none);
    memcpy(block, start, sizeof block);
    check("take_string: no", take_string(block, tally, codes, 0, twice, sizeof twice) == NOT_THE_PICTURE);
    check("take_string: refused", take_string(block, tally, codes, 40, right, sizeof right) == SIGN_OUT_OF_RANGE);
    check("take_string: nothing changed", memcmp(block, start, sizeof block) == 0 && memcmp(tally, none, sizeof tally) == 0);
    check("take_string: yes", take_string(block, tally, codes, 0, right, sizeof right) == SIGN_ACCEPTED);
    check("take_string: it is run", memcmp(block, after, sizeof block) == 0);
}

int main(void) {
    static const uint8_t bytes[] = {0x1B, 0x53, 0x41, 0x0B, 0x1B, 0x49};
    uint8_t block[SIGN_BLOCK], start[SIGN_BLOCK], tally[SIGN_TALLY] = {0}, line[40];
    memset(line, 'A', sizeof line);
    check("power-up", sign_power_up(0, block, sizeof block) == SIGN_ACCEPTED);
    memcpy(start, block, sizeof start);
    check("wire_us: 1B 53 41 0B 1B 49", wire_us(block, bytes, sizeof bytes, 573) == 6 * 573 + 871);
    check("wire_us: 40 characters", wire_us(block, line, sizeof line, 573) == 23200);
    check("wire_us: at 9,600 baud", wire_us(block, line, sizeof line, 1146) == 40 * 1146 + 280);
    check("wire_us: no bytes", wire_us(block, line, 0, 573) == 0);
    check("wire_us: the block stays", memcmp(block, start, sizeof block) == 0);
    block[100] ^= 1;
    check("wire_us: a damaged block", wire_us(block, line, sizeof line, 573) == UINT32_MAX);
    block[100] ^= 1;
    check("flickerless on", sign_run(block, sizeof block, tally, sizeof tally, bytes, 2) == SIGN_ACCEPTED);
    check("wire_us: 40 characters, flickerless", wire_us(block, line, sizeof line, 573) == 31200);
    check("the most", SIGN_ROOM * 838 == 36872 && SIGN_FONTS_ROOM * 838 == 87152);
    check("widen", widened(71, 4) == 871 && widened(7, 0) == 7);
    check("widen: at the limit", widened(0, 20000000) == 4000000000u && widened(1, 20000000) == 0);
    check("widen: above 32 bits", widened(150000000, 21474837) == 0 && widened(4000000000u, 4000000000u) == 0);
    vetted();
    return failed;
}
