/* Prints how much stack each function of sign.h really uses: it is called on a stack that was filled with one value,
   and the deepest byte that has another value afterwards is looked for. Counted from the call's return address, which
   is counted too; arguments that lie on the stack are the caller's. memcpy and memset are the ones below, which use no
   stack of their own, so that each counts its return address only. There are no handlers, so nothing else writes there.
   Each function gets inputs of every kind that leads it another way; `stack.awk` reads from the code what is the most. */
#include <stdio.h>
#include <string.h>
#include "sign.h"

uint64_t call_on(uint8_t *top, uintptr_t function, const uint64_t argument[10]);
__asm__(".text\n"
        ".globl call_on, memcpy, memset\n"
        "call_on: push %rbp\n mov %rsp, %rbp\n"
        "  mov %rdi, %rsp\n pushq 72(%rdx)\n pushq 64(%rdx)\n pushq 56(%rdx)\n pushq 48(%rdx)\n" /* 32 bytes, as aligned as the top is */
        "  mov %rsi, %rax\n mov %rdx, %r10\n"
        "  mov 0(%r10), %rdi\n mov 8(%r10), %rsi\n mov 16(%r10), %rdx\n"
        "  mov 24(%r10), %rcx\n mov 32(%r10), %r8\n mov 40(%r10), %r9\n"
        "  call *%rax\n"
        "  mov %rbp, %rsp\n pop %rbp\n ret\n"
        "memcpy: mov %rdi, %rax\n mov %rdx, %rcx\n rep movsb\n ret\n"
        "memset: mov %rdi, %r8\n mov %esi, %eax\n mov %rdx, %rcx\n rep stosb\n mov %r8, %rax\n ret\n");

enum { POWER_UP, RUN, PLAN, PLAN_FONTS, REEL, RECOVER, VET, VIEW, DOT, UNDERLINE, LIT, ENTRIES };
static struct {
    const char *name;
    uintptr_t function;
    uint32_t refused; /* the least answer that is a refusal */
    int calls[2];     /* accepted, refused */
    long deepest;
} entry[ENTRIES] = {
    {"sign_power_up", (uintptr_t)sign_power_up, 1, {0}, 0},
    {"sign_run", (uintptr_t)sign_run, 1, {0}, 0},
    {"sign_plan", (uintptr_t)sign_plan, SIGN_REFUSED, {0}, 0},
    {"sign_plan_fonts", (uintptr_t)sign_plan_fonts, SIGN_REFUSED, {0}, 0},
    {"sign_reel", (uintptr_t)sign_reel, SIGN_REEL_REFUSED, {0}, 0},
    {"sign_recover", (uintptr_t)sign_recover, SIGN_REFUSED, {0}, 0},
    {"sign_vet", (uintptr_t)sign_vet, SIGN_ASKED_REFUSED, {0}, 0},
    {"sign_view", (uintptr_t)sign_view, SIGN_ASKED_REFUSED, {0}, 0},
    {"sign_dot", (uintptr_t)sign_dot, SIGN_ASKED_REFUSED, {0}, 0},
    {"sign_underline", (uintptr_t)sign_underline, SIGN_ASKED_REFUSED, {0}, 0},
    {"sign_lit", (uintptr_t)sign_lit, SIGN_ASKED_REFUSED, {0}, 0},
};

static uint8_t stack[8192] __attribute__((aligned(16)));
static uint8_t paint; /* another one in the second round: the deepest byte may be left with the value of the paint */

static uint32_t call(int which, const uint64_t argument[10]) {
    memset(stack, paint, sizeof stack);
    uint32_t answer = (uint32_t)call_on(stack + sizeof stack, entry[which].function, argument);
    size_t at = 0;
    while (at < sizeof stack && stack[at] == paint) at++;
    long deep = (long)(sizeof stack - 32 - at);
    if (deep > entry[which].deepest) entry[which].deepest = deep;
    entry[which].calls[answer >= entry[which].refused]++;
    return answer;
}
#define CALL(which, ...) call(which, (const uint64_t[10]){__VA_ARGS__})
#define AT(buffer) ((uintptr_t)(buffer))

static uint8_t block[SIGN_BLOCK], tally[SIGN_TALLY], codes[SIGN_CELLS], fonts[SIGN_CELLS], out[SIGN_FONTS_ROOM];
static uint8_t bytes[SIGN_MOST + 1];
enum { PICTURES = 3 };
static uint8_t reel[PICTURES * SIGN_CELLS], cursors[PICTURES], lengths[SIGN_REEL], plans[PICTURES * SIGN_ROOM];

static uint8_t string[SIGN_MOST + 1]; /* to be vetted */
static size_t string_len;
static void append(const void *more, size_t n) {
    memcpy(string + string_len, more, n);
    string_len += n;
}

/* sign_vet of the plan in `out`: as it is, with bytes ahead of it and behind it that may be there, and with such as may
   not; cut; the longest and one byte more; and of `bytes` as they are. */
static void vet(uint64_t whole, uint64_t cells, uint32_t cursor, size_t planned) {
    const uint8_t back[] = {0x1B, 0x48, block[SIGN_CURSOR_AT]}, asked[] = {0x1B, 0x48, (uint8_t)cursor};
    static const char *const ahead[] = {"", "\x0C", "\x0E", "\x0F", "\x18", "\x1BH\x28", "\x1BI"};
    static const char *const behind[] = {"", "\x08\x09\x0A\x0C\x0D", "A", "\x0E", "\x1B", "\x1BH", "\x1B" "C"};
    for (size_t i = 0; i < sizeof ahead / sizeof ahead[0]; i++) {
        for (size_t k = 0; k < sizeof behind / sizeof behind[0]; k++) {
            string_len = 0;
            append(ahead[i], strlen(ahead[i]));
            if (i > 0) append(back, sizeof back);
            append(out, planned);
            append(behind[k], strlen(behind[k]));
            if (k > 0) append(asked, sizeof asked);
            CALL(VET, AT(block), whole, AT(codes), cells, cursor, AT(string), string_len);
        }
    }
    CALL(VET, AT(block), whole, AT(codes), cells, cursor, AT(out), planned / 2);
    for (size_t n = 0; n <= 600; n += 200) CALL(VET, AT(block), whole, AT(codes), cells, cursor, AT(bytes), n);
}

/* The longest string, one that is right, and one byte more. */
static void vet_longest(uint32_t cursor) {
    const uint8_t back[] = {0x1B, 0x48, block[SIGN_CURSOR_AT]};
    size_t n = CALL(PLAN, AT(block), SIGN_BLOCK, AT(codes), SIGN_CELLS, cursor, AT(out), SIGN_FONTS_ROOM);
    for (size_t more = 0; more < 2; more++) {
        string_len = SIGN_MOST + more - sizeof back - n;
        memset(string, 0x09, string_len);
        append(back, sizeof back);
        append(out, n);
        CALL(VET, AT(block), SIGN_BLOCK, AT(codes), SIGN_CELLS, cursor, AT(string), string_len);
    }
}

/* Every function on the block as it is, with lengths that are right or, for `wrong`, one of them wrong. */
static void ask(uint32_t cursor, int wrong) {
    uint64_t whole = SIGN_BLOCK - (wrong == 1), cells = SIGN_CELLS - (wrong == 2), room = SIGN_FONTS_ROOM - (wrong == 3);
    uint32_t n = CALL(PLAN, AT(block), whole, AT(codes), cells, cursor, AT(out), wrong == 3 ? SIGN_ROOM - 1 : room);
    vet(whole, cells, cursor, n < SIGN_REFUSED ? n : 0);
    CALL(PLAN_FONTS, AT(block), whole, AT(codes), SIGN_CELLS, AT(fonts), cells, cursor, AT(out), room);
    /* the picture, as it stands and turned round, and the picture again */
    for (int i = 0; i < SIGN_CELLS; i++) reel[i] = reel[2 * SIGN_CELLS + i] = codes[i], reel[SIGN_CELLS + i] = codes[SIGN_CELLS - 1 - i];
    memset(cursors, (int)cursor, sizeof cursors);
    for (uint64_t k = 0; k <= PICTURES; k += PICTURES)
        CALL(REEL, AT(block), whole, AT(reel), k * cells, AT(cursors), k, AT(lengths), SIGN_REEL - (wrong == 1), AT(plans),
             k * SIGN_ROOM - (k != 0 && wrong == 3));
    CALL(RECOVER, AT(block), whole, AT(out), wrong == 3 ? SIGN_BACK - 1 : SIGN_BACK);
    for (uint64_t i = 0; i <= SIGN_CELLS; i++) CALL(VIEW, AT(block), whole, i);
    for (uint64_t code = 0; code <= 256; code++) {
        CALL(DOT, AT(block), whole, code, (code + cursor) % 37);
        CALL(UNDERLINE, AT(block), whole, code);
        CALL(LIT, AT(block), whole, code);
    }
}
static void run(size_t length) { CALL(RUN, AT(block), SIGN_BLOCK, AT(tally), SIGN_TALLY, AT(bytes), length); }
static void power_up(uint64_t font) {
    memset(tally, 0, sizeof tally);
    CALL(POWER_UP, font, AT(block), SIGN_BLOCK);
}

static uint32_t state;
static uint32_t under(uint32_t bound) {
    state = state * 1664525 + 1013904223;
    return (uint32_t)((uint64_t)state * bound >> 32);
}

/* Fills `bytes`: text, any bytes, cursor moves, modes, user characters; at the end no command is half received in mode 1. */
static void mixture(size_t length, uint32_t lowest_user) {
    size_t n = 0;
    while (n + 16 < length) {
        uint32_t kind = under(8);
        if (kind < 2) for (int i = 0; i < 8; i++) bytes[n++] = (uint8_t)(0x20 + under(0x60));
        else if (kind < 4) bytes[n++] = (uint8_t)under(256);
        else if (kind < 5) { bytes[n++] = 0x1B; bytes[n++] = 0x48; bytes[n++] = (uint8_t)under(42); }
        else if (kind < 6) bytes[n++] = (uint8_t)(0x08 + under(20));
        else {
            bytes[n++] = 0x1B; bytes[n++] = 0x43; bytes[n++] = (uint8_t)(lowest_user + under(256 - lowest_user));
            for (int i = 0; i < 5; i++) bytes[n++] = (uint8_t)under(256);
        }
    }
    while (n + 1 < length) bytes[n++] = 'A';
    bytes[n] = 0x11;
}

static void inputs(void) {
    /* refusals */
    power_up(2);
    CALL(POWER_UP, 0, AT(block), SIGN_BLOCK - 1);
    power_up(1);
    CALL(RUN, AT(block), SIGN_BLOCK - 1, AT(tally), SIGN_TALLY, AT(bytes), 1);
    CALL(RUN, AT(block), SIGN_BLOCK, AT(tally), SIGN_TALLY - 1, AT(bytes), 1);
    run(SIGN_MOST + 1);
    for (int high = 0xEE; high < 0x100; high += 0x11) { /* the tally is nearly full; it is no tally */
        memcpy(tally, "\xFF\x27\x6B", 3);
        tally[3] = (uint8_t)high;
        run(2);
    }
    for (int at = 0; at < SIGN_BLOCK; at++) { /* damaged */
        block[at] ^= 0x81;
        run(1);
        if (at % 64 == 0) ask(0, 0);
        block[at] ^= 0x81;
    }
    for (int wrong = 1; wrong <= 3; wrong++) ask(0, wrong);
    ask(SIGN_CELLS, 0);
    fonts[7] = 2;
    ask(0, 0);
    fonts[7] = 0;
    /* half received, each kind; the wrong mode */
    static const char *const half[] = {"\x1B", "\x1BH", "\x1BL", "\x1BT", "\x1B" "C", "\x1B" "C!\x7F\x7F\x7F\x7F", "\x12", "\x13"};
    for (size_t i = 0; i < sizeof half / sizeof half[0]; i++) {
        power_up(0);
        memcpy(bytes, half[i], strlen(half[i]));
        run(strlen(half[i]));
        ask(0, 0);
        run(1);
    }
    /* the longest plans: every cell wrong, fonts in turn, Katakana selected, Euro on, cursor from 5 to 39 */
    power_up(0);
    ask(0, 0);
    vet_longest(39);
    memcpy(bytes, "\x19\x1A\x1BH\x05", 5);
    run(5);
    memset(codes, 'A', sizeof codes);
    for (int i = 0; i < SIGN_CELLS; i++) fonts[i] = i % 2;
    ask(39, 0);
    /* anything, and the longest runs: with scroll, shift, and all 16 user characters */
    for (int i = 0; i < 100; i++) {
        uint32_t first = i % 4 == 0 ? 0 : i % 4 == 1 ? 0x1C : 0x20;
        power_up(under(2));
        size_t length = i < 8 ? SIGN_MOST : 17 + under(600);
        mixture(length, first);
        run(length);
        for (int c = 0; c < SIGN_CELLS; c++) {
            codes[c] = under(3) == 0 ? block[SIGN_CODES_AT + c] : (uint8_t)(first + under(256 - first));
            fonts[c] = (uint8_t)(i % 3 == 0 ? 0 : under(2));
        }
        ask(under(SIGN_CELLS), 0);
        run(under(32));
    }
}

int main(void) {
    for (int round = 0; round < 2; round++) {
        paint = round == 0 ? 0xA5 : 0x3C;
        state = 1;
        inputs();
    }
    for (int i = 0; i < ENTRIES; i++) {
        if (entry[i].calls[0] < 9 || entry[i].calls[1] < 4) {
            fprintf(stderr, "stack: %s: accepted %d times and refused %d times: too few\n", entry[i].name, entry[i].calls[0], entry[i].calls[1]);
            return 1;
        }
        printf("%s %ld\n", entry[i].name, entry[i].deepest);
    }
    return 0;
}
