/* A host that survives losses of power. It shows pictures in turn on one sign on a serial wire.

   Usage: station TTY STATE PICTURES [J6] [HOLD_MS]
   TTY       the wire, as stty set it: stty -F TTY 19200 cs8 -cstopb parenb -parodd -crtscts
   STATE     a file for this sign alone, kept between starts: mark, block, tally, TTY, boot
   PICTURES  a text file, two lines of up to 20 characters for each; '>' is drawn as an arrow. The
             codes above 7Eh are the module's own, not UTF-8
   J6        0 or 1: the default font, by link J6 (0)
   HOLD_MS   how long each picture stays, in milliseconds (5000)

   The wire is one-way: nobody can ask the module what it shows. So before a byte is sent, a mark
   that says "in doubt" is put on the disk; it is taken off when all bytes are sent and the new
   block is saved. A start that finds the mark, or no state that fits, begins with a recovery: the
   module is brought to power-up, all settings are made again, and the whole picture is written.
   Where no bytes can do that, as far as we know, the mark stays until we are told.

   A state from before the last boot does not fit: the module may have lost its power as well.
   What befalls the module alone the host must be told, by a file: touch STATE.lost when the module
   has its power back, or has got bytes from elsewhere. (A signal would be lost with a host that is
   killed right after it.)

   After `make lib`:  cc -Iinclude -o station examples/station.c target/staticlib/libsign.a       */

#define _POSIX_C_SOURCE 200809L
#include <errno.h>
#include <fcntl.h>
#include <libgen.h>
#include <stdio.h>
#include <stdlib.h>
#include <string.h>
#include <sys/file.h>
#include <termios.h>
#include <time.h>
#include <unistd.h>
#include "sign.h"

enum { TTY_ROOM = 256, BOOT_ROOM = 40, PATH_ROOM = 4096, MOST_PICTURES = 1000, LOOK_MS = 100 };
enum { IN_DOUBT = 'D', PERHAPS_LOST = 'L', CERTAIN = 'C' };
enum { MOST_US = 265 }; /* the longest that the module is busy with a byte, flickerless or not */

/* What is kept of a sign, as it stands in STATE: bytes only, so there are no gaps. */
struct state {
    uint8_t mark, block[SIGN_BLOCK], tally[SIGN_TALLY];
    char tty[TTY_ROOM];   /* the path, padded with 0 */
    char boot[BOOT_ROOM]; /* another one each time the machine is booted; all 0: not known */
};
_Static_assert(sizeof(struct state) == 1 + SIGN_BLOCK + SIGN_TALLY + TTY_ROOM + BOOT_ROOM, "gaps");

/* All that this station sets; power-up forgets it: luminance 75 %, ADh is the Euro mark, the cursor
   is not shown, '>' is an arrow. Its dots go by rows, dot 1 is the lowest bit of the first byte:
       . . . . .    1 to 5
       . . # . .
       . . . # .
       # # # # #
       . . . # .
       . . # . .
       . . . . .    31 to 35 */
static const uint8_t settings[] = {
    0x1B, 0x4C, 0x80, 0x1A, 0x14, 0x1B, 0x43, '>', 0x80, 0xA0, 0x8F, 0x08, 0x00
};

static struct state sign; /* its mark is the one on the disk; 0: not known */
static const char *doubt; /* why the module may not be in the block's condition; NULL: it is */
static int perhaps_lost;  /* by a block that we had nothing brings the module back, and nobody has
                             told us since that it was switched off and on: the mark stays */
static char path[PATH_ROOM], path_new[PATH_ROOM], path_lost[PATH_ROOM]; /* STATE and beside it */
static int wire, directory; /* open files: the TTY, and the directory of STATE */
static uint32_t j6;
static uint8_t pictures[MOST_PICTURES][SIGN_CELLS];

#define SAY(...) (fprintf(stderr, "station: " __VA_ARGS__), fputc('\n', stderr))
#define END(...) (SAY(__VA_ARGS__), exit(1)) /* a mark that is on the disk stays there */
#define FAIL(what, name) END("cannot %s %s: %s", what, name, strerror(errno))

static uint32_t run(struct state *s, const uint8_t *bytes, size_t n) {
    return sign_run(s->block, SIGN_BLOCK, s->tally, SIGN_TALLY, bytes, n);
}

static unsigned long counted(const struct state *s, enum sign_number which) {
    return sign_tally_number(s->tally, which);
}

static void wait_us(unsigned long us) {
    struct timespec left = { (time_t)(us / 1000000), (long)(us % 1000000 * 1000) };
    while (nanosleep(&left, &left) != 0 && errno == EINTR) {}
}

static int write_all(int file, const void *bytes, size_t n) {
    for (const uint8_t *next = bytes; n > 0;) {
        ssize_t done = write(file, next, n);
        if (done < 0 && errno != EINTR) return -1;
        if (done > 0) next += done, n -= (size_t)done;
    }
    return 0;
}

/* Saves the state. When it comes back the state is on the disk; a loss of power before that leaves
   the old one or the new one, whole. (The directory is synced too: a rename changes it.) */
static void save(uint8_t mark) {
    sign.mark = mark;
    int file = open(path_new, O_WRONLY | O_CREAT | O_TRUNC, 0644);
    if (file < 0 || write_all(file, &sign, sizeof sign) != 0) FAIL("write", path_new);
    if (fsync(file) != 0 || close(file) != 0) FAIL("write", path_new);
    if (rename(path_new, path) != 0 || fsync(directory) != 0) FAIL("save", path);
}

/* Puts the mark, where it is not on the disk yet. */
static void put_mark(void) {
    uint8_t mark = perhaps_lost ? PERHAPS_LOST : IN_DOUBT;
    if (sign.mark != mark) save(mark);
}

/* The block is that of a module that was just switched on. */
static void to_power_up(void) {
    if (sign_power_up(j6, sign.block, SIGN_BLOCK) != 0) END("there is no font %u", (unsigned)j6);
}

/* Has the block this user character, of whatever age? */
static int has_user(const uint8_t *block, const uint8_t *user) {
    for (int i = 0; i < block[SIGN_USER_COUNT_AT]; i++)
        if (memcmp(block + SIGN_USERS_AT + SIGN_USER_BYTES * i, user, SIGN_USER_BYTES) == 0) return 1;
    return 0;
}

/* Are all settings made in this block? Then making them again changes nothing, but that their user
   characters become the youngest. */
static int is_set(const struct state *s) {
    struct state again = *s;
    memset(again.tally, 0, SIGN_TALLY);
    int same = run(&again, settings, sizeof settings) == 0
            && memcmp(again.block, s->block, SIGN_USERS_AT) == 0;
    for (int i = 0; same && i < again.block[SIGN_USER_COUNT_AT]; i++)
        same = has_user(s->block, again.block + SIGN_USERS_AT + SIGN_USER_BYTES * i);
    return same;
}

/* Takes block and tally from STATE. Answers NULL, or why there is doubt: then they are taken where
   they can be this wire's, the tally to go on from, the block for whether the module is lost. */
static const char *load(void) {
    struct state s, power_up = sign;
    FILE *file = fopen(path, "rb");
    if (file == NULL) return "there is no state that can be read";
    int whole = fread(&s, 1, sizeof s, file) == sizeof s && getc(file) == EOF;
    fclose(file);
    if (!whole) return "the state has a wrong length";
    if (memcmp(s.tty, sign.tty, TTY_ROOM) != 0) return "the state is of another TTY";
    memcpy(sign.block, s.block, SIGN_BLOCK);
    perhaps_lost = s.mark == PERHAPS_LOST;
    memcpy(power_up.tally, s.tally, SIGN_TALLY);
    if (run(&power_up, settings, 0) == 0) memcpy(sign.tally, s.tally, SIGN_TALLY);
    if (s.mark != CERTAIN) return "the mark stands";
    if (!sign.boot[0]) return "it is not known when the machine was booted";
    if (memcmp(s.boot, sign.boot, BOOT_ROOM) != 0) return "the machine was booted since";
    if (run(&s, settings, 0) != 0) return "the state is damaged";
    if (s.block[SIGN_DEFAULT_FONT_AT] != j6) return "the state is of another J6";
    if (!is_set(&s)) return "the state has other settings";
    sign = s;
    return NULL;
}

static void read_boot(void) {
    FILE *file = fopen("/proc/sys/kernel/random/boot_id", "rb"); /* Linux has it */
    if (file == NULL) return;
    if (fread(sign.boot, 1, BOOT_ROOM, file) == 0) sign.boot[0] = 0;
    fclose(file);
}

/* Has somebody told us that the module is not as we left it? */
static int told(void) {
    if (access(path_lost, F_OK) == 0) return 1;
    if (errno != ENOENT) FAIL("look for", path_lost);
    return 0;
}

static void open_wire(void) {
    struct termios t;
    wire = open(sign.tty, O_WRONLY | O_NOCTTY | O_NONBLOCK); /* else it may wait for a carrier */
    if (wire < 0) FAIL("open", sign.tty);
    if (!isatty(wire)) END("%s is not a tty", sign.tty);
    if (flock(wire, LOCK_EX | LOCK_NB) != 0) END("another station has %s", sign.tty);
    if (fcntl(wire, F_SETFL, 0) != 0 || tcgetattr(wire, &t) != 0) FAIL("set", sign.tty);
    t.c_iflag = t.c_oflag = t.c_lflag = 0; /* bytes as they are: OPOST makes 0Dh 0Ah of 0Ah */
    t.c_cflag |= CLOCAL;                   /* speed and parity stay */
    if (tcsetattr(wire, TCSANOW, &t) != 0 || tcgetattr(wire, &t) != 0) FAIL("set", sign.tty);
    if ((t.c_oflag & OPOST) || (t.c_iflag & IXON)) END("%s does not take raw bytes", sign.tty);
}

/* Runs bytes on a copy of what we keep, one at a time, and notes how long the module may need for
   each, flickerless or not: what the worst number grows by. In doubt the block does not know how the
   module is: it gets the most. Answers 0 or the refusal. */
static uint32_t run_on(struct state *copy, const uint8_t *bytes, size_t n, unsigned long *pause) {
    *copy = sign;
    for (size_t i = 0; i < n; i++) {
        unsigned long before = counted(copy, SIGN_NUMBER_WORST);
        uint32_t refusal = run(copy, bytes + i, 1);
        if (refusal != SIGN_ACCEPTED) return refusal;
        pause[i] = doubt ? MOST_US : counted(copy, SIGN_NUMBER_WORST) - before;
    }
    return SIGN_ACCEPTED;
}

/* The only way to the wire. All bytes are run on a copy first, because the module would carry out
   what the library refuses. Then the mark is put, then they are sent, each with its time behind it;
   then the copy is what we keep. */
static void to_the_wire(const uint8_t *bytes, size_t n) {
    struct state copy;
    unsigned long pause[SIGN_ROOM];
    if (n > SIGN_ROOM) END("more bytes than a plan has");
    uint32_t refusal = run_on(&copy, bytes, n, pause);
    if (refusal == SIGN_TALLY_FULL) {
        SAY("the tally starts again at 0; it was: bytes %lu busy %lu flickerless %lu worst %lu",
            counted(&sign, SIGN_NUMBER_BYTES), counted(&sign, SIGN_NUMBER_BUSY),
            counted(&sign, SIGN_NUMBER_FLICKERLESS), counted(&sign, SIGN_NUMBER_WORST));
        memset(sign.tally, 0, SIGN_TALLY);
        refusal = run_on(&copy, bytes, n, pause);
    }
    if (refusal != SIGN_ACCEPTED) END("our own bytes are refused: %s", sign_refusal_text(refusal));
    if (n > 0) put_mark();
    for (size_t i = 0; i < n; i++) {
        if (write_all(wire, bytes + i, 1) != 0) FAIL("send to", sign.tty);
        while (tcdrain(wire) != 0) /* until it has left the port */
            if (errno != EINTR) FAIL("send to", sign.tty);
        wait_us(pause[i]);
    }
    copy.mark = sign.mark;
    sign = copy;
}

/* Brings the module out of doubt: settings made, glass blank. The mark is saved first of all, and
   stands until the picture is saved: a host killed anywhere in between recovers again. STATE.lost
   goes when the mark is safe and before a byte is sent: if it comes again it is a new loss.
   The bytes are the same for every block, so they are asked for with that of power-up, which is the
   module's afterwards, unless it is lost: 1Bh is a user character, or is being made one. (This
   station makes none.) The module cannot be asked; but the last block that we have may say so. */
static void recover(void) {
    uint8_t back[SIGN_BACK];
    uint32_t by_last = sign_recover(sign.block, SIGN_BLOCK, back, sizeof back);
    perhaps_lost = (perhaps_lost || by_last == SIGN_REFUSED + SIGN_LOST) && !told();
    SAY("recovering: %s", doubt);
    SAY("%s, switch it off and on, then touch %s",
        perhaps_lost ? "the sign may be lost" : "if the sign is wrong after this", path_lost);
    to_power_up();
    put_mark();
    if (unlink(path_lost) != 0 && errno != ENOENT) FAIL("remove", path_lost);
    uint32_t n = sign_recover(sign.block, SIGN_BLOCK, back, sizeof back);
    if (n >= SIGN_REFUSED) END("there is no way back: %s", sign_refusal_text(n - SIGN_REFUSED));
    to_the_wire(back, n);
    doubt = NULL;
    to_the_wire(settings, sizeof settings);
}

/* Puts a picture on the glass. Answers 0 where it cannot be shown. */
static int show(int i) {
    uint8_t plan[SIGN_ROOM];
    uint32_t n;
    if (told()) doubt = "STATE.lost is there";
    for (int tries = 0;; tries++) {
        if (doubt) recover();
        n = sign_plan(sign.block, SIGN_BLOCK, pictures[i], SIGN_CELLS, 0, plan, sizeof plan);
        if (n < SIGN_REFUSED) break;
        SAY("picture %d is refused: %s", i + 1, sign_refusal_text(n - SIGN_REFUSED));
        if (n == SIGN_REFUSED + SIGN_NO_CHARACTER) return 0; /* the fault is the picture's */
        if (tries > 0) END("recovery does not help");
        doubt = "the fault is the block's"; /* our own bytes do not lead there */
    }
    to_the_wire(plan, n);
    if (sign.mark != CERTAIN) /* else nothing was sent */
        save(perhaps_lost ? PERHAPS_LOST : CERTAIN);
    printf("shown %d: [", i + 1);
    for (int p = 0; p < SIGN_CELLS; p++)
        printf("%s%c", p == 20 ? "|" : "", pictures[i][p] <= 0x7E ? pictures[i][p] : '?');
    puts("]");
    fflush(stdout);
    return 1;
}

/* Lets the picture stay. Answers 1 as soon as we are told of a loss: it is to be shown again. */
static int hold(long ms) {
    for (; ms > 0 && !told(); ms -= LOOK_MS)
        wait_us(1000 * (unsigned long)(ms < LOOK_MS ? ms : LOOK_MS));
    return told();
}

/* Answers how many pictures there are. */
static int read_pictures(const char *name) {
    int c, line = 0, lines = 0, column = 0;
    FILE *file = fopen(name, "rb");
    if (file == NULL) FAIL("open", name);
    memset(pictures, ' ', sizeof pictures);
    while ((c = getc(file)) != EOF) {
        lines = line + 1;
        if (lines > 2 * MOST_PICTURES) END("%s: more than %d pictures", name, (int)MOST_PICTURES);
        if (c == '\n') {
            line++, column = 0;
        } else if (c != '\r') { /* some text files have it at each line's end */
            if (column < 20) pictures[line / 2][line % 2 * 20 + column] = (uint8_t)c;
            if (column++ == 20) SAY("%s: line %d is cut after 20 characters", name, lines);
        }
    }
    if (ferror(file)) FAIL("read", name);
    fclose(file);
    return (lines + 1) / 2;
}

static void name_files(const char *tty, const char *state) {
    char copy[PATH_ROOM];
    if (strlen(tty) >= TTY_ROOM) END("the path of TTY is too long");
    if (strlen(state) + sizeof ".lost" > PATH_ROOM) END("the path of STATE is too long");
    strcpy(sign.tty, tty);
    strcpy(path, state);
    strcat(strcpy(path_new, state), ".new");
    strcat(strcpy(path_lost, state), ".lost");
    directory = open(dirname(strcpy(copy, state)), O_RDONLY | O_DIRECTORY);
    if (directory < 0) FAIL("open the directory of", state);
}

static long number(const char *word, long most) {
    char *end;
    long n = strtol(word, &end, 10);
    if (*word == 0 || *end != 0 || n < 0 || n > most) END("%s is not from 0 to %ld", word, most);
    return n;
}

int main(int argc, char **argv) {
    if (argc < 4 || argc > 6) END("usage: station TTY STATE PICTURES [J6] [HOLD_MS]");
    j6 = argc > 4 ? (uint32_t)number(argv[4], 1) : 0;
    long ms = argc > 5 ? number(argv[5], 1000000000) : 5000;
    name_files(argv[1], argv[2]);
    read_boot();
    int count = read_pictures(argv[3]);
    if (count == 0) END("%s has no picture", argv[3]);
    open_wire(); /* before the state is read: from here on no other station changes it */
    to_power_up();
    doubt = load();
    for (;;) {
        int shown = 0;
        for (int i = 0; i < count; i++)
            while (show(i)) {
                shown = 1;
                if (!hold(ms > 0 ? ms : 1)) break;
            }
        if (!shown) END("no picture can be shown");
    }
}
