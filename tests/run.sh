#!/bin/sh
# Builds and runs one test, or a measure: tests/run.sh NAME. See tests/README.md. The gate runs these:
tests='docs self show tell show_lounge salvage vet host questions plans fonts reels recovery vetting lounge index alike c-host example dump station install stack'
set -eu
cd "$(dirname "$0")/.."
case ${1:-} in
names) echo "$tests" && exit ;;
docs) exec tests/docs.sh ;; # it wants no compiler
esac
. tests/tools.sh
out=target/tests
mkdir -p "$out"

# The Makefile knows when a product is older than its sources. (Its own options, as -j, are not for this one.)
program() { MAKEFLAGS='' make -s "$1"; }
library() { MAKEFLAGS='' make -s lib; }
# The entries lounge_entry and index_entry are for the tests alone: no goal of make's help names them.
entry() { MAKEFLAGS='' make -s "target/staticlib/lib$1.a" >"$out/$1.log" 2>&1 || { cat "$out/$1.log" >&2; exit 1; }; }

# alone NAME: a test program of this machine; linked NAME WORDS: one that is linked with libsign.a; entered ENTRY NAME
# WORDS: one that is linked with libENTRY.a
alone() {
    need rust
    $OWN_RUSTC --edition 2021 -O -C overflow-checks=on -o "$out/$1" "tests/independent/$1.rs"
}
linked() {
    need rust
    library
    linked_with sign "$@"
}
entered() {
    need rust
    entry "$1"
    linked_with "$@"
}
linked_with() { # LIBRARY NAME WORDS
    lib=$1
    name=$2
    shift 2
    $RUSTC --edition 2021 -O "$@" -L native=target/staticlib -l "static=$lib" -o "$out/$name" "tests/independent/$name.rs"
}
c_program() { # NAME FILE
    need c
    library
    $CC -std=c11 -pedantic -Wall -Wextra -O2 -Iinclude -static -o "$out/$1" "$2" target/staticlib/libsign.a
}

# fence PAGE NAME: what the page has between ```NAME and ```, wherever it has that
fence() { sed -n "/^\`\`\`$2\$/,/^\`\`\`\$/{ /^\`\`\`/!p; }" "$1"; }

# advised FIRST: the bytes that docs/HOST.md gives in backticks, eight of them, beginning with this one
advised() { sed -n "s/.*\`\($1\( [0-9A-F][0-9A-F]\)\{7\}\)\`.*/\1/p" docs/HOST.md; }

# The stack of each function, read from the code: lines of a name and a number.
stack_read() { "${CROSS}objdump" -dr --no-show-raw-insn target/staticlib/libsign.a | awk -f tests/stack.awk; }

# count PROGRAM WORDS: the instructions that the program takes. By qemu's plug-in, valgrind or perf: the first that works.
choose_counter() { # PROGRAM WORDS, to try it on
    counter=
    if command -v qemu-x86_64 >/dev/null && gcc -shared -fPIC -O2 -o "$out/icount.so" tests/icount.c 2>/dev/null &&
        qemu-x86_64 -plugin "$out/icount.so" "$@" 2>&1 | grep -q '^insns '; then
        counter=qemu
    elif [ -z "$RUN" ]; then
        command -v valgrind >/dev/null || command -v perf >/dev/null || install_packages valgrind
        if command -v valgrind >/dev/null; then counter=valgrind; else counter=perf; fi
    fi
    [ -n "$counter" ] || { echo "speed: no way to count instructions here (qemu-user with plug-ins, or valgrind)" >&2; exit 1; }
}
count() {
    case $counter in
    qemu) qemu-x86_64 -plugin "$out/icount.so" "$@" 2>&1 >/dev/null | sed -n 's/^insns //p' ;;
    valgrind) valgrind --tool=callgrind --callgrind-out-file=/dev/null "$@" 2>&1 >/dev/null | sed -n 's/.*Collected : //p' ;;
    perf) perf stat -x, -e instructions:u "$@" 2>&1 >/dev/null | sed -n 's/,.*instructions.*//p' ;;
    esac
}
# each PROGRAM WHO WHAT: instructions for each input byte, or pair, times 100
each() {
    four=$(count "$out/$1" "$2" "$3" 4)
    none=$(count "$out/$1" "$2" "$3" 0)
    case $four$none in '' | *[!0-9]*) echo "speed: the count failed" >&2; exit 1 ;; esac
    echo $(((four - none) * 100 / 4 / 32768))
}
decimal() { printf '%d.%02d' $(($1 / 100)) $(($1 % 100)); }
# beside PROGRAM WHO NAME INPUTS: a line for each input of the program, the independent interpreter and the product
beside() {
    for what in $4; do
        own=$(each "$1" own "$what")
        product=$(each "$1" "$2" "$what")
        ratio=$(decimal $(((product * 100 + own / 2) / own)))
        echo "speed: $what: independent Rust $(decimal "$own"), $3 $(decimal "$product"), ratio $ratio"
    done
}

case ${1:-} in
self)
    alone self
    "$out/self"
    ;;
show | tell | show_lounge | salvage | vet)
    program "$1"
    alone "$1"
    # shellcheck disable=SC2086
    "$out/$1" $RUN "target/bin/$1"
    # what docs/HOST.md shows of the sample
    case $1 in salvage | vet) fence docs/HOST.md "$1" | diff - "crates/$1/stdout" ;; esac
    # what docs/LOUNGE.md shows of the sample, and of its line with printf
    if [ "$1" = show_lounge ]; then
        fence docs/LOUNGE.md lounge | diff - crates/show_lounge/stdout
        line=$(sed -n "s/^    \(printf .*\) | target.bin.show_lounge .*/\1/p" docs/LOUNGE.md)
        [ "$(eval "$line" | $RUN target/bin/show_lounge | cut -c 1-5 | head -n 2)" = "$(printf '48 31\n21 20')" ]
    fi
    ;;
host | questions | plans | fonts | reels | recovery | vetting)
    linked "$1" -C overflow-checks=on
    $RUN "$out/$1"
    ;;
lounge)
    entered lounge_entry lounge -C overflow-checks=on
    $RUN "$out/lounge"
    ;;
index)
    entered index_entry index -C overflow-checks=on
    $RUN "$out/index"
    ;;
alike)
    linked speed
    $RUN "$out/speed" check
    entered lounge_entry lounge_speed
    $RUN "$out/lounge_speed" check
    ;;
c-host)
    c_program c-host tests/host.c
    # shellcheck disable=SC2046
    said=$($RUN "$out/c-host" $(advised 00)) || { printf '%s\n' "$said"; exit 1; }
    printf '%s\n' "$said"
    [ "$said" = ok ]
    ;;
example)
    for name in host lounge; do
        c_program "example-$name" "examples/$name.c"
        $RUN "$out/example-$name" >"$out/example.txt"
        cat "$out/example.txt"
        diff "examples/$name.txt" "$out/example.txt"
    done
    # the lines in C that README and docs/HOST.md show; `take_string`, `wire_us` and `widen` of the latter are run
    fence README.md c >"$out/readme.c"
    {
        for name in fcntl stddef stdint sys/file termios unistd; do echo "#include <$name.h>"; done
        echo 'int open_port(const char *name);'
        echo 'uint32_t take_string(uint8_t *block, uint8_t *tally, const uint8_t *codes, uint32_t cursor, const uint8_t *bytes, size_t n);'
        echo 'uint32_t wire_us(const uint8_t *block, const uint8_t *bytes, size_t n, uint32_t byte_us);'
        echo 'void widen(uint8_t *tally);'
        fence docs/HOST.md c
        cat tests/page.c
    } >"$out/page.c"
    for name in readme page; do
        $CC -std=c11 -pedantic -Wall -Wextra -Werror -D_DEFAULT_SOURCE -Iinclude -c -o "$out/$name.o" "$out/$name.c"
    done
    grep -q sign_run "$out/readme.c" && grep -q tcsetattr "$out/page.c"
    $CC -static -o "$out/page" "$out/page.o" target/staticlib/libsign.a
    $RUN "$out/page"
    ;;
station)
    c_program station-host examples/station.c
    alone station
    # shellcheck disable=SC2086
    "$out/station" $RUN "$out/station-host"
    ;;
dump)
    c_program dump tests/dump.c
    $RUN "$out/dump" >"$out/dump.txt"
    fence docs/HOST.md dump | diff - "$out/dump.txt"
    # the user character: its bytes give the dots that are drawn, their count, and stand beside the drawing
    bytes=$(advised 1B)
    # shellcheck disable=SC2086
    $RUN "$out/dump" $bytes >"$out/dots.txt"
    { fence docs/HOST.md dots | cut -c 1-9 && grep -o '([0-9]* dots are lit)' docs/HOST.md; } | diff - "$out/dots.txt"
    beside=$(fence docs/HOST.md dots | sed -n 's/.* = \([0-9A-F][0-9A-F]\)h$/\1/p' | tr '\n' ' ')
    [ "1B 43 01 $beside" = "$bytes " ]
    ;;
install)
    library
    tests/install.sh
    ;;
stack)
    c_program stack tests/stack.c
    stack_read >"$out/stack.read"
    $RUN "$out/stack" >"$out/stack.painted"
    sed -n 's/^ *\(sign_[a-z_]*\)  *\([0-9,]*\)$/\1 \2/p' include/sign.h | tr -d , >"$out/stack.said"
    # A frame that is aligned may end in up to 15 bytes that nothing writes.
    (cd "$out" && awk '
        !($1 in known) { known[$1]; name[++names] = $1 }
        { n[$1, FILENAME] = $2 }
        END {
            for (i = 1; i <= names; i++) {
                f = name[i]; read = n[f, "stack.read"]; painted = n[f, "stack.painted"]; said = n[f, "stack.said"]
                right = read > 0 && said == read && painted <= read && painted > read - 16
                wrong += !right
                print "stack: " (right ? "" : "FAILED: ") f ": " read + 0 " bytes by the code, " painted + 0 " used, " said + 0 " in sign.h"
            }
            exit !n["sign_run", "stack.read"] || wrong > 0
        }' stack.read stack.painted stack.said)
    ;;
speed)
    linked speed
    $RUN "$out/speed" check
    choose_counter "$out/speed" own printable 0
    echo "speed: instructions for each input byte, from power-up on 32,768 bytes, counted by $counter on $(uname -m), $($RUSTC --version)"
    beside speed sign sign_run 'printable mixed mixed-16 definitions initialise'
    entered lounge_entry lounge_speed
    $RUN "$out/lounge_speed" check
    echo "speed: the old lounge module, instructions for each pair, from reset on 32,768 pairs"
    beside lounge_speed entry lounge_run 'printable mixed'
    ;;
costs)
    c_program costs tests/costs.c
    choose_counter "$out/costs" 0 1
    # between 10 and 90 calls, so that nothing of the program's start and end is in it
    for kind in 0 1 2 3 4 5 6 7 8 9 10 11 12 13 14 15 16 17 18 19 20 21 22; do
        ninety=$(count "$out/costs" "$kind" 90)
        ten=$(count "$out/costs" "$kind" 10)
        echo "costs: kind $kind, $($RUN "$out/costs" "$kind" 1): $(((ninety - ten) / 80)) instructions"
    done
    # salvage, on no block, and on as many as a file may have, all good and all bad
    program salvage
    : >"$out/none.bin"
    tail -c +513 crates/salvage/data/card.bin | head -c 512 >"$out/good.bin"
    for _ in 1 2 3 4 5 6 7 8 9 10 11 12 13 14; do cat "$out/good.bin" "$out/good.bin" >"$out/two.bin" && mv "$out/two.bin" "$out/good.bin"; done
    head -c 5120000 "$out/good.bin" >"$out/two.bin" && mv "$out/two.bin" "$out/good.bin"
    head -c 5120000 /dev/zero >"$out/bad.bin"
    none=$(count target/bin/salvage "$out/none.bin" "$out/second.bin")
    for kind in good bad; do
        began=$(date +%s%N)
        last=$($RUN target/bin/salvage "$out/$kind.bin" "$out/second.bin" | tail -n 1)
        ended=$(date +%s%N)
        all=$(count target/bin/salvage "$out/$kind.bin" "$out/second.bin")
        echo "costs: salvage of 10,000 $kind blocks, $last: $(((all - none) / 10000)) instructions for each, $(((ended - began) / 1000000)) ms"
    done
    echo "costs: libsign.a has $("${CROSS}size" target/staticlib/libsign.a | awk 'NR > 1 { n += $1 } END { print n }') bytes of code and constants"
    ;;
*)
    echo "usage: tests/run.sh NAME, a test: $tests; or a measure: speed costs" >&2
    exit 2
    ;;
esac
