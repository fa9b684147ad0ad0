# shellcheck shell=sh
# Sourced by the scripts (POSIX sh). The compiled product is x86-64; the machine may be x86-64 or aarch64.
# Sets CC and RUSTC, which make x86-64 programs, CROSS, the start of the names of the other x86-64 tools,
# RUN, which runs x86-64 programs, and OWN_RUSTC, which makes programs of this machine.
# `need c` and `need rust` see to it that these work, so that what is written in C alone wants no rustc: they
# install what is missing by apt-get when root, and otherwise say what to install and end the script.

case $(uname -m) in
x86_64)
    CROSS=
    RUSTC=rustc
    OWN_RUSTC=rustc
    RUN=
    c_packages='gcc libc6-dev'
    rust_packages=rustc
    ;;
aarch64)
    CROSS=x86_64-linux-gnu-
    RUSTC='/usr/bin/rustc --target x86_64-unknown-linux-gnu -C linker=x86_64-linux-gnu-gcc'
    OWN_RUSTC=/usr/bin/rustc
    RUN=qemu-x86_64
    c_packages='gcc-x86-64-linux-gnu libc6-dev-amd64-cross qemu-user'
    rust_packages='gcc libc6-dev rustc libstd-rust-dev:amd64'
    ;;
*)
    echo "tests: no x86-64 tools are known for $(uname -m)" >&2
    exit 1
    ;;
esac
CC=${CROSS}gcc

# Each compiles and runs an empty program, in the folder $trial.
c_works() { echo 'int main(void) { return 0; }' >"$trial/c.c" && $CC -static -o "$trial/c" "$trial/c.c" && $RUN "$trial/c"; }
rust_works() {
    echo 'fn main() {}' >"$trial/r.rs" && $RUSTC -o "$trial/r" "$trial/r.rs" && $RUN "$trial/r" &&
        $OWN_RUSTC -o "$trial/o" "$trial/r.rs" && "$trial/o"
}
tools_work() { # c or rust
    trial=$(mktemp -d) || return 1
    "$1_works" >"$trial/log" 2>&1
    worked=$?
    [ "$worked" -eq 0 ] || why=$(tail -n 3 "$trial/log")
    rm -rf "$trial"
    return "$worked"
}

# install_packages NAMES: by apt-get when root, otherwise says what to install and fails.
install_packages() {
    if [ "$(id -u)" -ne 0 ]; then
        echo "tests: please install: $*" >&2
        return 1
    fi
    case "$*" in *:amd64*) dpkg --add-architecture amd64 || return 1 ;; esac
    echo "tests: installing $*" >&2
    # shellcheck disable=SC2048,SC2086
    apt-get update -q >&2 && DEBIAN_FRONTEND=noninteractive apt-get install -y -q --no-install-recommends $* >&2
}

have='' why='' # what was found to work, and why something does not
need() { # c or rust; rust links by the C compiler, so it needs c too
    case " $have " in *" $1 "*) return ;; esac
    packages=$c_packages
    if [ "$1" = rust ]; then
        need c
        packages=$rust_packages
    fi
    if ! tools_work "$1"; then
        # shellcheck disable=SC2086
        install_packages $packages || { echo "tests: the compilers do not work: $why" >&2; exit 1; }
        tools_work "$1" || { echo "tests: the compilers do not work after installing $packages: $why" >&2; exit 1; }
    fi
    have="$have $1"
}
