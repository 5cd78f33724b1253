# What the scripts of host/ must know of the machine. Sourced, not run.
#
# The proved judge is x86-64 Linux code. On x86-64 the compiler at hand builds for it and what
# it builds runs. Elsewhere Debian's cross compiler builds it, linked statically, and qemu runs it.

host=$(cd "$(dirname "${BASH_SOURCE[0]}")" && pwd)
archive=../target/staticlib/libhawsehole.a # from host/
programs=$(dirname "$host")/target/host/x86-64

# need_packages THING PACKAGE...: THING, a command or a file, or else these Debian packages.
need_packages() {
    local thing=$1
    shift
    if [ -e "$thing" ] || command -v "$thing" >/dev/null; then return; fi
    if [ "$(id -u)" != 0 ] || ! command -v apt-get >/dev/null; then
        echo "$thing is missing; install it with: apt-get install $*" >&2
        exit 2
    fi
    echo "$thing is missing: installing Debian's $*" >&2
    # The list of packages may be too old to be fetched from, or not be there at all.
    if ! apt_install "$@"; then apt-get update -q >&2 && apt_install "$@"; fi
}

apt_install() {
    DEBIAN_FRONTEND=noninteractive apt-get install -y -q --no-install-recommends "$@" >&2
}

on_x86_64() {
    [ "$(uname -m)" = x86_64 ]
}

# What builds C for the machine at hand.
need_native() {
    need_packages make make
    need_packages gcc gcc libc6-dev
}

# What builds and runs C for x86-64.
need_target() {
    need_native
    if on_x86_64; then return; fi
    need_packages x86_64-linux-gnu-gcc gcc-x86-64-linux-gnu libc6-dev-amd64-cross
    need_packages /usr/x86_64-linux-gnu/lib/libc.a libc6-dev-amd64-cross
    need_packages qemu-x86_64 qemu-user
}

# The compiler for x86-64, as make's CC.
target_cc() {
    if on_x86_64; then echo gcc; else echo "x86_64-linux-gnu-gcc -static"; fi
}

# The words before an x86-64 program that make it run. The emulated processor is the plain one:
# what libc does with the wider registers of a newer one is slow to emulate.
emulator=()
if ! on_x86_64; then emulator=(qemu-x86_64 -L /usr/x86_64-linux-gnu -cpu qemu64); fi

# run_target PROGRAM ARGUMENT...: runs an x86-64 program.
run_target() {
    "${emulator[@]}" "$@"
}

# make_host ARGUMENT...: make in host/, its words on standard error.
make_host() {
    make -s -C "$host" "$@" >&2
}

# build NAME...: programs of host/ for x86-64, with the library that they link.
build() {
    need_target
    if ! make -sq -C "$host" "$archive"; then echo "proving and building the library" >&2; fi
    make_host CC="$(target_cc)" "${@/#/../target/host/x86-64/}"
}
