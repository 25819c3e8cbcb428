# Sourced by tests/c/run and bench/run: the static library, the C compiler, and how a compiled program is started here.
# The library is for x86-64. On another processor programs are cross-compiled, linked statically, and run by an emulator.
# shellcheck shell=bash disable=SC2034

root=$(cd "$(dirname "${BASH_SOURCE[0]}")/../.." && pwd)
# shellcheck source=tests/shared.sh
. "$root/tests/shared.sh"
made=$root/target/c
library=${BIENGULOC_LIBRARY:-$root/target/staticlib/libcontroller.a}
flags="-std=c11 -O2 -g -Wall -Wextra -Wpedantic -Werror -I$root/include"

# Sets cc, link (what every link command ends with) and emulator (empty where programs run by themselves).
find_compiler() {
    emulator=""
    link="-Wl,-z,now"
    if [ "$(uname -m)" = x86_64 ]; then
        cc=gcc
        install gcc gcc libc6-dev || return
        return
    fi
    cc=x86_64-linux-gnu-gcc
    link="$link -static"
    install "$cc" gcc-x86-64-linux-gnu libc6-dev-amd64-cross || return
    emulator=qemu-x86_64-static
    install "$emulator" qemu-user-static
}

start() {
    ${emulator:+"$emulator"} "$@"
}

sources_newer() {
    cd "$root" && find crates crates.txt -regex 'crates/[^/]*/out' -prune -o -type f -newer "$library" -print -quit
}

# The archive, made again where a source is newer. One named by BIENGULOC_LIBRARY is taken as it is.
find_library() {
    if [ -n "${BIENGULOC_LIBRARY:-}" ]; then
        echo "library: $library"
        [ -f "$library" ]
        return
    fi
    if [ -f "$library" ] && [ -z "$(sources_newer)" ]; then
        return
    fi
    echo "building the static library, which proves what it rests on"
    "$root/bin/library" && [ -f "$library" ]
}
