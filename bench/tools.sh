# Read by the scripts beside it: the compiler for x86-64, the emulator where the machine is another, and how to build.
# Missing Debian packages are installed where that can be done.
here=$(cd "$(dirname "${BASH_SOURCE[0]}")" && pwd)
root=$(dirname "$here")
out=$root/target/bench
mkdir -p "$out"

need() { # COMMAND PACKAGE...: the command, installed if it is missing
    local command=$1
    shift
    command -v "$command" >/dev/null && return
    if [ "$(id -u)" = 0 ] && command -v apt-get >/dev/null; then
        echo "bench: installing $*" >&2
        export DEBIAN_FRONTEND=noninteractive
        { apt-get install -y --no-install-recommends "$@" || { apt-get update && apt-get install -y --no-install-recommends "$@"; }; } \
            >"$out/apt.log" 2>&1 || true
    fi
    command -v "$command" >/dev/null || { echo "bench: $command is missing: install $*" >&2; exit 2; }
}

emulator=
if [ "$(uname -m)" = x86_64 ]; then
    need cc gcc libc6-dev
    compiler=cc
else
    need x86_64-linux-gnu-gcc gcc-x86-64-linux-gnu libc6-dev-amd64-cross
    compiler=x86_64-linux-gnu-gcc
    # an emulator of the system, else the one that the toolchain has beside its compiler, else Debian's
    kit=$(dirname "$(rt doc 2>/dev/null || echo /none)")/toolchain/bin/qemu-x86_64
    emulator=$(command -v qemu-x86_64 || command -v qemu-x86_64-static || command -v "$kit" || true)
    if [ -z "$emulator" ]; then
        need qemu-x86_64 qemu-user
        emulator=$(command -v qemu-x86_64)
    fi
fi
[ -z "${BENCH_EMULATOR:-}" ] || emulator=$BENCH_EMULATOR    # to try the emulator on x86-64

flags=(-std=c11 -D_DEFAULT_SOURCE -O2 -Wall -Wextra -Werror -static)
bench_files=(bench t_reference t_codes t_steps t_bits t_touches t_left t_limits t_runs t_figure t_calls t_routine t_ports t_replay t_cuts t_bad asm decoder model
             paths)

build() { # PROGRAM FILE... [-- MORE]: C files of this folder by name, then what else is linked
    local program=$1 files=()
    shift
    while [ $# -gt 0 ] && [ "$1" != -- ]; do
        files+=("$here/$1.c")
        shift
    done
    [ $# -eq 0 ] || shift
    "$compiler" "${flags[@]}" -o "$out/$program" "${files[@]}" "$@"
}

run() { # PROGRAM ARGUMENT...
    local program=$1
    shift
    ${emulator:+"$emulator"} "$out/$program" "$@"
}
