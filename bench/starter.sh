# shellcheck shell=bash disable=SC2034
# Read by ./h8 and bench/tool: how a program that rt has built is started. It is for x86-64 and takes the toolchain's C library;
# on another processor the toolchain has an emulator beside its compiler.
kit=$(dirname "$(rt doc)")/toolchain
starter=("$kit/lib/ld-linux-x86-64.so.2" --library-path "$kit/lib")
[ ! -x "$kit/bin/qemu-x86_64" ] || starter=("$kit/bin/qemu-x86_64" "${starter[@]}")
