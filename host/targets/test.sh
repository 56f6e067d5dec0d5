#!/bin/sh
# usage: test.sh
# Tests the library on other processors. For x86-64, arm64 (under qemu) and wasm32 (in node) it runs the C test of the
# header, and then calls of the second program: they are written down on x86-64, made again on each target, and each
# answer and what is left in every buffer is compared. Android's library is linked with Linux's C library and run like
# arm64's; the libraries for iOS are built, and looked at for each function of the header, and cannot be run here.
# What it needs beside the README's tools comes from Debian's packages and is installed where this is root's shell;
# where it cannot be had, that is said and the exit status is 3. It is no part of .ci/run.
set -e
cd "$(dirname "$0")/../.."
PATH=$PATH:${CARGO_HOME:-$HOME/.cargo}/bin
out=$PWD/target/targets
made=$out/test

packages=
need() { # COMMAND-OR-FILE PACKAGE
    command -v "$1" > /dev/null || [ -e "$1" ] || packages="$packages $2"
}
need clang clang
need wasm-ld lld
need /usr/include/wasm32-wasi/stdio.h wasi-libc
need /usr/lib/llvm-14/lib/clang/14.0.6/lib/wasi/libclang_rt.builtins-wasm32.a libclang-rt-14-dev-wasm32
need node nodejs
need qemu-aarch64 qemu-user
need aarch64-linux-gnu-gcc gcc-aarch64-linux-gnu
need /usr/aarch64-linux-gnu/lib/libc.a libc6-dev-arm64-cross
need llvm-nm-14 llvm-14
if [ -n "$packages" ]; then
    # shellcheck disable=SC2086 # several packages
    { apt-get update && DEBIAN_FRONTEND=noninteractive apt-get install -y --no-install-recommends $packages; } \
        > /dev/null || {
        echo "not tested: these packages of Debian are missing and cannot be installed:$packages" >&2
        exit 3
    }
fi

sh host/targets/build.sh x86_64 aarch64 wasm32 android ios ios_simulator
rm -rf "$made"
mkdir -p "$made"

# The calls: the second program, linked with a library that writes them down.
for program in record replay; do
    awk -v program=$program -f host/targets/calls.awk include/ostrubel.h > "$made/${program}_calls.h"
done
gcc -std=c99 -O2 -Wall -Wextra -Werror -Iinclude -Ihost/targets -I"$made" -c host/targets/record.c -o "$made/record.o"
nm "$out/x86_64/libostrubel.a" | awk '$2 == "T" { print $3, "plain_" $3 }' > "$made/names"
mkdir "$made/recording"
objcopy --redefine-syms="$made/names" "$out/x86_64/libostrubel.a" "$made/recording/libostrubel.a"
ar rs "$made/recording/libostrubel.a" "$made/record.o"
OSTRUBEL_TRACE=$made/trace OSTRUBEL_LIB_DIR=$made/recording CARGO_TARGET_DIR=$out/cargo \
    cargo run --manifest-path host/Cargo.toml --release --offline --quiet -p second -- --calls 2000 > "$made/second"
tail -n 2 "$made/second"

compile() { # TARGET SOURCE PROGRAM
    words="-std=c99 -O2 -Wall -Wextra -Werror -I$out/$1/include -Ihost/targets -I$made"
    case $1 in
    x86_64) command="gcc -static" ;;
    aarch64 | android) command="aarch64-linux-gnu-gcc -static" ;;
    wasm32) command="clang --target=wasm32-wasi -Wl,-z,stack-size=1048576" ;;
    esac
    # shellcheck disable=SC2086 # words without blanks
    $command $words "$2" "$out/$1/libostrubel.a" -o "$3"
}
run() { # TARGET PROGRAM
    case $1 in
    x86_64) "$2" ;;
    aarch64 | android) qemu-aarch64 "$2" ;;
    wasm32) node --no-warnings host/targets/wasi.mjs "$2" ;;
    esac
}
limit=$(awk '$2 == "OSTRUBEL_STACK_BYTES" { print $3 }' include/ostrubel.h)
failed=0
passed=0
judge() { # WHAT WANTED SEEN
    if [ -n "$3" ] && [ "$2" = "$3" ]; then
        passed=$((passed + 1))
    else
        failed=$((failed + 1))
        echo "FAILED: $1: $3 (and not $2)"
    fi
}

# The processor that is left out of the module changes nothing: on x86-64 the machine code is that of `rt lib`.
code() { objdump -d "$1" | grep -v 'file format\|^In archive'; }
code "$out/x86_64/libostrubel.a" > "$made/code"
code target/staticlib/libostrubel.a > "$made/code.kit"
judge "the machine code on x86-64" "$(sha256sum < "$made/code.kit")" "$(sha256sum < "$made/code")"

wanted=
for target in x86_64 aarch64 android wasm32; do
    compile $target host/c/test.c "$made/$target.test"
    judge "$target, the C test" ok "$(run $target "$made/$target.test" || true)"
    compile $target host/targets/replay.c "$made/$target.replay"
    seen=$(run $target "$made/$target.replay" < "$made/trace" || true)
    stack=${seen##*, stack }
    echo "$target: $seen"
    wanted=${wanted:-${seen%, stack *}}
    judge "$target, the calls" "$wanted" "${seen%, stack *}"
    judge "$target, functions that were not called" 0 "$(echo "$seen" | grep -c '^not called' || true)"
    read -r bytes _ < "$out/$target/stack"
    # beside what a call takes there are the caller's parameters and the C library's memset
    judge "$target, the stack seen is what was worked out" yes "$([ "$stack" -le $((bytes + 256)) ] && echo yes)"
    judge "$target, the stack worked out is within the header's" yes "$([ "$bytes" -le "$limit" ] && echo yes)"
done
sed 's/ .*//' "$made/names" | sort > "$made/functions"
for target in ios ios_simulator; do
    llvm-nm-14 "$out/$target/libostrubel.a" | awk '$2 == "T" { print substr($3, 2) }' | sort > "$made/$target.functions"
    judge "$target, its functions" "$(cat "$made/functions")" "$(cat "$made/$target.functions")"
    read -r bytes _ < "$out/$target/stack"
    judge "$target, the stack worked out is within the header's" yes "$([ "$bytes" -le "$limit" ] && echo yes)"
done
rm -f "$made/trace"
echo "$passed passed, $failed failed"
[ "$failed" -eq 0 ]
