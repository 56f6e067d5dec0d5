#!/bin/sh
# usage: build.sh TARGET..
# Compiles the proved library for other processors: for each target, target/targets/TARGET/libostrubel.a and
# target/targets/TARGET/include/ostrubel.h, and in target/targets/TARGET/stack the most bytes of stack that a call
# takes. The module is that of the library for x86-64 (bitcode.sh, which takes proved crates only); its processor is
# left out, and the kit's clang compiles it with the words of the kit's own library.
#   x86_64         Linux
#   aarch64        Linux
#   wasm32         WebAssembly with bulk memory, for browsers and for WASI; it needs no C library
#   android        Android 7 or later on arm64
#   ios            iOS 13 or later on arm64
#   ios_simulator  the simulator of iOS 13 or later, on arm64
set -e
cd "$(dirname "$0")/../.."
out=target/targets

triple_of() {
    case $1 in
    x86_64) echo x86_64-unknown-linux-gnu ;;
    aarch64) echo aarch64-unknown-linux-gnu ;;
    wasm32) echo wasm32-unknown-unknown ;;
    android) echo aarch64-unknown-linux-android24 ;;
    ios) echo arm64-apple-ios13.0.0 ;;
    ios_simulator) echo arm64-apple-ios13.0.0-simulator ;;
    *) return 1 ;;
    esac
}

[ $# -gt 0 ] || set -- none
for target; do
    triple_of "$target" > /dev/null || {
        sed -n '2,/^set/{/^set/d;s/^# \{0,1\}//;p;}' host/targets/build.sh >&2
        exit 2
    }
done
for target; do rm -rf "${out:?}/$target"; done # where the crates are not proved, nothing is left
sh host/targets/bitcode.sh
tools=$(dirname "$(rt doc)")/toolchain/bin

# The kit's words without those that name files or a processor.
words=$(awk '
    skip { skip = 0; next }
    $0 == "-o" || $0 == "-x" { skip = 1; next }
    $0 == "-c" || /\.bc$/ || /^--sysroot/ || /^--target=/ || /^-march=/ || $0 == "-fPIC" || $0 == "-fPIE" { next }
    /[^A-Za-z0-9_.=-]/ { print "a word that is not known: " $0 > "/dev/stderr"; exit 1 }
    { print }' "$out/words")

for target; do
    triple=$(triple_of "$target")
    folder=$out/$target
    mkdir -p "$folder/include" "$folder/made"
    (
        cd "$folder/made"
        clang() { "$tools/clang" --no-default-config --target="$triple" "$@"; }
        # the module, with the layout that clang has for the target
        clang -S -emit-llvm -x c /dev/null -o empty.ll
        "$tools/clang" --no-default-config -S -emit-llvm -O0 -Xclang -disable-llvm-passes -x ir ../../exports.bc \
            -o plain.ll
        {
            grep '^target ' empty.ll
            sed -e '/^target /d' -e '/^attributes /s/ "target-cpu"="[^"]*"//' plain.ll
        } > ostrubel.ll
        case $target in
        wasm32) position= ;;
        *) position=-fPIC ;;
        esac
        # shellcheck disable=SC2086 # words without blanks
        clang $words $position -c -x ir ostrubel.ll -o ostrubel.o
        # shellcheck disable=SC2086
        clang $words $position -S -fstack-usage -x ir ostrubel.ll -o ostrubel.s
        case $target in
        ios*) format=darwin ;;
        *) format=gnu ;;
        esac
        "$tools/llvm-ar" rcsD --format=$format ../libostrubel.a ostrubel.o
        awk -f ../../../../host/targets/stack.awk ostrubel.su ostrubel.s > ../stack
    )
    rm -rf "$folder/made"
    cp include/ostrubel.h "$folder/include/"
    read -r bytes deep < "$folder/stack"
    echo "$folder/libostrubel.a: $(wc -c < "$folder/libostrubel.a") bytes;" \
        "a call takes at most $bytes bytes of stack, $deep calls deep"
done
