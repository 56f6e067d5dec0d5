#!/bin/sh
# Compiles the C test against the header and the static library, and runs it: prints "ok" or the line that failed.
set -e
cd "$(dirname "$0")/../.."
sh host/library.sh
mkdir -p target/c
# As pkg-config says, or the same by hand where it is not there.
flags=$(PKG_CONFIG_PATH=target/staticlib pkg-config --cflags --libs ostrubel 2> /dev/null) ||
    flags="-Iinclude -Ltarget/staticlib -lostrubel"
# shellcheck disable=SC2086 # several words
gcc -std=c99 -Wall -Wextra -Werror -o target/c/test host/c/test.c $flags
target/c/test
