#!/bin/sh
# Compares the library with SuiteSparse:GraphBLAS, by the program peer; its options are passed on (--help shows them).
# The Debian package libgraphblas-dev is installed where it is missing and can be. Ends with 2 where it cannot.

set -eu

package=libgraphblas-dev

is_there() {
    [ -n "${GRAPHBLAS_LIB_DIR:-}" ] && return 0
    pkg-config --exists GraphBLAS 2>/dev/null && return 0
    dpkg -s "$package" >/dev/null 2>&1 && return 0
    [ -e /usr/include/GraphBLAS.h ] || [ -e /usr/local/include/GraphBLAS.h ]
}

give_up() {
    echo "SuiteSparse:GraphBLAS is not there: $1." >&2
    echo "It is the Debian package $package. As root: apt-get install $package" >&2
    echo "Where libgraphblas.so is in a folder of its own, GRAPHBLAS_LIB_DIR and LD_LIBRARY_PATH name it." >&2
    exit 2
}

install_package() {
    [ "$(id -u)" -eq 0 ] || give_up "only root can install it"
    command -v apt-get >/dev/null || give_up "there is no apt-get to install it"
    apt-get install -y "$package" && return 0
    apt-get update && apt-get install -y "$package" && return 0
    give_up "apt-get could not install it"
}

is_there || install_package

cd "$(dirname "$0")/.."
exec cargo run --release --quiet -p peer -- "$@"
