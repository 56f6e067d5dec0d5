#!/bin/sh
# Builds and runs the benchmarks, with SuiteSparse:GraphBLAS where it is there (the Debian package libgraphblas-dev).
# Arguments are passed on: --seconds N, --only TEXT, --write FILE.
set -eu

workspace="$(dirname "$0")/../Cargo.toml"

has_graphblas() {
    if [ -n "${GRAPHBLAS_LIB_DIR:-}" ]; then
        [ -f "$GRAPHBLAS_LIB_DIR/libgraphblas.so" ]
        return
    fi
    for file in /usr/local/lib/libgraphblas.so /usr/lib64/libgraphblas.so /usr/lib/libgraphblas.so \
        /usr/lib/*/libgraphblas.so; do
        if [ -f "$file" ]; then
            return 0
        fi
    done
    return 1
}

if has_graphblas; then
    exec cargo run --quiet --release --manifest-path "$workspace" -p bench --features suitesparse -- "$@"
fi
echo "libgraphblas.so is not there: measured without SuiteSparse:GraphBLAS." >&2
exec cargo run --quiet --release --manifest-path "$workspace" -p bench -- "$@"
