#!/bin/sh
# Where column numbers are read, and the tests of what is in host/: the C test, the tests of the Rust programs, the crate
# as a package of its own, the second program on random calls, and the program that prints a file on files and other bytes.
set -e
cd "$(dirname "$0")/.."
PATH=$PATH:${CARGO_HOME:-$HOME/.cargo}/bin # where cargo is by default, though the PATH may lack it
sh host/column_reads.sh
sh host/library.sh
sh host/c/run.sh
# The archive that was just tested, and no earlier copy of it.
OSTRUBEL_LIB_DIR=$PWD/target/staticlib
export OSTRUBEL_LIB_DIR
cargo test --manifest-path host/Cargo.toml --release --offline --quiet
# The crate alone builds where OSTRUBEL_LIB_DIR is set.
cargo package --manifest-path host/Cargo.toml --offline --quiet --allow-dirty --no-metadata -p ostrubel
cargo run --manifest-path host/Cargo.toml --release --offline --quiet -p second -- --calls 200000
cargo run --manifest-path host/Cargo.toml --release --offline --quiet -p second -- --faults
# The proved program, also on what its crate has for it; where nothing was changed since it was proved, it only runs.
(
    cd crates/print_file
    rt run < stdin > ../../target/print_file.stdout 2> ../../target/print_file.log || {
        tail -n 20 ../../target/print_file.log >&2
        exit 1
    }
    cmp ../../target/print_file.stdout stdout
)
cargo run --manifest-path host/Cargo.toml --release --offline --quiet -p second -- \
    --program "$PWD/crates/print_file/out/print_file"
