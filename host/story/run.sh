#!/bin/sh
# Builds everything, and runs the story of a lost key: a late phone's old sheet comes as a file and is merged, with a mask
# and without, and is written over the office's sheet.
set -e
cd "$(dirname "$0")/../.."
PATH=$PATH:${CARGO_HOME:-$HOME/.cargo}/bin # where cargo is by default, though the PATH may lack it
if ! command -v cargo > /dev/null; then
    echo "cargo (Rust 1.89 or newer) is not on the PATH" >&2
    exit 1
fi
sh host/library.sh
cargo build --manifest-path host/Cargo.toml --target-dir host/target --release --offline --quiet
ostrubel=$PWD/host/target/release/ostrubel
story=$PWD/host/story
folder=$(mktemp -d)
trap 'rm -rf "$folder"' EXIT
cd "$folder"

"$ostrubel" new phone.shelf 1024
"$ostrubel" run phone.shelf "$story/phone.txt"
"$ostrubel" export phone.shelf 0 phone.sheet
echo "The file phone.sheet, of $(wc -c < phone.sheet) bytes, is carried to the office. What is in it:"
"$ostrubel" print phone.sheet
echo
"$ostrubel" new office.shelf 1024
"$ostrubel" run office.shelf "$story/office.txt"
"$ostrubel" import office.shelf 1 phone.sheet
for ending in merge no_mask overwrite; do
    cp office.shelf "$ending.shelf"
    echo
    "$ostrubel" run "$ending.shelf" "$story/$ending.txt"
done
echo
echo "The command is host/target/release/ostrubel: try \`host/target/release/ostrubel help\`."
