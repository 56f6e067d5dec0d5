#!/bin/sh
# Makes target/web/ostrubel.html, a page in one file with the proved library for wasm32 in it. Open it in any browser.
# It needs wasm-ld (Debian's lld) and node.
set -e
cd "$(dirname "$0")/../.."
for tool in wasm-ld node; do
    command -v $tool > /dev/null || {
        echo "$tool is not on the PATH: install Debian's packages lld and nodejs" >&2
        exit 1
    }
done
sh host/targets/build.sh wasm32
mkdir -p target/web
stack=$(awk '$2 == "OSTRUBEL_STACK_BYTES" { print $3 }' include/ostrubel.h)
# every function of the library
names=$(sed -n 's/^uint64_t \(ostrubel_[a-z_]*\)(.*/--export=\1/p' include/ostrubel.h)
# shellcheck disable=SC2086 # words without blanks
wasm-ld --no-entry $names --export=__heap_base --stack-first -z stack-size="$stack" --strip-all \
    target/targets/wasm32/libostrubel.a -o target/web/ostrubel.wasm
node host/web/build.mjs target/web/ostrubel.wasm target/web/ostrubel.html
echo "target/web/ostrubel.html: $(wc -c < target/web/ostrubel.html) bytes"
