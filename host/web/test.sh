#!/bin/sh
# Builds the page and tests it: its modules in node, and the page itself in a headless Chromium, with a picture in
# target/web/page.png. Debian's packages for it are installed where this is root's shell; where they cannot be had,
# that is said and the exit status is 3. It is no part of .ci/run.
set -e
cd "$(dirname "$0")/../.."
packages=
need() { # COMMAND PACKAGE
    command -v "$1" > /dev/null || packages="$packages $2"
}
need wasm-ld lld
need node nodejs
need chromium "chromium fonts-dejavu-core"
if [ -n "$packages" ]; then
    # shellcheck disable=SC2086 # several packages
    { apt-get update && DEBIAN_FRONTEND=noninteractive apt-get install -y --no-install-recommends $packages; } \
        > /dev/null || {
        echo "not tested: these packages of Debian are missing and cannot be installed:$packages" >&2
        exit 3
    }
fi
sh host/web/build.sh
node --test host/web/test/modules.test.mjs host/web/test/page.test.mjs
