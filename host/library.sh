#!/bin/sh
# Makes target/staticlib/libostrubel.a, the proved library for hosts, where it is missing or older than the crates, and
# beside it ostrubel.pc, by which pkg-config tells how to compile and link with it.
# Only a proved crate is built: the first time all crates below it are proved, and a line is shown for each. The code runs
# on every x86-64; by itself rt takes a newer one.
set -e
cd "$(dirname "$0")/.."
folder=target/staticlib
archive=$folder/libostrubel.a
built=crates/exports_c/out/libexports_c.a # where rt leaves it
log=target/library.log

# Paths from where the file is, so that the folder may be reached by any name.
mkdir -p "$folder"
cat > "$folder/ostrubel.pc.$$" << EOF
libdir=\${pcfiledir}
includedir=\${pcfiledir}/../../include

Name: ostrubel
Description: sparse whole-number matrices with GraphBLAS operations, proved
Version: $(sed -n 's/^version = "\(.*\)"$/\1/p' host/ostrubel/Cargo.toml)
Cflags: -I\${includedir}
Libs: -L\${libdir} -lostrubel
EOF
mv "$folder/ostrubel.pc.$$" "$folder/ostrubel.pc"

# What rt writes into a crate's out/ is no change.
if [ -f "$archive" ] && [ ! crates.txt -nt "$archive" ] &&
    [ -z "$(find crates -mindepth 2 -name out -prune -o -newer "$archive" -print -quit)" ]; then
    exit 0
fi
if ! command -v rt > /dev/null; then
    echo "rt, the command of the Rattle toolchain, is not on the PATH" >&2
    exit 1
fi

# the crates that exports_c rests on, and itself
count=$(awk -F: '
    /^[a-z]/ { sub(/ .*/, "", $1); names[++n] = $1; uses[n] = $2 }
    END {
        needed["exports_c"] = 1
        for (i = n; i > 0; i--) {
            if (names[i] in needed) {
                count++
                m = split(uses[i], list, " ")
                for (j = 1; j <= m; j++) needed[list[j]] = 1
            }
        }
        print count
    }' crates.txt)

: > "$log"
stamp=$(mktemp)
trap 'rm -f "$stamp"' EXIT
begin=$(date +%s)
proved=0
echo "Proving the library: those of its $count crates that are new or changed since an earlier run."
{
    status=0
    (cd crates/exports_c && rt lib --cpu x86-64) 2>&1 || status=$?
    printf '\nrt ended with %s\n' "$status"
} | {
    while IFS= read -r line; do
        case $line in
        "rt: chose --jobs "*) name=${line##* } ;;
        "logic=proved "*)
            proved=$((proved + 1))
            echo "  crate $proved of at most $count: $name proved, $(($(date +%s) - begin)) s so far"
            ;;
        "rt ended with 0") exit 0 ;;
        *) printf '%s\n' "$line" >> "$log" ;;
        esac
    done
    echo "the library could not be proved and built; the end of $log:" >&2
    tail -n 20 "$log" >&2
    exit 1
}
# What was changed while it was being proved is newer than the archive.
cp "$built" "$archive.$$"
touch -r "$stamp" "$archive.$$"
mv "$archive.$$" "$archive"
