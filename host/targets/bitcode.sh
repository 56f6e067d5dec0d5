#!/bin/sh
# Makes target/targets/exports.bc, the module that the kit's compiler hands to its clang for the proved library, and
# target/targets/words, the words that clang gets with it, where they are missing or older than the crates.
# It is `rt lib` that makes them, so that only proved crates are compiled: it runs in a kit whose clang keeps the module
# and then compiles it as the kit's own clang does. Nothing is kept where rt does not end well.
set -e
cd "$(dirname "$0")/../.."
out=$PWD/target/targets
archive=target/staticlib/libostrubel.a

if [ -f "$out/exports.bc" ] && [ -f "$out/words" ] && [ ! crates.txt -nt "$out/exports.bc" ] &&
    [ -z "$(find crates -mindepth 2 -name out -prune -o -newer "$out/exports.bc" -print -quit)" ]; then
    exit 0
fi
mkdir -p "$out"
rm -f "$out/exports.bc" "$out/words"
sh host/library.sh # proves what is not proved, and shows it

# all but one file of the kit, by links; rt finds its kit from where its own file is. Not in the checkout: rt takes no
# links there.
home=$(dirname "$(rt doc)")
kit=$(mktemp -d)
trap 'rm -rf "$kit"' EXIT
links() { # FOLDER NAME..: all in the folder but those names
    mkdir -p "$kit/$1"
    for file in "$home/$1"/*; do
        case " $* " in
        *" $(basename "$file") "*) ;;
        *) ln -s "$file" "$kit/$1/" ;;
        esac
    done
}
links . bin toolchain
links bin rt rtlib.py
cp "$home/bin/rt" "$home/bin/rtlib.py" "$kit/bin/"
links toolchain bin
links toolchain/bin clang
cat > "$kit/toolchain/bin/clang" << END
#!/bin/sh
for word in "\$@"; do
    case \$word in *.bc) cp "\$word" "$kit/kept.bc" ;; esac
done
printf '%s\n' "\$@" > "$kit/kept.words"
exec "$home/toolchain/bin/clang" "\$@"
END
chmod +x "$kit/toolchain/bin/clang"

stamp=$kit/stamp
: > "$stamp"
(cd crates/exports_c && "$kit/bin/rt" lib --cpu x86-64) > "$out/log" 2>&1 || {
    tail -n 20 "$out/log" >&2
    exit 1
}
if ! cmp -s crates/exports_c/out/libexports_c.a "$archive"; then
    echo "the archive made on the way to the module is not that of host/library.sh" >&2
    exit 1
fi
touch -r "$stamp" "$kit/kept.bc"
mv "$kit/kept.words" "$out/words"
mv "$kit/kept.bc" "$out/exports.bc"
