#!/bin/sh
# Builds the floor's program around the proved archive and prints the path by which it is run.
#
#   app/build.sh [ARCHIVE]
#
# ARCHIVE  the proved archive: if none is named, here or by the variable BENCHDOWEL_ARCHIVE, `rt lib` makes it in crates/program_exports where it is
#          missing or older than its sources
#
# What is missing is installed from Debian's packages; the program's own dependencies are taken from there too. Everything is built
# outside the repository, in ${TMPDIR:-/tmp}/benchdowel-app.
set -eu

. "$(dirname -- "$0")/machine.sh"
sources=$(folder "$(dirname -- "$0")")
project=$(folder "$sources/..")
build=${TMPDIR:-/tmp}/benchdowel-app
mkdir -p "$build"

archive=${1:-${BENCHDOWEL_ARCHIVE:-}}
if [ -z "$archive" ]; then
    archive=$project/crates/program_exports/out/libprogram_exports.a
    if [ ! -f "$archive" ] || [ -n "$(find "$project/crates" "$project/crates.txt" -name out -prune -o -type f -newer "$archive" -print | head -n 1)" ]; then
        has rt || fail "the Rattle kit is needed: there is no command rt"
        echo "proving and making $archive, which takes some minutes" >&2
        (cd "$project/crates/program_exports" && rt lib) >"$build/archive.log" 2>&1 || fail "the archive was not made: see $build/archive.log"
    fi
fi
[ -f "$archive" ] || fail "there is no archive $archive"
BENCHDOWEL_ARCHIVE=$(folder "$(dirname -- "$archive")")/$(basename -- "$archive")
export BENCHDOWEL_ARCHIVE

machine
has cargo || need cargo
has pkg-config || need pkg-config
crates=/usr/share/cargo/registry
for crate in clap rusqlite indicatif codespan-reporting serde-json sha2 tiny-http; do
    [ -n "$(find $crates -maxdepth 1 -name "$(echo $crate | sed 's|-|[_-]|')-[0-9]*" 2>/dev/null)" ] || need librust-$crate-dev
done
[ -n "$(find $crates -maxdepth 1 -name 'serde_derive-[0-9]*' 2>/dev/null)" ] || need librust-serde+derive-dev
if [ -n "$target" ]; then
    [ -e $libraries/libsqlite3.so ] || need libsqlite3-dev:amd64
else
    [ -e /usr/include/sqlite3.h ] || need libsqlite3-dev
fi
get "$build/apt.log"

cat >"$build/cargo.toml" <<END
[source.crates-io]
replace-with = "debian"
[source.debian]
directory = "$crates"
END
program=$build/target/release/benchdowel
if [ -n "$target" ]; then
    cat >>"$build/cargo.toml" <<END
[build]
target = "$target"
[target.$target]
linker = "x86_64-linux-gnu-gcc"
runner = "$emulator"
END
    program=$build/target/$target/release/benchdowel
    export PKG_CONFIG_ALLOW_CROSS=1 PKG_CONFIG_PATH=$libraries/pkgconfig
fi
export RUSTC="$rustc" CARGO_TARGET_DIR="$build/target"
cd "$sources"
[ -e "$program" ] || echo "building the program, which takes a minute or two" >&2
cargo --config "$build/cargo.toml" build --release --offline >"$build/cargo.log" 2>&1 || fail "the program was not built: see $build/cargo.log"

if [ -n "$target" ]; then
    printf '#!/bin/sh\nexec "%s" "%s" "$@"\n' "$emulator" "$program" >"$build/benchdowel"
    chmod +x "$build/benchdowel"
else
    ln -sf "$program" "$build/benchdowel"
fi
echo "$build/benchdowel"
