#!/bin/sh
# Holds the product against the outside: the vectors, an independent reference on made-up cases, expat and libxml2. Then measures it: by time, and
# by instructions.
#
#   host/run.sh [CASES [SECONDS [ARCHIVE [VECTORS]]]]
#
# CASES    made-up cases to compare (1000000), for at most SECONDS (1800)
# ARCHIVE  the product's archive: made by `rt lib` in crates/program_exports if none is named. The word `standin` puts the reference in its
#          place, which tries the harness alone
# VECTORS  the folder of the vectors (crates/program_vectors/data)
#
# What is missing is installed from Debian's packages. Everything is built outside the repository, in
# ${TMPDIR:-/tmp}/benchdowel-host; the files of differing cases are put into the folder `differ` there.
set -eu

. "$(dirname -- "$0")/../app/machine.sh"
sources=$(folder "$(dirname -- "$0")/src")
project=$(folder "$sources/../..")
cases=${1:-1000000}
seconds=${2:-1800}
archive=${3:-}
if [ -z "$archive" ]; then
    archive=$project/crates/program_exports/out/libprogram_exports.a
    echo "making $archive"
    (cd "$project/crates/program_exports" && rt lib) >/dev/null || fail "rt lib did not make the archive in crates/program_exports"
fi
[ "$archive" = standin ] || [ -f "$archive" ] || fail "there is no archive $archive"
vectors=$(folder "${4:-$project/crates/program_vectors/data}") || fail "there is no folder $4"
[ -f "$vectors/expected.txt" ] || fail "there are no vectors in $vectors"
build=${TMPDIR:-/tmp}/benchdowel-host
mkdir -p "$build"

if [ "$archive" = standin ]; then machine native; else machine; fi
if [ -n "$target" ]; then
    [ -e $libraries/libexpat.so.1 ] || need libexpat1:amd64
    [ -e $libraries/libxml2.so.2 ] || need libxml2:amd64
else
    [ -e /usr/include/expat.h ] || need libexpat1-dev
    [ -e /usr/include/libxml2/libxml/parser.h ] || need libxml2-dev
fi
has qemu-x86_64 || need qemu-user
has cc || need gcc libc6-dev
get "$build/apt.log"

flags=
if [ -n "$target" ]; then
    # The libraries are there to be run; the linker looks for them under names without a version.
    mkdir -p "$build/x86-64"
    ln -sf $libraries/libexpat.so.1 "$build/x86-64/libexpat.so"
    ln -sf $libraries/libxml2.so.2 "$build/x86-64/libxml2.so"
    flags="--target $target -C linker=x86_64-linux-gnu-gcc -L x86-64"
fi

standin=
if [ "$archive" = standin ]; then
    standin="--cfg standin"
    archive=
else
    archive=$(folder "$(dirname -- "$archive")")/$(basename -- "$archive")
fi

# $flags, $standin and $emulator are lists of words. The archive stands last, behind the code that calls it.
cd "$build"
compile() { $rustc -O --edition 2021 -C codegen-units=1 --check-cfg 'cfg(standin)' -L . $flags "$@"; }
for crate in reference drafts xmllibs; do
    compile --crate-type rlib --crate-name $crate "$sources/$crate.rs"
done
compile --crate-type rlib --crate-name binding $standin --extern reference=libreference.rlib "$sources/binding.rs"
for program in vectors compare parsers bench count; do
    compile --crate-type bin ${archive:+-C "link-arg=$archive"} --extern reference=libreference.rlib --extern drafts=libdrafts.rlib \
        --extern xmllibs=libxmllibs.rlib --extern binding=libbinding.rlib "$sources/$program.rs"
done

failed=0
run() {
    status=0
    $emulator "./$@" || status=$?
    if [ $status -gt 128 ]; then
        echo "$1 was ended by signal $((status - 128)): with 'trace' as its last word, compare names each seed before it runs" >&2
    fi
    [ $status -eq 0 ] || failed=1
}
run vectors "$vectors" "$sources/../merges.txt"
run compare 0 "$cases" differ "$seconds"
run parsers 0 $((cases / 10)) differ
run bench ${emulator:+emulated}

# Instructions, counted by the emulator on every machine: they do not depend on what else runs there. A run of `count` that works twice less one
# that works once is one work. Memory is cleared and copied without the instructions of which one does it all.
cc -O2 -shared -fPIC -o libcount.so "$sources/count.c"
mkdir -p inputs
$emulator ./bench files inputs >inputs/list
counted() {
    GLIBC_TUNABLES=glibc.cpu.x86_rep_stosb_threshold=2000000000:glibc.cpu.x86_rep_movsb_threshold=2000000000 \
        qemu-x86_64 -plugin ./libcount.so -d plugin ./count "$1" "inputs/$2.xml" "inputs/$2.tables" "$3" 2>&1
}
work() { echo $(($(counted "$1" "$2" 2) - $(counted "$1" "$2" 1))); }
printf '\n%-48s %15s %15s %9s\n' instructions check expat ratio
while IFS='	' read -r number name; do
    check=$(work check "$number")
    expat=$(work expat "$number")
    [ "$check" -gt 0 ] && [ "$expat" -gt 0 ] || { echo "$name: not counted" && failed=1 && continue; }
    hundredths=$((check * 100 / expat))
    printf '%-48s %15d %15d %6d.%02d\n' "$name" "$check" "$expat" $((hundredths / 100)) $((hundredths % 100))
done <inputs/list
if [ $failed -ne 0 ]; then
    echo "host: the product and the outside differ"
    exit 1
fi
echo "host: no difference"
