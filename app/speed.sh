#!/bin/sh
# Builds the floor's program and times it over many drafts under full tables, against `xmllint --noout` over the same files.
#
#   app/speed.sh [DRAFTS [ARCHIVE]]
#
# DRAFTS   how many (2000)
# ARCHIVE  the proved archive, as for app/build.sh
#
# On a machine that is not x86-64 both are x86-64 programs under one emulator: then the ratio says something, and no time does.
set -eu

drafts=${1:-2000}
[ $# -eq 0 ] || shift
. "$(dirname -- "$0")/build.sh"

has python3 || need python3
if [ -n "$target" ]; then
    [ -e $libraries/libxml2.so.2 ] || need libxml2:amd64
else
    has xmllint || need libxml2-utils
fi
get "$build/apt.log"
reader=xmllint
if [ -n "$target" ]; then
    # The machine's own xmllint has its place already, so the other one is only unpacked.
    reader="$emulator $build/xmllint/usr/bin/xmllint"
    mkdir -p "$build/xmllint"
    cd "$build/xmllint"
    [ -x usr/bin/xmllint ] || { apt-get download libxml2-utils:amd64 && dpkg -x libxml2-utils_*_amd64.deb .; } >"$build/apt.log" 2>&1 ||
        fail "xmllint could not be unpacked: see $build/apt.log"
fi
# $reader is a list of words.
python3 "$sources/tests/speed.py" "$build/benchdowel" "$build/speed" "$drafts" $reader --noout
