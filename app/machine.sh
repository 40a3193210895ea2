# How programs around the proved archive are built and run on this machine. Sourced by app/build.sh, app/test.sh and host/run.sh.
#
# The archive is x86-64 code. Another machine builds x86-64 programs around it and runs them under an emulator: then a rustc with that
# target is needed, perhaps Debian's beside another one, and the libraries are x86-64 code too.
#
#   machine [native]   sets rustc; and target, libraries and emulator, which are empty where programs are run directly: on x86-64, and on
#                      any machine with the word `native`, for programs without the archive
#   need PACKAGE..     says that packages of Debian are missing
#   get LOG            installs what is missing, says first what, and looks at rustc

fail() { echo "$*" >&2; exit 3; }
has() { command -v "$1" >/dev/null; }
folder() { CDPATH= cd -- "$1" && pwd; }

missing=
need() { missing="$missing $*"; }

has_target() { [ -d "$("$rustc" --print target-libdir --target $target 2>/dev/null)" ]; }

machine() {
    rustc=rustc
    target=
    libraries=
    emulator=
    if [ "${1:-}" = native ] || [ "$(uname -m)" = x86_64 ]; then
        has rustc || need rustc
        has cc || need gcc libc6-dev
        return
    fi
    target=x86_64-unknown-linux-gnu
    libraries=/usr/lib/x86_64-linux-gnu
    has_target || rustc=/usr/bin/rustc
    has_target || need rustc libstd-rust-dev:amd64
    has x86_64-linux-gnu-gcc && [ -e /usr/x86_64-linux-gnu/lib/crt1.o ] || need gcc-x86-64-linux-gnu libc6-dev-amd64-cross
    has qemu-x86_64 || has qemu-x86_64-static || need qemu-user
}

get() {
    if [ -n "$missing" ]; then
        echo "installing:$missing" >&2
        {
            { [ -z "$target" ] || dpkg --add-architecture amd64; } && apt-get update &&
                # Debian 12 has its newer rustc and cargo under other names.
                if apt-cache show rustc-web; then missing=$(echo "$missing" | sed 's/ rustc/&-web/; s/ cargo/&-web/; s/libstd-rust/&-web/'); fi &&
                # $missing is a list of words.
                DEBIAN_FRONTEND=noninteractive apt-get install -y --no-install-recommends $missing
        } >"$1" 2>&1 || fail "apt-get could not install them: see $1"
        missing=
    fi
    version=$($rustc --version)
    minor=$(echo "$version" | sed 's/^rustc 1\.\([0-9]*\)\..*/\1/')
    [ "$minor" -ge 82 ] || fail "rustc 1.82 or later is needed; this is $version"
    [ -z "$target" ] || has_target || fail "$version cannot build for $target"
    [ -z "$target" ] || emulator=$(command -v qemu-x86_64 || command -v qemu-x86_64-static)
}
