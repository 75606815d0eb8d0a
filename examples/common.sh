# shellcheck shell=sh
# The common part of the recipes. Each `run` reads this file first.
# DEXKIT names the program; without it, the program is the one that `make` at the top of the repository builds, or, in an
# installed copy, the one on the path.
set -eu
export LC_ALL=C.UTF-8

examples=$(cd "$(dirname "$0")/.." && pwd)
[ -n "${DEXKIT:-}" ] || [ ! -d "$examples/../crates" ] || DEXKIT=$examples/../crates/dexkit/out/dexkit
DEXKIT=${DEXKIT:-dexkit}
if ! command -v "$DEXKIT" >/dev/null; then
    echo "there is no program $DEXKIT: build it with make, or name one as DEXKIT=PATH" >&2
    exit 1
fi
DEXKIT=$(realpath "$(command -v "$DEXKIT")")
export DEXKIT

# A folder for this run, with copies of the example files, so that a recipe may change them.
room=$(mktemp -d)
trap 'cd / && chmod -R u+w "$room" && rm -rf "$room"' EXIT
cp -r "$examples/dex" "$room/dex"
cd "$room"

# File names of the examples. Real tools write such names.
dollar='MoreObjects$ToStringHelper$ValueHolder.dex'
iterator='AbstractMapBasedMultimap$WrappedList$WrappedListIterator.dex'

fail() {
    echo "FAILED: $1" >&2
    exit 1
}

# Prints the names of all example files, one a line, in a fixed order.
all_files() {
    find dex -name '*.dex' | LC_ALL=C sort
}

# Merges all example files at once, as they are now.
flat() {
    all_files >files
    "$DEXKIT" merge --out flat.dex @files
}

# Checks that two files have the same bytes.
same() {
    cmp "$1" "$2" || fail "$1 and $2 differ"
    echo "same bytes: $1 and $2"
}

# Checks that a file has the bytes that an independent program wrote for a file of that name.
same_as_reference() {
    wanted=$(sed -n "s|^\([0-9a-f]*\)  $2\$|\1|p" "$examples/reproducible/SHA256SUMS")
    [ -n "$wanted" ] || fail "SHA256SUMS has no $2"
    [ "$(sha256sum <"$1" | cut -d' ' -f1)" = "$wanted" ] || fail "$1 is not the reference's $2"
    echo "bytes of the reference: $1"
}

# Checks that a count is the expected one.
counted() {
    [ "$2" = "$3" ] || fail "$1: $2 instead of $3"
    echo "$1: $2"
}

# Checks that a command fails.
refused() {
    if "$@" >log 2>&1; then
        cat log
        fail "this ended with status 0: $*"
    fi
}

# The folder of the library for C, which tools/lib makes. A recipe that needs it is not run if it is not there.
find_library() {
    LIBRARY=${LIBRARY:-$examples/../lib/out}
    if [ ! -f "$LIBRARY/lib/libdexkit.a" ]; then
        echo "there is no library $LIBRARY: make it with make lib, or name its folder as LIBRARY=PATH" >&2
        exit 77
    fi
    LIBRARY=$(realpath "$LIBRARY")
    export PKG_CONFIG_PATH="$LIBRARY/lib/pkgconfig"
}

# Asks a worker (c/worker.c) for checks, merges, digests and repairs, and compares what it writes with the program and with
# the reference. The arguments are the command that starts it.
served_by() {
    all_files >files
    all=$(tr '\n' '\t' <files | sed 's/\t$//')
    cp "dex/guava/$dollar" first.dex
    cp "$examples/changed/guava/$dollar" other.dex
    { printf '\377'; tail -c +2 first.dex; } >broken.dex
    {
        sed 's/^/check\t/' files
        printf 'merge\tapp.dex\t-\t0\t0\t%s\n' "$all"
        printf 'merge\tgrouped.dex\t-\t5\t0\t%s\n' "$all"
        printf 'merge\tstripped.dex\t-\t0\t1\t%s\n' "$all"
        printf 'count\tcounts\t%s\n' "$all"
        printf '%s\tapp.dex\t%s\n' normalise again.dex dump listing digest digests
        printf 'merge\tboth.dex\t-\t0\t0\tfirst.dex\tother.dex\n'
        printf 'merge\tsmall.dex\t65535,65535,65536,4,65536,1073741824\t0\t0\t%s\n' "$all"
        printf 'check\tbroken.dex\n'
        printf 'repair\tbroken.dex\trepaired.dex\n'
        printf 'check\tno-such.dex\n'
    } >requests
    "$@" <requests >answers
    xargs -d '\n' "$DEXKIT" check <files | sed 's/^/0\t/' >wanted
    printf '0\t\n%.0s' 1 2 3 4 5 6 7 >>wanted
    class='Lcom/google/common/base/MoreObjects$ToStringHelper$ValueHolder;'
    printf '1\tdexkit: %s\n' "conflict $class" 'cap methods' >>wanted
    printf '1\tdexkit: broken.dex: refused 2 Magic at 0\n%.0s' 1 2 >>wanted
    printf '3\tdexkit: no-such.dex: cannot be read\n' >>wanted
    same answers wanted
    same_as_reference app.dex app.dex
    same_as_reference stripped.dex stripped.dex
    same grouped.dex app.dex
    same again.dex app.dex
    xargs -d '\n' "$DEXKIT" count <files >wanted
    same counts wanted
    for call in dump:listing digest:digests; do
        "$DEXKIT" "${call%:*}" app.dex >wanted
        same "${call#*:}" wanted
    done
}
