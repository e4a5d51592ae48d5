# What the scripts of this folder share; each reads it first, by `. "$here/common.sh"`.
#
#   option WORDS ..  takes an option that all of them have, if the first word is one, and sets `took` to the number of its words (0: it is none)
#   build [OPTION]   builds the reference from the Rust sources, or skips where something that it needs is missing
#   skip WHY         says what is missing and ends: with status 0, or with --require as an error
# They set and use: name (the script's), top, out, src, fuse, trace, pages, proximity, widen, narrow, require.
top=$(dirname "$here")
name=$(basename "$0")
out=$top/target/differential
src=${RUST_SOURCES:-$top/../shared/docs/src}
fuse=$top/target/bin/fuse
trace=$top/target/bin/trace
pages=$top/target/bin/pages
proximity=$top/target/bin/proximity
widen=$top/target/bin/widen
narrow=$top/target/bin/narrow
require=

# The rules that the fuse has by request and the Rust has not, as options; the reference follows them (rust/rules).
has=' --rule max-ignores-nan --rule reset-keeps-nonces'

option() {
    took=2
    case $1 in
    --src) src=$2 ;;
    --fuse) fuse=$2 ;;
    --trace) trace=$2 ;;
    --pages) pages=$2 ;;
    --proximity) proximity=$2 ;;
    --widen) widen=$2 ;;
    --narrow) narrow=$2 ;;
    --require) require=yes && took=1 ;;
    *) took=0 ;;
    esac
}

skip() {
    echo "differential/$name: SKIPPED, $1"
    [ -z "$require" ] || exit 1
    exit 0
}

build() {
    command -v python3 >/dev/null || skip "no python3"
    status=0
    said=$(python3 "$here/build.py" --src "$src" --out "$out" "$@" 2>&1) || status=$?
    [ "$status" -ne 3 ] || skip "$said"
    [ -z "$said" ] || echo "$said" >&2
    [ "$status" -eq 0 ] || exit "$status"
}

there() { [ -x "$1" ] || skip "no program $1: tools/build $(basename "$1") builds it"; }
