#!/usr/bin/env bash
# Builds the program mjolnir if it isn't built yet or a source has changed since, and runs it with the words that are
# given. Asked for help or for its version, it answers by itself, before anything is built.
set -u
top=$(cd "$(dirname "$0")" && pwd) || exit 1
program=$top/crates/mjolnir/out/mjolnir

# What the program says of its commands, out of the source: the text between COMMANDS_USAGE and the line `";`.
usage() {
    sed -n '/^pub const COMMANDS_USAGE/,/^";$/p' "$top/crates/command_words/src/usages.rt" |
        sed -e '1d' -e '$d' -e 's/^    "//'
}

# The commit of the checkout and its day, and the kit that the proofs were made with.
version() {
    local commit kit
    commit=$(git -C "$top" log -1 --format='%h %cs' 2>/dev/null) || commit=""
    kit=$(grep -m 1 '^rattle-kit' "$top/README.md")
    echo "mjolnir ${commit:-without a commit}"
    echo "proved with $kit"
}

# Whether the program is there, and no source is newer.
is_built() {
    [ -x "$program" ] &&
        [ -z "$(find "$top/crates" "$top/crates.txt" -name out -prune -o \
            \( -name '*.rt' -o -name '*.antt' -o -name crates.txt \) -newer "$program" -print -quit)" ]
}

case "${1:-}" in
    help | --help | -h)
        usage
        exit 0
        ;;
    --version | -V)
        version
        exit 0
        ;;
esac

if ! is_built; then
    # Without words there is nothing to build for: the program would say this, and refuse them.
    if [ $# -eq 0 ]; then
        usage >&2
        echo "error 2 words"
        exit 2
    fi
    if ! command -v rt >/dev/null 2>&1; then
        echo "mjolnir.sh: the command rt of the Rattle kit isn't on the PATH (README.md, \"Requirements\")" >&2
        exit 1
    fi
    echo "mjolnir.sh: the first build proves every crate that the program stands on: ten to twenty minutes on four processors" >&2
    # `rt run` proves, builds and runs the program; without words it says one line and refuses them.
    rm -f "$program"
    mkdir -p "$top/out"
    (cd "$top/crates/mjolnir" && rt run >"$top/out/build.log" 2>&1)
    if [ ! -x "$program" ]; then
        cat "$top/out/build.log" >&2
        exit 1
    fi
    rm -f "$top/out/build.log"
fi
exec "$program" "$@"
