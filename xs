#!/usr/bin/env bash
# Runs the program `xs` with the words given, and builds it first where it is missing or older than its
# sources. Building proves each crate that the program stands on. The program lies in build/, beside what
# the toolchain keeps in crates/*/out/, so that a run of `rt ci` doesn't take it away; both are ignored
# by git. Where the program can't be built the status is 125, which the program itself never ends with.
set -eu

# The folder of this script, through links.
script=${BASH_SOURCE[0]}
while [[ -L $script ]]; do
    link=$(readlink -- "$script")
    [[ $link == /* ]] || link=$(dirname -- "$script")/$link
    script=$link
done
top=$(cd -- "$(dirname -- "$script")" && pwd)
program=$top/build/xs

# A folder is newer too where a file was added or taken away.
is_stale() {
    [[ ! -x $program ]] ||
        [[ -n $(find "$top"/crates.txt "$top"/HANDLES "$top"/crates/*/{src,specs,proofs} -newer "$program" -print -quit 2>/dev/null) ]]
}

# `rt run` proves, builds and runs the program: on the example, whose output goes to the log.
build() {
    command -v rt >/dev/null || {
        echo "xs: the toolchain's command rt isn't in PATH" >&2
        exit 125
    }
    echo "xs: building (each crate is proved first; this takes some minutes on a fresh machine)" >&2
    mkdir -p "$top/build"
    local begun log copy
    begun=$(mktemp "$top/build/begun.XXXXXX")
    log=$top/build/log
    if ! (cd "$top/crates/xs_cli" && rt run -- eval "$top/examples/hi.js") >"$log" 2>&1 </dev/null; then
        rm -f "$begun"
        cat "$log" >&2
        echo "xs: not built" >&2
        exit 125
    fi
    # It counts as made when the build began, so that an edit since then is seen the next time.
    copy=$(mktemp "$top/build/xs.XXXXXX")
    cp "$top/crates/xs_cli/out/xs_cli" "$copy"
    chmod 755 "$copy"
    touch -r "$begun" "$copy"
    mv -f "$copy" "$program"
    rm -f "$begun"
}

if is_stale; then
    build
fi
exec "$program" "$@"
