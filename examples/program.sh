#!/usr/bin/env bash
# Runs the program: examples/program.sh [--unproved] POOL CACHE WORD..., with file names as from any folder. A source is read from the standard input.
# Where the program was not built yet, it is proved and built first. With --unproved it is compiled without any proof, each time anew: for a first look.
set -eu
crate=$(cd "$(dirname "$0")/../crates/arc_tool" && pwd)
if [ "${1-}" = --unproved ]; then
    shift
    names=()
    for name in "${@:1:2}"; do
        case $name in -*) ;; *) name=$(realpath -m -- "$name") ;; esac
        names+=("$name")
    done
    echo 'examples/program.sh: compiling without proof; this takes a minute or two' >&2
    cd "$crate" && exec rt try -- "${names[@]}" "${@:3}"
fi
if [ ! -x "$crate/out/arc_tool" ]; then
    echo 'examples/program.sh: proving and building the program; the first time this takes a quarter of an hour or more on four processors' >&2
    (cd "$crate" && rt run -- --version) >&2
fi
exec "$crate/out/arc_tool" "$@"
