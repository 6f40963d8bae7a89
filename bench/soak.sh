#!/usr/bin/env bash
# Proves, builds and runs the soak in a copy of the repository: four callers do 10,000 drawn calls each, and the histories are replayed.
set -eu
here=$(cd "$(dirname "$0")" && pwd)
copy=$(mktemp -d)
trap 'rm -rf "$copy"' EXIT
. "$here/callers/copy.sh"
cd "$copy/crates/callers_bench"
rt run -- soak
