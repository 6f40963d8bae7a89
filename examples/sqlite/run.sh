#!/usr/bin/env bash
# From a log of strace to a curve and a page: examples/sqlite/run.sh FOLDER. The log reads.strace.gz is of sqlite, which ran queries.sql over the table that
# make_table.py makes; to record it anew see queries.sql. The program has to be built (examples/run.sh scan builds it), or ARC_TOOL names another one.
set -eu
here=$(cd "$(dirname "$0")" && pwd)
tools=$here/../../tools
folder=${1:?usage: examples/sqlite/run.sh FOLDER}
mkdir -p "$folder"
cd "$folder"
[ -f things.db ] || "$here/make_table.py" things.db
# it was recorded in the folder /home/me
"$tools/import" strace "$here/reads.strace.gz" --folder /home/me --only '*.db' --file things.db -o things
"$tools/curve" things.trace --svg things.svg
"$tools/view" things.trace -o things.html
