#!/bin/sh
# How strong are stored traces? Runs every deliberate break of the model over a
# folder of stored traces (NAME.stdin with the answers NAME.stdout) and prints,
# for each break, how many traces notice it and which.
#
#   net.sh FOLDER        the breaks of rules
#   net.sh FOLDER all    single wrong bits of the register tables as well
#
# The first line of the answers names the panel that a trace is run on. A file
# NAME.form with the word explain says that the answers are explain's; without
# such a file they are the trace program's.
set -eu
if [ $# -lt 1 ] || [ $# -gt 2 ]; then
    echo "usage: net.sh FOLDER [all]" >&2
    exit 2
fi
here=$(cd "$(dirname "$0")" && pwd)
work=$(mktemp -d)
trap 'rm -rf "$work"' EXIT
rustc --edition 2021 -O "$here/src/main.rs" -o "$work/second"
"$work/second" net "$@"
