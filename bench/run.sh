#!/bin/sh
# run.sh: the benchmark: the time of each call, as ratios, and the stack. The archive
# is for x86-64; on another processor all runs under an emulator, and the times then
# say little.
set -eu
# shellcheck source=tests/toolchain.sh
. "$(dirname "$0")/../tests/toolchain.sh"

install_compilers
build_archive
for part in bench stack; do
    build $part bench/$part.c tests/model.c tests/layout.c tests/sets.c "$archive"
    run $part
done
