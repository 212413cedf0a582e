#!/bin/sh
# demo.sh: builds the archive and runs demo.c, the keeper's main job call by call.
set -eu
# shellcheck source=tests/toolchain.sh
. "$(dirname "$0")/toolchain.sh"

install_compilers
build_archive
build demo tests/demo.c tests/names.c "$archive"
run demo
