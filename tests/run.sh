#!/bin/sh
# run.sh: builds the archive and the C side, tries what types must refuse and
# contracts of the entries that a caller must refuse, looks at what the archive
# needs, and runs the header's example, the model's own cases, the comparison and
# the demo. Crates that are proved already are not proved again. Ends at the first
# failure; types and contracts come last.
set -eu
# shellcheck source=tests/toolchain.sh
. "$(dirname "$0")/toolchain.sh"

# The example as the header quotes it.
quoted_example() {
    sed -n '/^ \* Example$/,/^ \*\/$/p' include/card_services.h |
        sed -e '1,2d' -e '$d' -e 's/^ \* \{0,3\}//'
}

install_compilers
build_archive

# What types and a caller must refuse is tried beside the C side, which leaves a
# processor free.
mkdir -p "$programs"
sh tests/types.sh >"$programs/types.printed" 2>&1 &
types=$!
sh tests/entries.sh >"$programs/entries.printed" 2>&1 &
entries=$!
trap 'kill "$types" "$entries" 2>/dev/null || true' EXIT

echo "run: the header as C99 and as C++"
compile_c -fsyntax-only tests/header.c
for standard in c++98 c++17; do
    # shellcheck disable=SC2086
    $cxx_compiler -std=$standard $warnings -Iinclude -fsyntax-only -x c++ tests/header.c
done

echo "run: the header's example"
quoted_example | cmp - tests/example.c
build example tests/example.c "$archive"
run example

echo "run: the archive needs no symbol but those that the header names"
$c_compiler -r -nostdlib -Wl,--whole-archive "$archive" -o "$programs/keeper.o"
"$($c_compiler -print-prog-name=nm)" -u "$programs/keeper.o" >"$programs/undefined"
if grep -vE ' U mem(cpy|move|set|cmp)$' "$programs/undefined"; then exit 1; fi

model='tests/model.c tests/layout.c tests/sets.c tests/names.c'
# shellcheck disable=SC2086
build model_cases tests/model_cases.c tests/model_io_cases.c tests/model_answering_cases.c \
    tests/model_layout_cases.c tests/log_cases.c tests/log.c tests/old_layout.c $model
run model_cases

# shellcheck disable=SC2086
build compare -Wmissing-prototypes tests/compare.c tests/compare_calls.c tests/compare_resources.c \
    tests/compare_holders.c tests/compare_boot.c tests/compare_sockets.c tests/compare_irq.c \
    tests/compare_irq_joining.c tests/compare_io.c tests/compare_io_choice.c tests/compare_io_held.c \
    tests/compare_io_worlds.c tests/compare_io_answering.c tests/compare_masks.c \
    tests/compare_runs.c tests/compare_tables.c tests/resources.c tests/sockets.c tests/clauses.c \
    tests/old_layout.c tests/check.c tests/log.c $model "$archive"
run compare

echo "run: the demo"
build demo tests/demo.c tests/names.c "$archive"
run demo >"$programs/demo.printed"
diff tests/demo.expected "$programs/demo.printed"

echo "run: what types and a caller must refuse"
tried=0
wait "$types" || tried=$?
wait "$entries" || tried=$?
trap - EXIT
cat "$programs/types.printed" "$programs/entries.printed"
[ "$tried" -eq 0 ] || exit 1

echo "run: all passed"
