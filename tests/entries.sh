#!/bin/sh
# entries.sh: the contracts of the C entries are held by a caller's proofs. In one
# copy of the crates each entry is given a contract that assumes more, in another
# one that promises nothing. `keeper` is proved all the same; `caller`, which
# calls each entry in a function of its own, has to be refused at all six. And what
# `keeper_c` exports to C has to repeat the contracts of `keeper`.
set -eu
# shellcheck source=tests/toolchain.sh
. "$(dirname "$0")/toolchain.sh"

copies=$(mktemp -d)
trap 'rm -rf "$copies"' EXIT
trap 'wait; exit 1' TERM

# begin NAME: a copy of the crates
begin() {
    copy=$copies/$1
    copy_crates "$copy"
    source=$copy/crates/keeper/src/lib.rt
    proofs=$copy/crates/keeper/proofs
}

# stands ENTRY: its first line stands once in the source
stands() {
    if [ "$(grep -c "^pub fn $1(" "$source")" -ne 1 ]; then
        echo "entries: $1 doesn't stand once in keeper/src/lib.rt"
        exit 1
    fi
}

# assumes ENTRY FACT: the entry asks its caller for the fact
assumes() {
    stands "$1"
    sed -i "/^pub fn $1(/a\\    requires { $2 }" "$source"
}

# promises_nothing ENTRY PARAMETERS RESULT ARGUMENTS: the entry has no contract;
# what it did stands behind it under another name, proved as before
promises_nothing() {
    stands "$1"
    whole=whole_${1#cs_}
    sed -i "s/^pub fn $1(/fn $whole(/" "$source"
    if [ -d "$proofs/$1" ]; then
        mv "$proofs/$1" "$proofs/$whole"
        sed -i "s/$1/$whole/g" "$proofs/$whole"/*.antt
    fi
    printf '\npub fn %s(%s) -> %s {\n    %s(%s)\n}\n' "$1" "$2" "$3" "$whole" "$4" >>"$source"
}

# refused WHAT: keeper is proved, and none of caller's functions is
refused() {
    if ! said=$(cd "$copy/crates/keeper" && rt check 2>&1); then
        echo "entries: $1: keeper itself is not proved:"
        echo "$said"
        exit 1
    fi
    said=$(cd "$copy/crates/caller" && rt check 2>&1) || true
    for by in fresh call card_in card_out sharers boot visit; do
        if ! echo "$said" | grep -qE "^fn caller::$by: (not proved|no proof)"; then
            echo "entries: $1: caller::$by is not refused:"
            echo "$said"
            exit 1
        fi
    done
    echo "entries: $1: keeper is proved, and caller is refused at each of the six"
}

each_assumes_more() {
    begin assumes_more
    assumes cs_fresh 'sockets ≡ 1'
    assumes cs_call 'handle ≡ 1'
    assumes cs_card_in 'socket ≡ 0'
    assumes cs_card_out 'socket ≡ 0'
    assumes cs_sharers 'level ≡ 3'
    assumes cs_boot 'records.now ≡ table.old'
    refused 'each entry assumes more of its caller'
}

each_promises_nothing() {
    begin promises_nothing
    promises_nothing cs_fresh 'table: &mut [u8], sockets: u32' u32 'table, sockets'
    promises_nothing cs_call 'table: &mut [u8], service: u16, handle: u16, packet: &mut [u8]' u32 \
        'table, service, handle, packet'
    promises_nothing cs_card_in 'table: &mut [u8], socket: u32' u32 'table, socket'
    promises_nothing cs_card_out 'table: &mut [u8], socket: u32' u32 'table, socket'
    promises_nothing cs_sharers 'table: &[u8], level: u32' u32 'table, level'
    promises_nothing cs_boot 'table: &mut [u8], records: &[u8]' u64 'table, records'
    refused 'each entry promises nothing'
}

# promises FILE BEGINNING: each entry's parameters, result and clauses, one entry after
# the other
promises() {
    awk -v begins="$2" '
        index($0, begins "cs_") == 1 { at = 1; $0 = substr($0, length(begins) + 1) }
        /^{/ { at = 0 }
        at { print }' "$1"
}

# What C calls repeats what the caller's proofs hold.
same_at_the_boundary() {
    promises crates/keeper/src/lib.rt 'pub fn ' >"$copies/entries"
    promises crates/keeper_c/src/lib.rt 'pub extern "C" fn ' >"$copies/exports"
    if [ "$(grep -c '^cs_' "$copies/entries")" -ne 6 ] || ! diff "$copies/entries" "$copies/exports"; then
        echo "entries: keeper_c doesn't export the six entries of keeper with their own promises"
        exit 1
    fi
    echo "entries: keeper_c exports the six entries, each with its own promise"
}

same_at_the_boundary
# Side by side, a processor for each.
each_assumes_more >"$copies/more" 2>&1 &
more=$!
each_promises_nothing >"$copies/nothing" 2>&1 &
nothing=$!
tried=0
wait "$more" || tried=$?
wait "$nothing" || tried=$?
cat "$copies/more" "$copies/nothing"
exit "$tried"
