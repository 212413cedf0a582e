#!/bin/sh
# types.sh: programs that take a handle, a socket, a seat, a place or a count for
# one another. Such an edit never reaches the prover: the compiler has to refuse
# each for its types, at the line that was changed.
set -eu
# shellcheck source=tests/toolchain.sh
. "$(dirname "$0")/toolchain.sh"

copy=$(mktemp -d)
trap 'rm -rf "$copy"' EXIT
trap 'exit 1' TERM
copy_crates "$copy"

# refused CRATE FILE OLD NEW EXPECTED FOUND: with NEW for OLD, which stands
# once in the file, the compiler expects one type and finds another
refused() {
    file=crates/$1/src/$2
    line=$(grep -nF -- "$3" "$file" | cut -d: -f1)
    case $line in
    '' | *[!0-9]*)
        echo "types: '$3' doesn't stand once in $1/src/$2"
        exit 1
        ;;
    esac
    OLD=$3 NEW=$4 awk '{
        at = index($0, ENVIRON["OLD"])
        if (at) $0 = substr($0, 1, at - 1) ENVIRON["NEW"] substr($0, at + length(ENVIRON["OLD"]))
        print
    }' "$file" >"$copy/$file"
    said=$(cd "$copy/crates/$1" && rt check 2>&1) || true
    cp "$file" "$copy/$file"
    case $said in
    *"src/$2:$line:"*"error[mismatched-types]: expected \`$5\`, found \`$6\`"*)
        echo "types: $1/src/$2:$line: '$4' is refused: expected $5, found $6"
        ;;
    *)
        echo "types: $1/src/$2: '$4' for '$3' is not refused for its types:"
        echo "$said"
        exit 1
        ;;
    esac
}

refused client_services lib.rt 'holds_nothing(t, i, h)' 'holds_nothing(t, i, i)' Handle usize
refused client_services lib.rt 'enter(t, n, handle,' 'enter(t, handle, n,' usize Handle
refused client_services lib.rt 'grant_on(t, Seat::new(s), h)' 'grant_on(t, h, h)' Seat Handle
refused table_company lib.rt 'numbers_of(t, seat)' 'numbers_of(t, s)' Seat usize
refused irq_sharers lib.rt 'sharer(t, level, Seat::new(s))' 'sharer(t, level, s)' Seat usize
refused keeper lib.rt 'client_services::deregister(table, h, packet)' \
    'client_services::deregister(table, Socket(3), packet)' Handle Socket
refused keeper lib.rt 'irq_sharers::pack(irq_sharers::of_level(table, level))' \
    'service_answers::pack(irq_sharers::of_level(table, level))' 'Result<Handle, Code>' 'Result<u16, Code>'
refused keeper lib.rt 'number(card(table, Socket(socket as usize), true))' \
    'service_answers::pack(card(table, Socket(socket as usize), true))' 'Result<Handle, Code>' 'Result<(), Code>'
refused keeper lib.rt 'number(card(table, Socket(socket as usize), false))' \
    'service_answers::pack(card(table, Socket(socket as usize), false))' 'Result<Handle, Code>' 'Result<(), Code>'
refused managed_holders lib.rt 'level_at(t, l, Seat::new(s))' 'level_at(t, l, s)' Seat usize
refused managed_boot lib.rt 'return Err(Stopped { place, code })' 'return Err(Stopped { place: code, code: place })' usize Code
refused keeper lib.rt 'managed_boot::pack(managed_boot::boot(table, records))' \
    'service_answers::pack(managed_boot::boot(table, records))' 'Result<Handle, Code>' 'Result<usize, Stopped>'
refused socket_masks lib.rt 'write(t, i, seat, 0)' 'write(t, seat, i, 0)' usize Seat
refused irq_services lib.rt 'grants::level_of(t, seat, h, ' 'grants::level_of(t, h, seat, ' Seat Handle
refused irq_services lib.rt 'grants::enter_level(t, seat, h, level, irq_levels::manner_byte(asked.manner))' \
    'grants::enter_level(t, seat, level, h, irq_levels::manner_byte(asked.manner))' Handle usize
refused irq_fitting lib.rt 'levels_at(t, asked, Seat::new(s))' 'levels_at(t, asked, s)' Seat usize
refused keeper lib.rt 'irq_services::request(table, h, packet)' \
    'irq_services::request(table, service, packet)' Handle u16
refused io_bars lib.rt 'seats::held(t, Seat::new(s))' 'seats::held(t, s)' Seat usize
refused io_bases lib.rt 'stands(t, asked, Seat::new(s))' 'stands(t, asked, s)' Seat usize
refused io_services lib.rt 'grants::ports_of(t, seat, h, ' 'grants::ports_of(t, h, seat, ' Seat Handle
refused io_services lib.rt 'enter_asked(t, seat, h, base, asked, p)' \
    'enter_asked(t, seat, base, h, asked, p)' Handle usize
refused keeper lib.rt 'io_services::request(table, h, packet)' \
    'io_services::request(table, service, packet)' Handle u16
