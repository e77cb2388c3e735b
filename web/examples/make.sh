#!/usr/bin/env bash
# Makes the files of the page's examples anew, by the built program: a record of a shop; what came first of three services, once bound and
# once on a word; and a changed proof.
#
#     web/examples/make.sh bin/timeweave
set -eu
program=$(realpath "${1:-bin/timeweave}")
cd "$(dirname "$0")"
events=../../examples/events_file.py
room=$(mktemp -d)
trap 'rm -rf "$room"' EXIT

append() { # SERVICE EVENT ..: prints the line
    local service=$1
    shift
    python3 "$events" "$@" > "$room/events"
    "$program" append "$room/$service" "$room/events"
}

receive() { # SERVICE PEER SINCE: the service records the last line of the peer
    "$program" thread "$room/$2" "$3" > "$room/message"
    "$program" receive "$room/$1" "$room/message" > "$room/receipt"
}

for service in shop maker carrier bank; do
    mkdir "$room/$service"
    "$program" init "$room/$service" "$service" > "$room/line"
done

append shop bread milk > "$room/line"
append shop paid > shop.lines
"$program" prove "$room/shop" event 1 1 2 > record.proof
sed s/milk/beer/ record.proof > changed.proof

append maker 'order 4711 packed' > "$room/line"
receive carrier maker 0
append carrier 'parcel delivered' > carrier.lines
receive bank carrier 0
append bank 'order 4711 paid' > bank.lines
append maker closed > maker.lines
cat maker.lines carrier.lines bank.lines > three.lines
rm maker.lines carrier.lines bank.lines

"$program" prove "$room/bank" event 2 0 > "$room/paid"
"$program" prove "$room/bank" thread 1 carrier 2 > "$room/at_bank"
"$program" prove "$room/carrier" link 2 2 > "$room/carrier_link"
"$program" prove "$room/carrier" thread 2 maker 1 > "$room/at_carrier"
"$program" prove "$room/maker" link 1 2 > "$room/maker_link"
"$program" prove "$room/maker" event 1 0 1 > "$room/packed"
"$program" join "$room/paid" "$room/at_bank" "$room/carrier_link" "$room/at_carrier" "$room/maker_link" "$room/packed" > bound.proof
"$program" join "$room/paid" "$room/at_bank" "$room/carrier_link" "$room/at_carrier" "$room/packed" > word.proof
