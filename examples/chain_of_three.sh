#!/bin/sh
# A chain over three services that keep their histories in folders: what the first recorded precedes what the last records, bound by links, and
# carried where a link is left out.
#
#     examples/chain_of_three.sh PROGRAM
set -e

. "$(dirname "$0")/shown.sh"

run "mkdir maker carrier bank"
for name in maker carrier bank; do
    run "timeweave init $name $name"
done
run "printf 'TWE1\\0\\0\\0\\1\\0\\0\\0\\5order' > order"
run "printf 'TWE1\\0\\0\\0\\1\\0\\0\\0\\4paid' > payment"
run "timeweave append maker order"
run "timeweave thread maker 0 > message"
run "timeweave receive carrier message > receipt"
run "timeweave thread carrier 0 > message"
run "timeweave receive bank message > receipt"
run "timeweave append bank payment > lines"
run "timeweave append carrier order >> lines"
run "timeweave append maker payment >> lines"
run "timeweave prove bank event 2 0 > paid"
run "timeweave prove bank thread 1 carrier 1 > thread2"
run "timeweave prove carrier link 1 2 > link2"
run "timeweave prove carrier thread 1 maker 1 > thread1"
run "timeweave prove maker link 1 2 > link1"
run "timeweave prove maker event 1 0 1 > ordered"
run "timeweave join paid thread2 link2 thread1 link1 ordered > chain"
run "timeweave verify chain lines"
run "timeweave strict chain lines"
run "timeweave join paid thread2 link2 thread1 ordered > loose"
run "timeweave verify loose lines"
run "timeweave strict loose lines"
