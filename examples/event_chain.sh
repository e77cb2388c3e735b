#!/bin/sh
# Shows that an event of one service precedes an event of another: the bank received the maker's line of step 2, by a message. The proofs of both
# events are joined with the bank's proof that it received that line, and the maker's that the line is its own.
#
#     examples/event_chain.sh PROGRAM
set -e

. "$(dirname "$0")/shown.sh"

run "mkdir maker bank"
run "timeweave init maker maker"
run "timeweave init bank bank"
run "printf 'TWE1\\0\\0\\0\\1\\0\\0\\0\\7ordered' > order"
run "printf 'TWE1\\0\\0\\0\\1\\0\\0\\0\\4paid' > payment"
run "printf 'TWE1\\0\\0\\0\\0' > nothing"
run "timeweave append maker order"
run "timeweave append maker nothing"
run "timeweave append bank nothing"
run "timeweave thread maker 0 > message"
run "timeweave receive bank message > receipt"
run "timeweave append bank payment > lines"
run "timeweave append maker nothing"
run "timeweave append maker nothing >> lines"
run "cat lines"
run "timeweave prove bank event 3 0 > paid"
run "timeweave prove bank thread 2 maker 2 > thread"
run "timeweave prove maker link 2 4 > link"
run "timeweave prove maker event 1 0 2 > ordered"
run "timeweave join paid thread link ordered > chain"
run "timeweave verify chain lines"
run "timeweave strict chain lines"
# Without the link the thread is carried: nothing that the verifier holds binds it.
run "timeweave join paid thread ordered > loose"
run "timeweave verify loose lines"
run "timeweave strict loose lines"
# Parts in another order, one byte changed, and anchors of another step.
run "timeweave join paid link thread ordered"
run "sed s/ordered/Ordered/ chain > forged"
run "timeweave verify forged lines"
run "sed 's/^bank 3/bank 2/' lines > other"
run "timeweave verify chain other"
