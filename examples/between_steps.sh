#!/bin/sh
# Between which steps of a notary an entry of a ledger lies. The ledger received a message of the notary before it recorded the entry, and the
# notary received one of the ledger's later. Each of both hands out a map file and its line: whoever has these finds out, and needs neither
# folder.
#
#     examples/between_steps.sh PROGRAM
set -e

. "$(dirname "$0")/shown.sh"

# An events file of one event of less than 256 bytes.
event() {
    # (the length of the events file's only event stands in its last byte)
    printf 'TWE1\0\0\0\1\0\0\0' > event
    printf "\\$(printf %o ${#1})%s" "$1" >> event
}

run "mkdir ledger notary"
run "timeweave init ledger ledger"
run "timeweave init notary notary"
event "opened on Monday"
run "timeweave append notary event 1769418000"
event opened
run "timeweave append ledger event"
event "opened on Tuesday"
run "timeweave append notary event 1769504400"
# The ledger receives the notary's step 2, and then records the entry as its step 3.
run "timeweave thread notary 0 > message"
run "timeweave receive ledger message > receipt"
event "opened on Wednesday"
run "timeweave append notary event 1769590800"
event "the contract"
run "timeweave append ledger event"
event sent
run "timeweave append ledger event > lines"
# The notary receives the ledger's step 4.
run "timeweave thread ledger 0 > message"
run "timeweave receive notary message > receipt"
event "opened on Friday"
run "timeweave append notary event 1769763600 >> lines"
run "cat lines"
run "timeweave prove ledger event 3 0 > entry"
run "timeweave verify entry lines"
# What both hand out, and what is found out of it.
run "timeweave map ledger low 3 notary > low"
run "timeweave map notary high 3 ledger > high"
run "timeweave checkmap low high lines"
# So the ledger had received the notary's step 2 when it recorded the entry, and the notary's step 4 received the entry's step or a later one. What
# the notary recorded up to step 2, and what it did behind step 4, as at step 5; the times are its word.
run "timeweave prove notary event 2 0 > before"
run "timeweave verify before lines"
run "timeweave prove notary event 5 0 > after"
run "timeweave verify after lines"
# The high file of another step; a byte of the low file's tree proof changed, which ends it; and one of the lines missing.
run "timeweave map notary high 4 ledger > other"
run "timeweave checkmap low other lines"
run "head -c -1 low > forged && printf x >> forged"
run "timeweave checkmap forged high lines"
run "grep ledger lines > one"
run "timeweave checkmap low high one"
