#!/bin/sh
# An audit, as an auditor does it who got a proof that an event of one service precedes one of another, the lines of the services, and whole
# histories. In the chain `beta` received a step of `alpha`, and `gamma` one of `beta`. `export` writes histories; of these one is false: beta's
# once more, with another event in its step 1. So a script writes them all.
#
#     examples/audited_chain.sh PROGRAM
set -e

script=$(realpath "$(dirname "$0")/../tools/example_files.py")
. "$(dirname "$0")/shown.sh"

python3 "$script" audited_chain .
run "cat lines"
run "timeweave verify proof lines"
# What the proof tells is so of these histories.
run "timeweave audit proof lines alpha beta gamma"
# The changed history isn't the one of the line that the auditor holds: it has another authenticator at step 4, which is told last.
run "timeweave audit proof lines alpha changed gamma"
# Without the history nothing is had there; nor is it of one that ends before that step.
run "timeweave audit proof lines alpha gamma"
# A history cut short, and one service twice, are no histories to hold a proof against.
run "head -c 100 beta > cut"
run "timeweave audit proof lines alpha cut gamma"
run "timeweave audit proof lines alpha beta gamma changed"
# A proof that isn't accepted under the auditor's lines says nothing, whatever the histories.
run "sed s/second/sekond/ proof > forged"
run "timeweave audit forged lines alpha beta gamma"
