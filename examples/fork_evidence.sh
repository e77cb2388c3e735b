#!/bin/sh
# From a fork to a file that anybody checks. Two services received threads of a third one that no history of it has both: each hands out the
# proof of its thread and its line, and whoever has the history with the later thread the link from its step down to the earlier one's. Of
# these the evidence is made. It takes a service that makes two histories, so a script makes the proofs and the lines.
#
#     examples/fork_evidence.sh PROGRAM
set -e

script=$(realpath "$(dirname "$0")/../tools/example_files.py")
. "$(dirname "$0")/shown.sh"

python3 "$script" fork_evidence .
run "cat lines"
run "timeweave verify first lines"
run "timeweave verify second lines"
run "timeweave accuse first second link > evidence"
# Whoever has the evidence and a line of each of both services checks it.
run "timeweave checkfork evidence lines"
# Without the link the steps are apart; a byte changed, and one of the lines missing.
run "timeweave accuse first second"
run "sed s/bert/berk/ evidence > forged"
run "timeweave checkfork forged lines"
run "head -n 1 lines > one"
run "timeweave checkfork evidence one"
# Of a thread that lies on the history of the other there is no conflict: two proofs of one thread.
run "timeweave accuse first first > none"
run "timeweave checkfork none lines"
