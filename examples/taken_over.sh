#!/bin/sh
# A lost service's history, taken over by whoever has a copy of it. The copy has six steps; of the proofs of two services that received threads
# of it the later one shows step 5. A script writes these files, and the history once more, with another event in step 3.
#
#     examples/taken_over.sh PROGRAM
set -e

script=$(realpath "$(dirname "$0")/../tools/example_files.py")
. "$(dirname "$0")/shown.sh"

python3 "$script" taken_over .
run "cat lines"
# What each of both received: the service's name, the step of the thread, its authenticator, and the step that received it, last.
run "timeweave verify first lines"
run "timeweave verify second lines"
# So five of the six steps are taken over, and two where the first one alone is asked.
run "timeweave adopt lost lines first second > kept"
run "timeweave adopt lost lines first > less"
run "wc -c lost kept less"
# The last event of the history that was kept is shown by its own proof.
run "timeweave show kept 5 0 > event"
run "timeweave show kept 6 0"
# The other history has what the first one received, and not what the second one did.
run "timeweave adopt altered lines first second"
# A history that is too short has no such step.
run "timeweave adopt less lines second"
