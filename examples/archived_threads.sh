#!/bin/sh
# Judges proofs of a service that received another one's step: that it did, that it received none of a third one, and that a step of it has its
# authenticator.
#
#     examples/archived_threads.sh PROGRAM
set -e

. "$(dirname "$0")/shown.sh"

run "mkdir store archive"
run "timeweave init store alpha"
run "timeweave init archive notary"
run "printf 'TWE1\\0\\0\\0\\1\\0\\0\\0\\5bread' > goods"
run "timeweave append store goods"
run "timeweave thread store 0 > message"
run "timeweave receive archive message > receipt"
run "timeweave append archive goods > anchors"
run "timeweave prove archive thread 1 alpha 1 > thread"
run "timeweave verify thread anchors"
run "timeweave prove archive absent 1 beta 1 > absent"
run "timeweave verify absent anchors"
run "timeweave prove archive link 1 > link"
run "timeweave verify link anchors"
run "sed s/alpha/gamma/ thread > forged"
run "timeweave strict forged anchors"
