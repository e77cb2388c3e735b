#!/bin/sh
# A service that goes on under a new name before its history outgrows the limit of a file. Its last step names the new service, whose first
# step receives the old one's last line: so both are bound to each other, and what the old one recorded precedes what the new one records.
#
#     examples/goes_on.sh PROGRAM
set -e

. "$(dirname "$0")/shown.sh"

run "mkdir old new"
run "timeweave init old log"
run "printf 'TWE1\\0\\0\\0\\1\\0\\0\\0\\5paper' > paper"
run "timeweave append old paper"
run "printf 'TWE1\\0\\0\\0\\1\\0\\0\\0\\20goes on as log-2' > end"
run "timeweave append old end"
# The last file that fits: others keep it.
run "timeweave export old > last.history"
# The first step of the new service receives the old one's last line. The receipt has both lines, which go out together.
run "timeweave thread old 0 > last"
run "timeweave init new log-2"
run "timeweave receive new last > receipt"
run "perl -0777 -ne 'printf \"%s %s %s\\n%s %s %s\\n\", unpack \"x4 Z16 Q> H64 Z16 Q> H64\"' receipt > lines"
run "cat lines"
# What is shown under them: the old history ends with its successor's name, and the new one begins behind it.
run "timeweave prove old event 2 0 > named"
run "timeweave strict named lines"
run "timeweave prove new thread 1 log 2 > received"
run "timeweave strict received lines"
# The new service records, and the old one's entry precedes its entry.
run "timeweave append new paper > later && grep '^log ' lines >> later"
run "timeweave prove new event 2 0 > second"
run "timeweave prove new thread 1 log 2 > thread"
run "timeweave prove old link 2 > link"
run "timeweave show last.history 1 0 > own && timeweave prove old event 1 0 2 | cmp - own"
run "timeweave join second thread link own > chain"
run "timeweave strict chain later"
# From the file alone the history is audited, and taken over.
run "timeweave export new > new.history"
run "timeweave audit chain later last.history new.history"
run "timeweave adopt last.history lines received | cmp - last.history"
