#!/bin/sh
# From receipts that a user collected to a picture of where a step leads: which services have recorded it, directly or over others, and each at
# which step first. `receive` writes receipts; those here are of a network, so a script writes them.
#
#     examples/reached_steps.sh PROGRAM
set -e

script=$(realpath "$(dirname "$0")/../tools/example_files.py")
pictures=$(realpath "$(dirname "$0")")
. "$(dirname "$0")/shown.sh"

python3 "$script" reached_steps .
cp "$pictures/atlas_picture.py" "$pictures/svg.py" .
run "timeweave atlas alpha 2 receipts > atlas"
run "cat atlas"
run "python3 atlas_picture.py < atlas > atlas.svg"
# A line for each leg.
run "grep -c '<line' atlas.svg"
# From a later step nothing leads on: the receipt is of an earlier one.
run "timeweave atlas alpha 4 receipts"
