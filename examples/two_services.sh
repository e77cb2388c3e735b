#!/bin/sh
# Two services keep their histories in folders, and one proves an event to whoever holds its line.
#
#     examples/two_services.sh PROGRAM
set -e

. "$(dirname "$0")/shown.sh"

run "mkdir store till"
run "timeweave init store shop"
run "timeweave init till bank"
run "printf 'TWE1\\0\\0\\0\\2\\0\\0\\0\\5bread\\0\\0\\0\\4milk' > goods"
run "timeweave append store goods"
run "printf 'TWE1\\0\\0\\0\\1\\0\\0\\0\\4paid' > payment"
run "timeweave append till payment > anchors"
run "timeweave append store payment >> anchors"
run "cat anchors"
run "timeweave prove store event 1 1 > proof"
run "timeweave verify proof anchors"
run "sed s/milk/beer/ proof > forged"
run "timeweave verify forged anchors"
run "timeweave prove store event 1 5"
