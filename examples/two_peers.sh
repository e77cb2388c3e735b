#!/bin/sh
# Two services exchange messages by files, and each proves to a friend of the other, who holds its line, that it received the other's step, and that
# it received no later one.
#
#     examples/two_peers.sh PROGRAM
set -e

. "$(dirname "$0")/shown.sh"

run "mkdir store till"
run "timeweave init store shop"
run "timeweave init till bank"
run "printf 'TWE1\\0\\0\\0\\1\\0\\0\\0\\4milk' > goods"
run "printf 'TWE1\\0\\0\\0\\1\\0\\0\\0\\4paid' > payment"
run "timeweave append store goods"
run "timeweave append till payment"
run "timeweave thread store 0 > to-bank"
run "timeweave receive till to-bank > from-bank"
run "timeweave thread till 0 > to-shop"
run "timeweave receive store to-shop > from-shop"
run "timeweave receive till to-bank | cmp - from-bank"
run "timeweave append store goods > shops-line"
run "timeweave append till payment > banks-line"
run "timeweave prove till thread 2 shop 1 > by-bank"
run "timeweave verify by-bank banks-line"
run "timeweave prove store thread 2 bank 2 > by-shop"
run "timeweave verify by-shop shops-line"
run "timeweave prove store absent 3 bank 3 > none"
run "timeweave verify none shops-line"
