#!/bin/sh
# A store that is set back to a copy of an hour ago, and gone on with: what finds it, from the lines beside it over the peer to weft check; and what
# a peer sees where nothing stopped it.
#
#     examples/old_copy.sh PROGRAM
set -e

weft=$(realpath "$(dirname "$0")/../weft/bin")
. "$(dirname "$0")/shown.sh"
PATH=$weft:$PATH
export PATH WEFT_KEPT="$PWD/kept" WEFT_SIGNERS="$PWD/signers"
touch kept

# The exchange of a night: each makes its turn, and what is put out is carried.
cat > night << 'END'
weft exchange shop box-shop
weft exchange bank box-bank
cp -r box-shop/bank/out/. box-bank/shop/in
cp -r box-bank/shop/out/. box-shop/bank/in
END

run "mkdir files bills && echo bread > files/sold && echo 7 > bills/paid"
run "weft log --no-time files shop shop"
run "weft log --no-time bills bank bank"
run "for name in shop bank; do ssh-keygen -q -t ed25519 -N '' -f \$name.key; mkdir box-\$name; echo \"key = ../\$name.key\" > box-\$name/box.conf; done"
run "weft accept box-shop bank --key bank.key.pub > told; weft accept box-bank shop --key shop.key.pub > told"
run "sh night > told"
run "weft accept box-shop bank bank.anchor > told; weft accept box-bank shop shop.anchor > told"
run "sh night > told"
# The copy, an hour ago: of the store alone, and of all that stands beside it.
run "mkdir copy && cp -r shop shop.lines shop.anchor shop.entries copy"
run "echo milk > files/more && weft log --no-time files shop"
run "sh night > told; sh night > told; weft exchange bank box-bank > told"
run "weft keep shop.anchor --by 'my own' --kept elsewhere"
run "cp -r shop right && cp shop.lines right.lines && cp shop.anchor right.anchor && cp shop.entries right.entries"
# The store alone is set back: the lines beside it tell.
run "cp copy/shop/timeline.tw shop/timeline.tw"
run "weft log --no-time files shop"
# They were set back as well: the peer tells, by the signed line that it hands back.
run "cp copy/shop.lines copy/shop.anchor copy/shop.entries ."
run "weft exchange shop box-shop"
# The log tells it too, by the seal of its last step. Somebody takes the seal away, asks nobody, and names the old line as the last one: from here on
# there are two histories. The lines that were kept elsewhere tell, and the peer again.
run "weft log --no-time files shop"
run "rm shop.seal && weft log --no-time files shop --adopt-store \"\$(weft line shop)\"; weft log --no-time files shop; weft log --no-time files shop"
run "weft check shop --kept elsewhere"
run "weft exchange shop box-shop"
# The line of the other history, signed and handed to the peer past weft: it has both now, and they are evidence.
run "cp shop.anchor line && ssh-keygen -q -Y sign -f shop.key -n timeweave-line line && cat line line.sig > box-bank/shop/in/line"
run "weft exchange bank box-bank"
# The right one is put back, and all goes on.
run "cp right/timeline.tw shop/timeline.tw && cp right.lines shop.lines && cp right.anchor shop.anchor && cp right.entries shop.entries && rm shop.seal"
run "weft log --no-time files shop --adopt-store right.anchor"
run "weft check shop --kept elsewhere > told && head -n 1 told"
