#!/bin/sh
# A box for ten years: a record, the proof that it stood in a register before a notary's entry, the lines with their signatures, and the reference that
# judges them; opened in an empty folder, ten years later, by somebody who has nothing else. Its lines have days by time-stamping authorities: one whose certificate
# ends before, and one by which that stamp was renewed in time. And its renewal before SHA-256 ages, by digests of another kind.
#
#     examples/ten_years.sh PROGRAM [FOLDER]      leaves the box in FOLDER, where one is named
set -e

here=$(realpath "$(dirname "$0")")
. "$here/shown.sh"
into=${2-}
PATH=$here/../weft/bin:$PATH
export PATH WEFT_KEPT="$PWD/kept" WEFT_AUTHORITIES="$PWD/authorities" here
touch kept

# The register and the notary, who received its line before he made his entry.
run "mkdir deeds entries notary box && timeweave init notary notary"
run "echo 'The house is sold to Ann.' > deeds/deed && weft log --no-time deeds register register"
run "timeweave thread register 0 > message && timeweave receive notary message > receipt"
# (weft asks once for the last line of a store whose steps it didn't make.)
run "echo 'Seen.' > entries/entry && weft log --no-time entries notary --adopt-store \"\$(weft line notary)\""
run "weft prove register deed > told && weft prove notary entry > told"
# What goes into the box: the record, the chain, the lines with signatures and keys, and what judges them.
run "cp deeds/deed box && weft chain deed.proof entry.proof --store register --store notary --out box/chain > told && head -n 1 told"
run "for name in register notary; do ssh-keygen -q -t ed25519 -N '' -C \$name -f \$name.key; weft line \$name --sign \$name.key --out box/\$name.line > told; done"
run "cat box/register.line box/notary.line > box/lines"
run "for name in register notary; do echo \"\$name \$(cut -d ' ' -f 1,2 \$name.key.pub)\" >> box/signers; done"
# Two authorities, whose certificates are good for six years and for twenty. The first one stamps each line; before its own ends, the second one stamps the line with that stamp.
printf '[t]\nserial = serial\ndefault_policy = 1.2.3.4\ndigests = sha512\nsigner_digest = sha256\ness_cert_id_alg = sha256\n' > tsa
made='-newkey ec -pkeyopt ec_paramgen_curve:prime256v1 -nodes -addext extendedKeyUsage=critical,timeStamping -addext keyUsage=critical,digitalSignature'
run "openssl req -x509 $made -keyout first.key -out box/first.pem -days 2190 -subj /CN=first 2> told"
run "openssl req -x509 $made -keyout second.key -out box/second.pem -days 7300 -subj /CN=second 2> told"
for name in register notary; do
    run "openssl ts -query -data box/$name.line -sha512 -cert -out query 2> told"
    run "openssl ts -reply -queryfile query -inkey first.key -signer box/first.pem -config tsa -section t -out box/$name.stamp.1 2> told"
    run "cat box/$name.line box/$name.stamp.1 | openssl ts -query -data /dev/stdin -sha512 -cert -out query 2> told"
    run "openssl ts -reply -queryfile query -inkey second.key -signer box/second.pem -config tsa -section t -out box/$name.stamp.2 2> told"
done
# With weft both are one file, whose day is told.
run "for name in first second; do weft keep --authority \$name box/\$name.pem > told; done; for name in register notary; do weft keep box/\$name.line --by own > told; done"
run "for name in register notary; do cat box/\$name.stamp.1 box/\$name.stamp.2 > stamp && weft keep box/\$name.line --stamp stamp > told; done"
run "weft judge box/chain --file deeds/deed | grep -e stood -e 'not after'"
run "cp -r \"\$here/../reference/timeweave_reference\" \"\$here/../docs/formats.md\" \"\$here/../docs/definitions.md\" box"
run "if test -e \"\$here/../web/timeweave.html\"; then cp \"\$here/../web/timeweave.html\" box; fi"
# The renewal: digests by SHA-512 of what rests on SHA-256, recorded in a third service, which others hold a line of.
run "timeweave export register > box/register.history"
run "cd box && sha512sum deed chain lines register.history > ../digests"
run "mkdir keeper && timeweave init keeper keeper > told && xargs -d '\\n' python3 \"\$here/events_file.py\" < digests > events && timeweave append keeper events"
run "for index in 0 1 2 3; do timeweave prove keeper event 1 \$index 1 > box/renewal.\$index; done"
run "ssh-keygen -q -t ed25519 -N '' -C keeper -f keeper.key && weft line keeper --sign keeper.key --out box/keeper.line > told"
run "echo \"keeper \$(cut -d ' ' -f 1,2 keeper.key.pub)\" >> box/signers"
cat > box/README.txt << 'END'
What is in this box shows that the file deed stood in the register before the notary made his entry. Whose lines these are, the signatures tell to
whoever has the keys in the file signers from the register, the notary and the keeper themselves. It takes Python 3.9 or later, ssh-keygen and openssl.

The chain of events, under the lines (accepted precedes):
    $ python3 -I timeweave_reference strict chain lines
The event of the register in words; behind its digest stands the file's name, and the digest is that of sha256sum:
    $ python3 -I timeweave_reference strict chain lines | sed -n 's/^event register 1 0 //p' | python3 -c 'print(bytes.fromhex(input()).decode())' | sha256sum -c
The signatures of the lines:
    $ for name in register notary keeper; do ssh-keygen -Y verify -n timeweave-line -f signers -I $name -s $name.line.sig < $name.line; done
The renewal: SHA-512 digests of these files, as the keeper recorded them:
    $ for index in 0 1 2 3; do python3 -I timeweave_reference strict renewal.$index keeper.line | sed -n 's/^event keeper 1 . //p' | python3 -c 'print(bytes.fromhex(input()).decode())'; done | sha512sum -c
By when the lines stood, as the authority first says. Its certificate has ended; the second one's stamp is of each line and of the first stamp, and was made before that:
    $ for name in register notary; do cat $name.line $name.stamp.1 | openssl ts -verify -data /dev/stdin -in $name.stamp.2 -partial_chain -CAfile second.pem -attime ${NOW:-$(date +%s)}; done
    $ for name in register notary; do at=$(openssl ts -reply -in $name.stamp.2 -text | sed -n 's/^Time stamp: //p'); openssl ts -verify -data $name.line -in $name.stamp.1 -partial_chain -CAfile first.pem -attime $(date -d "$at" +%s); done
    $ for name in register notary; do openssl ts -reply -in $name.stamp.1 -text | grep '^Time stamp'; done
Whether these are the authorities' certificates, others know. They are neither the register's nor the notary's word.
If no Python is left that runs it, formats.md and definitions.md say how the digests are computed: with SHA-256 alone.
END
# Opened ten years later by somebody who has nothing else: a folder of its own, and neither Timeweave nor weft on the path.
run "mkdir later && cp -r box later && ls later/box"
cd later/box
sed -n 's/^    \$ //p' README.txt > ../commands
while IFS= read -r command; do
    printf '$ %s\n' "$command"
    env -i PATH=/usr/local/bin:/usr/bin:/bin NOW=$(($(date +%s) + 315360000)) sh -c "$command" || echo "(status $?)"
done < ../commands
[ -z "$into" ] || cp -r . "$into"
