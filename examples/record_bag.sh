#!/bin/sh
# A bag of BagIt (RFC 8493) is recorded as one event: the SHA-256 digest of its tag manifest, which has those of its manifest and of what tells of it, and so
# stands for each file in it.
#
#     examples/record_bag.sh BAG SERVICE [NAME]
#
# Later, whoever has the bag holds it against the proof: weft judge PROOF --file BAG/tagmanifest-sha256.txt, and checks the bag by its manifests.
set -eu

bag=$1 service=$2
cd "$bag"
# The bag has to be whole before it is recorded, and its tag manifest has to name the manifest.
sha256sum --check --strict --quiet manifest-sha256.txt tagmanifest-sha256.txt
grep -q ' manifest-sha256\.txt$' tagmanifest-sha256.txt
# Each file that it carries stands in the manifest, by its name from the 67th letter on.
[ "$(find data ! -type d | LC_ALL=C sort)" = "$(cut -c 67- manifest-sha256.txt | LC_ALL=C sort)" ]
cd - > /dev/null
weft record "$service" "$bag/tagmanifest-sha256.txt" --key "$(sha256sum < "$bag/tagmanifest-sha256.txt" | cut -d ' ' -f 1)" ${3:+--name "$3"}
