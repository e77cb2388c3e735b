#!/bin/sh
# A hook of git's: each commit that a push brings is recorded in a service, by its object name. Copy it to hooks/post-receive of the repository that is
# pushed to, where it runs behind each push with a line `OLD NEW REF` for each ref. The key lets a push that was killed amid this be recorded once:
#
#     WEFT_SERVICE=/srv/pushes hooks/post-receive < lines
#
# What git's names bind depends on git's digest: a repository made by `git init --object-format=sha256` has SHA-256 there.
set -eu

service=${WEFT_SERVICE:?names the folder of the service}
room=$(mktemp -d)
trap 'rm -rf "$room"' EXIT
none=$(git hash-object --stdin < /dev/null | tr '0-9a-f' 0)

# New is what the pushed refs have now, and neither had before nor any other ref has: all of them are written already. (A ref that was taken away has none.)
set --
while read -r old new ref; do
    [ "$new" = "$none" ] || set -- "$@" "$new"
    [ "$old" = "$none" ] || set -- "$@" "^$old"
    set -- "$@" "--exclude=$ref"
done
git rev-list --reverse "$@" --not --all > "$room/commits"
# (names of letters and digits alone, which stand in JSON as they are)
sed 's/.*/{"event": "commit &", "key": "&"}/' "$room/commits" | weft record "$service" --name "${WEFT_NAME:-pushes}" --input json
