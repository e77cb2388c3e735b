#!/bin/sh
# Prints the event root of lines, each of which is an event, by the package `tlog` of Go's own sources, which knows nothing of Timeweave.
# It needs Go, and no network.
#
#     examples/event_roots.sh < LINES
set -eu
room=$(mktemp -d)
trap 'rm -rf "$room"' EXIT
cp -R "$(go env GOROOT)/src/cmd/vendor/golang.org/x/mod/sumdb/tlog" "$room/tlog"
printf 'module roots\n\ngo 1.16\n' > "$room/go.mod"
cat > "$room/main.go" <<'END'
package main

import (
	"bufio"
	"fmt"
	"log"
	"os"

	"roots/tlog"
)

// stored has the labels of all whole trees, as tlog numbers them.
type stored []tlog.Hash

func (labels stored) ReadHashes(places []int64) ([]tlog.Hash, error) {
	found := make([]tlog.Hash, len(places))
	for i, place := range places {
		found[i] = labels[place]
	}
	return found, nil
}

func main() {
	var labels stored
	count := int64(0)
	lines := bufio.NewScanner(os.Stdin)
	for ; lines.Scan(); count++ {
		more, err := tlog.StoredHashes(count, lines.Bytes(), labels)
		if err != nil {
			log.Fatal(err)
		}
		labels = append(labels, more...)
	}
	if lines.Err() != nil {
		log.Fatal(lines.Err())
	}
	root, err := tlog.TreeHash(count, labels)
	if err != nil {
		log.Fatal(err)
	}
	fmt.Printf("%x\n", root[:])
}
END
cd "$room"
GO111MODULE=on GOFLAGS=-mod=mod GOPROXY=off GOCACHE="$room/cache" go run .
