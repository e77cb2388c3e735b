// Checks the proof that a record stands in a log of Go's sumdb/tlog many times in one process, and tells how many a second.
//
//	GO111MODULE=off GOPATH=/usr/share/gocode go run tlog.go RECORDS COUNT
package main

import (
	"fmt"
	"os"
	"strconv"
	"syscall"

	"golang.org/x/mod/sumdb/tlog"
)

// The hashes that a log keeps, by their place.
type stored []tlog.Hash

func (hashes stored) ReadHashes(places []int64) ([]tlog.Hash, error) {
	found := make([]tlog.Hash, len(places))
	for i, place := range places {
		found[i] = hashes[place]
	}
	return found, nil
}

func fail(err error) {
	if err != nil {
		fmt.Fprintln(os.Stderr, err)
		os.Exit(1)
	}
}

func processorSeconds() float64 {
	var used syscall.Rusage
	fail(syscall.Getrusage(syscall.RUSAGE_SELF, &used))
	return float64(used.Utime.Nano()+used.Stime.Nano()) / 1e9
}

func main() {
	records, err := strconv.ParseInt(os.Args[1], 10, 64)
	fail(err)
	count, err := strconv.Atoi(os.Args[2])
	fail(err)
	var log stored
	for i := int64(0); i < records; i++ {
		more, err := tlog.StoredHashes(i, []byte(strconv.FormatInt(i, 10)), log)
		fail(err)
		log = append(log, more...)
	}
	tree, err := tlog.TreeHash(records, log)
	fail(err)
	place := records / 3
	proof, err := tlog.ProveRecord(records, place, log)
	fail(err)
	begun := processorSeconds()
	for i := 0; i < count; i++ {
		fail(tlog.CheckRecord(proof, records, tree, place, tlog.RecordHash([]byte(strconv.FormatInt(place, 10)))))
	}
	fmt.Printf("%d of %d accepted, %.0f a second of processor time\n", count, count, float64(count)/(processorSeconds()-begun))
}
