// Judges files in this process: prints the text of the program's command of the same name, and ends with its status.
//
//	go build -o judge examples/bindings/judge.go
//	./judge strict PROOF ANCHORS
package main

// #cgo CFLAGS: -I${SRCDIR}/../../include
// #cgo LDFLAGS: ${SRCDIR}/../../lib/libtimeweave.a
// #include "timeweave.h"
import "C"

import (
	"errors"
	"fmt"
	"os"
)

// Refusal is what isn't accepted: files for a reason, or a file that can't be read; or there was no memory, and nothing was judged.
type Refusal struct {
	Status uint32
	Text   string
}

func (refusal *Refusal) Error() string { return refusal.Text }

// at is a pointer to bytes that isn't nil, as the library asks for, also where there are none.
func at(bytes []byte) *C.uint8_t {
	if len(bytes) == 0 {
		bytes = make([]byte, 1)
	}
	return (*C.uint8_t)(&bytes[0])
}

func size(bytes []byte) C.size_t { return C.size_t(len(bytes)) }

// answer is the report of what is accepted, or a *Refusal, by a call that is given room for its text, and tells how much it needs.
func answer(call func(out *C.uint8_t, room C.size_t, needed *C.size_t) C.uint32_t) (string, error) {
	out, needed := make([]byte, 1024), C.size_t(0)
	status := call(at(out), size(out), &needed)
	if needed > size(out) {
		out = make([]byte, needed)
		status = call(at(out), size(out), &needed)
	}
	if status != C.TIMEWEAVE_ACCEPTED {
		return "", &Refusal{uint32(status), string(out[:needed])}
	}
	return string(out[:needed]), nil
}

func Verify(proof, anchors []byte) (string, error) {
	return answer(func(out *C.uint8_t, room C.size_t, needed *C.size_t) C.uint32_t {
		return C.timeweave_verify(at(proof), size(proof), at(anchors), size(anchors), out, room, needed)
	})
}

func Strict(proof, anchors []byte) (string, error) {
	return answer(func(out *C.uint8_t, room C.size_t, needed *C.size_t) C.uint32_t {
		return C.timeweave_strict(at(proof), size(proof), at(anchors), size(anchors), out, room, needed)
	})
}

func CheckMap(low, high, anchors []byte) (string, error) {
	return answer(func(out *C.uint8_t, room C.size_t, needed *C.size_t) C.uint32_t {
		return C.timeweave_checkmap(at(low), size(low), at(high), size(high), at(anchors), size(anchors), out, room, needed)
	})
}

func CheckFork(evidence, anchors []byte) (string, error) {
	return answer(func(out *C.uint8_t, room C.size_t, needed *C.size_t) C.uint32_t {
		return C.timeweave_checkfork(at(evidence), size(evidence), at(anchors), size(anchors), out, room, needed)
	})
}

func Contradict(first, firstAnchors, second, secondAnchors, link []byte) (string, error) {
	return answer(func(out *C.uint8_t, room C.size_t, needed *C.size_t) C.uint32_t {
		return C.timeweave_contradict(at(first), size(first), at(firstAnchors), size(firstAnchors), at(second), size(second),
			at(secondAnchors), size(secondAnchors), at(link), size(link), out, room, needed)
	})
}

func Receiver(evidence, anchors, link []byte) (string, error) {
	return answer(func(out *C.uint8_t, room C.size_t, needed *C.size_t) C.uint32_t {
		return C.timeweave_receiver(at(evidence), size(evidence), at(anchors), size(anchors), at(link), size(link), out, room, needed)
	})
}

// end tells why and ends with a status that is none of a verdict.
func end(status int, why any) {
	fmt.Fprintln(os.Stderr, why)
	os.Exit(status)
}

// put writes a text; one that isn't written is no answer.
func put(text string) {
	if _, err := fmt.Print(text); err != nil {
		end(4, err)
	}
}

func main() {
	files := map[string]int{"verify": 2, "strict": 2, "checkmap": 3, "checkfork": 2, "contradict": 5, "receiver": 3}
	if len(os.Args) < 2 || files[os.Args[1]] == 0 || len(os.Args) != 2+files[os.Args[1]] {
		end(2, "usage: judge verify PROOF ANCHORS | strict PROOF ANCHORS | checkmap LOW HIGH ANCHORS | checkfork EVIDENCE ANCHORS | "+
			"contradict FIRST ANCHORS SECOND ANCHORS LINK | receiver EVIDENCE ANCHORS LINK")
	}
	var file [5][]byte
	for number, name := range os.Args[2:] {
		var err error
		if file[number], err = os.ReadFile(name); err != nil {
			end(3, err)
		}
	}
	var report string
	var err error
	switch os.Args[1] {
	case "verify":
		report, err = Verify(file[0], file[1])
	case "strict":
		report, err = Strict(file[0], file[1])
	case "checkmap":
		report, err = CheckMap(file[0], file[1], file[2])
	case "checkfork":
		report, err = CheckFork(file[0], file[1])
	case "contradict":
		report, err = Contradict(file[0], file[1], file[2], file[3], file[4])
	case "receiver":
		report, err = Receiver(file[0], file[1], file[2])
	}
	var refusal *Refusal
	if errors.As(err, &refusal) {
		put(refusal.Text)
		os.Exit(int(refusal.Status))
	}
	put(report)
}
