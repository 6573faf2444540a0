// Validates a document with libyangcheck, and prints the result as JSON lines and the sentences on it.
//
//	CGO_CFLAGS=-I$PWD/include CGO_LDFLAGS=$PWD/out/library/libyangcheck.a go run examples/callers/call.go
package main

/*
#include "yangcheck.h"
*/
import "C"

import (
	"os"
	"unsafe"
)

// parts are in one buffer, with the place where each ends.
type parts struct {
	bytes []byte
	ends  []C.size_t
}

// partsOf joins parts. There is a byte and an end more, so that nothing is empty: a pointer must
// not be nil.
func partsOf(all ...string) parts {
	var made parts
	for _, one := range all {
		made.bytes = append(made.bytes, one...)
		made.ends = append(made.ends, C.size_t(len(made.bytes)))
	}
	made.bytes, made.ends = append(made.bytes, 0), append(made.ends, 0)
	return made
}

func (made parts) start() *C.uint8_t   { return (*C.uint8_t)(unsafe.Pointer(&made.bytes[0])) }
func (made parts) length() C.size_t    { return C.size_t(len(made.bytes) - 1) }
func (made parts) firstEnd() *C.size_t { return &made.ends[0] }
func (made parts) count() C.size_t     { return C.size_t(len(made.ends) - 1) }

// run answers what the program yangcheck would print, and its exit status.
func run(words, files, documents parts) (status int, output, note []byte) {
	var outputLength, noteLength C.size_t
	buffer := make([]byte, 65536)
	for {
		status := C.yangcheck_run(
			words.start(), words.length(), words.firstEnd(), words.count(),
			files.start(), files.length(), files.firstEnd(), files.count(),
			documents.start(), documents.length(), documents.firstEnd(), documents.count(),
			(*C.uint8_t)(unsafe.Pointer(&buffer[0])), C.size_t(len(buffer)),
			&outputLength, &noteLength)
		all := int(outputLength + noteLength)
		if all <= len(buffer) {
			return int(status), buffer[:outputLength], buffer[outputLength:all]
		}
		buffer = make([]byte, all)
	}
}

func main() {
	words := partsOf("validate", "--format=json", "--data=size.json", "ex.yang")
	files := partsOf("module ex { yang-version 1.1; namespace urn:ex; prefix ex; leaf size { type int8; } }")
	documents := partsOf(`{"ex:size": 200}`)
	status, output, note := run(words, files, documents)
	os.Stdout.Write(output)
	os.Stderr.Write(note)
	os.Exit(status)
}
