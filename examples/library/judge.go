// Judges programs in this process: each word is a file with a program's text, which is assembled and judged for all helpers.
//
//	CGO_ENABLED=1 go build -o judge examples/library/judge.go
//	./judge examples/copy.s examples/watch.s
package main

/*
#cgo CFLAGS: -I${SRCDIR}/../../library
#cgo LDFLAGS: ${SRCDIR}/../../library/out/libpercobpf.a
#include "percobpf_api.h"
*/
import "C"

import (
	"fmt"
	"os"
	"unsafe"
)

// pointerTo returns where bytes stand, and null where there are none, which the wrappers of the header take.
func pointerTo(bytes []byte) unsafe.Pointer {
	if len(bytes) == 0 {
		return nil
	}
	return unsafe.Pointer(&bytes[0])
}

func asm(text, out []byte) C.struct_percobpf_text {
	return C.percobpf_asm((*C.char)(pointerTo(text)), C.size_t(len(text)), 1, (*C.uint8_t)(pointerTo(out)), C.size_t(len(out)))
}

// judge returns the verdict on the text of a program.
func judge(text []byte) string {
	code := make([]byte, asm(text, nil).needed)
	made := asm(text, code)
	switch made.kind {
	case C.PERCOBPF_KIND_DONE:
	case C.PERCOBPF_KIND_REFUSED:
		return fmt.Sprintf("line %d code %d", made.place, made.code)
	default:
		return fmt.Sprintf("kind %d", made.kind)
	}
	verdict := C.percobpf_check((*C.uint8_t)(pointerTo(code)), C.size_t(len(code)), 1, 1, 15)
	if verdict.kind == C.PERCOBPF_KIND_DONE {
		return fmt.Sprintf("accepted %d slots", verdict.slot)
	}
	return fmt.Sprintf("refused slot %d code %d", verdict.slot, verdict.code)
}

func main() {
	for _, name := range os.Args[1:] {
		text, err := os.ReadFile(name)
		if err != nil {
			fmt.Fprintln(os.Stderr, err)
			os.Exit(1)
		}
		fmt.Printf("%s: %s\n", name, judge(text))
	}
}
