// Package lspjudge judges what passed between an LSP client and a server, by JSON-RPC 2.0 and LSP 3.17.
package lspjudge

/*
#cgo LDFLAGS: ${SRCDIR}/liblsp_judge.a
#include "lsp_judge.h"
*/
import "C"

import (
	"fmt"
	"unsafe"
)

// Statuses.
const (
	Clean   = C.LSP_JUDGE_CLEAN
	Broken  = C.LSP_JUDGE_BROKEN
	Nothing = C.LSP_JUDGE_NOTHING
	Unread  = C.LSP_JUDGE_UNREAD
)

// Judge returns the status of a recording and the lines of `lsp_check --json`. Breaches of both sides and of each level count.
func Judge(log []byte) (int, []byte, error) {
	var none [1]byte
	from := &none[0]
	if len(log) > 0 {
		from = &log[0]
	}
	options := C.struct_lsp_judge_options{side: C.LSP_JUDGE_BOTH, level: C.LSP_JUDGE_IMPLIED}
	options.size = C.uint64_t(unsafe.Sizeof(options))
	report := make([]byte, 1<<14)
	for {
		var verdict C.struct_lsp_judge_verdict
		verdict.size = C.uint64_t(unsafe.Sizeof(verdict))
		status := C.lsp_judge_log(&options, (*C.uint8_t)(unsafe.Pointer(from)), C.size_t(len(log)),
			(*C.uint8_t)(unsafe.Pointer(&report[0])), C.size_t(len(report)), &verdict)
		if status > Unread {
			return int(status), nil, fmt.Errorf("lsp_judge: status %d", status)
		}
		if uint64(verdict.needed) <= uint64(len(report)) {
			return int(status), report[:verdict.written], nil
		}
		report = make([]byte, verdict.needed)
	}
}
