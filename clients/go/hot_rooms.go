// A query over rooms, inside a Go program: go build hot_rooms.go && ./hot_rooms
package main

// #cgo LDFLAGS: -lbq
// #include <stdlib.h>
// #include "bq.h"
import "C"

import (
	"fmt"
	"os"
	"unsafe"
)

// Session is one session. It is used by one goroutine at a time.
type Session struct {
	handle **C.bq_session
}

// Status is what a call ended with, where that is not Done.
type Status uint32

func (status Status) Error() string {
	return fmt.Sprintf("bq ended with status %d", uint32(status))
}

// Open opens a session that may take so many rows, and whose queries have at most so many pages together.
func Open(rows uint64, pages uint32) (*Session, error) {
	// The handle stands where Go moves nothing, as C keeps it between calls.
	handle := (**C.bq_session)(C.calloc(1, C.size_t(unsafe.Sizeof(uintptr(0)))))
	if status := C.bq_open(handle, C.uint64_t(rows), C.uint32_t(pages), 1<<20); status != C.BQ_DONE {
		C.free(unsafe.Pointer(handle))
		return nil, Status(status)
	}
	return &Session{handle}, nil
}

// first is where bytes stand.
func first(bytes []byte) *C.uint8_t {
	if len(bytes) == 0 {
		return nil
	}
	return (*C.uint8_t)(unsafe.Pointer(&bytes[0]))
}

// Feed answers whole lines, and returns the replies.
func (session *Session) Feed(text []byte) (replies []byte, err error) {
	for {
		var taken, waiting C.size_t
		status := C.bq_feed(session.handle, first(text), C.size_t(len(text)), &taken, &waiting)
		text = text[taken:]
		if waiting > 0 {
			room := make([]byte, waiting)
			C.bq_replies(session.handle, first(room), waiting, &waiting)
			C.bq_clear(session.handle)
			replies = append(replies, room...)
		}
		if status != C.BQ_FULL {
			if status != C.BQ_DONE {
				err = Status(status)
			}
			return replies, err
		}
	}
}

// Close ends the session, once.
func (session *Session) Close() {
	C.bq_close(session.handle)
	C.free(unsafe.Pointer(session.handle))
	session.handle = nil
}

func run() error {
	if C.bq_abi() != C.BQ_ABI {
		return fmt.Errorf("libbq is of another version than bq.h")
	}
	session, err := Open(1000000, 64)
	if err != nil {
		return err
	}
	defer session.Close()
	lines := []string{
		"CREATE STREAM Temp (room IN 1..39, val)\nCREATE QUERY hot AS SELECT DISTINCT Temp.room FROM Temp WHERE Temp.val > 30\n",
		"Temp,1,29\n", "Temp,2,30\n", "Temp,3,31\n",
	}
	for _, text := range lines {
		replies, err := session.Feed([]byte(text))
		os.Stdout.Write(replies)
		if err != nil {
			return err
		}
	}
	return nil
}

func main() {
	if err := run(); err != nil {
		fmt.Fprintln(os.Stderr, err)
		os.Exit(1)
	}
}
