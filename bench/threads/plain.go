// What `p9sync threads` is measured beside: the same messages, the same check of their order and the
// same line, over a channel of Go's with 16 places. It ends with status 1 where the check failed.
//
// usage: go-channel go WRITERS WRITES SIZE
package main

import (
	"bytes"
	"encoding/binary"
	"fmt"
	"os"
	"strconv"
	"sync"
)

const (
	limit = 16
	head  = 16
)

func fill(message []byte, writer, number uint64) {
	binary.BigEndian.PutUint64(message, writer)
	binary.BigEndian.PutUint64(message[8:], number)
	rest := message[head:]
	if len(rest) == 0 {
		return
	}
	rest[0] = byte(number)
	for done := 1; done < len(rest); done *= 2 {
		copy(rest[done:], rest[:done])
	}
}

// What was read, and whether each piece was whole and the next of its writer.
type tally struct {
	writes, bytes uint64
	inOrder       bool
	next          []uint64
	message       []byte
}

func (t *tally) isNext(piece []byte) bool {
	if len(piece) != len(t.message) {
		return false
	}
	writer := binary.BigEndian.Uint64(piece)
	if writer >= uint64(len(t.next)) {
		return false
	}
	fill(t.message, writer, t.next[writer])
	t.next[writer]++
	return bytes.Equal(t.message, piece)
}

func (t *tally) count(piece []byte) {
	t.inOrder = t.inOrder && t.isNext(piece)
	t.writes++
	t.bytes += uint64(len(piece))
}

func write(to chan<- []byte, writer, writes uint64, size int) {
	message := make([]byte, size)
	for number := uint64(0); number < writes; number++ {
		fill(message, writer, number)
		block := make([]byte, size)
		copy(block, message)
		to <- block
	}
}

func number(at int) uint64 {
	found, err := strconv.ParseUint(os.Args[at], 10, 64)
	if err != nil {
		panic(err)
	}
	return found
}

func main() {
	writers, writes, size := number(2), number(3), int(number(4))
	channel := make(chan []byte, limit)
	var all sync.WaitGroup
	for writer := uint64(0); writer < writers; writer++ {
		all.Add(1)
		go func(writer uint64) {
			defer all.Done()
			write(channel, writer, writes, size)
		}(writer)
	}
	go func() {
		all.Wait()
		close(channel)
	}()
	read := tally{inOrder: true, next: make([]uint64, writers), message: make([]byte, size)}
	for piece := range channel {
		read.count(piece)
	}
	order := "in order"
	if !read.inOrder {
		order = "out of order"
	}
	fmt.Printf("writers %d writes %d bytes %d %s\n", writers, read.writes, read.bytes, order)
	if !read.inOrder {
		os.Exit(1)
	}
}
