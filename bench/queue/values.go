// The same over a channel of Go's, with the same words and the same line of output.
package main

import (
	"fmt"
	"os"
	"strconv"
	"sync"
	"time"
)

func main() {
	var words [4]uint64
	for index := range words {
		words[index], _ = strconv.ParseUint(os.Args[index+2], 10, 64)
	}
	senders, receivers, capacity, each := words[0], words[1], words[2], words[3]/words[0]
	channel := make(chan uint64, capacity)
	sums := make(chan uint64, receivers)
	var sending sync.WaitGroup
	time.Sleep(100 * time.Millisecond)
	begun := time.Now()
	for range make([]struct{}, senders) {
		sending.Add(1)
		go func() {
			for number := uint64(0); number < each; number++ {
				channel <- number
			}
			sending.Done()
		}()
	}
	for range make([]struct{}, receivers) {
		go func() {
			var sum uint64
			for number := range channel {
				sum += number
			}
			sums <- sum
		}()
	}
	sending.Wait()
	close(channel)
	var sum uint64
	for range make([]struct{}, receivers) {
		sum += <-sums
	}
	fmt.Println(sum, time.Since(begun).Nanoseconds())
}
