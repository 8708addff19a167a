// The works of this folder in Go: the name and the milliseconds of the best run of many. The name of one work and how
// many runs are the arguments.
package main

import (
	"fmt"
	"os"
	"reflect"
	"strconv"
	"time"
)

func step(x int64) int64 { return (x*37 + 11) % 1000 }

type job struct {
	value int64
	reply chan []int64
}

func load() int64 {
	in, out := make(chan int64, 16), make(chan int64, 16)
	jobs, replies := make(chan job, 8), make(chan chan []int64, 8)
	for w := 0; w < 8; w++ {
		go func() {
			for j := range jobs {
				j.reply <- []int64{step(j.value)}
			}
		}()
	}
	go func() {
		for v := range in {
			reply := make(chan []int64, 1)
			jobs <- job{v, reply}
			replies <- reply
		}
		close(jobs)
		close(replies)
	}()
	go func() {
		for reply := range replies {
			for _, y := range <-reply {
				out <- y
			}
		}
		close(out)
	}()
	go func() {
		for i := int64(0); i < 20000; i++ {
			in <- i
		}
		close(in)
	}()
	var sum int64
	for v := range out {
		sum += v
	}
	return sum
}

func pingpong() int64 {
	a, b := make(chan int64), make(chan int64)
	go func() {
		for x := range a {
			b <- x + 1
		}
		close(b)
	}()
	result := make(chan int64, 1)
	go func() {
		x := int64(0)
		for i := 0; i < 500000; i++ {
			a <- x
			x = <-b
		}
		close(a)
		result <- x
	}()
	return <-result
}

func fan(block int64) chan int64 {
	out := make(chan int64)
	cases := make([]reflect.SelectCase, 250)
	for i := range cases {
		c := make(chan int64)
		id := block*250 + int64(i)
		go func() {
			for j := int64(0); j < 20; j++ {
				c <- id + j
			}
		}()
		cases[i] = reflect.SelectCase{Dir: reflect.SelectRecv, Chan: reflect.ValueOf(c)}
	}
	go func() {
		for n := 0; n < 5000; n++ {
			_, v, _ := reflect.Select(cases)
			out <- v.Int()
		}
	}()
	return out
}

func fanin() int64 {
	f := [4]chan int64{fan(0), fan(1), fan(2), fan(3)}
	var sum int64
	for n := 0; n < 20000; n++ {
		select {
		case v := <-f[0]:
			sum += v
		case v := <-f[1]:
			sum += v
		case v := <-f[2]:
			sum += v
		case v := <-f[3]:
			sum += v
		}
	}
	return sum
}

func buffered() int64 {
	c := make(chan int64, 1024)
	go func() {
		for i := int64(0); i < 1000000; i++ {
			c <- i
		}
		close(c)
	}()
	result := make(chan int64, 1)
	go func() {
		var sum int64
		for x := range c {
			sum += x
		}
		result <- sum
	}()
	return <-result
}

func alts() int64 {
	cases := make([]reflect.SelectCase, 16)
	for i := range cases {
		c := make(chan int64, 4)
		id := int64(i)
		go func() {
			for j := int64(0); j < 6250; j++ {
				c <- id + j
			}
		}()
		cases[i] = reflect.SelectCase{Dir: reflect.SelectRecv, Chan: reflect.ValueOf(c)}
	}
	var sum int64
	for n := 0; n < 100000; n++ {
		_, v, _ := reflect.Select(cases)
		sum += v.Int()
	}
	return sum
}

func timeouts() int64 {
	c := make(chan int64, 16)
	go func() {
		for i := int64(0); i < 100000; i++ {
			c <- i
		}
	}()
	var sum int64
	for n := 0; n < 100000; n++ {
		select {
		case v := <-c:
			sum += v
		case <-time.After(time.Second):
		}
	}
	return sum
}

func compute() int64 {
	out := make(chan int64, 16)
	for k := int64(0); k < 16; k++ {
		go func(k int64) {
			s := k
			for i := int64(0); i < 400000; i++ {
				s = (s*37 + i) % 1000
			}
			out <- s
		}(k)
	}
	var sum int64
	for n := 0; n < 16; n++ {
		sum += <-out
	}
	return sum
}

func main() {
	works := map[string]func() int64{"load": load, "pingpong": pingpong, "fanin": fanin, "buffered": buffered, "alts": alts, "timeouts": timeouts, "compute": compute}
	runs, _ := strconv.Atoi(os.Args[2])
	best := 0.0
	for r := 0; r < runs; r++ {
		start := time.Now()
		works[os.Args[1]]()
		spent := float64(time.Since(start).Nanoseconds()) / 1e6
		if r == 0 || spent < best {
			best = spent
		}
	}
	fmt.Printf("%s %.1f\n", os.Args[1], best)
}
