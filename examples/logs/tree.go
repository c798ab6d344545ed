// Work goes down a tree of goroutines, and each reports to process 0 when it is passive. Process P logs to pP.rows.
package main

import (
	"fmt"
	"os"
)

const last = 7

var mail [last + 1]chan int

func logger(p int) func(string, int) {
	log, _ := os.Create(fmt.Sprintf("p%d.rows", p))
	return func(kind string, channel int) { fmt.Fprintf(log, "%d,%s,%d\n", p, kind, channel) }
}

func process(p int) {
	row := logger(p)
	<-mail[p]
	row("receive", p)
	for child := 2 * p; child <= 2*p+1 && child <= last; child++ {
		row("send", child)
		mail[child] <- p
	}
	row("passive", 0)
	row("tell", p)
	mail[0] <- p
}

func main() {
	// (each with room for all: without room a message is a rendezvous, which orders more than the rows say)
	for p := range mail {
		mail[p] = make(chan int, last)
	}
	for p := 1; p <= last; p++ {
		go process(p)
	}
	row := logger(0)
	row("active", 0)
	row("send", 1)
	mail[1] <- 0
	row("passive", 0)
	for p := 1; p <= last; p++ {
		row("hear", <-mail[0])
	}
	row("over", 0)
}
