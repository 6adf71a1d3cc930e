// Parses a file's expression by Go's parser: peer FILE TIMES. Without TIMES it prints MB/s.
package main

import (
	"fmt"
	"os"
	"strconv"
	"syscall"

	"github.com/hashicorp/hcl/v2"
	"github.com/hashicorp/hcl/v2/hclsyntax"
)

func fail(why error) {
	fmt.Fprintln(os.Stderr, "peer:", why)
	os.Exit(1)
}

func once(source []byte) {
	_, diags := hclsyntax.ParseExpression(source, "input", hcl.InitialPos)
	if diags.HasErrors() {
		fail(diags)
	}
}

// Seconds of the processor that this program has had, its garbage collector in it: what others take of the machine is not.
func spent() float64 {
	var used syscall.Rusage
	if err := syscall.Getrusage(syscall.RUSAGE_SELF, &used); err != nil {
		fail(err)
	}
	return float64(used.Utime.Nano()+used.Stime.Nano()) / 1e9
}

func main() {
	source, err := os.ReadFile(os.Args[1])
	if err != nil {
		fail(err)
	}
	if 2 < len(os.Args) {
		times, err := strconv.Atoi(os.Args[2])
		if err != nil {
			fail(err)
		}
		for ; 0 < times; times-- {
			once(source)
		}
		return
	}
	start, times := spent(), 0
	for ; spent() < start+0.25; times++ {
		once(source)
	}
	fmt.Printf("%.3f\n", float64(len(source)*times)/(spent()-start)/1e6)
}
