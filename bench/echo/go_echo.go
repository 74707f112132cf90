// An echo server by goroutines, as a peer of the benchmark: go_echo LISTEN.
//
// A plain reader and a plain writer, so that io.Copy moves no bytes in the kernel by splice, as no other server here does.
package main

import (
	"io"
	"log"
	"net"
	"os"
)

type plainReader struct{ io.Reader }
type plainWriter struct{ io.Writer }

func main() {
	listener, err := net.Listen("tcp", os.Args[1])
	if err != nil {
		log.Fatal(err)
	}
	for {
		conn, err := listener.Accept()
		if err != nil {
			log.Fatal(err)
		}
		go func() {
			defer conn.Close()
			io.CopyBuffer(plainWriter{conn}, plainReader{conn}, make([]byte, 4096))
		}()
	}
}
