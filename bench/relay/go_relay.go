// A relay by Go's io.Copy, as a peer of the benchmark: go_relay LISTEN TARGET copy|splice IDLE.
//
// Between two TCP connections io.Copy moves bytes in the kernel by splice. With the word copy each side is wrapped, so that
// io.Copy sees a plain reader and a plain writer, and copies through its buffer. IDLE is the idle time in seconds, or 0 for none;
// the wrapped sides renew their deadlines by it at each call.
package main

import (
	"io"
	"log"
	"net"
	"os"
	"strconv"
	"time"
)

// The idle time, or 0.
var idle time.Duration

type plainReader struct{ conn *net.TCPConn }
type plainWriter struct{ conn *net.TCPConn }

func (side plainReader) Read(into []byte) (int, error) {
	if idle > 0 {
		side.conn.SetReadDeadline(time.Now().Add(idle))
	}
	return side.conn.Read(into)
}

func (side plainWriter) Write(data []byte) (int, error) {
	if idle > 0 {
		side.conn.SetWriteDeadline(time.Now().Add(idle))
	}
	return side.conn.Write(data)
}

func forward(to, from *net.TCPConn, splices bool, ended chan<- bool) {
	var err error
	if splices {
		_, err = io.Copy(to, from)
	} else {
		_, err = io.Copy(plainWriter{to}, plainReader{from})
	}
	if err == nil {
		err = to.CloseWrite()
	}
	if err != nil {
		to.Close()
		from.Close()
	}
	ended <- true
}

func relay(client *net.TCPConn, target string, splices bool) {
	defer client.Close()
	conn, err := net.Dial("tcp", target)
	if err != nil {
		return
	}
	server := conn.(*net.TCPConn)
	defer server.Close()
	ended := make(chan bool, 2)
	go forward(server, client, splices, ended)
	go forward(client, server, splices, ended)
	<-ended
	<-ended
}

func main() {
	seconds, err := strconv.Atoi(os.Args[4])
	if err != nil {
		log.Fatal(err)
	}
	idle = time.Duration(seconds) * time.Second
	listener, err := net.Listen("tcp", os.Args[1])
	if err != nil {
		log.Fatal(err)
	}
	for {
		conn, err := listener.Accept()
		if err != nil {
			log.Fatal(err)
		}
		go relay(conn.(*net.TCPConn), os.Args[2], os.Args[3] == "splice")
	}
}
