// Counts the packets of a capture that pass a filter: filter FILTER CAPTURE
//
// FILTER is what `tcpdump -ddd` wrote. CAPTURE is a pcap file of little-endian order.
package main

// #cgo pkg-config: bpfrt
// #include <bpfrt.h>
import "C"

import (
	"encoding/binary"
	"errors"
	"fmt"
	"os"
	"unsafe"
)

// A Program was verified. One goroutine uses it at a time.
type Program struct {
	handle C.struct_bpfrt_prog
}

func start(bytes []byte) unsafe.Pointer {
	if len(bytes) == 0 {
		return nil
	}
	return unsafe.Pointer(&bytes[0])
}

// Open makes a program of what tcpdump wrote. Close frees it.
func Open(text []byte) (*Program, error) {
	program, why := new(Program), C.struct_bpfrt_refusal{}
	if C.bpfrt_prog_open_tcpdump(&program.handle, start(text), C.size_t(len(text)), &why) != 0 {
		return nil, fmt.Errorf("refused %d: %s", why.code, C.GoString(&why.words[0]))
	}
	return program, nil
}

func (program *Program) RunPacket(packet []byte, length uint32) (uint64, error) {
	var value C.uint64_t
	status := C.bpfrt_prog_run_packet(&program.handle, start(packet), C.size_t(len(packet)), C.uint32_t(length), &value)
	if status != 0 {
		return 0, fmt.Errorf("the call answers %d", status)
	}
	return uint64(value), nil
}

func (program *Program) Close() {
	C.bpfrt_prog_close(&program.handle)
}

func count(program *Program, capture []byte) (passed, all int, err error) {
	number := binary.LittleEndian.Uint32
	if len(capture) < 24 || number(capture) != 0xa1b2c3d4 && number(capture) != 0xa1b23c4d {
		return 0, 0, errors.New("the capture is no pcap file of little-endian order")
	}
	for rest := capture[24:]; len(rest) > 0; all++ {
		if len(rest) < 16 || uint64(len(rest)-16) < uint64(number(rest[8:])) {
			return 0, 0, errors.New("the capture ends inside a packet")
		}
		end := 16 + int(number(rest[8:]))
		value, err := program.RunPacket(rest[16:end], number(rest[12:]))
		if err != nil {
			return 0, 0, err
		}
		if value != 0 {
			passed++
		}
		rest = rest[end:]
	}
	return passed, all, nil
}

func judge(filter, capture string) error {
	text, err := os.ReadFile(filter)
	if err != nil {
		return err
	}
	program, err := Open(text)
	if err != nil {
		return err
	}
	defer program.Close()
	bytes, err := os.ReadFile(capture)
	if err != nil {
		return err
	}
	passed, all, err := count(program, bytes)
	if err != nil {
		return err
	}
	fmt.Printf("%d of %d packets passed\n", passed, all)
	return nil
}

func main() {
	if len(os.Args) != 3 {
		fmt.Fprintln(os.Stderr, "usage: filter FILTER CAPTURE")
		os.Exit(2)
	}
	if err := judge(os.Args[1], os.Args[2]); err != nil {
		fmt.Fprintln(os.Stderr, "filter:", err)
		os.Exit(1)
	}
}
