// A client in Go, by cgo: client 127.0.0.1:7400.
package main

// #cgo pkg-config: krl-client
// #include <krl_client.h>
import "C"

import (
	"fmt"
	"log"
	"os"
	"unsafe"
)

var failed C.krlc_error

// Ends the program after an error. A code up to KRLC_ANSWERS is an answer.
func checked(code C.uint32_t) C.uint32_t {
	if code > C.KRLC_ANSWERS {
		log.Fatal(C.GoString(&failed.sentence[0]))
	}
	return code
}

func bytes(text string) (unsafe.Pointer, C.size_t) {
	bytes := []byte(text)
	return unsafe.Pointer(&bytes[0]), C.size_t(len(bytes))
}

func show(what string, rows *C.krlc_rows) {
	count := C.size_t(0)
	first := C.krlc_rows_get(rows, &count)
	if count == 0 {
		fmt.Printf("%s: no row\n", what)
	}
	for _, row := range unsafe.Slice(first, count) {
		fmt.Printf("%s: %d=%s\n", what, row.key, C.GoBytes(unsafe.Pointer(&row.bytes[0]), C.int(row.length)))
	}
}

func connect(servers string) (client *C.krlc_client, code C.uint32_t) {
	options := C.krlc_options{size: C.sizeof_krlc_options, servers: C.CString(servers)}
	code = C.krlc_join(&options, &client, &failed)
	return
}

func main() {
	client, code := connect(os.Args[1]) // takes the first free number
	checked(code)
	fmt.Println("client", C.krlc_number(client))

	var row C.krlc_row
	if checked(C.krlc_get(client, 15, &row, 0, &failed)) == C.KRLC_ABSENT {
		fmt.Println("get: no row")
	}
	rows := C.krlc_rows_new()
	checked(C.krlc_read(client, 10, 20, rows, 0, &failed)) // asks the server, and keeps the range
	show("read", rows)
	if C.krlc_cached(client, 10, 20, rows) == C.KRLC_OK { // no message
		show("cached", rows)
	}

	value, length := bytes("hello")
	if checked(C.krlc_put(client, 15, value, length, 0, &failed)) == C.KRLC_ABSENT {
		fmt.Println("put: there is no row") // krlc_set inserts it, or replaces its value
	}
	checked(C.krlc_set(client, 15, value, length, 0, &failed))

	var pin *C.krlc_pin
	checked(C.krlc_pin_for_update(client, 10, 20, rows, &pin, 0, &failed)) // nobody else pins it for an update
	show("pinned", rows)
	value, length = bytes("world")
	checked(C.krlc_pin_put(pin, 15, value, length, 0, &failed)) // made while the pin holds, or never
	C.krlc_pin_free(pin)

	checked(C.krlc_read(client, 10, 20, rows, 0, &failed))
	show("now", rows)
	checked(C.krlc_delete(client, 15, 0, &failed))
	count := C.size_t(0)
	now := C.krlc_rows_get(rows, &count)
	for checked(C.krlc_wait_for_change(client, 10, 20, now, count, 1000, &failed)) == C.KRLC_UNCHANGED {
	}
	checked(C.krlc_read(client, 10, 20, rows, 0, &failed))
	show("changed", rows)

	if _, code := connect("127.0.0.1:1"); code > C.KRLC_ANSWERS {
		fmt.Println("error:", C.GoString(&failed.sentence[0]))
	}
	C.krlc_rows_free(rows)
	C.krlc_free(client) // gives everything back
}
