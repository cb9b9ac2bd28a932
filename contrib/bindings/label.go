package main

// #cgo pkg-config: s10
// #include <s10.h>
import "C"
import (
	"fmt"
	"os"
	"unsafe"
)

func main() {
	for _, word := range os.Args[1:] {
		text := append([]byte(word), 0) // so that there is a first byte
		var id C.struct_s10_id
		var refusal C.struct_s10_word
		result := C.s10_read_label((*C.uint8_t)(unsafe.Pointer(&text[0])), C.size_t(len(word)), &id)
		C.s10_word(result.code, &refusal)
		if result.code == C.S10_OK {
			fmt.Printf("%s serial %08d\n", C.GoString(&id.text[0]), id.serial)
		} else {
			fmt.Printf("refused %s %d\n", C.GoString(&refusal.text[0]), result.at)
		}
	}
}
