package main

// #cgo pkg-config: sms
// #include <sms.h>
import "C"

import (
	"encoding/hex"
	"fmt"
	"unsafe"
)

func main() {
	unit, _ := hex.DecodeString("040BC87238880900F10000993092516195800AE8329BFD4697D9EC37")
	octets, count := (*C.uint8_t)(unsafe.Pointer(&unit[0])), C.size_t(len(unit))
	var message C.sms_deliver
	var refused C.sms_refused
	if C.sms_deliver_read(octets, count, &message, &refused) != C.SMS_OK {
		fmt.Printf("at %d: reason %d\n", refused.place, refused.reason)
		return
	}
	var text [C.SMS_TEXT_MAX]byte
	var length C.size_t
	out := (*C.uint8_t)(unsafe.Pointer(&text[0]))
	if C.sms_user_text(octets, count, &message.user, out, C.SMS_TEXT_MAX, &length) == C.SMS_OK {
		fmt.Println(string(text[:length]))
	}
}
