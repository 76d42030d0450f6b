// Answers a script from standard input, as `ocpp_board replay` does: go run ledger.go < first.script
package main

// #cgo pkg-config: ocpp_ledger
// #include <ocpp_ledger.h>
import "C"
import (
	"io"
	"os"
)

func answer(script []byte) []byte {
	text, used, work := make([]byte, 64*len(script)+4096), C.size_t(0), C.uint64_t(0)
	for {
		status := C.ocpp_ledger_answer((*C.uint8_t)(&append(script, 0)[0]), C.size_t(len(script)),
			(*C.uint8_t)(&text[0]), C.size_t(len(text)), &used, &work)
		if status == C.OCPP_LEDGER_OK {
			return text[:used]
		} else if status != C.OCPP_LEDGER_TOO_SMALL {
			panic(status)
		}
		text = make([]byte, used)
	}
}

func main() {
	script, _ := io.ReadAll(os.Stdin)
	os.Stdout.Write(answer(script))
}
