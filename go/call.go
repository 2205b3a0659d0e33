package itv

// #cgo !itv_shared pkg-config: itv-static
// #cgo itv_shared pkg-config: itv
// #include <itv.h>
import "C"

import (
	"fmt"
	"sort"
	"strings"
	"unsafe"
)

// leastRoom is how many bytes of room each of the texts of a call gets at first. The output gets as
// many more as the files have, which are seldom too few: what is written of a file is in them too.
const leastRoom = 65536

// nothing is where bytes begin of which there are none: C is given no null pointer.
var nothing [1]C.size_t

// handed is a command and its files, as C takes them.
type handed struct {
	words, paths, contents []byte
	sizes                  []C.size_t
}

// handOver lays out the words of a command and its files, in the order of their paths.
func handOver(words []string, files map[string][]byte) (*handed, error) {
	var given handed
	for _, word := range words {
		if err := addEnded(&given.words, word, "word"); err != nil {
			return nil, err
		}
	}
	paths := make([]string, 0, len(files))
	for path := range files {
		paths = append(paths, path)
	}
	sort.Strings(paths)
	for _, path := range paths {
		if err := addEnded(&given.paths, path, "path"); err != nil {
			return nil, err
		}
		given.sizes = append(given.sizes, C.size_t(len(files[path])))
		given.contents = append(given.contents, files[path]...)
	}
	return &given, nil
}

// addEnded adds a text and the zero byte that ends it.
func addEnded(bytes *[]byte, text, what string) error {
	if strings.IndexByte(text, 0) >= 0 {
		return fmt.Errorf("itv: a %s has a zero byte: %q", what, text)
	}
	*bytes = append(append(*bytes, text...), 0)
	return nil
}

// run runs the command, and returns its status, its output and its notes. Where one of these has no
// room, it runs the command again, which gives the same.
func (given *handed) run() (status int, output, notes []byte) {
	output, notes = make([]byte, leastRoom+len(given.contents)), make([]byte, leastRoom)
	for {
		var lengths C.struct_itv_lengths
		status = int(C.itv_run(
			(*C.char)(start(given.words)), C.size_t(len(given.words)),
			(*C.char)(start(given.paths)), C.size_t(len(given.paths)),
			startOfSizes(given.sizes), C.size_t(len(given.sizes)),
			(*C.uint8_t)(start(given.contents)), C.size_t(len(given.contents)),
			(*C.uint8_t)(start(output)), C.size_t(len(output)),
			(*C.uint8_t)(start(notes)), C.size_t(len(notes)),
			&lengths))
		outputs, noted := int(lengths.output), int(lengths.notes)
		if outputs <= len(output) && noted <= len(notes) {
			return status, output[:outputs], notes[:noted]
		}
		output, notes = make([]byte, outputs), make([]byte, noted)
	}
}

// start is where bytes begin.
func start(bytes []byte) unsafe.Pointer {
	if len(bytes) == 0 {
		return unsafe.Pointer(&nothing[0])
	}
	return unsafe.Pointer(&bytes[0])
}

// startOfSizes is where sizes begin.
func startOfSizes(sizes []C.size_t) *C.size_t {
	if len(sizes) == 0 {
		return &nothing[0]
	}
	return &sizes[0]
}

// Version is the name and the version of the library, as in "itv 1.1.0".
func Version() string {
	room := make([]byte, 64)
	length := C.itv_version((*C.char)(start(room)), C.size_t(len(room)))
	return string(room[:length])
}
