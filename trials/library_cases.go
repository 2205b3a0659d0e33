// Runs commands and verifies deliveries by the Go package of itv, as conformance/run --go asks.
//
// Each line of standard input is a request in JSON: words and files by their paths, or a delivery,
// whose folders are files by their paths. Bytes are in base64. The answer is a line of JSON: of a
// command the status, the output and the notes, of a delivery the verdict.
package main

import (
	"encoding/json"
	"errors"
	"io"
	"io/fs"
	"log"
	"os"
	"testing/fstest"

	"hizorafy.example/itv"
)

// request is a command, or a delivery.
type request struct {
	Words    []string
	Files    map[string][]byte
	Delivery *delivery
}

// delivery is a delivery with its folders as files by their paths.
type delivery struct {
	itv.Delivery
	Links, Records map[string][]byte
}

// folder is a folder of files by their paths, or nil where none is given.
func folder(files map[string][]byte) fs.FS {
	if files == nil {
		return nil
	}
	made := fstest.MapFS{}
	for path, content := range files {
		made[path] = &fstest.MapFile{Data: content}
	}
	return made
}

// ran is what a command gives, with the sentence of one that stops behind its notes.
func ran(words []string, files map[string][]byte) (*itv.Result, error) {
	result, err := itv.Run(words, files)
	var stop *itv.StopError
	if errors.As(err, &stop) {
		notes := append(stop.Notes, stop.Error())
		return &itv.Result{Status: stop.Status, Output: stop.Output, Notes: notes}, nil
	}
	return result, err
}

// answered is the answer to a request.
func answered(asked request) (any, error) {
	if asked.Delivery == nil {
		return ran(asked.Words, asked.Files)
	}
	given := asked.Delivery.Delivery
	given.Links, given.Records = folder(asked.Delivery.Links), folder(asked.Delivery.Records)
	return itv.Verify(given)
}

func main() {
	reader, writer := json.NewDecoder(os.Stdin), json.NewEncoder(os.Stdout)
	for {
		var asked request
		err := reader.Decode(&asked)
		if errors.Is(err, io.EOF) {
			return
		}
		if err != nil {
			log.Fatal(err)
		}
		answer, err := answered(asked)
		if err != nil {
			log.Fatal(err)
		}
		if err := writer.Encode(answer); err != nil {
			log.Fatal(err)
		}
	}
}
