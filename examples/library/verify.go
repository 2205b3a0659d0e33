// Verifies the delivery of examples/public by the Go package: verify FOLDER, the folder of that
// example. Writes the verdict, and ends with the status.
package main

import (
	"fmt"
	"io/fs"
	"log"
	"os"
	"time"

	"hizorafy.example/itv"
)

// delivery is what lies in the folder.
func delivery(folder fs.FS) (itv.Delivery, error) {
	given := itv.Delivery{PublicKeys: true, At: time.Date(2026, 1, 1, 0, 0, 0, 0, time.UTC)}
	for name, to := range map[string]*[]byte{"policy.json": &given.Policy,
		"layout.envelope.json": &given.Layout, "provenance.jsonl": &given.Provenance} {
		content, err := fs.ReadFile(folder, name)
		if err != nil {
			return given, err
		}
		*to = content
	}
	links, err := fs.Sub(folder, "links")
	if err != nil {
		return given, err
	}
	given.Links = links
	given.Sums, err = itv.DigestFS(folder, "hello.tar")
	return given, err
}

func main() {
	given, err := delivery(os.DirFS(os.Args[1]))
	if err != nil {
		log.Fatal(err)
	}
	verdict, err := itv.Verify(given)
	if err != nil {
		log.Fatal(err)
	}
	for _, note := range verdict.Notes {
		fmt.Fprintln(os.Stderr, note)
	}
	if !verdict.Accepted {
		fmt.Println("refused", verdict.Refusal)
		os.Exit(1)
	}
	fmt.Println("accepted")
}
