package itv_test

import (
	"errors"
	"fmt"
	"io/fs"
	"log"
	"os"
	"testing/fstest"
	"time"

	"hizorafy.example/itv"
)

// must is a value, where there is no error.
func must[T any](value T, err error) T {
	if err != nil {
		log.Fatal(err)
	}
	return value
}

// public is the delivery of examples/public, in a folder.
func public() itv.Delivery {
	folder := os.DirFS("../examples/public")
	return itv.Delivery{
		Policy:     must(fs.ReadFile(folder, "policy.json")),
		Layout:     must(fs.ReadFile(folder, "layout.envelope.json")),
		Links:      must(fs.Sub(folder, "links")),
		Provenance: must(fs.ReadFile(folder, "provenance.jsonl")),
		Sums:       must(itv.DigestFS(folder, "hello.tar")),
		PublicKeys: true,
		At:         time.Date(2026, 1, 1, 0, 0, 0, 0, time.UTC),
	}
}

func ExampleVerify() {
	verdict, err := itv.Verify(public())
	if err != nil {
		log.Fatal(err)
	}
	fmt.Println(verdict.Accepted, verdict.Steps, verdict.Files)
	// Output: true [{build 1} {pack 1}] [hello.tar]
}

// A refusal is a verdict, and no error.
func ExampleVerify_refused() {
	delivery := public()
	delivery.Sums = must(itv.Digest(map[string][]byte{"hello.tar": []byte("something else")}))
	verdict, err := itv.Verify(delivery)
	if err != nil {
		log.Fatal(err)
	}
	fmt.Println(verdict.Accepted, verdict.Refusal)
	// Output: false 40 RuleFailed, item deliver, path hello.tar, rule 1, side products
}

// Links may be files in memory.
func ExampleVerify_inMemory() {
	folder, delivery := os.DirFS("../examples/public/links"), public()
	delivery.Links = fstest.MapFS{
		"build.alice.link":         {Data: must(fs.ReadFile(folder, "build.alice.link"))},
		"pack.carol.link":          {Data: must(fs.ReadFile(folder, "pack.carol.link"))},
		"pack.carol/tar.dave.link": {Data: must(fs.ReadFile(folder, "pack.carol/tar.dave.link"))},
	}
	fmt.Println(must(itv.Verify(delivery)).Accepted)
	delivery.Links = fstest.MapFS{}
	fmt.Println(must(itv.Verify(delivery)).Refusal)
	// Output:
	// true
	// 33 Threshold, found 0, needed 1, step build
}

// A command that does not run is an error.
func ExampleStopError() {
	delivery := public()
	delivery.PublicKeys = false
	_, err := itv.Verify(delivery)
	fmt.Println(errors.Is(err, itv.ErrStopped), errors.Is(err, itv.ErrNoMemory))
	// Output: true false
}

// Every command can be run by its words.
func ExampleRun() {
	words := []string{"pae", "body", "--type", "text/plain"}
	ran := must(itv.Run(words, map[string][]byte{"body": []byte("hello")}))
	fmt.Printf("%d %s\n", ran.Status, ran.Output)
	// Output: 0 DSSEv1 10 text/plain 5 hello
}

func ExampleDigest() {
	fmt.Printf("%s", must(itv.Digest(map[string][]byte{"empty": nil})))
	// Output: e3b0c44298fc1c149afbf4c8996fb92427ae41e4649b934ca495991b7852b855  empty
}

func ExampleMatch() {
	fmt.Println(must(itv.Match("dist/*", "dist/app.tar")), must(itv.Match("dist/*", "src/app.tar")))
	// Output: true false
}

func ExampleSign() {
	ring := []byte(`[{"id": "alice", "secret": "00"}]`)
	envelope := must(itv.Sign(itv.Signing{
		Body: []byte("{}"), Type: "application/vnd.in-toto+json", Key: "alice", Ring: ring,
	}))
	fmt.Println(must(itv.SignedByRing(envelope, ring)))
	fmt.Printf("%s\n", must(itv.Payload(envelope)))
	// Output:
	// [alice]
	// {}
}
