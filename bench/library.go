// Times verifications of a delivery by the Go package of itv, and by in-toto-golang, in this process.
//
//	library FOLDER TIMES
//
// FOLDER has the files policy, layout, sums and provenance, and the folder links; bench/library makes
// it. Both verify it TIMES times, by turns, and read it each time. Writes how many processor seconds a
// call of each takes: of itv, and of in-toto-golang, each in its best turn.
package main

import (
	"encoding/json"
	"fmt"
	"io/fs"
	"log"
	"os"
	"path/filepath"
	"runtime"
	"strconv"
	"syscall"
	"time"

	"github.com/in-toto/in-toto-golang/in_toto"
	"hizorafy.example/itv"
)

// turns is how often each gets its turn.
const turns = 5

// ours verifies the delivery by itv.
func ours(folder string) error {
	from, delivery := os.DirFS(folder), itv.Delivery{PublicKeys: true, At: time.Now()}
	for name, to := range map[string]*[]byte{"policy": &delivery.Policy, "layout": &delivery.Layout,
		"sums": &delivery.Sums, "provenance": &delivery.Provenance} {
		content, err := fs.ReadFile(from, name)
		if err != nil {
			return err
		}
		*to = content
	}
	links, err := fs.Sub(from, "links")
	if err != nil {
		return err
	}
	delivery.Links = links
	verdict, err := itv.Verify(delivery)
	if err != nil {
		return err
	}
	if !verdict.Accepted {
		return fmt.Errorf("itv refuses it: %v", verdict.Refusal)
	}
	return nil
}

// theirs verifies the links of the delivery by its layout, and the layout by the keys of the owners in
// the policy: in-toto-golang knows neither digest lists nor provenance.
func theirs(folder string) error {
	content, err := os.ReadFile(filepath.Join(folder, "policy"))
	if err != nil {
		return err
	}
	var policy struct{ Owners map[string]in_toto.Key }
	if err := json.Unmarshal(content, &policy); err != nil {
		return err
	}
	layout, err := in_toto.LoadMetadata(filepath.Join(folder, "layout"))
	if err != nil {
		return err
	}
	_, err = in_toto.InTotoVerify(layout, policy.Owners, filepath.Join(folder, "links"), "",
		map[string]string{}, nil, false)
	return err
}

// spent is how much processor time this process has taken.
func spent() time.Duration {
	var usage syscall.Rusage
	if err := syscall.Getrusage(syscall.RUSAGE_SELF, &usage); err != nil {
		log.Fatal(err)
	}
	return time.Duration(usage.Utime.Nano() + usage.Stime.Nano())
}

// timed is how much processor time a verification takes, with the collection of its garbage.
func timed(verify func(string) error, folder string, times int) time.Duration {
	runtime.GC()
	before := spent()
	for each := 0; each < times; each++ {
		if err := verify(folder); err != nil {
			log.Fatal(err)
		}
	}
	return (spent() - before) / time.Duration(times)
}

func main() {
	times, err := strconv.Atoi(os.Args[2])
	if err != nil {
		log.Fatal(err)
	}
	var best [2]time.Duration
	for turn := 0; turn < turns; turn++ {
		for at, verify := range []func(string) error{ours, theirs} {
			taken := timed(verify, os.Args[1], times)
			if turn == 0 || taken < best[at] {
				best[at] = taken
			}
		}
	}
	fmt.Printf("%.9f %.9f\n", best[0].Seconds(), best[1].Seconds())
}
