package itv

import (
	"bytes"
	"encoding/json"
	"errors"
	"fmt"
	"io/fs"
	"sort"
	"strconv"
	"strings"
	"time"
)

// usualDepth is how deep sublayouts may lie where a delivery does not say, and mostDepth the deepest
// that it can say.
const usualDepth, mostDepth = 4, 8

// Delivery is what is verified, and by what. Policy, Layout and At are needed, Sums or Sums512, and
// Rings, PublicKeys or TrustedRoot.
type Delivery struct {
	// Policy says who owns the layout, what may be delivered, and which provenance it needs.
	Policy []byte
	// Layout is the layout, in its envelope.
	Layout []byte
	// Links has the links, and the folders of sublayouts: a folder (os.DirFS), files that are
	// embedded in the program (embed.FS, with fs.Sub), or files in memory (testing/fstest.MapFS).
	// Without it there are none.
	Links fs.FS
	// Sums is the digest list of the delivered files by SHA-256, as [Digest] makes it.
	Sums []byte
	// Sums512 is the digest list of the delivered files by SHA-512, as [Digest512] makes it. A path
	// that is in both lists has both digests.
	Sums512 []byte
	// At is the moment at which no layout may have expired. Parts of a second are cut off.
	At time.Time
	// Rings are rings of secrets. The first that has an id decides what its key is.
	Rings [][]byte
	// PublicKeys says that signatures are checked by public keys too, after the rings.
	PublicKeys bool
	// TrustedRoot is the trusted root of Sigstore, by which lines of the provenance that are bundles
	// are checked. Without it there is none.
	TrustedRoot []byte
	// Provenance has an envelope on each line, or with TrustedRoot a bundle. Without it there is none.
	Provenance []byte
	// Records has the records of inspections. Without it there are none.
	Records fs.FS
	// Strict refuses what would be accepted, with ErrFindings, where something is found in it.
	Strict bool
	// Depth is how deep sublayouts may lie, from 0 to 8; 4 where it is nil.
	Depth *int
	// MostChecks is how many signatures are checked by public keys at most; 20000 where it is nil.
	MostChecks *uint64
}

// Verdict is whether a delivery is accepted.
type Verdict struct {
	// Accepted says that all holds that was prescribed.
	Accepted bool
	// Refusal is the first thing that does not hold. Of an accepted delivery it is nil.
	Refusal *Refusal
	// Steps are the steps of the layout, of an accepted delivery.
	Steps []Step
	// Files are the paths of the delivered files, of an accepted delivery.
	Files []string
	// Findings are what is found in the policy, the layout and the sublayouts of an accepted
	// delivery.
	Findings []Finding
	// Evidence is what stands behind an accepted delivery. Of a refused one it is nil.
	Evidence *Evidence
	// Notes are sentences for people, which say more about the verdict.
	Notes []string
	// NotesComplete is false where memory was refused for the notes, or more signatures would have
	// had to be checked for them than MostChecks allows. There are none then.
	NotesComplete bool
	// Report is the whole report, as itv verify --json=2 writes it.
	Report json.RawMessage
}

// Finding is something in the policy, in the layout or in a sublayout that may not do what its
// author meant, a file that is tied to no step, a path that one of two digest lists alone names, or
// a nonce with which two keys signed.
type Finding struct {
	// Document is "policy" or "layout", or for a digest list "sums" or "sums512".
	Document string `json:"document"`
	// At is the sublayout in which it lies, from the outermost one; none for the owners' layout.
	At []Place `json:"at"`
	// Name is the name of the finding.
	Name string `json:"name"`
	// Place is a JSON pointer, which is empty for a digest list.
	Place string `json:"place"`
	// Sentence says what is found.
	Sentence string `json:"sentence"`
}

// Step is a step of an accepted delivery, and how many different keys signed for it.
type Step struct {
	Name string `json:"name"`
	Keys int    `json:"keys"`
}

// Refusal is the first thing that does not hold of a delivery, by its number and its name.
type Refusal struct {
	Number int
	Name   string
	// At is the sublayout in which it lies, from the outermost one; none for the owners' layout.
	At []Place
	// Details are the further members of the report: texts, and numbers as uint64.
	Details map[string]any
}

// Place is a sublayout: the step for which it was signed, and the key that signed it.
type Place struct {
	Step string `json:"step"`
	Key  string `json:"key"`
}

// String is the number, the name and the details, in the order of their names.
func (refusal *Refusal) String() string {
	names := make([]string, 0, len(refusal.Details))
	for name := range refusal.Details {
		names = append(names, name)
	}
	sort.Strings(names)
	var text strings.Builder
	fmt.Fprintf(&text, "%d %s", refusal.Number, refusal.Name)
	for _, name := range names {
		fmt.Fprintf(&text, ", %s %v", name, refusal.Details[name])
	}
	return text.String()
}

// Verify says whether the files of digest lists were made as the policy and the layout prescribe.
//
// A refusal is a verdict. The error is a [*StopError] where the command stops, also where a strict
// verification finds something in what would be accepted, which are then its Findings; otherwise it
// says what of the delivery is not set, or which file of Links or Records cannot be read.
func Verify(delivery Delivery) (*Verdict, error) {
	words, files, err := delivery.handOver()
	if err != nil {
		return nil, err
	}
	ran, err := Run(words, files)
	if err != nil {
		return nil, withFindings(err)
	}
	return verdictOf(ran)
}

// withFindings is why a verification stopped, with what it found where that is why.
func withFindings(err error) error {
	var stop *StopError
	if !errors.As(err, &stop) || !stop.Is(ErrFindings) {
		return err
	}
	var report struct {
		Findings []Finding `json:"findings"`
	}
	if err := json.Unmarshal(stop.Output, &report); err != nil {
		return fmt.Errorf("itv: what is found is not read: %w", err)
	}
	stop.Findings = report.Findings
	return stop
}

// handOver is the words that verify the delivery, and its files.
func (delivery *Delivery) handOver() ([]string, map[string][]byte, error) {
	if delivery.At.IsZero() {
		return nil, nil, errors.New("itv: the moment At of the delivery is not set")
	}
	words := []string{"verify", "--json=2", "--policy=policy", "--layout=layout", "--links=links",
		"--at=" + delivery.At.UTC().Format("2006-01-02T15:04:05Z")}
	files := map[string][]byte{"policy": delivery.Policy, "layout": delivery.Layout}
	if delivery.Sums != nil || delivery.Sums512 == nil {
		files["sums"] = delivery.Sums
		words = append(words, "--sums=sums")
	}
	words = withFile(words, files, "sums512", delivery.Sums512)
	for number, ring := range delivery.Rings {
		name := fmt.Sprintf("ring-%d", number+1)
		files[name] = ring
		words = append(words, "--ring="+name)
	}
	if delivery.TrustedRoot != nil {
		files["trusted-root"] = delivery.TrustedRoot
		words = append(words, "--trusted-root=trusted-root")
	}
	if delivery.Provenance != nil {
		files["provenance"] = delivery.Provenance
		words = append(words, "--provenance=provenance")
	}
	if err := addFolder(files, delivery.Links, "links", delivery.depth()); err != nil {
		return nil, nil, fmt.Errorf("itv: the links cannot be read: %w", err)
	}
	if delivery.Records != nil {
		words = append(words, "--records=records")
		if err := addFolder(files, delivery.Records, "records", 0); err != nil {
			return nil, nil, fmt.Errorf("itv: the records cannot be read: %w", err)
		}
	}
	return append(words, delivery.options()...), files, nil
}

// depth is how deep the folders of links are read.
func (delivery *Delivery) depth() int {
	switch {
	case delivery.Depth == nil:
		return usualDepth
	case *delivery.Depth > mostDepth:
		return mostDepth
	}
	return *delivery.Depth
}

// options is the words of what is asked for besides files.
func (delivery *Delivery) options() []string {
	var words []string
	if delivery.PublicKeys {
		words = append(words, "--public-keys")
	}
	if delivery.Strict {
		words = append(words, "--strict")
	}
	if delivery.Depth != nil {
		words = append(words, fmt.Sprintf("--depth=%d", *delivery.Depth))
	}
	if delivery.MostChecks != nil {
		words = append(words, fmt.Sprintf("--most-checks=%d", *delivery.MostChecks))
	}
	return words
}

// verdictOf is the verdict of a report in JSON.
func verdictOf(ran *Result) (*Verdict, error) {
	var report struct {
		Verdict       string    `json:"verdict"`
		Steps         []Step    `json:"steps"`
		Files         []string  `json:"files"`
		Number        int       `json:"number"`
		Name          string    `json:"name"`
		At            []Place   `json:"at"`
		Findings      []Finding `json:"findings"`
		Evidence      *Evidence `json:"evidence"`
		Notes         []string  `json:"notes"`
		NotesComplete bool      `json:"notesComplete"`
	}
	if err := json.Unmarshal(ran.Output, &report); err != nil {
		return nil, fmt.Errorf("itv: the report is not read: %w", err)
	}
	verdict := Verdict{Findings: report.Findings, Evidence: report.Evidence,
		Notes: append(ran.Notes, report.Notes...), NotesComplete: report.NotesComplete,
		Report: ran.Output}
	if report.Verdict == "accepted" {
		verdict.Accepted, verdict.Steps, verdict.Files = true, report.Steps, report.Files
		return &verdict, nil
	}
	details, err := detailsOf(ran.Output)
	if err != nil {
		return nil, err
	}
	verdict.Refusal = &Refusal{report.Number, report.Name, report.At, details}
	return &verdict, nil
}

// detailsOf is the members of the report of a refusal that not every refusal has.
func detailsOf(report []byte) (map[string]any, error) {
	reader, members := json.NewDecoder(bytes.NewReader(report)), map[string]any{}
	reader.UseNumber()
	if err := reader.Decode(&members); err != nil {
		return nil, fmt.Errorf("itv: the report is not read: %w", err)
	}
	for _, name := range []string{"verdict", "number", "name", "at", "notes", "notesComplete"} {
		delete(members, name)
	}
	for name, value := range members {
		number, ok := value.(json.Number)
		if !ok {
			continue
		}
		whole, err := strconv.ParseUint(number.String(), 10, 64)
		if err != nil {
			return nil, fmt.Errorf("itv: the report is not read: %w", err)
		}
		members[name] = whole
	}
	return members, nil
}
