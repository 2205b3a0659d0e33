package itv_test

import (
	"encoding/json"
	"errors"
	"os"
	"path/filepath"
	"reflect"
	"strings"
	"sync"
	"syscall"
	"testing"
	"testing/fstest"
	"time"

	"hizorafy.example/itv"
)

// empty is SHA-256 of no bytes (FIPS 180-4).
const empty = "e3b0c44298fc1c149afbf4c8996fb92427ae41e4649b934ca495991b7852b855"

// empty512 is SHA-512 of no bytes (FIPS 180-4).
const empty512 = "cf83e1357eefb8bdf1542850d66d8007d620e4050b5715dc83f4a921d36ce9ce" +
	"47d0d13c5d85f2b0ff8318d2877eec2f63b931bd47417a81a538327af927da3e"

// pem and rawKey are the public key of RFC 8410, section 10.1.
const pem = `-----BEGIN PUBLIC KEY-----
MCowBQYDK2VwAyEAGb9ECWmEzf6FQbrBZ9w7lshQhqowtrbLDFw4rXAxZuE=
-----END PUBLIC KEY-----
`
const rawKey = "19bf44096984cdfe8541bac167dc3b96c85086aa30b6b6cb0c5c38ad703166e1"

// refusalOf is the refusal of a delivery, which must be refused.
func refusalOf(t *testing.T, delivery itv.Delivery) *itv.Refusal {
	t.Helper()
	verdict, err := itv.Verify(delivery)
	if err != nil {
		t.Fatal(err)
	}
	if verdict.Accepted || verdict.Refusal == nil {
		t.Fatalf("this is accepted: %s", verdict.Report)
	}
	return verdict.Refusal
}

// is fails where something is not what is wanted.
func is(t *testing.T, given, wanted any) {
	t.Helper()
	if !reflect.DeepEqual(given, wanted) {
		t.Fatalf("%#v, and not %#v", given, wanted)
	}
}

// sentenceOf is the sentence of an error that says why a command stopped with status 2.
func sentenceOf(t *testing.T, err error) string {
	t.Helper()
	var stop *itv.StopError
	if !errors.As(err, &stop) || stop.Status != 2 {
		t.Fatalf("this does not stop a command: %v", err)
	}
	return stop.Sentence
}

func TestVerdicts(t *testing.T) {
	accepted := must(itv.Verify(public()))
	is(t, accepted.Accepted, true)
	is(t, accepted.Refusal, (*itv.Refusal)(nil))
	is(t, accepted.Notes, []string(nil))
	is(t, accepted.NotesComplete, true)
	is(t, len(accepted.Findings), 0)
	is(t, accepted.Evidence.Expires, "2030-01-01T00:00:00Z")
	is(t, accepted.Evidence.Steps, []itv.StepEvidence{
		{Name: "build", Keys: []itv.CountedKey{{KeyID: "alice", Files: []string{"build.alice.link"}, Signatures: []uint64{1}}}},
		{Name: "pack", Keys: []itv.CountedKey{{KeyID: "carol", Files: []string{"pack.carol.link"}, Signatures: []uint64{1}}}},
	})
	is(t, len(accepted.Evidence.Files), 1)
	is(t, accepted.Evidence.Files[0].Line, uint64(1))
	is(t, accepted.Evidence.Files[0].Builder, "https://ci.example/pack")
	is(t, accepted.Evidence.Files[0].Level, uint8(2))
	is(t, strings.HasPrefix(string(accepted.Report), `{"verdict":"accepted",`), true)

	late := public()
	late.At = time.Date(2126, 1, 1, 0, 0, 0, 0, time.UTC)
	is(t, refusalOf(t, late).Name, "Expired")
	is(t, refusalOf(t, late).Number, 30)

	zone := public()
	zone.At = zone.At.In(time.FixedZone("east", 7200)).Add(time.Second / 2)
	is(t, must(itv.Verify(zone)).Accepted, true)

	shallow, none := public(), 0
	shallow.Depth = &none
	refusal := refusalOf(t, shallow)
	is(t, refusal.Name, "TooDeep")
	is(t, refusal.At, []itv.Place{{Step: "pack", Key: "carol"}})
}

func TestLists(t *testing.T) {
	folder := os.DirFS("../examples/public")
	both := public()
	both.Sums512 = must(itv.DigestFS512(folder, "hello.tar"))
	evidence := must(itv.Verify(both)).Evidence
	is(t, len(evidence.Files[0].Digests["sha256"]), 64)
	is(t, evidence.Files[0].Digests["sha512"]+"  hello.tar\n", string(both.Sums512))

	// The links of the example have SHA-256 alone.
	alone := both
	alone.Sums = nil
	is(t, refusalOf(t, alone).Name, "RuleFailed")
	alone.Sums512 = []byte{}
	is(t, refusalOf(t, alone).Name, "NoFiles")
	alone.Sums512 = nil
	is(t, refusalOf(t, alone).Name, "NoFiles")
	both.Sums512 = both.Sums
	is(t, refusalOf(t, both).Details, map[string]any{"list": "sha512", "line": uint64(1)})
}

func TestFolders(t *testing.T) {
	delivery, folder := public(), t.TempDir()
	delivery.Links = os.DirFS(folder)
	is(t, refusalOf(t, delivery).Details,
		map[string]any{"step": "build", "found": uint64(0), "needed": uint64(1)})
	delivery.Links = nil
	is(t, refusalOf(t, delivery).Name, "Threshold")

	// A folder of links with a link to itself, a pipe, and a symbolic link to the true links.
	links := must(filepath.Abs("../examples/public/links"))
	for _, name := range []string{"build.alice.link", "pack.carol.link", "pack.carol"} {
		must(0, os.Symlink(filepath.Join(links, name), filepath.Join(folder, name)))
	}
	must(0, os.Symlink(folder, filepath.Join(folder, "loop.x")))
	must(0, syscall.Mkfifo(filepath.Join(folder, "pipe.link"), 0o600))
	delivery.Links = os.DirFS(folder)
	is(t, must(itv.Verify(delivery)).Accepted, true)
	must(0, os.Symlink("nowhere", filepath.Join(folder, "gone.link")))
	if _, err := itv.Verify(delivery); !errors.Is(err, os.ErrNotExist) {
		t.Fatal(err)
	}
}

func TestMisuse(t *testing.T) {
	delivery := public()
	delivery.At = time.Time{}
	if _, err := itv.Verify(delivery); err == nil || errors.Is(err, itv.ErrStopped) {
		t.Fatal(err)
	}
	delivery = public()
	delivery.PublicKeys = false
	_, err := itv.Verify(delivery)
	is(t, strings.Contains(sentenceOf(t, err), "--ring"), true)

	pae := func(path string, files ...string) error {
		given := map[string][]byte{}
		for _, file := range files {
			given[file] = nil
		}
		_, err := itv.Run([]string{"pae", "--type=t", path}, given)
		return err
	}
	is(t, sentenceOf(t, pae("gone", "body")), "cannot read gone: No such file or directory")
	is(t, sentenceOf(t, pae("a", "a", "a/b")),
		"cannot read a: it is a file, and another lies below it")
	is(t, sentenceOf(t, pae("a", "a//b")), "cannot read a//b: a part of this path is empty")
	is(t, sentenceOf(t, pae("\xff")), "word 3 after the program's name is not UTF-8")
	if err := pae("a\x00b"); err == nil || errors.Is(err, itv.ErrStopped) {
		t.Fatal(err)
	}
}

// untied is the delivery of examples/public with a policy that ties its file to no step.
func untied(t *testing.T) itv.Delivery {
	t.Helper()
	delivery := public()
	var policy map[string]any
	must(0, json.Unmarshal(delivery.Policy, &policy))
	policy["deliver"] = [][]string{{"ALLOW", "hello.tar"}, {"DISALLOW", "*"}}
	delivery.Policy = must(json.Marshal(policy))
	return delivery
}

func TestStrict(t *testing.T) {
	delivery := untied(t)
	is(t, must(itv.Verify(delivery)).Accepted, true)
	delivery.Strict = true
	_, err := itv.Verify(delivery)
	is(t, errors.Is(err, itv.ErrFindings) && errors.Is(err, itv.ErrStopped), true)
	var stop *itv.StopError
	is(t, errors.As(err, &stop), true)
	is(t, stop.Findings, []itv.Finding{{Document: "policy", At: []itv.Place{}, Name: "untied-file",
		Place: "/deliver", Sentence: `no MATCH rule WITH PRODUCTS FROM a step takes "hello.tar"`}})
	is(t, len(stop.Notes), 0)
	tied := public()
	tied.Strict = true
	is(t, must(itv.Verify(tied)).Accepted, true)
}

func TestCommands(t *testing.T) {
	var listed struct{ Version string }
	must(0, json.Unmarshal(must(os.ReadFile("../docs/commands.json")), &listed))
	is(t, itv.Version(), "itv "+listed.Version)

	is(t, string(must(itv.PAE([]byte("hello"), "text/plain"))), "DSSEv1 10 text/plain 5 hello")
	one := must(itv.Digest(map[string][]byte{"a": nil}))
	is(t, string(one), empty+"  a\n")
	is(t, must(itv.DigestFS(fstest.MapFS{"a": {}}, "a")), one)
	longer := must(itv.Digest512(map[string][]byte{"a": nil}))
	is(t, string(longer), empty512+"  a\n")
	is(t, must(itv.DigestFS512(fstest.MapFS{"a": {}}, "a")), longer)
	if _, err := itv.DigestFS(fstest.MapFS{"a\nb": {}}, "a\nb"); err == nil {
		t.Fatal("a name with a line feed is listed")
	}

	ring := []byte(`[{"id": "k", "secret": "00"}]`)
	other := []byte(`[{"id": "k", "secret": "01"}, {"id": "l", "secret": "02"}]`)
	envelope := must(itv.Sign(itv.Signing{Body: []byte("{}"), Type: "t", Key: "k", Ring: ring}))
	is(t, must(itv.SignedByRing(envelope, other)), []string(nil))
	twice := must(itv.Sign(itv.Signing{
		Body: []byte("{}"), Type: "t", Key: "l", Ring: other, Onto: envelope}))
	is(t, must(itv.SignedByRing(twice, ring)), []string{"k"})
	is(t, must(itv.SignedByRing(twice, other)), []string{"l"})
	if _, err := itv.Payload([]byte("nothing")); err != itv.ErrNoEnvelope {
		t.Fatal(err)
	}

	var link struct{ Materials, Products map[string]map[string]string }
	must(0, json.Unmarshal(must(itv.Link("build", nil, one)), &link))
	is(t, link.Products, map[string]map[string]string{"a": {"sha256": empty}})
	var statement struct{ Subject []struct{ Name string } }
	must(0, json.Unmarshal(must(itv.Statement(one, "b", "t", nil)), &statement))
	is(t, statement.Subject, []struct{ Name string }{{"a"}})

	is(t, len(must(itv.Key([]byte(pem)))), 1)
	keys := must(itv.KeyNamed("alice", []byte(pem)))
	is(t, strings.Contains(string(keys["alice"]), `"public":"`+rawKey+`"`), true)
	is(t, must(itv.SignedByKeys(envelope, must(json.Marshal(keys)))), []string(nil))
	const sigstore = "../examples/sigstore/"
	bundle := must(os.ReadFile(sigstore + "provenance.jsonl"))
	root := must(os.ReadFile(sigstore + "trusted_root.json"))
	tag := "https://github.com/acme/hello/.github/workflows/release.yml@refs/tags/v1.0"
	for id, object := range must(itv.KeyOfIdentity(tag, "https://token.actions.githubusercontent.com")) {
		release := must(json.Marshal(map[string]json.RawMessage{"release": object, id: object}))
		is(t, must(itv.SignedByIdentities(bundle, release, root)), []string{id, "release"})
		is(t, must(itv.SignedByKeys(bundle, release)), []string(nil))
	}
	_, err := itv.Key(must(os.ReadFile("../examples/public/keys/alice.pem")))
	is(t, strings.Contains(sentenceOf(t, err), "it is a private key"), true)
	const anna = `{"keytype":"sigstore-oidc","keyval":{"identity":"i","issuer":"s"},"scheme":"Fulcio"}`
	for _, object := range must(itv.KeyOfIdentity("i", "s")) {
		is(t, string(object), anna)
	}
	_, err = itv.KeyOfIdentity("", "s")
	is(t, strings.Contains(sentenceOf(t, err), "the value of '--identity <I>' is empty"), true)

	is(t, must(itv.Check(public().Policy, public().Layout)).Good, true)
	bad := must(itv.Check([]byte(`{"owners":{"a":null}}`), nil))
	is(t, bad.Good, false)
	is(t, len(bad.Findings) > 0, true)
}

// TestRoom asks for more output than there is room for at first.
func TestRoom(t *testing.T) {
	body := make([]byte, 200_000)
	encoded := must(itv.PAE(body, "t"))
	is(t, string(encoded), "DSSEv1 1 t 200000 "+string(body))
}

// TestAtOnce verifies deliveries in eight threads, each of which must get what it does alone.
func TestAtOnce(t *testing.T) {
	times := 1000
	if testing.Short() {
		times = 20
	}
	late, changed, loose := public(), public(), untied(t)
	late.At = time.Date(2126, 1, 1, 0, 0, 0, 0, time.UTC)
	changed.Sums = []byte(empty + "  hello.tar\n")
	loose.Strict = true
	cases := []struct {
		delivery itv.Delivery
		wanted   string
	}{{public(), "accepted"}, {late, "Expired"}, {changed, "RuleFailed"}, {loose, "findings"}}
	var all sync.WaitGroup
	for thread := 0; thread < 8; thread++ {
		thread := thread
		all.Add(1)
		go func() {
			defer all.Done()
			for time := 0; time < times; time++ {
				one := cases[(thread+time)%len(cases)]
				if given := answerOf(one.delivery); given != one.wanted {
					t.Errorf("%s, and not %s", given, one.wanted)
					return
				}
			}
		}()
	}
	all.Wait()
}

// answerOf is one word for what came of a delivery.
func answerOf(delivery itv.Delivery) string {
	verdict, err := itv.Verify(delivery)
	switch {
	case errors.Is(err, itv.ErrFindings):
		return "findings"
	case err != nil:
		return err.Error()
	case verdict.Accepted:
		return "accepted"
	}
	return verdict.Refusal.Name
}
