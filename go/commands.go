package itv

import (
	"crypto/sha256"
	"crypto/sha512"
	"encoding/json"
	"errors"
	"fmt"
	"hash"
	"io"
	"io/fs"
	"sort"
	"strings"
	"unicode/utf8"
)

// ErrNoEnvelope is that bytes are no envelope.
var ErrNoEnvelope = errors.New("itv: these bytes are no envelope")

// Checked is what is found in a policy and in a layout.
type Checked struct {
	// Good says that nothing is found, and that what was given reads.
	Good bool
	// Findings are what is found, one a line; of a document that does not read, why it is refused.
	Findings []string
	// Notes are what is wrong with a document that does not read.
	Notes []string
}

// Check says what in a policy or a layout may not do what its author meant. One of them may be nil.
func Check(policy, layout []byte) (*Checked, error) {
	words, files := []string{"check"}, map[string][]byte{}
	words = withFile(words, files, "policy", policy)
	words = withFile(words, files, "layout", layout)
	ran, err := Run(words, files)
	if err != nil {
		return nil, err
	}
	return &Checked{ran.Status == good, linesOf(ran.Output), ran.Notes}, nil
}

// withFile adds the option of a document that is given, and its file.
func withFile(words []string, files map[string][]byte, name string, document []byte) []string {
	if document == nil {
		return words
	}
	files[name] = document
	return append(words, fmt.Sprintf("--%s=%s", name, name))
}

// SignedByRing is the ids of a ring of secrets that signed an envelope, as reports write them, in the
// order of their bytes. Nobody signed bytes that are no envelope.
func SignedByRing(envelope, ring []byte) ([]string, error) {
	return signedBy(envelope, "ring", ring)
}

// SignedByKeys is the same of a file of public keys, as itv key writes it.
func SignedByKeys(envelope, keys []byte) ([]string, error) {
	return signedBy(envelope, "keys", keys)
}

// SignedByIdentities is the same of a file of public keys and identities, where the envelope may be a
// Sigstore bundle that holds it, by a trusted root of Sigstore.
func SignedByIdentities(envelope, keys, trustedRoot []byte) ([]string, error) {
	files := map[string][]byte{"keys": keys, "trusted-root": trustedRoot}
	return signed([]string{"--keys=keys", "--trusted-root=trusted-root"}, envelope, files)
}

func signedBy(envelope []byte, kind string, by []byte) ([]string, error) {
	option := fmt.Sprintf("--%s=%s", kind, kind)
	return signed([]string{option}, envelope, map[string][]byte{kind: by})
}

// signed is the ids that signed an envelope by the files that options name.
func signed(options []string, envelope []byte, files map[string][]byte) ([]string, error) {
	files["envelope"] = envelope
	words := append(append([]string{"signed"}, options...), "--", "envelope")
	ran, err := Run(words, files)
	if err != nil || ran.Status != good {
		return nil, err
	}
	return linesOf(ran.Output), nil
}

// Match says whether a pattern of artifact rules matches a path.
func Match(pattern, path string) (bool, error) {
	ran, err := Run([]string{"match", "--", pattern, path}, nil)
	return err == nil && ran.Status == good, err
}

// Digest is the digest list by SHA-256 of files by their names, in the order of these, as itv digest
// writes it.
func Digest(files map[string][]byte) ([]byte, error) {
	return listOf(files)
}

// Digest512 is the same by SHA-512.
func Digest512(files map[string][]byte) ([]byte, error) {
	return listOf(files, "--sha512")
}

func listOf(files map[string][]byte, options ...string) ([]byte, error) {
	if len(files) == 0 {
		return []byte{}, nil
	}
	names := make([]string, 0, len(files))
	for name := range files {
		names = append(names, name)
	}
	sort.Strings(names)
	words := append(append([]string{"digest"}, options...), "--")
	return outputOf(append(words, names...), files)
}

// DigestFS is the digest list by SHA-256 of files of a file system, in the order in which they are
// named. They are digested here, by crypto/sha256, so that they need no room in memory.
func DigestFS(from fs.FS, names ...string) ([]byte, error) {
	return listFS(sha256.New, from, names)
}

// DigestFS512 is the same by SHA-512, by crypto/sha512.
func DigestFS512(from fs.FS, names ...string) ([]byte, error) {
	return listFS(sha512.New, from, names)
}

func listFS(newHash func() hash.Hash, from fs.FS, names []string) ([]byte, error) {
	list := []byte{}
	for _, name := range names {
		if strings.Contains(name, "\n") || !utf8.ValidString(name) {
			return nil, fmt.Errorf("itv: a digest list cannot hold the name %q", name)
		}
		digest, err := digestOf(newHash(), from, name)
		if err != nil {
			return nil, err
		}
		list = append(list, fmt.Sprintf("%x  %s\n", digest, name)...)
	}
	return list, nil
}

func digestOf(digest hash.Hash, from fs.FS, name string) ([]byte, error) {
	file, err := from.Open(name)
	if err != nil {
		return nil, err
	}
	defer file.Close()
	if _, err := io.Copy(digest, file); err != nil {
		return nil, err
	}
	return digest.Sum(nil), nil
}

// PAE is what is signed for a body of a type: its pre-authentication encoding.
func PAE(body []byte, payloadType string) ([]byte, error) {
	words := []string{"pae", "--type=" + payloadType, "--", "body"}
	return outputOf(words, map[string][]byte{"body": body})
}

// Payload is the payload of an envelope. No signature is looked at. The error is ErrNoEnvelope where
// the bytes are none.
func Payload(envelope []byte) ([]byte, error) {
	ran, err := Run([]string{"payload", "--", "envelope"}, map[string][]byte{"envelope": envelope})
	if err != nil {
		return nil, err
	}
	if ran.Status != good {
		return nil, ErrNoEnvelope
	}
	return ran.Output, nil
}

// Signing is a body that is signed: under a key of Ring, or with a Signature that was made elsewhere
// by a key of Keys.
type Signing struct {
	// Body is what is signed, and Type its type.
	Body []byte
	Type string
	// Key is the id of the key.
	Key string
	// Ring is a ring of secrets.
	Ring []byte
	// Signature is the bytes of a signature of what PAE gives, and Keys a file of public keys.
	Signature, Keys []byte
	// Onto is an envelope of the same body and type, which gets one more signature.
	Onto []byte
}

// Sign is the envelope of a signed body.
func Sign(signing Signing) ([]byte, error) {
	words, files := []string{"sign"}, map[string][]byte{"body": signing.Body}
	words = withFile(words, files, "ring", signing.Ring)
	words = withFile(words, files, "signature", signing.Signature)
	words = withFile(words, files, "keys", signing.Keys)
	words = withFile(words, files, "onto", signing.Onto)
	words = append(words, "--key="+signing.Key, "--type="+signing.Type, "--", "body")
	return outputOf(words, files)
}

// Link is the body of a step's link, from digest lists of its materials and products, each of which
// may be nil.
func Link(name string, materials, products []byte) ([]byte, error) {
	words, files := []string{"link", "--name=" + name}, map[string][]byte{}
	words = withFile(words, files, "materials", materials)
	words = withFile(words, files, "products", products)
	return outputOf(words, files)
}

// Statement is a Statement with provenance for the files of a digest list. The parameters are a JSON
// object, or nil.
func Statement(sums []byte, builder, buildType string, parameters []byte) ([]byte, error) {
	words, files := []string{"statement"}, map[string][]byte{}
	words = withFile(words, files, "parameters", parameters)
	files["sums"] = sums
	words = append(words, "--sums=sums", "--builder="+builder, "--build-type="+buildType)
	return outputOf(words, files)
}

// Key is the public keys of PEM files, as key objects by their ids.
func Key(files ...[]byte) (map[string]json.RawMessage, error) {
	return keysOf(nil, files)
}

// KeyNamed is the public key of a PEM file, as a key object under a given name.
func KeyNamed(name string, file []byte) (map[string]json.RawMessage, error) {
	return keysOf([]string{"--name=" + name}, [][]byte{file})
}

// KeyOfIdentity is the key object of an identity, by which Sigstore bundles are checked, by its id.
func KeyOfIdentity(identity, issuer string) (map[string]json.RawMessage, error) {
	return keysOf([]string{"--identity=" + identity, "--issuer=" + issuer}, nil)
}

func keysOf(options []string, given [][]byte) (map[string]json.RawMessage, error) {
	words, files := append(append([]string{"key"}, options...), "--"), map[string][]byte{}
	for number, file := range given {
		name := fmt.Sprintf("key-%d", number+1)
		files[name] = file
		words = append(words, name)
	}
	output, err := outputOf(words, files)
	if err != nil {
		return nil, err
	}
	var keys map[string]json.RawMessage
	if err := json.Unmarshal(output, &keys); err != nil {
		return nil, fmt.Errorf("itv: the keys are not read: %w", err)
	}
	return keys, nil
}

// outputOf is the output of a command whose answer is its output.
func outputOf(words []string, files map[string][]byte) ([]byte, error) {
	ran, err := Run(words, files)
	if err != nil {
		return nil, err
	}
	return ran.Output, nil
}
