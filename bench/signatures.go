// Verifies vectors of signatures by Go's standard library, each key anew.
//
//	signatures FILE
//
// FILE has a vector a line, as bench/signatures writes them. Writes how many seconds it took to read
// and to verify them all, without the start of the program; fails where a signature is not valid.
package main

import (
	"bufio"
	"crypto"
	"crypto/ecdsa"
	"crypto/ed25519"
	"crypto/rsa"
	"crypto/sha256"
	"crypto/sha512"
	"crypto/x509"
	"encoding/hex"
	"encoding/json"
	"fmt"
	"log"
	"os"
	"time"
)

// A vector is a key and its signature of a message, each in hexadecimal digits.
type vector struct{ Kind, Key, Message, Signature string }

// decoded is the bytes of hexadecimal digits.
func decoded(digits string) []byte {
	bytes, err := hex.DecodeString(digits)
	if err != nil {
		log.Fatal(err)
	}
	return bytes
}

// holds is whether the signature is the key's.
func (v vector) holds() bool {
	key, message, signature := decoded(v.Key), decoded(v.Message), decoded(v.Signature)
	if v.Kind == "ed25519" {
		return ed25519.Verify(key, message, signature)
	}
	read, err := x509.ParsePKIXPublicKey(key)
	if err != nil {
		log.Fatal(err)
	}
	if v.Kind == "p384" {
		digest := sha512.Sum384(message)
		public, isCurve := read.(*ecdsa.PublicKey)
		return isCurve && ecdsa.VerifyASN1(public, digest[:], signature)
	}
	digest := sha256.Sum256(message)
	switch public := read.(type) {
	case *ecdsa.PublicKey:
		return ecdsa.VerifyASN1(public, digest[:], signature)
	case *rsa.PublicKey:
		salt := &rsa.PSSOptions{SaltLength: 32}
		return rsa.VerifyPSS(public, crypto.SHA256, digest[:], signature, salt) == nil
	}
	return false
}

func main() {
	start := time.Now()
	file, err := os.Open(os.Args[1])
	if err != nil {
		log.Fatal(err)
	}
	lines := bufio.NewScanner(file)
	lines.Buffer(nil, 1<<20)
	for lines.Scan() {
		var one vector
		if err := json.Unmarshal(lines.Bytes(), &one); err != nil {
			log.Fatal(err)
		}
		if !one.holds() {
			log.Fatalf("a signature of %s is not valid", one.Kind)
		}
	}
	fmt.Println(time.Since(start).Seconds())
}
