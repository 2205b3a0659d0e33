package itv

// Evidence is what stands behind a delivery that is accepted.
type Evidence struct {
	// Moment is the moment of the verification.
	Moment string `json:"moment"`
	// Policy and Layout are the SHA-256 of the policy and of the layout's envelope, in hexadecimal
	// digits.
	Policy string `json:"policy"`
	Layout string `json:"layout"`
	// Expires is when the layout expires, as it says.
	Expires string `json:"expires"`
	// Steps are what counted for the steps of the layout, in its order.
	Steps []StepEvidence `json:"steps"`
	// Files are what stood for the delivered files, in the order of the bytes of their paths.
	Files []FileEvidence `json:"files"`
}

// StepEvidence is a step of the layout, and the key ids that counted for it, in the order of their
// bytes.
type StepEvidence struct {
	Name string       `json:"name"`
	Keys []CountedKey `json:"keys"`
}

// CountedKey is a key id that counted for a step, and the names of the files by which it did.
type CountedKey struct {
	KeyID string   `json:"keyid"`
	Files []string `json:"files"`
	// Signatures are, for each of the files, the place of the key's signature among the signatures
	// of its envelope, counted from 1.
	Signatures []uint64 `json:"signatures"`
}

// Signer is an identity that signed.
type Signer struct {
	Identity string `json:"identity"`
	Issuer   string `json:"issuer"`
	// LoggedAt is the time of the log by which a bundle vouches, in seconds since 1970.
	LoggedAt uint64 `json:"loggedAt"`
}

// FileEvidence is a delivered file, and what stood for it.
type FileEvidence struct {
	Path string `json:"path"`
	// Digests are from the name of the algorithm to hexadecimal digits.
	Digests map[string]string `json:"digests"`
	// Line is the line of the provenance, counted from 1, Builder the builder that it names, and
	// Level the level of the builder.
	Line    uint64 `json:"line"`
	Builder string `json:"builder"`
	Level   uint8  `json:"level"`
	// Signer is who signed the line, where a bundle vouches for an identity of the builder, and
	// otherwise nil.
	Signer *Signer `json:"signer"`
}
