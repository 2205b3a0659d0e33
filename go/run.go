package itv

import (
	"errors"
	"fmt"
	"strings"
)

// The statuses of a command.
const (
	good = iota
	refused
	stopped
	noMemory
)

// What [errors.Is] tells of a [StopError].
var (
	// ErrStopped is that a command did not run, or stopped: status 2 or 3 of the program.
	ErrStopped = errors.New("itv: the command did not run, or stopped")
	// ErrNoMemory is that memory was refused: status 3.
	ErrNoMemory = errors.New("itv: memory was refused")
	// ErrFindings is that a strict verification found something in what it would have accepted.
	ErrFindings = errors.New("itv: findings stand against the delivery")
)

// findingsStand is the sentence of the program for ErrFindings.
const findingsStand = "findings stand against the delivery, which would be accepted without --strict"

// StopError is why a command did not run, or stopped.
type StopError struct {
	// Status is 2, or 3 where memory was refused.
	Status int
	// Sentence is what the program says, without "itv: " and the line feed.
	Sentence string
	// Notes are the lines before it. For ErrFindings they say what is found, unless the words ask
	// for --json=2, as those of Verify do.
	Notes []string
	// Output is what was written to standard output before.
	Output []byte
	// Findings are what Verify found, for ErrFindings.
	Findings []Finding
}

func (err *StopError) Error() string {
	return "itv: " + err.Sentence
}

// Is says whether the error is of a kind: ErrStopped, ErrNoMemory or ErrFindings.
func (err *StopError) Is(kind error) bool {
	switch kind {
	case ErrStopped:
		return true
	case ErrNoMemory:
		return err.Status == noMemory
	case ErrFindings:
		return err.Status == stopped && err.Sentence == findingsStand
	}
	return false
}

// Result is what a command gave.
type Result struct {
	// Status is 0 where what was asked holds, and 1 where it does not.
	Status int
	// Output is what the program writes to standard output.
	Output []byte
	// Notes are the lines that it writes to standard error.
	Notes []string
}

// Run runs any command of itv by its words, as its command line has them, over files by their paths:
// names with a slash between them. Paths in words are compared with these byte by byte. A folder is
// what lies below it.
//
// Where the program would end with status 2 or 3, the error is a [*StopError].
func Run(words []string, files map[string][]byte) (*Result, error) {
	given, err := handOver(words, files)
	if err != nil {
		return nil, err
	}
	status, output, notes := given.run()
	lines := linesOf(notes)
	switch status {
	case good, refused:
		return &Result{Status: status, Output: output, Notes: lines}, nil
	case stopped, noMemory:
		return nil, stopOf(status, output, lines)
	}
	return nil, fmt.Errorf("itv: the library returned the status %d", status)
}

// stopOf is the error of notes of which the last line that begins with the program's name, with what
// follows it, says why the command stopped. Without memory there may be no such line.
func stopOf(status int, output []byte, lines []string) *StopError {
	for at := len(lines) - 1; at >= 0; at-- {
		if strings.HasPrefix(lines[at], "itv: ") {
			sentence := strings.TrimPrefix(strings.Join(lines[at:], "\n"), "itv: ")
			return &StopError{Status: status, Sentence: sentence, Notes: lines[:at], Output: output}
		}
	}
	return &StopError{Status: status, Sentence: "no memory", Notes: lines, Output: output}
}

// linesOf is the lines of a text, each of which ends with a line feed.
func linesOf(text []byte) []string {
	if len(text) == 0 {
		return nil
	}
	return strings.Split(strings.TrimSuffix(string(text), "\n"), "\n")
}
