package main

// The limits of a table text (docs/MANUAL.md, "Limits").
const (
	maxBytes       = 65_536
	maxPackages    = 64
	maxTypes       = 512
	maxMembers     = 2_048
	maxTypeMembers = 255
	maxName        = 64
	maxPath        = 128
	maxTag         = 128
	maxArray       = 4_294_967_295
)

// head is the first line of a table.
const head = "typetable\t1\n"

// A reason says why a type cannot stand in a table.
type reason string

const (
	fits            reason = ""
	isTypeParameter reason = "type parameter"
	badName         reason = "name not ASCII or too long"
	badPath         reason = "path not ASCII or too long"
	manyTypeMembers reason = "too many members of one type"
	manyTypes       reason = "too many types"
	manyMembers     reason = "too many members"
	manyPackages    reason = "too many packages"
	manyBytes       reason = "too many bytes"
)

// reasons are all of them, in the order in which they are told.
var reasons = []reason{isTypeParameter, badName, badPath, manyTypeMembers, manyTypes, manyMembers, manyPackages, manyBytes}

// isPrintable reports whether a text has at least one byte, at most so many, and all of them in ASCII from low on.
func isPrintable(text string, low byte, most int) bool {
	for i := 0; i < len(text); i++ {
		if text[i] < low || text[i] > '~' {
			return false
		}
	}
	return 0 < len(text) && len(text) <= most
}

// isName reports whether a table takes a Go name: Go allows letters outside ASCII, and any length.
func isName(name string) bool { return isPrintable(name, '!', maxName) }

func isPath(path string) bool { return isPrintable(path, '!', maxPath) && path != "_" }

func isTag(tag string) bool { return isPrintable(tag, ' ', maxTag) }
