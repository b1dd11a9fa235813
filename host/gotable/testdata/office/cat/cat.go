// Package cat shows what a selector can mean: run gotable on it.
package cat

import "office/card"

// A Block closes by a pointer alone.
type Block struct {
	Len   int
	place int
}

func (b *Block) Close() error { return nil }

// A Log has a Len too.
type Log struct{ Len int }

func (l Log) Lines() []string { return make([]string, l.Len) }

// A Shelf embeds a pointer: Len, place and Close are promoted.
type Shelf struct {
	*Block
	Name string
}

// A Room embeds a shelf, and its own Name covers the shelf's.
type Room struct {
	Shelf
	Name string
}

// A Both has Len twice, equally deep.
type Both struct {
	Block
	Log
}

// A Twice has the Len of one type on two ways.
type Twice struct {
	Shelf
	Desk struct{ Drawer int }
	Case
}

type Case struct{ *Block }

// A Covered has Len once more above the two, and a field that covers a method.
type Covered struct {
	Both
	Len   string
	Lines int
}

// A Book embeds another package's type: Card's place is not seen from here.
type Book struct {
	card.Card
	Block
}

// A Ring comes back to itself.
type Ring struct {
	*Ring
	Book
}

// A Closer, and interfaces that embed it and each other.
type Closer interface{ Close() error }

type Labeler interface{ Label() string }

type Item interface {
	Closer
	Labeler
	card.Mover
	Shown() (func(format string, values ...any), error)
}

// An Entry embeds an interface.
type Entry struct {
	Item
	note string
}

// A Pointer is a name of a pointer type: fields are found, methods are not.
type Pointer *Book

// A Hook is a func with a method.
type Hook func(*Room, map[string][]Both) (chan<- Hook, <-chan [4]int)

func (h Hook) Run() { h(nil, nil) }

type labeled[L Labeler] struct{ one L }

// label selects on a type parameter, which gotable leaves out.
func (l labeled[L]) label() string { return l.one.Label() }
