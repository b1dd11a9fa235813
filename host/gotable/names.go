package main

import (
	"fmt"
	"go/token"
	"go/types"
	"path/filepath"
	"strings"
)

// A naming knows which packages a word may mean: a package's name, or its path.
type naming map[string]map[string]bool // the paths of a word

// namingOf takes up the packages that the names of some types have.
func namingOf(inOrder []*line) naming {
	n := naming{}
	for _, l := range inOrder {
		types.TypeString(l.typ, n.note)
	}
	return n
}

// note is a qualifier that takes a package up.
func (n naming) note(p *types.Package) string {
	n.add(p.Name(), p.Path())
	n.add(p.Path(), p.Path())
	return p.Path()
}

func (n naming) add(word, path string) {
	if n[word] == nil {
		n[word] = map[string]bool{}
	}
	n[word][path] = true
}

// word is the qualifier that people read: the package's name, and its path if the name may mean another package too.
func (n naming) word(p *types.Package) string {
	if len(n[p.Name()]) > 1 {
		return p.Path()
	}
	return p.Name()
}

// names is the text that leads from a table back to the source: the type of each number, and the selectors that asked.
func (c *checked) names(a *asker) string {
	n := namingOf(a.inOrder)
	var b strings.Builder
	for i, l := range a.inOrder {
		fmt.Fprintf(&b, "type %d: %s%s%s\n", i, types.TypeString(l.typ, n.word), c.within(l.typ), mark(l.typ, a.entered.has[l]))
	}
	return b.String() + a.sources.String()
}

// mark marks a type that stands over an empty struct, and not over its own.
func mark(t types.Type, entered bool) string {
	switch t.(type) {
	case *types.Named, *types.TypeParam:
		if !entered {
			return " (not entered)"
		}
	}
	return ""
}

// within says where a type, or that which a pointer points to, is declared, if it is within a function or a type parameter: others may have its name. Of an
// instance it says so of the type arguments too.
func (c *checked) within(t types.Type) string {
	var places []string
	for _, name := range declarations(t) {
		if name.Pkg() != nil && name.Parent() != name.Pkg().Scope() {
			places = append(places, c.place(name.Pkg(), name.Pos()))
		}
	}
	if places == nil {
		return ""
	}
	return " at " + strings.Join(places, ", ")
}

// declarations are the names that declare a type and its type arguments. An instance of a generic type has the name of that.
func declarations(t types.Type) []*types.TypeName {
	switch t := base(t).(type) {
	case *types.Named:
		return append([]*types.TypeName{t.Origin().Obj()}, ofArguments(t.TypeArgs())...)
	case *types.TypeParam:
		return []*types.TypeName{t.Obj()}
	}
	return nil
}

func ofArguments(list *types.TypeList) []*types.TypeName {
	var all []*types.TypeName
	for i := 0; i < list.Len(); i++ {
		all = append(all, declarations(list.At(i))...)
	}
	return all
}

// place is a position in a package, which is the same on every machine: import path, name of the file, line and column. Line comments do not change it.
func (c *checked) place(pkg *types.Package, at token.Pos) string {
	p := c.files.PositionFor(at, false)
	return fmt.Sprintf("%s/%s:%d:%d", pkg.Path(), filepath.Base(p.Filename), p.Line, p.Column)
}
