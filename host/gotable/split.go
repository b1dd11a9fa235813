package main

import (
	"go/ast"
	"go/types"
	"sort"
)

// A split parts the types of a package into tables that keep the limits.
type split struct {
	*lines
	*registry
	path    string
	tables  []*table
	home    map[*line]*table // of each entered type
	leftOut map[*line]reason // the receivers that no table takes
}

func newSplit(path string) *split {
	ls := newLines()
	return &split{ls, newRegistry(ls), path, nil, map[*line]*table{}, map[*line]reason{}}
}

// put finds a table for a receiver. It is nil if there is none, and the reason then says why.
func (s *split) put(receiver types.Type) (*table, reason) {
	s.register(receiver)
	l := s.lines.of(base(receiver))
	if s.home[l] == nil && s.leftOut[l] == fits {
		s.leftOut[l] = s.place(l)
	}
	return s.home[l], s.leftOut[l]
}

// place puts the closure of a receiver into the last table, or into a new one where that has no room.
func (s *split) place(l *line) reason {
	c, why := closureOf(s.lines, l.typ)
	if why != fits {
		return why
	}
	if last := len(s.tables) - 1; last >= 0 && s.tables[last].take(c) == fits {
		s.settle(c, s.tables[last])
		return fits
	}
	t := newTable(s.lines, s.path)
	if why := t.take(c); why != fits {
		return why
	}
	s.tables = append(s.tables, t)
	s.settle(c, t)
	return fits
}

// settle notes the table of each type that a closure enters.
func (s *split) settle(c *closure, t *table) {
	for _, l := range c.entered.list {
		s.register(l.typ)
		if s.home[l] == nil {
			s.home[l] = t
		}
	}
}

// declared are the types that a package declares outside of functions, by name. An alias declares none.
func declared(pkg *types.Package) []types.Type {
	var all []types.Type
	for _, name := range pkg.Scope().Names() {
		if t, ok := pkg.Scope().Lookup(name).(*types.TypeName); ok && !t.IsAlias() {
			all = append(all, t.Type())
		}
	}
	return all
}

// selectors are those of the source, in its order.
func selectors(info *types.Info) []*ast.SelectorExpr {
	var all []*ast.SelectorExpr
	for s := range info.Selections {
		all = append(all, s)
	}
	sort.Slice(all, func(i, j int) bool { return all[i].Sel.Pos() < all[j].Sel.Pos() })
	return all
}
