package main

import "go/types"

// goesAhead reports whether lines may refer to a type that comes later (docs/MANUAL.md, "What a line may refer to").
func goesAhead(t types.Type) bool {
	switch t.(type) {
	case *types.Named, *types.TypeParam, *types.Interface:
		return true
	}
	return false
}

// An order of lines in which each comes behind those that it refers to, unless they may go ahead.
type order struct {
	*closure
	done set
}

func ordered(c *closure) []*line {
	o := order{c, newSet()}
	for _, l := range c.all.list {
		o.put(l)
	}
	return o.done.list
}

// put puts a line behind its parts. Types without a name do not lead back to themselves but by what may go ahead. A named type or an interface may refer
// to whatever comes later: the u of `T named` and the sig of `M` are free.
func (o *order) put(l *line) {
	if o.done.has[l] {
		return
	}
	if !goesAhead(l.typ) {
		o.putParts(l)
	}
	o.done.add(l)
}

func (o *order) putParts(l *line) {
	for _, part := range parts(l.typ, o.entered.has[l]) {
		if !goesAhead(part) {
			o.put(o.of(part))
		}
	}
}
