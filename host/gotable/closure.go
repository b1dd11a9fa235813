package main

import "go/types"

// A set of lines keeps the order in which they were added.
type set struct {
	list []*line
	has  map[*line]bool
}

func newSet() set { return set{has: map[*line]bool{}} }

// add reports whether the line is new.
func (s *set) add(l *line) bool {
	if s.has[l] {
		return false
	}
	s.has[l] = true
	s.list = append(s.list, l)
	return true
}

func (s *set) addAll(other set) {
	for _, l := range other.list {
		s.add(l)
	}
}

// A closure is what stands in a table for a receiver. S and M look at the entered types alone: the receiver, and again and again what an entered struct
// embeds. The other lines are of types that these mention.
type closure struct {
	*lines
	entered set
	all     set
}

// closureOf is the closure of a receiver, or why there is none.
func closureOf(ls *lines, receiver types.Type) (*closure, reason) {
	c := &closure{ls, newSet(), newSet()}
	if why := c.enter(receiver); why != fits {
		return nil, why
	}
	for _, l := range c.entered.list {
		c.mention(l.typ)
		c.mention(types.NewPointer(l.typ))
	}
	return c, fits
}

// base is the type that a pointer points to, and any other type itself.
func base(t types.Type) types.Type {
	if p, ok := t.(*types.Pointer); ok {
		return p.Elem()
	}
	return t
}

// enter enters what a receiver or an embedded field leads to. A closure with more types than a table has is not gone through to its end.
func (c *closure) enter(t types.Type) reason {
	t = base(t)
	if _, ok := t.(*types.TypeParam); ok {
		return isTypeParameter
	}
	l := c.of(t)
	if !c.entered.add(l) {
		return fits
	}
	if len(c.entered.list) > maxTypes {
		return manyTypes
	}
	switch u := t.Underlying().(type) {
	case *types.Pointer: // t is a name of a pointer type
		return c.enter(u)
	case *types.Struct:
		return c.enterEmbedded(u)
	}
	return fits
}

func (c *closure) enterEmbedded(s *types.Struct) reason {
	for i := 0; i < s.NumFields(); i++ {
		if !s.Field(i).Embedded() {
			continue
		}
		if why := c.enter(s.Field(i).Type()); why != fits {
			return why
		}
	}
	return fits
}

// mention adds the line of a type, and of all that it refers to.
func (c *closure) mention(t types.Type) {
	l := c.of(t)
	if !c.all.add(l) {
		return
	}
	for _, part := range parts(l.typ, c.entered.has[l]) {
		c.mention(part)
	}
}

// nothing is the struct that a named type stands over where it is mentioned and not entered.
var nothing = types.NewStruct(nil, nil)

// parts are the types that the line of a type, and those of its members, refer to.
func parts(t types.Type, entered bool) []types.Type {
	switch t := t.(type) {
	case *types.Array:
		return []types.Type{t.Elem()}
	case *types.Slice:
		return []types.Type{t.Elem()}
	case *types.Pointer:
		return []types.Type{t.Elem()}
	case *types.Map:
		return []types.Type{t.Key(), t.Elem()}
	case *types.Chan:
		return []types.Type{t.Elem()}
	case *types.Tuple:
		return tupleTypes(t)
	case *types.Signature:
		return []types.Type{t.Params(), t.Results()}
	case *types.Named, *types.TypeParam:
		return append(memberTypes(t, entered), over(t, entered))
	}
	return memberTypes(t, entered)
}

// over is the u of a `T named`.
func over(t types.Type, entered bool) types.Type {
	if entered {
		return t.Underlying()
	}
	return nothing
}

func tupleTypes(t *types.Tuple) []types.Type {
	var all []types.Type
	for i := 0; i < t.Len(); i++ {
		all = append(all, t.At(i).Type())
	}
	return all
}

func memberTypes(t types.Type, entered bool) []types.Type {
	var all []types.Type
	for _, m := range membersOf(t, entered) {
		all = append(all, m.Type())
	}
	return all
}
