package main

import "go/types"

// membersOf are the fields or methods under the line of a type. A named type that is not entered has none.
func membersOf(t types.Type, entered bool) []types.Object {
	switch t := t.(type) {
	case *types.Struct:
		return objects(t.NumFields(), func(i int) types.Object { return t.Field(i) })
	case *types.Interface:
		return objects(t.NumMethods(), func(i int) types.Object { return t.Method(i) })
	case *types.Named:
		if entered {
			return objects(t.NumMethods(), func(i int) types.Object { return t.Method(i) })
		}
	}
	return nil
}

func objects(count int, at func(int) types.Object) []types.Object {
	all := make([]types.Object, count)
	for i := range all {
		all[i] = at(i)
	}
	return all
}

// A place is where a member stands: under a line, as the at-th of its members.
type place struct {
	line *line
	at   int
}

// A registry knows the places of an object. Identical types have objects of their own, which share a place. An interface has the objects of those that it
// embeds, and instances of a generic type share some: these have several places.
type registry struct {
	*lines
	places map[types.Object][]place
	seen   map[types.Type]bool
}

func newRegistry(ls *lines) *registry {
	return &registry{ls, map[types.Object][]place{}, map[types.Type]bool{}}
}

// register takes up the members that a receiver leads to.
func (r *registry) register(t types.Type) {
	t = base(t)
	if r.seen[t] {
		return
	}
	r.seen[t] = true
	r.registerMembers(t)
	switch u := t.Underlying().(type) {
	case *types.Pointer:
		r.register(u)
	case *types.Struct:
		r.registerMembers(u)
		r.registerEmbedded(u)
	case *types.Interface:
		r.registerMembers(u)
	}
}

func (r *registry) registerEmbedded(s *types.Struct) {
	for i := 0; i < s.NumFields(); i++ {
		if s.Field(i).Embedded() {
			r.register(s.Field(i).Type())
		}
	}
}

func (r *registry) registerMembers(t types.Type) {
	for i, m := range membersOf(t, true) {
		r.add(m, place{r.of(t), i})
	}
}

func (r *registry) add(m types.Object, at place) {
	for _, p := range r.places[m] {
		if p == at {
			return
		}
	}
	r.places[m] = append(r.places[m], at)
}

// end is the place that a way leads to. It is asked where an object has several places.
func (r *registry) end(receiver types.Type, index []int, m types.Object) place {
	t := pointee(receiver)
	last := len(index) - 1
	for _, i := range index[:last] {
		t = pointee(t.Underlying().(*types.Struct).Field(i).Type())
	}
	_, isMethod := m.(*types.Func)
	if isMethod && !types.IsInterface(t) {
		return place{r.of(t), index[last]}
	}
	return place{r.of(t.Underlying()), index[last]}
}

// pointee is the type that a pointer, or a name of a pointer type, points to.
func pointee(t types.Type) types.Type {
	if p, ok := t.Underlying().(*types.Pointer); ok {
		return p.Elem()
	}
	return t
}
