package main

import "go/types"

// A cost is what lines take of a table's limits.
type cost struct {
	types, members, bytes int
	paths                 map[string]bool // of the packages that are referred to
	why                   reason          // why the lines fit no table, if they do not
}

func newCost() *cost { return &cost{paths: map[string]bool{}} }

// add adds what further lines take.
func (c *cost) add(other *cost) {
	c.types += other.types
	c.members += other.members
	c.bytes += other.bytes
	c.fail(other.why)
	for path := range other.paths {
		c.addPath(path)
	}
}

// fail keeps the first reason.
func (c *cost) fail(why reason) {
	if c.why == fits {
		c.why = why
	}
}

// addPath counts a package; the bytes of its line are counted by total.
func (c *cost) addPath(path string) {
	c.paths[path] = true
	if !isPath(path) {
		c.fail(badPath)
	}
}

func (c *cost) addMember(m types.Object) {
	c.members++
	if m.Pkg() != nil {
		c.addPath(m.Pkg().Path())
	}
	if !isName(m.Name()) {
		c.fail(badName)
	}
}

// total is the length of a table of this cost.
func (c *cost) total() int {
	bytes := len(head) + c.bytes
	for path := range c.paths {
		bytes += len(row("P", path))
	}
	return bytes
}

// beyond is the limit that a table of this cost is beyond.
func (c *cost) beyond() reason {
	switch {
	case c.why != fits:
		return c.why
	case c.types > maxTypes:
		return manyTypes
	case c.members > maxMembers:
		return manyMembers
	case len(c.paths) > maxPackages:
		return manyPackages
	case c.total() > maxBytes:
		return manyBytes
	}
	return fits
}

// lineCost is the cost of a type's line and its members, but for the methods of a named type.
func lineCost(l *line) *cost {
	if l.cost == nil {
		l.cost = membersCost(l.typ, false)
		l.cost.types = 1
		l.cost.bytes += len(widest.head(l.typ, false))
	}
	return l.cost
}

// methodsCost is the cost of the methods of an entered named type.
func methodsCost(l *line) *cost {
	if l.methods == nil {
		l.methods = newCost()
		if _, ok := l.typ.(*types.Named); ok {
			l.methods = membersCost(l.typ, true)
		}
	}
	return l.methods
}

// membersCost counts bytes with the widest numbers, so that a table is never longer.
func membersCost(t types.Type, entered bool) *cost {
	c := newCost()
	for _, m := range membersOf(t, entered) {
		c.addMember(m)
	}
	c.bytes = len(widest.members(t, entered))
	if c.members > maxTypeMembers {
		c.fail(manyTypeMembers)
	}
	return c
}
