package main

import (
	"go/types"
	"sort"
	"strings"
)

// A table holds the closures of some receivers.
type table struct {
	closure
	cost    cost
	numbers numbers
	inOrder []*line
	first   map[*line]int // the number of each line's first member
	text    string
	count   int // of members
}

// newTable is a table for questions from a package, whose line every table has.
func newTable(ls *lines, path string) *table {
	t := &table{closure: closure{ls, newSet(), newSet()}, cost: *newCost()}
	t.cost.addPath(path)
	return t
}

// with is the cost of the table with a closure more.
func (t *table) with(c *closure) *cost {
	sum := newCost()
	sum.add(&t.cost)
	for _, l := range c.all.list {
		if !t.all.has[l] {
			sum.add(lineCost(l))
		}
	}
	sum.add(t.newMethods(c))
	return sum
}

func (t *table) newMethods(c *closure) *cost {
	sum := newCost()
	for _, l := range c.entered.list {
		if !t.entered.has[l] {
			sum.add(methodsCost(l))
		}
	}
	return sum
}

// take adds a closure if the table has room, and otherwise says which limit it would be beyond.
func (t *table) take(c *closure) reason {
	sum := t.with(c)
	if why := sum.beyond(); why != fits {
		return why
	}
	t.cost = *sum
	t.entered.addAll(c.entered)
	t.all.addAll(c.all)
	return fits
}

// write numbers the lines and writes the text.
func (t *table) write() {
	paths := t.paths()
	t.inOrder = ordered(&t.closure)
	t.numbers = numbers{numberTypes(t.lines, t.inOrder), numberPaths(paths)}
	t.first = map[*line]int{}
	var b strings.Builder
	b.WriteString(head + packageLines(paths))
	for _, l := range t.inOrder {
		entered := t.entered.has[l]
		t.first[l] = t.count
		t.count += len(membersOf(l.typ, entered))
		b.WriteString(t.numbers.head(l.typ, entered) + t.numbers.members(l.typ, entered))
	}
	t.text = b.String()
}

// paths are those of the packages that the table refers to, in order.
func (t *table) paths() []string {
	var all []string
	for path := range t.cost.paths {
		all = append(all, path)
	}
	sort.Strings(all)
	return all
}

func packageLines(paths []string) string {
	var b strings.Builder
	for _, path := range paths {
		b.WriteString(row("P", path))
	}
	return b.String()
}

func numberPaths(paths []string) func(string) int {
	return func(path string) int { return sort.SearchStrings(paths, path) }
}

func numberTypes(ls *lines, inOrder []*line) func(types.Type) int {
	number := map[*line]int{}
	for i, l := range inOrder {
		number[l] = i
	}
	return func(t types.Type) int {
		n, ok := number[ls.of(t)]
		if !ok {
			panic("the table lacks " + t.String())
		}
		return n
	}
}
