package main

import (
	"fmt"
	"go/types"
	"sort"
	"strings"
)

// An asker asks questions on one table, each once, and answers them by go/types.
type asker struct {
	*table
	*registry
	pkg      *types.Package
	in, out  strings.Builder
	sources  strings.Builder // where the questions of selectors stand, here and in the source
	answered map[string]string
	shared   int // members whose object has several places in the table
}

func newAsker(t *table, r *registry, pkg *types.Package) *asker {
	return &asker{table: t, registry: r, pkg: pkg, answered: map[string]string{}}
}

// ask reports whether the question is new. go/types answers equal questions alike, wherever they stand in the source.
func (a *asker) ask(question, answer string) bool {
	if known, ok := a.answered[question]; ok {
		if known != answer {
			panic(fmt.Sprintf("%q: %q and %q", question, known, answer))
		}
		return false
	}
	a.answered[question] = answer
	a.in.WriteString(question)
	a.out.WriteString(answer)
	return true
}

// selector is the question what a name means on a receiver.
func (a *asker) selector(receiver types.Type, addressable bool, name string) string {
	return row("S", a.numbers.typ(receiver), bit(addressable), a.numbers.pkg(a.pkg), name)
}

// head is what stands above the questions.
func (a *asker) head() string { return a.text + "Q\n" }

// note notes the place in the source of the question that was asked last, with blanks for tabs as the command yifgrun prints it.
func (a *asker) note(question, place string) {
	line := strings.Count(a.head(), "\n") + len(a.answered)
	fmt.Fprintf(&a.sources, "line %d: %s: %s", line, place, strings.ReplaceAll(question, "\t", " "))
}

// selection is what go/types recorded for a selector.
func (a *asker) selection(s *types.Selection) string {
	return a.way("entry", s.Recv(), s.Obj(), s.Index(), s.Indirect())
}

// found is what go/types finds for a name, the checked package being the one that asks.
func (a *asker) found(receiver types.Type, addressable bool, name string) string {
	obj, index, indirect := types.LookupFieldOrMethod(receiver, addressable, a.pkg, name)
	switch {
	case obj != nil:
		return a.way("entry", receiver, obj, index, indirect)
	case index != nil:
		return row(append([]any{"ambiguous"}, indices(index)...)...)
	case indirect:
		return row("badreceiver")
	}
	return row("notfound")
}

func (a *asker) way(word string, receiver types.Type, m types.Object, index []int, indirect bool) string {
	fields := []any{word, a.member(receiver, m, index), bit(indirect)}
	return row(append(fields, indices(index)...)...)
}

func indices(index []int) []any {
	var all []any
	for _, i := range index {
		all = append(all, i)
	}
	return all
}

// member is the number of an object. Only where several types of the table have it, the way decides which of them is meant.
func (a *asker) member(receiver types.Type, m types.Object, index []int) int {
	here := a.here(m)
	if len(here) != 1 {
		a.shared++
		here = only(here, a.end(receiver, index, m))
	}
	if len(here) != 1 {
		panic(fmt.Sprintf("%s on %s has no place in the table", m, receiver))
	}
	return a.first[here[0].line] + here[0].at
}

// here are the places of an object in the table.
func (a *asker) here(m types.Object) []place {
	var all []place
	for _, p := range a.places[m] {
		if p.at < len(membersOf(p.line.typ, a.entered.has[p.line])) && a.all.has[p.line] {
			all = append(all, p)
		}
	}
	return all
}

func only(places []place, one place) []place {
	for _, p := range places {
		if p == one {
			return []place{p}
		}
	}
	return nil
}

// methodSet asks for the method set of a type.
func (a *asker) methodSet(t types.Type) {
	set := types.NewMethodSet(t)
	var b strings.Builder
	b.WriteString(row("set", set.Len()))
	for i := 0; i < set.Len(); i++ {
		s := set.At(i)
		b.WriteString(a.way("sel", t, s.Obj(), s.Index(), s.Indirect()))
	}
	a.ask(row("M", a.numbers.typ(t)), b.String())
}

// receivers are the entered types and the pointers to them.
func (a *asker) receivers() []types.Type {
	var all []types.Type
	for _, l := range a.entered.list {
		all = append(all, l.typ, types.NewPointer(l.typ))
	}
	return all
}

// names are those of all members of entered types, in order.
func (a *asker) names() []string {
	known := map[string]bool{}
	var all []string
	for _, m := range a.enteredMembers() {
		if !known[m.Name()] {
			known[m.Name()] = true
			all = append(all, m.Name())
		}
	}
	sort.Strings(all)
	return all
}

func (a *asker) enteredMembers() []types.Object {
	var all []types.Object
	for _, l := range a.entered.list {
		all = append(all, membersOf(l.typ, true)...)
		all = append(all, membersOf(l.typ.Underlying(), false)...)
	}
	return all
}

// every asks all names on a receiver, and gives the number of new questions.
func (a *asker) every(receiver types.Type, names []string) int {
	count := 0
	for _, name := range names {
		count += a.lookUp(receiver, false, name) + a.lookUp(receiver, true, name)
	}
	return count
}

// lookUp asks a name on a receiver, and gives 1 if the question is new.
func (a *asker) lookUp(receiver types.Type, addressable bool, name string) int {
	return bit(a.ask(a.selector(receiver, addressable, name), a.found(receiver, addressable, name)))
}
