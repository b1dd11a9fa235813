// Command gotypes answers the questions of type tables (document 01) by Go's own checker, package go/types: S by LookupFieldOrMethod, M by NewMethodSet,
// N by MissingMethod, I by Identical, C by Comparable. It reads a batch of inputs of typeask, each ended by a line `---`, tables that load, and prints the
// answers in document 01's form, each case ended by a line `---`.
package main

import (
	"bufio"
	"fmt"
	"go/token"
	"go/types"
	"os"
	"strconv"
	"strings"
)

// A line of the table that a type stands on, with its members' lines.
type entry struct {
	fields  []string
	members []member
}

type member struct {
	number int
	fields []string
}

type table struct {
	packages []*types.Package
	entries  []entry
	types    []types.Type
	numbers  map[types.Object]int
}

func number(s string) int {
	n, err := strconv.Atoi(s)
	if err != nil {
		panic("not a number: " + s)
	}
	return n
}

// read takes the lines of a table apart. Nothing is checked: the table is one that loads.
func read(lines []string) *table {
	t := &table{numbers: map[types.Object]int{}}
	members := 0
	for _, line := range lines[1:] {
		f := strings.Split(line, "\t")
		switch f[0] {
		case "P":
			t.packages = append(t.packages, types.NewPackage(f[1], "p"))
		case "T":
			t.entries = append(t.entries, entry{fields: f[1:]})
		default:
			last := &t.entries[len(t.entries)-1]
			last.members = append(last.members, member{members, f})
			members++
		}
	}
	return t
}

func (t *table) pkg(s string) *types.Package {
	if s == "-" {
		return nil
	}
	return t.packages[number(s)]
}

func (t *table) ref(s string) types.Type { return t.types[number(s)] }

// basic is the type of a kind number: Byte is Uint8, Rune is Int32.
func basic(k int) types.Type {
	switch k {
	case 26:
		return types.Typ[types.Uint8]
	case 27:
		return types.Typ[types.Int32]
	}
	return types.Typ[k]
}

// build makes the types: names and interfaces first, since other lines may refer to them ahead.
func (t *table) build() {
	t.types = make([]types.Type, len(t.entries))
	for i, e := range t.entries {
		switch e.fields[0] {
		case "named":
			name := types.NewTypeName(token.NoPos, nil, "T"+strconv.Itoa(i), nil)
			t.types[i] = types.NewNamed(name, nil, nil)
		case "iface":
			t.types[i] = new(types.Interface)
		}
	}
	for i, e := range t.entries {
		if t.types[i] == nil {
			t.types[i] = t.plain(e)
		}
	}
	for i, e := range t.entries {
		if iface, ok := t.types[i].(*types.Interface); ok {
			*iface = *types.NewInterfaceType(t.methods(e, nil), nil).Complete()
		}
	}
	for i, e := range t.entries {
		if named, ok := t.types[i].(*types.Named); ok {
			named.SetUnderlying(t.ref(e.fields[1]))
			for _, m := range t.methods(e, named) {
				named.AddMethod(m)
			}
		}
	}
}

func (t *table) plain(e entry) types.Type {
	f := e.fields
	switch f[0] {
	case "basic":
		return basic(number(f[1]))
	case "array":
		n, err := strconv.ParseInt(f[1], 10, 64)
		if err != nil {
			panic(err)
		}
		return types.NewArray(t.ref(f[2]), n)
	case "slice":
		return types.NewSlice(t.ref(f[1]))
	case "pointer":
		return types.NewPointer(t.ref(f[1]))
	case "map":
		return types.NewMap(t.ref(f[1]), t.ref(f[2]))
	case "chan":
		return types.NewChan(types.ChanDir(number(f[1])), t.ref(f[2]))
	case "tuple":
		var vars []*types.Var
		for _, r := range f[1:] {
			vars = append(vars, types.NewVar(token.NoPos, nil, "", t.ref(r)))
		}
		return types.NewTuple(vars...)
	case "func":
		return types.NewSignatureType(nil, nil, nil, t.tuple(f[2]), t.tuple(f[3]), f[1] == "1")
	case "struct":
		return t.strukt(e)
	}
	panic("no such kind: " + f[0])
}

func (t *table) tuple(s string) *types.Tuple {
	tuple, _ := t.ref(s).(*types.Tuple)
	return tuple
}

func (t *table) strukt(e entry) types.Type {
	var fields []*types.Var
	var tags []string
	for _, m := range e.members {
		v := types.NewField(token.NoPos, t.pkg(m.fields[2]), m.fields[1], t.ref(m.fields[3]), m.fields[4] == "1")
		t.numbers[v] = m.number
		fields = append(fields, v)
		tag := ""
		if len(m.fields) > 5 {
			tag = m.fields[5]
		}
		tags = append(tags, tag)
	}
	return types.NewStruct(fields, tags)
}

// methods are the M lines of a type, each with a signature of its own; recv is nil for an interface's.
func (t *table) methods(e entry, recv *types.Named) []*types.Func {
	var all []*types.Func
	for _, m := range e.members {
		pkg := t.pkg(m.fields[2])
		sig := t.ref(m.fields[3]).(*types.Signature)
		var v *types.Var
		if recv != nil {
			var r types.Type = recv
			if m.fields[4] == "1" {
				r = types.NewPointer(recv)
			}
			v = types.NewVar(token.NoPos, pkg, "", r)
		}
		own := types.NewSignatureType(v, nil, nil, sig.Params(), sig.Results(), sig.Variadic())
		fn := types.NewFunc(token.NoPos, pkg, m.fields[1], own)
		t.numbers[fn] = m.number
		all = append(all, fn)
	}
	return all
}

func bit(b bool) string {
	if b {
		return "1"
	}
	return "0"
}

func places(index []int) string {
	s := ""
	for _, i := range index {
		s += "\t" + strconv.Itoa(i)
	}
	return s
}

func yes(b bool) string {
	if b {
		return "yes\n"
	}
	return "no\n"
}

func (t *table) answer(question string) string {
	q := strings.Split(question, "\t")
	switch q[0] {
	case "S":
		obj, index, indirect := types.LookupFieldOrMethod(t.ref(q[1]), q[2] == "1", t.pkg(q[3]), q[4])
		switch {
		case obj != nil:
			return "entry\t" + strconv.Itoa(t.numbers[obj]) + "\t" + bit(indirect) + places(index) + "\n"
		case index != nil:
			return "ambiguous" + places(index) + "\n"
		case indirect:
			return "badreceiver\n"
		}
		return "notfound\n"
	case "M":
		set := types.NewMethodSet(t.ref(q[1]))
		s := "set\t" + strconv.Itoa(set.Len()) + "\n"
		for i := 0; i < set.Len(); i++ {
			sel := set.At(i)
			s += "sel\t" + strconv.Itoa(t.numbers[sel.Obj()]) + "\t" + bit(sel.Indirect()) + places(sel.Index()) + "\n"
		}
		return s
	case "N":
		m, wrong := types.MissingMethod(t.ref(q[1]), t.ref(q[2]).(*types.Interface), q[3] == "1")
		if m == nil {
			return "satisfied\n"
		}
		return "missing\t" + strconv.Itoa(t.numbers[m]) + "\t" + bit(wrong) + "\n"
	case "I":
		return yes(types.Identical(t.ref(q[1]), t.ref(q[2])))
	case "C":
		return yes(types.Comparable(t.ref(q[1])))
	}
	return "-\n"
}

// one answers a question; what go/types cannot take is said.
func (t *table) one(question string) (s string) {
	defer func() {
		if r := recover(); r != nil {
			s = fmt.Sprintf("panic\t%v\n", r)
		}
	}()
	return t.answer(question)
}

func run(lines []string) (s string) {
	defer func() {
		if r := recover(); r != nil {
			s = fmt.Sprintf("panic\t%v\n", r)
		}
	}()
	at := len(lines)
	for i, l := range lines {
		if l == "Q" {
			at = i
			break
		}
	}
	t := read(lines[:at])
	t.build()
	if at == len(lines) {
		return "-\n"
	}
	for _, q := range lines[at+1:] {
		s += t.one(q)
	}
	return s
}

func main() {
	in := bufio.NewScanner(os.Stdin)
	in.Buffer(make([]byte, 1<<20), 1<<20)
	out := bufio.NewWriter(os.Stdout)
	defer out.Flush()
	var lines []string
	for in.Scan() {
		switch line := in.Text(); line {
		case "BATCH":
		case "---":
			out.WriteString(run(lines))
			out.WriteString("---\n")
			lines = nil
		default:
			lines = append(lines, line)
		}
	}
}
