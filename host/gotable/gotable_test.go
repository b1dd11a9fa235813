package main

import (
	"fmt"
	"go/ast"
	"go/parser"
	"go/token"
	"go/types"
	"os"
	"path/filepath"
	"strings"
	"testing"
)

// source is a checked package of one file, of the path x, that imports nothing.
func source(t *testing.T, text string) *checked {
	t.Helper()
	l := &loader{files: token.NewFileSet()}
	file, err := parser.ParseFile(l.files, "x.go", "package x\n"+text, 0)
	if err != nil {
		t.Fatal(err)
	}
	c, err := l.check("x", []*ast.File{file})
	if err != nil {
		t.Fatal(err)
	}
	return c
}

func (c *checked) typeOf(name string) types.Type { return c.Scope().Lookup(name).Type() }

func TestIdenticalTypesHaveOneLine(t *testing.T) {
	for _, pair := range []string{
		"var a []byte; var b []uint8",
		"var a struct{ X rune }; var b struct{ X int32 }",
		"var a func(n int) (err error); var b func(int) error",
		"var a interface{ A(); B() }; var b interface{ B(); A() }",
		"type E interface{ A() }; var a interface{ E; B() }; var b interface{ A(); B() }",
		"var a any; var b interface{}",
		"type G[T any] struct{}; var a G[byte]; var b G[uint8]",
	} {
		c, ls := source(t, pair), newLines()
		if ls.of(c.typeOf("a")) != ls.of(c.typeOf("b")) {
			t.Errorf("two lines: %s", pair)
		}
	}
}

func TestOtherTypesHaveLinesOfTheirOwn(t *testing.T) {
	for _, pair := range []string{
		"var a []int; var b []int32",
		"var a struct{ X int }; var b struct{ X int `x` }",
		"var a func([]int); var b func(...int)",
		"type G[T any] struct{}; var a G[int]; var b G[string]",
	} {
		c, ls := source(t, pair), newLines()
		if ls.of(c.typeOf("a")) == ls.of(c.typeOf("b")) {
			t.Errorf("one line: %s", pair)
		}
	}
}

// written are a package's files, by name and behind one another, and what is said of it.
func written(t *testing.T, c *checked, every bool) (text, said string) {
	t.Helper()
	folder := t.TempDir()
	r, err := writePackage(c, folder, every)
	if err != nil {
		t.Fatal(err)
	}
	files, err := filepath.Glob(filepath.Join(folder, "*"))
	if err != nil {
		t.Fatal(err)
	}
	for _, file := range files {
		bytes, _ := os.ReadFile(file)
		text += string(bytes)
	}
	return strings.ReplaceAll(text, "\t", " "), r.String()
}

func TestATypeThatLeadsBackToItself(t *testing.T) {
	text, said := written(t, source(t, "type Node struct { Next *Node }; func f(n *Node) *Node { return n.Next.Next }"), false)
	due := `typetable 1
P x
T named 2
T pointer 0
T struct
F Next 0 1 0
Q
S 1 1 0 Next
M 0
M 1
type 0: x.Node
type 1: *x.Node
type 2: struct{Next *x.Node}
line 8: x/x.go:2:67: S 1 1 0 Next
entry 0 1 0
set 0
set 0
`
	if text != due {
		t.Error(text)
	}
	if said != "x: tables 1, types 3, members 1, selectors 2, S 1, M 2, every 0, shared 0, left out 0" {
		t.Error(said)
	}
}

// An interface that embeds another has its objects, and members of its own.
func TestAnObjectOfTwoInterfaces(t *testing.T) {
	text, said := written(t, source(t, `
type A interface { Read() }
type B interface { A; Close() }
func f(a A, b B) { a.Read(); b.Read() }`), false)
	for _, due := range []string{"S 0 1 0 Read\n", "entry 0 0 0\n", "S 5 1 0 Read\n", "entry 2 0 1\n", "sel 2 1 1\n"} {
		if !strings.Contains(text, due) {
			t.Errorf("no %q in\n%s", due, text)
		}
	}
	if !strings.Contains(said, " shared 4,") {
		t.Error(said)
	}
}

func TestASelectorOnATypeParameterIsLeftOut(t *testing.T) {
	_, said := written(t, source(t, `
func f[T interface { Read() }](t T, p struct { T T }) { t.Read(); p.T.Read() }`), false)
	if !strings.HasSuffix(said, "selectors 3, S 1, M 2, every 0, shared 0, left out 2 (type parameter 2)") {
		t.Error(said)
	}
}

// A mentioned type stands over an empty struct: nothing of it is written.
func TestAMentionedTypeIsNotEntered(t *testing.T) {
	c := source(t, "type M struct { X, Y, Z int }; func (M) F() {}; type E struct { M M }; var a E")
	e, why := closureOf(newLines(), c.typeOf("a"))
	if why != fits || len(e.entered.list) != 1 || len(e.all.list) != 5 {
		t.Error(why, len(e.entered.list), len(e.all.list))
	}
}

// fieldsOf is a struct with one field of each of so many packages.
func fieldsOf(packages int) types.Type {
	var fields []*types.Var
	for i := 0; i < packages; i++ {
		pkg := types.NewPackage(fmt.Sprintf("p/%d", i), "p")
		fields = append(fields, types.NewField(token.NoPos, pkg, "x", types.Typ[types.Int], false))
	}
	return types.NewStruct(fields, nil)
}

func TestPackagesUpToTheLimit(t *testing.T) {
	for packages, due := range map[int]reason{maxPackages: fits, maxPackages + 1: manyPackages} {
		_, why := newSplit("p/0").put(fieldsOf(packages))
		if why != due {
			t.Errorf("%d packages: %q", packages, why)
		}
	}
}

func TestAPathThatNoTableTakes(t *testing.T) {
	for _, path := range []string{"a b", "ä", "_", strings.Repeat("p", maxPath+1)} {
		if _, why := newSplit(path).put(fieldsOf(1)); why != badPath {
			t.Errorf("%q: %q", path, why)
		}
	}
}

func TestFilesOfAnEarlierRunAreRemoved(t *testing.T) {
	folder := t.TempDir()
	for _, name := range []string{"x.2.in", "x.2.out", "x.3.in", "x.3.out", "x.3.names", "x.4.names", "y.2.in"} {
		if err := os.WriteFile(filepath.Join(folder, name), nil, 0o666); err != nil {
			t.Fatal(err)
		}
	}
	if _, err := writePackage(source(t, "type T int"), folder, false); err != nil {
		t.Fatal(err)
	}
	left, _ := filepath.Glob(filepath.Join(folder, "*"))
	if len(left) != 4 {
		t.Error(left)
	}
}

// Types of one name are told apart by the place of their declaration.
func TestTheNamesOfTypesWithinFunctions(t *testing.T) {
	text, _ := written(t, source(t, `
type G[T any] struct { F *T }
func (g G[T]) f() *T { return g.F }
func f() *int { type L struct { G[int] }; return L{}.F }
func g() *int { type L struct { *G[int] }; var l *G[L]; return l.F.F }`), false)
	for _, due := range []string{
		": x.L at x/x.go:5:22\n", ": x.L at x/x.go:6:22\n", ": *x.L at x/x.go:6:22\n",
		": x.G[x.L] at x/x.go:6:22\n", ": x.G[T] at x/x.go:4:11\n", ": x.G[T any]\n", ": x.G[int]\n",
		": T at x/x.go:3:8 (not entered)\n", ": T at x/x.go:4:11 (not entered)\n", ": x/x.go:4:33: S ", ": x/x.go:6:66: S ",
	} {
		if strings.Count(text, due) != 1 {
			t.Errorf("not once %q in\n%s", due, text)
		}
	}
}

// namedOf is the line of a type T of a package.
func namedOf(path, name string) *line {
	t := types.NewTypeName(token.NoPos, types.NewPackage(path, name), "T", nil)
	return &line{typ: types.NewNamed(t, nothing, nil)}
}

// A package has its name, and its path where another package has that name, or a path that is that name.
func TestTheNamesOfPackages(t *testing.T) {
	inOrder := []*line{namedOf("a/p", "p"), namedOf("b/p", "p"), namedOf("c/q", "q"), namedOf("q", "r"), namedOf("d/s", "s")}
	n := namingOf(inOrder)
	for i, due := range []string{"a/p.T", "b/p.T", "c/q.T", "r.T", "s.T"} {
		if name := types.TypeString(inOrder[i].typ, n.word); name != due {
			t.Errorf("%s, not %s", name, due)
		}
	}
}

// A line comment, such as generators write, does not change a place.
func TestAPlaceIsInTheFileThatWasRead(t *testing.T) {
	text, _ := written(t, source(t, "type S struct { F int }\n//line /else/x.y:90\nvar f = S{}.F"), false)
	if !strings.Contains(text, ": x/x.go:4:13: S 0 0 0 F\n") {
		t.Error(text)
	}
}

func TestTheImportPathOfAFolder(t *testing.T) {
	folder := filepath.Join(t.TempDir(), "a")
	below := filepath.Join(folder, "b", "c")
	if err := os.MkdirAll(below, 0o777); err != nil {
		t.Fatal(err)
	}
	if path := importPath(below); path != "c" {
		t.Error(path)
	}
	module := []byte("// a module\nmodule \"example.org/m\" // its path\n\ngo 1.19\n")
	if err := os.WriteFile(filepath.Join(folder, "go.mod"), module, 0o666); err != nil {
		t.Fatal(err)
	}
	if path := importPath(below); path != "example.org/m/b/c" {
		t.Error(path)
	}
	if path := importPath(folder); path != "example.org/m" {
		t.Error(path)
	}
}
