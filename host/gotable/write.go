package main

import (
	"fmt"
	"go/types"
	"strings"
)

// row is a line of fields that tabs part.
func row(fields ...any) string {
	var b strings.Builder
	for i, f := range fields {
		if i > 0 {
			b.WriteByte('\t')
		}
		fmt.Fprint(&b, f)
	}
	b.WriteByte('\n')
	return b.String()
}

func bit(b bool) int {
	if b {
		return 1
	}
	return 0
}

// numbers are those of a table's types and packages.
type numbers struct {
	typ  func(types.Type) int
	path func(string) int
}

// widest has as many digits as any number.
var widest = numbers{
	func(types.Type) int { return maxTypes - 1 },
	func(string) int { return maxPackages - 1 },
}

// pkg is a package's number, or `-` for none.
func (n numbers) pkg(p *types.Package) any {
	if p == nil {
		return "-"
	}
	return n.path(p.Path())
}

// head is the T line of a type.
func (n numbers) head(t types.Type, entered bool) string {
	switch t := t.(type) {
	case *types.Basic:
		return row("T", "basic", int(t.Kind()))
	case *types.Array:
		return row("T", "array", arrayLength(t), n.typ(t.Elem()))
	case *types.Slice:
		return row("T", "slice", n.typ(t.Elem()))
	case *types.Pointer:
		return row("T", "pointer", n.typ(t.Elem()))
	case *types.Map:
		return row("T", "map", n.typ(t.Key()), n.typ(t.Elem()))
	case *types.Chan:
		return row("T", "chan", int(t.Dir()), n.typ(t.Elem()))
	case *types.Tuple:
		return n.tuple(t)
	case *types.Signature:
		return row("T", "func", bit(t.Variadic()), n.typ(t.Params()), n.typ(t.Results()))
	case *types.Struct:
		return row("T", "struct")
	case *types.Interface:
		return row("T", "iface")
	case *types.Named, *types.TypeParam:
		return row("T", "named", n.typ(over(t, entered)))
	}
	panic(fmt.Sprintf("no line for %T", t))
}

// arrayLength cuts what a table has no room for: no question here looks at it.
func arrayLength(t *types.Array) int64 {
	if t.Len() > maxArray {
		return maxArray
	}
	return t.Len()
}

func (n numbers) tuple(t *types.Tuple) string {
	fields := []any{"T", "tuple"}
	for i := 0; i < t.Len(); i++ {
		fields = append(fields, n.typ(t.At(i).Type()))
	}
	return row(fields...)
}

// members are the F or M lines under a type's line.
func (n numbers) members(t types.Type, entered bool) string {
	var b strings.Builder
	for i, m := range membersOf(t, entered) {
		if s, ok := t.(*types.Struct); ok {
			b.WriteString(n.field(s.Field(i), s.Tag(i)))
		} else {
			b.WriteString(n.method(m, hasPointerReceiver(t, m)))
		}
	}
	return b.String()
}

// field leaves off a tag that a table has no room for: no question here looks at it.
func (n numbers) field(f *types.Var, tag string) string {
	fields := []any{"F", f.Name(), n.pkg(f.Pkg()), n.typ(f.Type()), bit(f.Embedded())}
	if isTag(tag) {
		fields = append(fields, tag)
	}
	return row(fields...)
}

func (n numbers) method(m types.Object, pointer bool) string {
	return row("M", m.Name(), n.pkg(m.Pkg()), n.typ(m.Type()), bit(pointer))
}

// hasPointerReceiver is false for an interface's method.
func hasPointerReceiver(t types.Type, m types.Object) bool {
	if types.IsInterface(t) {
		return false
	}
	_, ok := m.Type().(*types.Signature).Recv().Type().(*types.Pointer)
	return ok
}
