package main

import (
	"fmt"
	"go/types"
	"strings"
)

// A line is the T line of a type. Identical types have one line.
type line struct {
	typ     types.Type // the first of them that was met
	cost    *cost      // of the line, once it is known
	methods *cost      // of a named type's methods, once it is known
}

// lines finds the line of a type.
type lines struct {
	known map[types.Type]*line
	alike map[string][]*line // by likeness
}

func newLines() *lines {
	return &lines{map[types.Type]*line{}, map[string][]*line{}}
}

func (ls *lines) of(t types.Type) *line {
	l := ls.known[t]
	if l == nil {
		l = ls.identical(t)
		ls.known[t] = l
	}
	return l
}

// identical is the line of a type that is identical, or a new one.
func (ls *lines) identical(t types.Type) *line {
	key := likeness(t)
	for _, l := range ls.alike[key] {
		if types.Identical(l.typ, t) {
			return l
		}
	}
	l := &line{typ: t}
	ls.alike[key] = append(ls.alike[key], l)
	return l
}

// likeness is a text that identical types share. types.TypeString is none: it has the names of parameters, and byte beside uint8.
func likeness(t types.Type) string {
	switch t := t.(type) {
	case *types.Basic:
		return fmt.Sprint(t.Kind())
	case *types.Named:
		return objectLikeness(t.Obj())
	case *types.TypeParam:
		return "$" + objectLikeness(t.Obj())
	case *types.Array:
		return fmt.Sprint("[", t.Len(), "]", likeness(t.Elem()))
	case *types.Slice:
		return "[]" + likeness(t.Elem())
	case *types.Pointer:
		return "*" + likeness(t.Elem())
	case *types.Map:
		return "map[" + likeness(t.Key()) + "]" + likeness(t.Elem())
	case *types.Chan:
		return fmt.Sprint("chan ", t.Dir(), likeness(t.Elem()))
	case *types.Tuple:
		return tupleLikeness(t)
	case *types.Signature:
		return fmt.Sprint("func ", t.Variadic(), likeness(t.Params()), likeness(t.Results()))
	case *types.Struct:
		return structLikeness(t)
	case *types.Interface:
		return interfaceLikeness(t)
	}
	panic(fmt.Sprintf("no line for %T", t))
}

func objectLikeness(name *types.TypeName) string {
	if name.Pkg() == nil {
		return name.Name()
	}
	return name.Pkg().Path() + "." + name.Name()
}

func tupleLikeness(t *types.Tuple) string {
	var b strings.Builder
	for i := 0; i < t.Len(); i++ {
		b.WriteString(likeness(t.At(i).Type()) + ",")
	}
	return "(" + b.String() + ")"
}

func structLikeness(t *types.Struct) string {
	var b strings.Builder
	for i := 0; i < t.NumFields(); i++ {
		f := t.Field(i)
		fmt.Fprintf(&b, "%s %s %v %q;", f.Id(), likeness(f.Type()), f.Embedded(), t.Tag(i))
	}
	return "struct{" + b.String() + "}"
}

// interfaceLikeness has no types: an interface without a name may lead back to itself by its methods.
func interfaceLikeness(t *types.Interface) string {
	var b strings.Builder
	for i := 0; i < t.NumMethods(); i++ {
		b.WriteString(t.Method(i).Id() + ";")
	}
	return "interface{" + b.String() + "}"
}
