package main

import (
	"fmt"
	"go/ast"
	"go/types"
	"os"
	"path/filepath"
	"strings"
)

// A writer writes the tables of one package.
type writer struct {
	*checked
	split  *split
	report *report
	at     map[*table][]*ast.SelectorExpr // the selectors that are asked on a table
}

// writePackage writes the files of a package into a folder.
func writePackage(c *checked, folder string, every bool) (*report, error) {
	r := &report{path: c.Path(), leftOut: tally{}, typesLeftOut: tally{}}
	w := &writer{c, newSplit(c.Path()), r, map[*table][]*ast.SelectorExpr{}}
	w.putDeclared()
	w.putReceivers()
	stem := filepath.Join(folder, fileName(c.Path()))
	for i, t := range w.split.tables {
		a := w.askAll(t, every)
		if err := writeFiles(numbered(stem, i+1), a.head()+a.in.String(), a.out.String(), w.names(a)); err != nil {
			return nil, err
		}
	}
	return r, removeLeft(stem, len(w.split.tables)+1)
}

func (w *writer) putDeclared() {
	for _, t := range declared(w.Package) {
		if home, why := w.split.put(t); home == nil {
			w.report.typesLeftOut[why]++
		}
	}
}

func (w *writer) putReceivers() {
	for _, s := range selectors(w.info) {
		w.report.selectors++
		home, why := w.split.put(w.info.Selections[s].Recv())
		if home == nil {
			w.report.leftOut[why]++
			continue
		}
		w.at[home] = append(w.at[home], s)
	}
}

// askAll writes a table and asks its selectors, the method sets of its receivers, and with every all names on all receivers.
func (w *writer) askAll(t *table, every bool) *asker {
	t.write()
	a := newAsker(t, w.split.registry, w.Package)
	w.askSelectors(a)
	for _, receiver := range a.receivers() {
		a.methodSet(receiver)
	}
	if every {
		w.askEvery(a)
	}
	w.report.tables++
	w.report.types += len(t.all.list)
	w.report.members += t.count
	w.report.methodSets += len(a.receivers())
	w.report.shared += a.shared
	return a
}

func (w *writer) askSelectors(a *asker) {
	for _, s := range w.at[a.table] {
		selection := w.info.Selections[s]
		addressable := selection.Kind() != types.MethodExpr && w.info.Types[s.X].Addressable()
		question := a.selector(selection.Recv(), addressable, s.Sel.Name)
		if a.ask(question, a.selection(selection)) {
			w.report.asked++
			a.note(question, w.place(w.Package, s.Sel.Pos()))
		}
	}
}

func (w *writer) askEvery(a *asker) {
	names := a.names()
	for _, receiver := range a.receivers() {
		w.report.every += a.every(receiver, names)
	}
}

// fileName is an import path as the beginning of a file's name.
func fileName(path string) string { return strings.ReplaceAll(path, "/", "-") }

// numbered are the names of a table's three files.
func numbered(stem string, number int) []string {
	stem = fmt.Sprintf("%s.%d", stem, number)
	return []string{stem + ".in", stem + ".out", stem + ".names"}
}

func writeFiles(names []string, texts ...string) error {
	for i, name := range names {
		if err := os.WriteFile(name, []byte(texts[i]), 0o666); err != nil {
			return err
		}
	}
	return nil
}

// removeLeft removes what an earlier run wrote of a package that had more tables then.
func removeLeft(stem string, from int) error {
	for ; ; from++ {
		some, err := remove(numbered(stem, from))
		if err != nil || !some {
			return err
		}
	}
}

// remove removes files, and reports whether there were some of them.
func remove(names []string) (bool, error) {
	some := false
	for _, name := range names {
		err := os.Remove(name)
		if err != nil && !os.IsNotExist(err) {
			return some, err
		}
		some = some || err == nil
	}
	return some, nil
}
