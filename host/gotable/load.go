package main

import (
	"errors"
	"fmt"
	"go/ast"
	"go/build"
	"go/importer"
	"go/parser"
	"go/scanner"
	"go/token"
	"go/types"
	"os"
	"path"
	"path/filepath"
	"strings"
)

// A checked package is one that go/types has found right.
type checked struct {
	*types.Package
	info  *types.Info
	files *token.FileSet
}

// A loader checks packages from source. One importer serves them all, so that what several import is checked once.
type loader struct {
	files  *token.FileSet
	from   types.Importer
	folder string // where import paths and relative folders are looked for
}

func newLoader() (*loader, error) {
	// Without cgo every file of the standard library is Go.
	build.Default.CgoEnabled = false
	folder, err := os.Getwd()
	files := token.NewFileSet()
	return &loader{files, importer.ForCompiler(files, "source", nil), folder}, err
}

// load finds, parses and checks a package, which is an import path or a folder.
func (l *loader) load(argument string) (*checked, error) {
	found, err := l.find(argument)
	if err != nil {
		return nil, fmt.Errorf("gotable: %s: %w", argument, err)
	}
	files, err := l.parse(found)
	if err != nil {
		return nil, l.failure(found.ImportPath, listed(err))
	}
	return l.check(found.ImportPath, files)
}

func isFolder(argument string) bool {
	return build.IsLocalImport(argument) || filepath.IsAbs(argument)
}

// find asks go/build, which asks the go command for packages of modules. It runs in build.Default.Dir: the module that counts is that of a given folder,
// otherwise that of the working folder.
func (l *loader) find(argument string) (*build.Package, error) {
	if strings.Contains(argument, "...") {
		return nil, fmt.Errorf("patterns are not expanded: name packages, as by $(go list %s)", argument)
	}
	if !isFolder(argument) {
		build.Default.Dir = l.folder
		return build.Import(argument, l.folder, 0)
	}
	folder, err := filepath.Abs(argument)
	if err != nil {
		return nil, err
	}
	build.Default.Dir = folder
	found, err := build.ImportDir(folder, 0)
	if found.ImportPath == "." {
		found.ImportPath = importPath(folder)
	}
	return found, err
}

// importPath is the import path of a folder in a module, and of any other the folder's name.
func importPath(folder string) string {
	at := folder
	for modulePath(at) == "" {
		if at == filepath.Dir(at) {
			return filepath.Base(folder)
		}
		at = filepath.Dir(at)
	}
	below, err := filepath.Rel(at, folder)
	if err != nil {
		return filepath.Base(folder)
	}
	return path.Join(modulePath(at), filepath.ToSlash(below))
}

// modulePath is the path of the module whose go.mod lies in a folder, or "".
func modulePath(folder string) string {
	text, err := os.ReadFile(filepath.Join(folder, "go.mod"))
	if err != nil {
		return ""
	}
	for _, l := range strings.Split(string(text), "\n") {
		fields := strings.Fields(l)
		if len(fields) > 1 && fields[0] == "module" {
			return strings.Trim(fields[1], "\"`")
		}
	}
	return ""
}

// parse parses the files of a package that are neither tests nor for another system.
func (l *loader) parse(found *build.Package) ([]*ast.File, error) {
	var files []*ast.File
	for _, name := range found.GoFiles {
		file, err := parser.ParseFile(l.files, filepath.Join(found.Dir, name), nil, parser.SkipObjectResolution)
		if err != nil {
			return nil, err
		}
		files = append(files, file)
	}
	return files, nil
}

func (l *loader) check(path string, files []*ast.File) (*checked, error) {
	var wrong []error
	config := types.Config{
		Importer: l.from,
		Sizes:    types.SizesFor("gc", build.Default.GOARCH),
		Error:    func(err error) { wrong = append(wrong, err) },
	}
	info := &types.Info{
		Types:      map[ast.Expr]types.TypeAndValue{},
		Selections: map[*ast.SelectorExpr]*types.Selection{},
	}
	pkg, err := config.Check(path, l.files, files, info)
	if len(wrong) > 0 {
		return nil, l.failure(path, wrong)
	}
	return &checked{pkg, info, l.files}, err
}

// listed are the errors of a file that does not parse.
func listed(err error) []error {
	var list scanner.ErrorList
	if !errors.As(err, &list) {
		return []error{err}
	}
	var all []error
	for _, e := range list {
		all = append(all, e)
	}
	return all
}

// maxErrors are told of a package, as many as the go command tells.
const maxErrors = 10

// failure tells what is wrong with a package as the go command does: its path, and a line for each error, with file, line and column.
func (l *loader) failure(path string, wrong []error) error {
	text := "# " + path
	for i, err := range wrong {
		if i == maxErrors {
			return errors.New(text + "\ntoo many errors")
		}
		text += "\n" + l.shortened(err.Error())
	}
	return errors.New(text)
}

// shortened names a file from the working folder.
func (l *loader) shortened(message string) string {
	return strings.TrimPrefix(message, l.folder+string(filepath.Separator))
}
