// Command gotable writes the types of Go packages as tables (docs/MANUAL.md), and their selectors and method sets as questions, with the answers of package
// go/types.
package main

import (
	"errors"
	"flag"
	"fmt"
	"os"
)

const usage = `usage: gotable [-o FOLDER] [-every] PACKAGE..

Writes the types of Go packages as tables, and their selectors (S) and method sets (M) as questions, with the answers of go/types.
A PACKAGE is an import path (net/http) or a folder (., ./x). Patterns (./...) are not expanded.

  -o FOLDER  where NAME.1.in, NAME.1.out, NAME.1.names, NAME.2.in, .. are written, NAME being the import path with - for / (default: tables)
  -every     also asks every name on every receiver
`

// The exit statuses.
const (
	statusFailed = 1
	statusUsage  = 2
)

const defaultFolder = "tables"

// options are what the command line says.
type options struct {
	folder   string
	every    bool
	packages []string
}

var errNoPackage = errors.New("no package is named")

func parseOptions(arguments []string) (options, error) {
	var o options
	flags := flag.NewFlagSet("gotable", flag.ContinueOnError)
	flags.Usage = func() {}
	flags.SetOutput(new(nowhere))
	flags.StringVar(&o.folder, "o", defaultFolder, "")
	flags.BoolVar(&o.every, "every", false, "")
	err := flags.Parse(arguments)
	o.packages = flags.Args()
	if err == nil && len(o.packages) == 0 {
		err = errNoPackage
	}
	return o, err
}

// nowhere takes what package flag says: main says it itself, with the usage.
type nowhere struct{}

func (*nowhere) Write(text []byte) (int, error) { return len(text), nil }

func main() {
	o, err := parseOptions(os.Args[1:])
	if err == flag.ErrHelp {
		fmt.Print(usage)
		return
	}
	if err != nil {
		fmt.Fprintf(os.Stderr, "gotable: %v\n%s", err, usage)
		os.Exit(statusUsage)
	}
	if !run(o) {
		os.Exit(statusFailed)
	}
}

// run writes each package that it can, tells the errors of the others, and reports whether there were none.
func run(o options) bool {
	l, err := newLoader()
	if err == nil {
		err = os.MkdirAll(o.folder, 0o777)
	}
	if err != nil {
		return tell(fmt.Errorf("gotable: %w", err))
	}
	written := map[string]bool{}
	all := true
	for _, argument := range o.packages {
		all = one(l, argument, o, written) && all
	}
	return all
}

// one writes one package and prints what it wrote.
func one(l *loader, argument string, o options, written map[string]bool) bool {
	c, err := l.load(argument)
	if err != nil {
		return tell(err)
	}
	if written[fileName(c.Path())] {
		return tell(fmt.Errorf("gotable: %s: files of the name %s are written already", argument, fileName(c.Path())))
	}
	written[fileName(c.Path())] = true
	r, err := writePackage(c, o.folder, o.every)
	if err != nil {
		return tell(fmt.Errorf("gotable: %s: %w", argument, err))
	}
	fmt.Println(r)
	return true
}

func tell(err error) bool {
	fmt.Fprintln(os.Stderr, err)
	return false
}
