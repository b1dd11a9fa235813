package main

import (
	"fmt"
	"strings"
)

// A tally counts by reason.
type tally map[reason]int

func (t tally) total() int {
	sum := 0
	for _, n := range t {
		sum += n
	}
	return sum
}

// String is the sum, and what it is made of.
func (t tally) String() string {
	var each []string
	for _, why := range reasons {
		if t[why] > 0 {
			each = append(each, fmt.Sprintf("%s %d", why, t[why]))
		}
	}
	if each == nil {
		return "0"
	}
	return fmt.Sprintf("%d (%s)", t.total(), strings.Join(each, ", "))
}

// A report is what was written of a package.
type report struct {
	path                   string
	tables, types, members int
	selectors, asked       int // in the source, and equal ones of a table once
	methodSets, every      int
	shared                 int // members whose number the way decided, and not the object alone
	leftOut                tally
	typesLeftOut           tally // declared types
}

func (r *report) String() string {
	s := fmt.Sprintf("%s: tables %d, types %d, members %d, selectors %d, S %d, M %d, every %d, shared %d, left out %v",
		r.path, r.tables, r.types, r.members, r.selectors, r.asked, r.methodSets, r.every, r.shared, r.leftOut)
	if len(r.typesLeftOut) > 0 {
		s += fmt.Sprintf(", types left out %v", r.typesLeftOut)
	}
	return s
}
