// Package card has what package cat embeds and selects.
package card

// A Card has a name of its own package, place, that cat.Block has too.
type Card struct {
	Title string `json:"title"`
	Size  int
	place int
}

func (c Card) Label() string { return c.Title }

func (c *Card) Move(to int) { c.place = to }

func (c *Card) moved() bool { return c.place > 0 }

// A Mover has a method that another package cannot select.
type Mover interface {
	Move(to int)
	moved() bool
}

// A Drawer is generic.
type Drawer[T any] struct {
	First T
	count int
}

func (d *Drawer[T]) Put(t T) {
	d.First = t
	d.count++
}

func (d Drawer[T]) Count() int { return d.count }

// A Stack embeds an instance by pointer.
type Stack struct {
	*Drawer[Card]
	Rest []Card
}

// Moved selects on each of them.
func Moved(m Mover, s *Stack) bool {
	m.Move(s.First.place)
	s.Put(s.Rest[0])
	return m.moved() && s.First.moved() && s.Count() == s.count
}
