package cat

import "office/card"

func newBlock() Block { return Block{} }

func newRoom() *Room { return new(Room) }

// fields selects fields of addressable values and of others.
func fields(r Room, c Covered, b *Book, ring Ring, p Pointer) int {
	names := r.Name + r.Shelf.Name + newRoom().Name
	sum := r.Len + c.Both.Block.Len + c.Both.Log.Len + newBlock().Len + newBlock().place
	sum += b.place + b.Size + ring.Ring.Ring.Size + p.Size
	return sum + len(names) + len(c.Len) + c.Lines
}

// methods calls methods, and takes some as values.
func methods(r Room, b *Book, ring Ring, e Entry, h Hook) error {
	b.Move(len(b.Label()))
	ring.Move(1)
	h.Run()
	show, err := e.Shown()
	if err != nil {
		return err
	}
	show("%s %s\n", e.Label(), e.note)
	closers := []func() error{r.Close, newRoom().Close, b.Close, e.Close, e.Item.Close}
	return closers[0]()
}

// expressions are methods of types.
func expressions(b *Book) string {
	(*Book).Move(b, 3)
	(*Block).Close(&b.Block)
	Closer.Close(b)
	Hook.Run(nil)
	return Book.Label(*b) + (*Book).Label(b)
}

// instances of generic types, and types without a name.
func instances(s card.Stack) int {
	var d card.Drawer[Book]
	d.Put(Book{})
	d.First.Move(2)
	shelf := struct {
		*Shelf
		Drawers []card.Drawer[int]
	}{nil, make([]card.Drawer[int], 1)}
	shelf.Drawers[0].Put(s.Count())
	type local struct{ Both }
	return shelf.Len + d.Count() + s.First.Size + local{}.Block.Len + len(labeled[Book]{}.label())
}

// later selects on another type of the name local.
func later() []string {
	type local struct{ Log }
	return local{}.Lines()
}
