package locktable

import (
	"fmt"
	"strings"
)

// A Timestamp is ordered by Wall and then by Logical.
type Timestamp struct {
	Wall    uint64
	Logical uint32
}

func (ts Timestamp) before(other Timestamp) bool {
	return ts.Wall < other.Wall || ts.Wall == other.Wall && ts.Logical < other.Logical
}

// A kind is that of a call, in the words of a trace.
type kind string

const (
	visit   kind = "visit"
	acquire kind = "acquire"
	update  kind = "update"
	finish  kind = "finish"
	leave   kind = "leave"
)

// A call is one of a transaction. The number of its requests is its own.
type call struct {
	kind          kind
	txn           uint64
	ts            Timestamp
	wait, longest uint32 // of a visit
	writes        bool   // of a visit
}

// pass is under which pass the transaction makes its calls. Transactions share passes, because a wait is found by its ticket.
func (c *call) pass() uint32 { return uint32((c.txn-1)%1024) + 1 }

func (c *call) String() string {
	by := fmt.Sprintf("%d %d.%d", c.txn, c.ts.Wall, c.ts.Logical)
	switch c.kind {
	case visit:
		text := fmt.Sprintf("visit %d.%d %s r", c.txn, c.wait, by)
		if c.writes {
			text = text[:len(text)-1] + "w"
		}
		if c.longest > 0 {
			text += fmt.Sprintf(" max=%d", c.longest)
		}
		return text
	case acquire, update:
		return fmt.Sprintf("%s %s", c.kind, by)
	}
	return fmt.Sprintf("%s %d", c.kind, c.txn)
}

// A Let says that this wait of the transaction is over.
type Let struct {
	Txn  uint64
	Wait uint32
}

// A Step is one of a shard's table.
type Step struct {
	Shard int
	Key   string // of the table: 1 to 64 bytes, each from 0x21 to 0x7E
	Pass  uint32 // 1 to 1024
	Call  string // in the words of a trace, such as "acquire 9 10.0"
	Reply string // such as "taken"
	Lets  []Let  // who is let through, in the order of the rules
}

// String is a line of a trace without the line feed, as `locktrace sort` reads it.
func (s Step) String() string {
	var text strings.Builder
	fmt.Fprintf(&text, "%s %d %s = %s", s.Key, s.Pass, s.Call, s.Reply)
	for i, let := range s.Lets {
		if i == 0 {
			text.WriteString(" let")
		}
		fmt.Fprintf(&text, " %d.%d", let.Txn, let.Wait)
	}
	return text.String()
}
