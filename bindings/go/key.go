package locktable

import (
	"crypto/rand"
	"crypto/sha256"
	"encoding/hex"
	"fmt"
	"hash/maphash"
)

// longestKey is the most bytes of a key of the table.
const longestKey = 64

// A start is what a table draws where nobody can guess it: it decides in which shard a key is, and how a long key is
// hashed.
type start struct {
	seed   maphash.Seed
	prefix [16]byte
}

func newStart() (start, error) {
	s := start{seed: maphash.MakeSeed()}
	_, err := rand.Read(s.prefix[:])
	return s, err
}

// tableKey is the key of the table for a string of any bytes: the string itself if it is 1 to 64 bytes from 0x21 to 0x7E
// without %; else each other byte as % and two hex digits; % for the empty string; and if that is longer than 64 bytes, its
// front, then %# and 32 hex digits of a hash of all bytes.
func (s *start) tableKey(key string) string {
	if key == "" {
		return "%"
	}
	if name, fits := encode(key, longestKey); fits {
		return name
	}
	front, _ := encode(key, longestKey-34)
	sum := sha256.Sum256(append(s.prefix[:len(s.prefix):len(s.prefix)], key...))
	return front + "%#" + hex.EncodeToString(sum[:16])
}

// encode writes what fits of the key into so many bytes, and tells whether all of it did.
func encode(key string, room int) (string, bool) {
	made := make([]byte, 0, longestKey)
	for i := 0; i < len(key); i++ {
		one := key[i : i+1]
		if one < "!" || one > "~" || one == "%" {
			one = fmt.Sprintf("%%%02X", key[i])
		}
		if len(made)+len(one) > room {
			return string(made), false
		}
		made = append(made, one...)
	}
	return string(made), true
}
