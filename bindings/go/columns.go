package bech32proved

import "bech32proved/internal/bech32c"

// Column is rows of texts or of programs, as Apache Arrow lays them out: row i has the bytes from offset i up to offset i + 1.
// The offsets may be any: they are tested. Bit i % 8 of byte i / 8 of the validity, the lowest first, is 0 where row i is null;
// where it is empty, no row is null. Slices are read where they are.
type Column struct {
	Bytes []byte
	// The offsets of Arrow's String and Binary, or, where LargeOffsets is not nil, those of LargeString and LargeBinary.
	Offsets      []int32
	LargeOffsets []int64
	Validity     []byte

	first, left int
}

func (c Column) all() int {
	count := len(c.Offsets)
	if c.LargeOffsets != nil {
		count = len(c.LargeOffsets)
	}
	if count == 0 {
		return 0
	}
	return count - 1
}

// Len is the number of rows.
func (c Column) Len() int { return c.all() - c.first - c.left }

// Slice has the rows from one up to another, which must be there. Goroutines can have some each.
func (c Column) Slice(from, to int) Column {
	if from < 0 || from > to || to > c.Len() {
		panic("bech32proved: there are no such rows of the column")
	}
	c.first, c.left = c.first+from, c.left+c.Len()-to
	return c
}

// Row has the bytes of a row, and whether it is one: it is not null, and lies in the column.
func (c Column) Row(at int) ([]byte, bool) {
	if at < 0 || at >= c.Len() {
		return nil, false
	}
	at += c.first
	if len(c.Validity) > 0 && (at/8 >= len(c.Validity) || c.Validity[at/8]>>(at%8)&1 == 0) {
		return nil, false
	}
	var start, end int64
	if c.LargeOffsets != nil {
		start, end = c.LargeOffsets[at], c.LargeOffsets[at+1]
	} else {
		start, end = int64(c.Offsets[at]), int64(c.Offsets[at+1])
	}
	if start < 0 || end < start || end > int64(len(c.Bytes)) {
		return nil, false
	}
	return c.Bytes[start:end:end], true
}

// ColumnOf has the rows of a list, copied.
func ColumnOf[Row string | []byte](rows []Row) Column {
	made := bech32c.ColumnOf(rows)
	return Column{Bytes: made.Bytes, LargeOffsets: made.Large}
}

// Laid is a column as the library takes it. The packages beside this one call it.
func (c Column) Laid() *bech32c.Column {
	return &bech32c.Column{Bytes: c.Bytes, Offsets: c.Offsets, Large: c.LargeOffsets, Validity: c.Validity, First: c.first,
		Rows: c.Len()}
}

// MadeColumn is what the library made of rows: those with a number are null. The packages beside this one call it.
func MadeColumn(rows *bech32c.Rows) Column {
	validity, _ := bech32c.ValidityOf(rows.Numbers)
	return Column{Bytes: rows.Bytes, LargeOffsets: rows.Offsets, Validity: validity}
}

// CheckColumn tests each row by a checksum, or where it is 0 by Bech32m and Bech32, and returns its number: 0 where it is
// accepted; that of NullRow; of BadNumber, where its offsets do not lie in the column; or that of its refusal.
func CheckColumn(checksum Checksum, texts Column) ([]byte, error) {
	numbers, number := bech32c.CheckMany(uint32(checksum), texts.Laid())
	if number != 0 {
		return nil, &Refused{Number(number), "", -1}
	}
	return numbers, nil
}

// CheckMany tests each text of a list by a checksum, or where it is 0 by Bech32m and Bech32, and returns its refusal, 0 where it
// is accepted. One call of the library tests all.
func CheckMany(checksum Checksum, texts []string) ([]Number, error) {
	found, err := CheckColumn(checksum, ColumnOf(texts))
	if err != nil {
		return nil, err
	}
	numbers := make([]Number, len(found))
	for at, it := range found {
		numbers[at] = Number(it)
	}
	return numbers, nil
}
