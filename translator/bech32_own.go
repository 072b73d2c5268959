// What the calls on columns need beside those that tools/make.d/native_calls writes.

// A Column has rows as Arrow has them. Its offsets may be any: the library tests them.
type Column struct {
	Bytes []byte
	// Where each row begins, and the last one ends: one of the two, or neither where rows have one width.
	Offsets32 []int32
	Offsets64 []int64
	// Bit i%8 of byte i/8 is 0 where row i is null. If there is no byte, no row is null.
	Validity []byte
	Rows     uint64
	Width    uint64
	// The number of the layout in bech32.h.
	Layout uint32
}

// A columnPart is some rows of a column, with no more of its buffers than they need. The first row is at a multiple of
// eight, as is the first bit of a byte of the validity.
type columnPart struct {
	bytes    []byte
	offsets  []uint64
	validity []byte
	rows     uint64
	width    uint64
	layout   uint64
}

// partOf is the rows from one on, if the column has them.
func partOf(column *Column, from, count uint64) (columnPart, bool) {
	if from > column.Rows || count > column.Rows-from {
		return columnPart{}, false
	}
	base, rows := from-from%8, from%8+count
	part := columnPart{rows: rows, layout: 2}
	part.validity = behind(column.Validity, base/8, rows/8+1)
	if len(column.Validity) > 0 && len(part.validity) == 0 {
		// No bit of these rows is there, as none is in a column without offsets.
		return part, true
	}
	switch column.Layout {
	case 1:
		part.cut(column, uint64(len(column.Offsets32)), base, func(i uint64) int64 { return int64(column.Offsets32[i]) })
	case 2:
		part.cut(column, uint64(len(column.Offsets64)), base, func(i uint64) int64 { return column.Offsets64[i] })
	case 3, 4:
		part.width, part.layout = column.Width, uint64(column.Layout)
		high, start := bits.Mul64(base, part.width)
		over, size := bits.Mul64(rows, part.width)
		if high == 0 {
			part.bytes = behind(column.Bytes, start, size|-uint64(number(over > 0)))
		}
	}
	return part, true
}

// behind is the end of bytes, at most so many, and none where it begins beyond theirs.
func behind(bytes []byte, at, most uint64) []byte {
	if at > uint64(len(bytes)) {
		return nil
	}
	bytes = bytes[at:]
	if most < uint64(len(bytes)) {
		bytes = bytes[:most]
	}
	return bytes
}

// cut takes the offsets of the rows, and the bytes from the first that a row has up to the last.
func (part *columnPart) cut(column *Column, count, base uint64, offset func(uint64) int64) {
	for i := base; i < count && i <= base+part.rows; i++ {
		part.offsets = append(part.offsets, uint64(offset(i)))
	}
	low, high := int64(len(column.Bytes)), int64(0)
	for i := 1; i < len(part.offsets); i++ {
		start, end := int64(part.offsets[i-1]), int64(part.offsets[i])
		if start < 0 || start > end || end > int64(len(column.Bytes)) {
			continue
		}
		if start < low {
			low = start
		}
		if end > high {
			high = end
		}
	}
	if low > high {
		low = high
	}
	part.bytes = column.Bytes[low:high]
	part.shift(low)
}

// shift subtracts from each offset what is left out. One below those of the bytes that are there becomes negative: no
// row begins or ends there.
func (part *columnPart) shift(low int64) {
	for i, it := range part.offsets {
		if int64(it) < low {
			part.offsets[i] = ^uint64(0)
		} else {
			part.offsets[i] = it - uint64(low)
		}
	}
}

const columnHead = 80

func (part *columnPart) size() int {
	return columnHead + 8*len(part.offsets) + len(part.validity) + len(part.bytes)
}

// put puts it into the memory of a call, as the library has a column.
func (part *columnPart) put(m []byte, at uint64) {
	offsetsAt := at + columnHead
	validityAt := offsetsAt + 8*uint64(len(part.offsets))
	bytesAt := validityAt + uint64(len(part.validity))
	putNumbers(m, at, []uint64{bytesAt, uint64(len(part.bytes)), offsetsAt, 8 * uint64(len(part.offsets)),
		validityAt, uint64(len(part.validity)), part.rows, part.width, part.layout})
	putNumbers(m, offsetsAt, part.offsets)
	copy(m[validityAt:], part.validity)
	copy(m[bytesAt:], part.bytes)
}
