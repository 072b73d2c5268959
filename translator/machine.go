package machine

import (
	"encoding/binary"
	"math/bits"
	"runtime"
)

// The machine on which the functions of a library for wasm64 run. A call makes its memory, one slice: the library's
// stack, and then copies of what the call is given and room for what it writes. An address below 2^32 is a place in that
// slice; from 2^32 on it is one of the constants, which are a string, so that nothing can write to them. Go tests each
// access to be within the slice or within the constants: a wrong translation may give a wrong answer or a panic, and no
// fault of memory.

// The address of the first constant.
const first = 1 << 32

const unreached = "the library did what it is proved never to do"

// What the library does where it does what it is proved never to do.
func trap() { panic(unreached) }

func number(is bool) uint32 {
	if is {
		return 1
	}
	return 0
}

// One of two numbers, without a branch that depends on which.
func select64(is bool, a, b uint64) uint64 {
	return b ^ (a^b)&-uint64(number(is))
}

func select32(is bool, a, b uint32) uint32 {
	return b ^ (a^b)&-number(is)
}

// Numbers that are known to be on the stack.

func load8OfStack(m []byte, a uint64) byte { return m[a] }

func load16OfStack(m []byte, a uint64) uint16 { return binary.LittleEndian.Uint16(m[a : a+2 : a+2]) }

func load32OfStack(m []byte, a uint64) uint32 { return binary.LittleEndian.Uint32(m[a : a+4 : a+4]) }

func load64OfStack(m []byte, a uint64) uint64 { return binary.LittleEndian.Uint64(m[a : a+8 : a+8]) }

// Numbers in memory, or else among the constants.

func load8(m []byte, a uint64) byte {
	if a < uint64(len(m)) {
		return m[a]
	}
	return constants[a-first]
}

func load16(m []byte, a uint64) uint16 {
	if a < uint64(len(m)) {
		return binary.LittleEndian.Uint16(m[a : a+2 : a+2])
	}
	return constant16(a - first)
}

func load32(m []byte, a uint64) uint32 {
	if a < uint64(len(m)) {
		return binary.LittleEndian.Uint32(m[a : a+4 : a+4])
	}
	return constant32(a - first)
}

func load64(m []byte, a uint64) uint64 {
	if a < uint64(len(m)) {
		return binary.LittleEndian.Uint64(m[a : a+8 : a+8])
	}
	return constant64(a - first)
}

func constant16(i uint64) uint16 {
	s := constants[i : i+2]
	return uint16(s[0]) | uint16(s[1])<<8
}

func constant32(i uint64) uint32 {
	s := constants[i : i+4]
	return uint32(s[0]) | uint32(s[1])<<8 | uint32(s[2])<<16 | uint32(s[3])<<24
}

func constant64(i uint64) uint64 {
	s := constants[i : i+8]
	return uint64(s[0]) | uint64(s[1])<<8 | uint64(s[2])<<16 | uint64(s[3])<<24 |
		uint64(s[4])<<32 | uint64(s[5])<<40 | uint64(s[6])<<48 | uint64(s[7])<<56
}

// Numbers at an address that is made of one among the constants.

func load8OfConstants(m []byte, a uint64) byte {
	if i := a - first; i < uint64(len(constants)) {
		return constants[i]
	}
	return m[a]
}

func load16OfConstants(m []byte, a uint64) uint16 {
	if i := a - first; i < uint64(len(constants)) {
		return constant16(i)
	}
	return load16OfStack(m, a)
}

func load32OfConstants(m []byte, a uint64) uint32 {
	if i := a - first; i < uint64(len(constants)) {
		return constant32(i)
	}
	return load32OfStack(m, a)
}

func load64OfConstants(m []byte, a uint64) uint64 {
	if i := a - first; i < uint64(len(constants)) {
		return constant64(i)
	}
	return load64OfStack(m, a)
}

func store8(m []byte, a uint64, x byte) { m[a] = x }

func store16(m []byte, a uint64, x uint16) { binary.LittleEndian.PutUint16(m[a:a+2:a+2], x) }

func store32(m []byte, a uint64, x uint32) { binary.LittleEndian.PutUint32(m[a:a+4:a+4], x) }

func store64(m []byte, a uint64, x uint64) { binary.LittleEndian.PutUint64(m[a:a+8:a+8], x) }

func fill(m []byte, to uint64, x byte, size uint64) {
	if size == 0 {
		return
	}
	part := m[to:][:size]
	for i := range part {
		part[i] = x
	}
}

func move(m []byte, to, from, size uint64) {
	if size == 0 {
		return
	}
	if part := m[to:][:size]; from < uint64(len(m)) {
		copy(part, m[from:][:size])
	} else {
		copy(part, constants[from-first:][:size])
	}
}

// The product of two numbers of 128 bits, each as its low and its high half, is put at an address.
func multiply128(m []byte, to, a, aHigh, b, bHigh uint64) {
	high, low := bits.Mul64(a, b)
	store64(m, to, low)
	store64(m, to+8, high+a*bHigh+aHigh*b)
}

// A number of 128 bits, shifted to the right by fewer bits than 128, is put at an address.
func shiftRight128(m []byte, to, low, high uint64, by uint32) {
	if by&64 != 0 {
		low, high = high, 0
	}
	by &= 63
	store64(m, to, low>>by|high<<1<<(63-by))
	store64(m, to+8, high>>by)
}

// What the calls make a machine of.

// The refusal of a call for which there is not enough memory.
const noMemory = 91

// layout says where what a call is given lies in its memory, after the stack, at multiples of 16, and how much that is
// in all.
type layout uint64

func (all *layout) put(size int) uint64 {
	at := uint64(*all)
	*all = layout((at + uint64(size) + 15) &^ 15)
	return at
}

// onHeap makes the memory of a call, if that is not too much.
func onHeap(need layout) []byte {
	if need >= first || uint64(int(need)) != uint64(need) || int(need) < 0 {
		return nil
	}
	return make([]byte, need)
}

// some is as many bytes of what is not read to its end as any answer depends on.
func some(bytes []byte) []byte {
	return bytes[:min(len(bytes), 1<<28)]
}

func min(a, b int) int {
	if a < b {
		return a
	}
	return b
}

func wipe(m []byte) {
	for i := range m {
		m[i] = 0
	}
	runtime.KeepAlive(m)
}

func putNumbers(m []byte, at uint64, numbers []uint64) {
	for i, it := range numbers {
		store64(m, at+8*uint64(i), it)
	}
}

func takeNumbers(m []byte, at uint64, numbers []uint64) {
	for i := range numbers {
		numbers[i] = load64(m, at+8*uint64(i))
	}
}

func putOffsets(m []byte, at uint64, offsets []int32) {
	for i, it := range offsets {
		store32(m, at+4*uint64(i), uint32(it))
	}
}

func takeOffsets(m []byte, at uint64, offsets []int32) {
	for i := range offsets {
		offsets[i] = int32(load32(m, at+4*uint64(i)))
	}
}
