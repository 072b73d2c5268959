// Made by tools/make (tools/make.d/native_calls) from include/bech32.h; do not edit.

func Bech32Message(number uint32, message []byte, messageLength *uint64) uint32 {
	message = some(message)
	need := layout(stackBech32Message)
	messageAt := need.put(len(message))
	messageLengthAt := need.put(8)
	var small [stackBech32Message + 2048]byte
	m := small[:]
	if need > layout(len(small)) {
		if m = onHeap(need); m == nil {
			return noMemory
		}
	}
	answer := of_bech32_message(m, stackBech32Message, number, messageAt, uint64(len(message)), messageLengthAt)
	if answer == 0 {
		*messageLength = load64(m, messageLengthAt)
	}
	if answer == 0 {
		copy(message[:*messageLength], m[messageAt:])
	}
	return answer
}

func Bech32Version() uint32 {
	need := layout(stackBech32Version)
	var small [stackBech32Version + 2048]byte
	m := small[:]
	if need > layout(len(small)) {
		if m = onHeap(need); m == nil {
			return noMemory
		}
	}
	answer := of_bech32_version(m, stackBech32Version)
	return answer
}

func Bech32Encode(checksum uint32, hrp []byte, bytes []byte, text []byte, textLength *uint64) uint32 {
	bytes = some(bytes)
	text = some(text)
	need := layout(stackBech32Encode)
	hrpAt := need.put(len(hrp))
	bytesAt := need.put(len(bytes))
	textAt := need.put(len(text))
	textLengthAt := need.put(8)
	var small [stackBech32Encode + 2048]byte
	m := small[:]
	if need > layout(len(small)) {
		if m = onHeap(need); m == nil {
			return noMemory
		}
	}
	copy(m[hrpAt:], hrp)
	copy(m[bytesAt:], bytes)
	answer := of_bech32_encode(m, stackBech32Encode, checksum, hrpAt, uint64(len(hrp)), bytesAt, uint64(len(bytes)), textAt, uint64(len(text)), textLengthAt)
	if answer == 0 {
		*textLength = load64(m, textLengthAt)
	}
	if answer == 0 {
		copy(text[:*textLength], m[textAt:])
	}
	return answer
}

func Bech32Decode(text []byte, hrp []byte, hrpLength *uint64, bytes []byte, bytesLength *uint64) uint32 {
	hrp = some(hrp)
	bytes = some(bytes)
	need := layout(stackBech32Decode)
	textAt := need.put(len(text))
	hrpAt := need.put(len(hrp))
	hrpLengthAt := need.put(8)
	bytesAt := need.put(len(bytes))
	bytesLengthAt := need.put(8)
	var small [stackBech32Decode + 2048]byte
	m := small[:]
	if need > layout(len(small)) {
		if m = onHeap(need); m == nil {
			return noMemory
		}
	}
	copy(m[textAt:], text)
	answer := of_bech32_decode(m, stackBech32Decode, textAt, uint64(len(text)), hrpAt, uint64(len(hrp)), hrpLengthAt, bytesAt, uint64(len(bytes)), bytesLengthAt)
	if answer == 0 {
		*hrpLength = load64(m, hrpLengthAt)
		*bytesLength = load64(m, bytesLengthAt)
	}
	if answer == 0 {
		copy(hrp[:*hrpLength], m[hrpAt:])
	}
	if answer == 0 {
		copy(bytes[:*bytesLength], m[bytesAt:])
	}
	return answer
}

func Bech32DecodeStrict(checksum uint32, text []byte, hrp []byte, hrpLength *uint64, bytes []byte, bytesLength *uint64) uint32 {
	hrp = some(hrp)
	bytes = some(bytes)
	need := layout(stackBech32DecodeStrict)
	textAt := need.put(len(text))
	hrpAt := need.put(len(hrp))
	hrpLengthAt := need.put(8)
	bytesAt := need.put(len(bytes))
	bytesLengthAt := need.put(8)
	var small [stackBech32DecodeStrict + 2048]byte
	m := small[:]
	if need > layout(len(small)) {
		if m = onHeap(need); m == nil {
			return noMemory
		}
	}
	copy(m[textAt:], text)
	answer := of_bech32_decode_strict(m, stackBech32DecodeStrict, checksum, textAt, uint64(len(text)), hrpAt, uint64(len(hrp)), hrpLengthAt, bytesAt, uint64(len(bytes)), bytesLengthAt)
	if answer == 0 {
		*hrpLength = load64(m, hrpLengthAt)
		*bytesLength = load64(m, bytesLengthAt)
	}
	if answer == 0 {
		copy(hrp[:*hrpLength], m[hrpAt:])
	}
	if answer == 0 {
		copy(bytes[:*bytesLength], m[bytesAt:])
	}
	return answer
}

func Bech32DecodeElements(checksum uint32, text []byte, hrp []byte, hrpLength *uint64, elements []byte, elementsLength *uint64) uint32 {
	hrp = some(hrp)
	elements = some(elements)
	need := layout(stackBech32DecodeElements)
	textAt := need.put(len(text))
	hrpAt := need.put(len(hrp))
	hrpLengthAt := need.put(8)
	elementsAt := need.put(len(elements))
	elementsLengthAt := need.put(8)
	var small [stackBech32DecodeElements + 2048]byte
	m := small[:]
	if need > layout(len(small)) {
		if m = onHeap(need); m == nil {
			return noMemory
		}
	}
	copy(m[textAt:], text)
	answer := of_bech32_decode_elements(m, stackBech32DecodeElements, checksum, textAt, uint64(len(text)), hrpAt, uint64(len(hrp)), hrpLengthAt, elementsAt, uint64(len(elements)), elementsLengthAt)
	if answer == 0 {
		*hrpLength = load64(m, hrpLengthAt)
		*elementsLength = load64(m, elementsLengthAt)
	}
	if answer == 0 {
		copy(hrp[:*hrpLength], m[hrpAt:])
	}
	if answer == 0 {
		copy(elements[:*elementsLength], m[elementsAt:])
	}
	return answer
}

func Bech32EncodeElements(checksum uint32, hrp []byte, elements []byte, place *uint64, text []byte, textLength *uint64) uint32 {
	text = some(text)
	need := layout(stackBech32EncodeElements)
	hrpAt := need.put(len(hrp))
	elementsAt := need.put(len(elements))
	placeAt := need.put(8)
	textAt := need.put(len(text))
	textLengthAt := need.put(8)
	var small [stackBech32EncodeElements + 2048]byte
	m := small[:]
	if need > layout(len(small)) {
		if m = onHeap(need); m == nil {
			return noMemory
		}
	}
	copy(m[hrpAt:], hrp)
	copy(m[elementsAt:], elements)
	answer := of_bech32_encode_elements(m, stackBech32EncodeElements, checksum, hrpAt, uint64(len(hrp)), elementsAt, uint64(len(elements)), placeAt, textAt, uint64(len(text)), textLengthAt)
	if answer == 67 {
		*place = load64(m, placeAt)
	}
	if answer == 0 {
		*textLength = load64(m, textLengthAt)
	}
	if answer == 0 {
		copy(text[:*textLength], m[textAt:])
	}
	return answer
}

func Bech32Check(checksum uint32, text []byte, hrpLength *uint64, dataLength *uint64) uint32 {
	need := layout(stackBech32Check)
	textAt := need.put(len(text))
	hrpLengthAt := need.put(8)
	dataLengthAt := need.put(8)
	var small [stackBech32Check + 2048]byte
	m := small[:]
	if need > layout(len(small)) {
		if m = onHeap(need); m == nil {
			return noMemory
		}
	}
	copy(m[textAt:], text)
	answer := of_bech32_check(m, stackBech32Check, checksum, textAt, uint64(len(text)), hrpLengthAt, dataLengthAt)
	if answer == 0 {
		*hrpLength = load64(m, hrpLengthAt)
		*dataLength = load64(m, dataLengthAt)
	}
	return answer
}

func Bech32Fault(checksum uint32, text []byte, place *uint64) uint32 {
	need := layout(stackBech32Fault)
	textAt := need.put(len(text))
	placeAt := need.put(8)
	var small [stackBech32Fault + 2048]byte
	m := small[:]
	if need > layout(len(small)) {
		if m = onHeap(need); m == nil {
			return noMemory
		}
	}
	copy(m[textAt:], text)
	answer := of_bech32_fault(m, stackBech32Fault, checksum, textAt, uint64(len(text)), placeAt)
	if answer != 0 && answer != 2 && answer != 4 {
		*place = load64(m, placeAt)
	}
	return answer
}

func Bech32SegwitEncode(hrp []byte, version uint32, program []byte, text []byte, textLength *uint64) uint32 {
	program = some(program)
	text = some(text)
	need := layout(stackBech32SegwitEncode)
	hrpAt := need.put(len(hrp))
	programAt := need.put(len(program))
	textAt := need.put(len(text))
	textLengthAt := need.put(8)
	var small [stackBech32SegwitEncode + 2048]byte
	m := small[:]
	if need > layout(len(small)) {
		if m = onHeap(need); m == nil {
			return noMemory
		}
	}
	copy(m[hrpAt:], hrp)
	copy(m[programAt:], program)
	answer := of_bech32_segwit_encode(m, stackBech32SegwitEncode, hrpAt, uint64(len(hrp)), version, programAt, uint64(len(program)), textAt, uint64(len(text)), textLengthAt)
	if answer == 0 {
		*textLength = load64(m, textLengthAt)
	}
	if answer == 0 {
		copy(text[:*textLength], m[textAt:])
	}
	return answer
}

func Bech32SegwitDecode(text []byte, hrp []byte, hrpLength *uint64, version *uint32, program []byte, programLength *uint64) uint32 {
	hrp = some(hrp)
	program = some(program)
	need := layout(stackBech32SegwitDecode)
	textAt := need.put(len(text))
	hrpAt := need.put(len(hrp))
	hrpLengthAt := need.put(8)
	versionAt := need.put(8)
	programAt := need.put(len(program))
	programLengthAt := need.put(8)
	var small [stackBech32SegwitDecode + 2048]byte
	m := small[:]
	if need > layout(len(small)) {
		if m = onHeap(need); m == nil {
			return noMemory
		}
	}
	copy(m[textAt:], text)
	answer := of_bech32_segwit_decode(m, stackBech32SegwitDecode, textAt, uint64(len(text)), hrpAt, uint64(len(hrp)), hrpLengthAt, versionAt, programAt, uint64(len(program)), programLengthAt)
	if answer == 0 {
		*hrpLength = load64(m, hrpLengthAt)
		*version = load32(m, versionAt)
		*programLength = load64(m, programLengthAt)
	}
	if answer == 0 {
		copy(hrp[:*hrpLength], m[hrpAt:])
	}
	if answer == 0 {
		copy(program[:*programLength], m[programAt:])
	}
	return answer
}

func Bech32Residue(checksum uint32, elements []byte, residue *uint32) uint32 {
	need := layout(stackBech32Residue)
	elementsAt := need.put(len(elements))
	residueAt := need.put(8)
	var small [stackBech32Residue + 2048]byte
	m := small[:]
	if need > layout(len(small)) {
		if m = onHeap(need); m == nil {
			return noMemory
		}
	}
	copy(m[elementsAt:], elements)
	answer := of_bech32_residue(m, stackBech32Residue, checksum, elementsAt, uint64(len(elements)), residueAt)
	if answer == 0 {
		*residue = load32(m, residueAt)
	}
	return answer
}

func Bech32Correct(checksum uint32, text []byte, erasures []uint64, locations []uint64, values []byte, count *uint64, mended []byte, mendedLength *uint64) uint32 {
	values = some(values)
	mended = some(mended)
	need := layout(stackBech32Correct)
	textAt := need.put(len(text))
	erasuresAt := need.put(8 * len(erasures))
	locationsAt := need.put(8 * len(locations))
	valuesAt := need.put(len(values))
	countAt := need.put(8)
	mendedAt := need.put(len(mended))
	mendedLengthAt := need.put(8)
	var small [stackBech32Correct + 2048]byte
	m := small[:]
	if need > layout(len(small)) {
		if m = onHeap(need); m == nil {
			return noMemory
		}
	}
	copy(m[textAt:], text)
	putNumbers(m, erasuresAt, erasures)
	putNumbers(m, locationsAt, locations)
	copy(m[valuesAt:], values)
	answer := of_bech32_correct(m, stackBech32Correct, checksum, textAt, uint64(len(text)), erasuresAt, uint64(len(erasures)), locationsAt, uint64(len(locations)), valuesAt, uint64(len(values)), countAt, mendedAt, uint64(len(mended)), mendedLengthAt)
	if answer == 0 {
		*count = load64(m, countAt)
		*mendedLength = load64(m, mendedLengthAt)
	}
	takeNumbers(m, locationsAt, locations)
	copy(values, m[valuesAt:])
	if answer == 0 {
		copy(mended[:*mendedLength], m[mendedAt:])
	}
	return answer
}

func Bech32Nearest(checksum uint32, text []byte, erasures []uint64, errors uint64, memory int, texts []byte, count *uint64) uint32 {
	texts = some(texts)
	need := layout(stackBech32Nearest)
	textAt := need.put(len(text))
	erasuresAt := need.put(8 * len(erasures))
	memoryAt := need.put(memory + 16)
	textsAt := need.put(len(texts))
	countAt := need.put(8)
	var small [stackBech32Nearest + 2048]byte
	m := small[:]
	if need > layout(len(small)) {
		if m = onHeap(need); m == nil {
			return noMemory
		}
	}
	copy(m[textAt:], text)
	putNumbers(m, erasuresAt, erasures)
	store64(m, memoryAt, memoryAt+16)
	store64(m, memoryAt+8, uint64(memory))
	copy(m[textsAt:], texts)
	answer := of_bech32_nearest(m, stackBech32Nearest, checksum, textAt, uint64(len(text)), erasuresAt, uint64(len(erasures)), errors, memoryAt, textsAt, uint64(len(texts)), countAt)
	if answer == 0 || answer == 92 {
		*count = load64(m, countAt)
	}
	copy(texts, m[textsAt:])
	return answer
}

func Bech32NearEdits(checksum uint32, text []byte, memory int, kinds []byte, locations []uint64, texts []byte, count *uint64) uint32 {
	kinds = some(kinds)
	texts = some(texts)
	need := layout(stackBech32NearEdits)
	textAt := need.put(len(text))
	memoryAt := need.put(memory + 16)
	kindsAt := need.put(len(kinds))
	locationsAt := need.put(8 * len(locations))
	textsAt := need.put(len(texts))
	countAt := need.put(8)
	var small [stackBech32NearEdits + 2048]byte
	m := small[:]
	if need > layout(len(small)) {
		if m = onHeap(need); m == nil {
			return noMemory
		}
	}
	copy(m[textAt:], text)
	store64(m, memoryAt, memoryAt+16)
	store64(m, memoryAt+8, uint64(memory))
	copy(m[kindsAt:], kinds)
	putNumbers(m, locationsAt, locations)
	copy(m[textsAt:], texts)
	answer := of_bech32_near_edits(m, stackBech32NearEdits, checksum, textAt, uint64(len(text)), memoryAt, kindsAt, uint64(len(kinds)), locationsAt, uint64(len(locations)), textsAt, uint64(len(texts)), countAt)
	if answer == 0 || answer == 92 {
		*count = load64(m, countAt)
	}
	copy(kinds, m[kindsAt:])
	takeNumbers(m, locationsAt, locations)
	copy(texts, m[textsAt:])
	return answer
}

func Bech32LiquidEncode(hrp []byte, version uint32, key *[33]byte, program []byte, text []byte, textLength *uint64) uint32 {
	program = some(program)
	text = some(text)
	need := layout(stackBech32LiquidEncode)
	hrpAt := need.put(len(hrp))
	keyAt := need.put(33)
	programAt := need.put(len(program))
	textAt := need.put(len(text))
	textLengthAt := need.put(8)
	var small [stackBech32LiquidEncode + 2048]byte
	m := small[:]
	if need > layout(len(small)) {
		if m = onHeap(need); m == nil {
			return noMemory
		}
	}
	copy(m[hrpAt:], hrp)
	copy(m[keyAt:], key[:])
	copy(m[programAt:], program)
	answer := of_bech32_liquid_encode(m, stackBech32LiquidEncode, hrpAt, uint64(len(hrp)), version, keyAt, programAt, uint64(len(program)), textAt, uint64(len(text)), textLengthAt)
	if answer == 0 {
		*textLength = load64(m, textLengthAt)
	}
	if answer == 0 {
		copy(text[:*textLength], m[textAt:])
	}
	return answer
}

func Bech32LiquidDecode(text []byte, hrp []byte, hrpLength *uint64, version *uint32, key *[33]byte, program []byte, programLength *uint64) uint32 {
	hrp = some(hrp)
	program = some(program)
	need := layout(stackBech32LiquidDecode)
	textAt := need.put(len(text))
	hrpAt := need.put(len(hrp))
	hrpLengthAt := need.put(8)
	versionAt := need.put(8)
	keyAt := need.put(33)
	programAt := need.put(len(program))
	programLengthAt := need.put(8)
	var small [stackBech32LiquidDecode + 2048]byte
	m := small[:]
	if need > layout(len(small)) {
		if m = onHeap(need); m == nil {
			return noMemory
		}
	}
	copy(m[textAt:], text)
	copy(m[keyAt:], key[:])
	answer := of_bech32_liquid_decode(m, stackBech32LiquidDecode, textAt, uint64(len(text)), hrpAt, uint64(len(hrp)), hrpLengthAt, versionAt, keyAt, programAt, uint64(len(program)), programLengthAt)
	if answer == 0 {
		*hrpLength = load64(m, hrpLengthAt)
		*version = load32(m, versionAt)
		*programLength = load64(m, programLengthAt)
	}
	if answer == 0 {
		copy(hrp[:*hrpLength], m[hrpAt:])
	}
	copy(key[:], m[keyAt:])
	if answer == 0 {
		copy(program[:*programLength], m[programAt:])
	}
	return answer
}

func Bech32LiquidNearest(text []byte, erasures []uint64, errors uint64, memory int, texts []byte, count *uint64) uint32 {
	texts = some(texts)
	need := layout(stackBech32LiquidNearest)
	textAt := need.put(len(text))
	erasuresAt := need.put(8 * len(erasures))
	memoryAt := need.put(memory + 16)
	textsAt := need.put(len(texts))
	countAt := need.put(8)
	var small [stackBech32LiquidNearest + 2048]byte
	m := small[:]
	if need > layout(len(small)) {
		if m = onHeap(need); m == nil {
			return noMemory
		}
	}
	copy(m[textAt:], text)
	putNumbers(m, erasuresAt, erasures)
	store64(m, memoryAt, memoryAt+16)
	store64(m, memoryAt+8, uint64(memory))
	copy(m[textsAt:], texts)
	answer := of_bech32_liquid_nearest(m, stackBech32LiquidNearest, textAt, uint64(len(text)), erasuresAt, uint64(len(erasures)), errors, memoryAt, textsAt, uint64(len(texts)), countAt)
	if answer == 0 || answer == 92 {
		*count = load64(m, countAt)
	}
	copy(texts, m[textsAt:])
	return answer
}

func Bech32DescriptorChecksum(text []byte, checksum []byte, checksumLength *uint64, place *uint64) uint32 {
	checksum = some(checksum)
	need := layout(stackBech32DescriptorChecksum)
	textAt := need.put(len(text))
	checksumAt := need.put(len(checksum))
	checksumLengthAt := need.put(8)
	placeAt := need.put(8)
	var small [stackBech32DescriptorChecksum + 2048]byte
	m := small[:]
	if need > layout(len(small)) {
		if m = onHeap(need); m == nil {
			return noMemory
		}
	}
	copy(m[textAt:], text)
	answer := of_bech32_descriptor_checksum(m, stackBech32DescriptorChecksum, textAt, uint64(len(text)), checksumAt, uint64(len(checksum)), checksumLengthAt, placeAt)
	if answer == 0 {
		*checksumLength = load64(m, checksumLengthAt)
	}
	if answer == 80 {
		*place = load64(m, placeAt)
	}
	if answer == 0 {
		copy(checksum[:*checksumLength], m[checksumAt:])
	}
	wipe(m)
	return answer
}

func Bech32DescriptorCheck(text []byte, place *uint64) uint32 {
	need := layout(stackBech32DescriptorCheck)
	textAt := need.put(len(text))
	placeAt := need.put(8)
	var small [stackBech32DescriptorCheck + 2048]byte
	m := small[:]
	if need > layout(len(small)) {
		if m = onHeap(need); m == nil {
			return noMemory
		}
	}
	copy(m[textAt:], text)
	answer := of_bech32_descriptor_check(m, stackBech32DescriptorCheck, textAt, uint64(len(text)), placeAt)
	if answer == 80 {
		*place = load64(m, placeAt)
	}
	wipe(m)
	return answer
}

func Bech32DescriptorMend(text []byte, changed uint64, memory int, kinds []byte, places []uint64, texts []byte, count *uint64) uint32 {
	kinds = some(kinds)
	texts = some(texts)
	need := layout(stackBech32DescriptorMend)
	textAt := need.put(len(text))
	memoryAt := need.put(memory + 16)
	kindsAt := need.put(len(kinds))
	placesAt := need.put(8 * len(places))
	textsAt := need.put(len(texts))
	countAt := need.put(8)
	var small [stackBech32DescriptorMend + 2048]byte
	m := small[:]
	if need > layout(len(small)) {
		if m = onHeap(need); m == nil {
			return noMemory
		}
	}
	copy(m[textAt:], text)
	store64(m, memoryAt, memoryAt+16)
	store64(m, memoryAt+8, uint64(memory))
	copy(m[kindsAt:], kinds)
	putNumbers(m, placesAt, places)
	copy(m[textsAt:], texts)
	answer := of_bech32_descriptor_mend(m, stackBech32DescriptorMend, textAt, uint64(len(text)), changed, memoryAt, kindsAt, uint64(len(kinds)), placesAt, uint64(len(places)), textsAt, uint64(len(texts)), countAt)
	if answer == 0 || answer == 92 {
		*count = load64(m, countAt)
	}
	copy(kinds, m[kindsAt:])
	takeNumbers(m, placesAt, places)
	copy(texts, m[textsAt:])
	wipe(m)
	return answer
}

func Bech32DescriptorMendTwo(text []byte, memory int, places []uint64, texts []byte, count *uint64) uint32 {
	texts = some(texts)
	need := layout(stackBech32DescriptorMendTwo)
	textAt := need.put(len(text))
	memoryAt := need.put(memory + 16)
	placesAt := need.put(8 * len(places))
	textsAt := need.put(len(texts))
	countAt := need.put(8)
	var small [stackBech32DescriptorMendTwo + 2048]byte
	m := small[:]
	if need > layout(len(small)) {
		if m = onHeap(need); m == nil {
			return noMemory
		}
	}
	copy(m[textAt:], text)
	store64(m, memoryAt, memoryAt+16)
	store64(m, memoryAt+8, uint64(memory))
	putNumbers(m, placesAt, places)
	copy(m[textsAt:], texts)
	answer := of_bech32_descriptor_mend_two(m, stackBech32DescriptorMendTwo, textAt, uint64(len(text)), memoryAt, placesAt, uint64(len(places)), textsAt, uint64(len(texts)), countAt)
	if answer == 0 || answer == 92 {
		*count = load64(m, countAt)
	}
	takeNumbers(m, placesAt, places)
	copy(texts, m[textsAt:])
	wipe(m)
	return answer
}

func Bech32Suggest(text []byte, hrp []byte, memory int, kinds []byte, places []uint64, texts []byte, count *uint64) uint32 {
	kinds = some(kinds)
	texts = some(texts)
	need := layout(stackBech32Suggest)
	textAt := need.put(len(text))
	hrpAt := need.put(len(hrp))
	memoryAt := need.put(memory + 16)
	kindsAt := need.put(len(kinds))
	placesAt := need.put(8 * len(places))
	textsAt := need.put(len(texts))
	countAt := need.put(8)
	var small [stackBech32Suggest + 2048]byte
	m := small[:]
	if need > layout(len(small)) {
		if m = onHeap(need); m == nil {
			return noMemory
		}
	}
	copy(m[textAt:], text)
	copy(m[hrpAt:], hrp)
	store64(m, memoryAt, memoryAt+16)
	store64(m, memoryAt+8, uint64(memory))
	copy(m[kindsAt:], kinds)
	putNumbers(m, placesAt, places)
	copy(m[textsAt:], texts)
	answer := of_bech32_suggest(m, stackBech32Suggest, textAt, uint64(len(text)), hrpAt, uint64(len(hrp)), memoryAt, kindsAt, uint64(len(kinds)), placesAt, uint64(len(places)), textsAt, uint64(len(texts)), countAt)
	if answer == 0 || answer == 92 {
		*count = load64(m, countAt)
	}
	copy(kinds, m[kindsAt:])
	takeNumbers(m, placesAt, places)
	copy(texts, m[textsAt:])
	return answer
}

func Bech32CheckMany(checksum uint32, texts *Column, first uint64, numbers []byte) uint32 {
	textsPart, known := partOf(texts, first, uint64(len(numbers)))
	if !known {
		return 4
	}
	need := layout(stackBech32CheckMany)
	textsAt := need.put(textsPart.size())
	numbersAt := need.put(len(numbers))
	var small [stackBech32CheckMany + 2048]byte
	m := small[:]
	if need > layout(len(small)) {
		if m = onHeap(need); m == nil {
			return noMemory
		}
	}
	textsPart.put(m, textsAt)
	copy(m[numbersAt:], numbers)
	answer := of_bech32_check_many(m, stackBech32CheckMany, checksum, textsAt, first % 8, numbersAt, uint64(len(numbers)))
	copy(numbers, m[numbersAt:])
	return answer
}

func Bech32SegwitDecodeMany(texts *Column, first uint64, hrp []byte, numbers []byte, versions []byte, hrpLengths []byte, programOffsets []int32, programs []byte, done *uint64) uint32 {
	textsPart, known := partOf(texts, first, uint64(len(numbers)))
	if !known {
		return 4
	}
	need := layout(stackBech32SegwitDecodeMany)
	textsAt := need.put(textsPart.size())
	hrpAt := need.put(len(hrp))
	numbersAt := need.put(len(numbers))
	versionsAt := need.put(len(versions))
	hrpLengthsAt := need.put(len(hrpLengths))
	programOffsetsAt := need.put(4 * len(programOffsets))
	programsAt := need.put(len(programs))
	doneAt := need.put(8)
	var small [stackBech32SegwitDecodeMany + 2048]byte
	m := small[:]
	if need > layout(len(small)) {
		if m = onHeap(need); m == nil {
			return noMemory
		}
	}
	textsPart.put(m, textsAt)
	copy(m[hrpAt:], hrp)
	copy(m[numbersAt:], numbers)
	copy(m[versionsAt:], versions)
	copy(m[hrpLengthsAt:], hrpLengths)
	putOffsets(m, programOffsetsAt, programOffsets)
	copy(m[programsAt:], programs)
	answer := of_bech32_segwit_decode_many(m, stackBech32SegwitDecodeMany, textsAt, first % 8, hrpAt, uint64(len(hrp)), numbersAt, uint64(len(numbers)), versionsAt, uint64(len(versions)), hrpLengthsAt, uint64(len(hrpLengths)), programOffsetsAt, uint64(len(programOffsets)), programsAt, uint64(len(programs)), doneAt)
	if answer == 0 || answer == 92 {
		*done = load64(m, doneAt)
	}
	copy(numbers, m[numbersAt:])
	copy(versions, m[versionsAt:])
	copy(hrpLengths, m[hrpLengthsAt:])
	takeOffsets(m, programOffsetsAt, programOffsets)
	copy(programs, m[programsAt:])
	return answer
}

func Bech32SegwitEncodeMany(hrp []byte, versions []byte, programs *Column, first uint64, numbers []byte, textOffsets []int32, texts []byte, done *uint64) uint32 {
	programsPart, known := partOf(programs, first, uint64(len(numbers)))
	if !known {
		return 4
	}
	if len(versions) < len(numbers) {
		return 4
	}
	need := layout(stackBech32SegwitEncodeMany)
	hrpAt := need.put(len(hrp))
	versionsAt := need.put(len(versions))
	programsAt := need.put(programsPart.size())
	numbersAt := need.put(len(numbers))
	textOffsetsAt := need.put(4 * len(textOffsets))
	textsAt := need.put(len(texts))
	doneAt := need.put(8)
	var small [stackBech32SegwitEncodeMany + 2048]byte
	m := small[:]
	if need > layout(len(small)) {
		if m = onHeap(need); m == nil {
			return noMemory
		}
	}
	copy(m[hrpAt:], hrp)
	copy(m[versionsAt:], versions)
	programsPart.put(m, programsAt)
	copy(m[numbersAt:], numbers)
	putOffsets(m, textOffsetsAt, textOffsets)
	copy(m[textsAt:], texts)
	answer := of_bech32_segwit_encode_many(m, stackBech32SegwitEncodeMany, hrpAt, uint64(len(hrp)), versionsAt, uint64(len(versions)), programsAt, first % 8, numbersAt, uint64(len(numbers)), textOffsetsAt, uint64(len(textOffsets)), textsAt, uint64(len(texts)), doneAt)
	if answer == 0 || answer == 92 {
		*done = load64(m, doneAt)
	}
	copy(numbers, m[numbersAt:])
	takeOffsets(m, textOffsetsAt, textOffsets)
	copy(texts, m[textsAt:])
	return answer
}

func Bech32ValidityOf(numbers []byte, validity []byte, accepted *uint64) uint32 {
	validity = some(validity)
	need := layout(stackBech32ValidityOf)
	numbersAt := need.put(len(numbers))
	validityAt := need.put(len(validity))
	acceptedAt := need.put(8)
	var small [stackBech32ValidityOf + 2048]byte
	m := small[:]
	if need > layout(len(small)) {
		if m = onHeap(need); m == nil {
			return noMemory
		}
	}
	copy(m[numbersAt:], numbers)
	copy(m[validityAt:], validity)
	answer := of_bech32_validity_of(m, stackBech32ValidityOf, numbersAt, uint64(len(numbers)), validityAt, uint64(len(validity)), acceptedAt)
	if answer == 0 {
		*accepted = load64(m, acceptedAt)
	}
	copy(validity, m[validityAt:])
	return answer
}
