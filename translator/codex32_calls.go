// Made by tools/make (tools/make.d/native_calls) from include/codex32.h; do not edit.

func Codex32Message(number uint32, message []byte, messageLength *uint64) uint32 {
	message = some(message)
	need := layout(stackCodex32Message)
	messageAt := need.put(len(message))
	messageLengthAt := need.put(8)
	var small [stackCodex32Message + 2048]byte
	m := small[:]
	if need > layout(len(small)) {
		if m = onHeap(need); m == nil {
			return noMemory
		}
	}
	answer := of_codex32_message(m, stackCodex32Message, number, messageAt, uint64(len(message)), messageLengthAt)
	if answer == 0 {
		*messageLength = load64(m, messageLengthAt)
	}
	if answer == 0 {
		copy(message[:*messageLength], m[messageAt:])
	}
	return answer
}

func Codex32Version() uint32 {
	need := layout(stackCodex32Version)
	var small [stackCodex32Version + 2048]byte
	m := small[:]
	if need > layout(len(small)) {
		if m = onHeap(need); m == nil {
			return noMemory
		}
	}
	answer := of_codex32_version(m, stackCodex32Version)
	return answer
}

func Codex32Parse(text []byte, threshold *uint32, shareIndex *uint32, payloadLength *uint64) uint32 {
	need := layout(stackCodex32Parse)
	textAt := need.put(len(text))
	thresholdAt := need.put(8)
	shareIndexAt := need.put(8)
	payloadLengthAt := need.put(8)
	var small [stackCodex32Parse + 2048]byte
	m := small[:]
	if need > layout(len(small)) {
		if m = onHeap(need); m == nil {
			return noMemory
		}
	}
	copy(m[textAt:], text)
	answer := of_codex32_parse(m, stackCodex32Parse, textAt, uint64(len(text)), thresholdAt, shareIndexAt, payloadLengthAt)
	if answer == 0 {
		*threshold = load32(m, thresholdAt)
		*shareIndex = load32(m, shareIndexAt)
		*payloadLength = load64(m, payloadLengthAt)
	}
	wipe(m)
	return answer
}

func Codex32Share(text []byte, threshold *uint32, identifier *[4]byte, shareIndex *uint32, bytes []byte, bytesLength *uint64) uint32 {
	bytes = some(bytes)
	need := layout(stackCodex32Share)
	textAt := need.put(len(text))
	thresholdAt := need.put(8)
	identifierAt := need.put(4)
	shareIndexAt := need.put(8)
	bytesAt := need.put(len(bytes))
	bytesLengthAt := need.put(8)
	var small [stackCodex32Share + 2048]byte
	m := small[:]
	if need > layout(len(small)) {
		if m = onHeap(need); m == nil {
			return noMemory
		}
	}
	copy(m[textAt:], text)
	copy(m[identifierAt:], identifier[:])
	answer := of_codex32_share(m, stackCodex32Share, textAt, uint64(len(text)), thresholdAt, identifierAt, shareIndexAt, bytesAt, uint64(len(bytes)), bytesLengthAt)
	if answer == 0 {
		*threshold = load32(m, thresholdAt)
		*shareIndex = load32(m, shareIndexAt)
		*bytesLength = load64(m, bytesLengthAt)
	}
	copy(identifier[:], m[identifierAt:])
	if answer == 0 {
		copy(bytes[:*bytesLength], m[bytesAt:])
	}
	wipe(m)
	return answer
}

func Codex32Encode(threshold uint32, identifier []byte, shareIndex uint32, bytes []byte, text []byte, textLength *uint64) uint32 {
	identifier = some(identifier)
	bytes = some(bytes)
	text = some(text)
	need := layout(stackCodex32Encode)
	identifierAt := need.put(len(identifier))
	bytesAt := need.put(len(bytes))
	textAt := need.put(len(text))
	textLengthAt := need.put(8)
	var small [stackCodex32Encode + 2048]byte
	m := small[:]
	if need > layout(len(small)) {
		if m = onHeap(need); m == nil {
			return noMemory
		}
	}
	copy(m[identifierAt:], identifier)
	copy(m[bytesAt:], bytes)
	answer := of_codex32_encode(m, stackCodex32Encode, threshold, identifierAt, uint64(len(identifier)), shareIndex, bytesAt, uint64(len(bytes)), textAt, uint64(len(text)), textLengthAt)
	if answer == 0 {
		*textLength = load64(m, textLengthAt)
	}
	if answer == 0 {
		copy(text[:*textLength], m[textAt:])
	}
	wipe(m)
	return answer
}

func Codex32EncodePayload(threshold uint32, identifier []byte, shareIndex uint32, payload []byte, text []byte, textLength *uint64) uint32 {
	identifier = some(identifier)
	text = some(text)
	need := layout(stackCodex32EncodePayload)
	identifierAt := need.put(len(identifier))
	payloadAt := need.put(len(payload))
	textAt := need.put(len(text))
	textLengthAt := need.put(8)
	var small [stackCodex32EncodePayload + 2048]byte
	m := small[:]
	if need > layout(len(small)) {
		if m = onHeap(need); m == nil {
			return noMemory
		}
	}
	copy(m[identifierAt:], identifier)
	copy(m[payloadAt:], payload)
	answer := of_codex32_encode_payload(m, stackCodex32EncodePayload, threshold, identifierAt, uint64(len(identifier)), shareIndex, payloadAt, uint64(len(payload)), textAt, uint64(len(text)), textLengthAt)
	if answer == 0 {
		*textLength = load64(m, textLengthAt)
	}
	if answer == 0 {
		copy(text[:*textLength], m[textAt:])
	}
	wipe(m)
	return answer
}

func Codex32Derive(shareIndex uint32, texts []byte, lengths []uint64, text []byte, textLength *uint64) uint32 {
	text = some(text)
	need := layout(stackCodex32Derive)
	textsAt := need.put(len(texts))
	lengthsAt := need.put(8 * len(lengths))
	textAt := need.put(len(text))
	textLengthAt := need.put(8)
	var small [stackCodex32Derive + 2048]byte
	m := small[:]
	if need > layout(len(small)) {
		if m = onHeap(need); m == nil {
			return noMemory
		}
	}
	copy(m[textsAt:], texts)
	putNumbers(m, lengthsAt, lengths)
	answer := of_codex32_derive(m, stackCodex32Derive, shareIndex, textsAt, uint64(len(texts)), lengthsAt, uint64(len(lengths)), textAt, uint64(len(text)), textLengthAt)
	if answer == 0 {
		*textLength = load64(m, textLengthAt)
	}
	if answer == 0 {
		copy(text[:*textLength], m[textAt:])
	}
	wipe(m)
	return answer
}

func Codex32Split(threshold uint32, identifier []byte, secret []byte, random []byte, count uint64, texts []byte, textLength *uint64) uint32 {
	identifier = some(identifier)
	secret = some(secret)
	random = some(random)
	texts = some(texts)
	need := layout(stackCodex32Split)
	identifierAt := need.put(len(identifier))
	secretAt := need.put(len(secret))
	randomAt := need.put(len(random))
	textsAt := need.put(len(texts))
	textLengthAt := need.put(8)
	var small [stackCodex32Split + 2048]byte
	m := small[:]
	if need > layout(len(small)) {
		if m = onHeap(need); m == nil {
			return noMemory
		}
	}
	copy(m[identifierAt:], identifier)
	copy(m[secretAt:], secret)
	copy(m[randomAt:], random)
	copy(m[textsAt:], texts)
	answer := of_codex32_split(m, stackCodex32Split, threshold, identifierAt, uint64(len(identifier)), secretAt, uint64(len(secret)), randomAt, uint64(len(random)), count, textsAt, uint64(len(texts)), textLengthAt)
	if answer == 0 {
		*textLength = load64(m, textLengthAt)
	}
	copy(texts, m[textsAt:])
	wipe(m)
	return answer
}

func Codex32Recover(texts []byte, lengths []uint64, bytes []byte, bytesLength *uint64) uint32 {
	bytes = some(bytes)
	need := layout(stackCodex32Recover)
	textsAt := need.put(len(texts))
	lengthsAt := need.put(8 * len(lengths))
	bytesAt := need.put(len(bytes))
	bytesLengthAt := need.put(8)
	var small [stackCodex32Recover + 2048]byte
	m := small[:]
	if need > layout(len(small)) {
		if m = onHeap(need); m == nil {
			return noMemory
		}
	}
	copy(m[textsAt:], texts)
	putNumbers(m, lengthsAt, lengths)
	answer := of_codex32_recover(m, stackCodex32Recover, textsAt, uint64(len(texts)), lengthsAt, uint64(len(lengths)), bytesAt, uint64(len(bytes)), bytesLengthAt)
	if answer == 0 {
		*bytesLength = load64(m, bytesLengthAt)
	}
	if answer == 0 {
		copy(bytes[:*bytesLength], m[bytesAt:])
	}
	wipe(m)
	return answer
}

func Codex32Propose(text []byte, memory int, proposed []byte, proposedLength *uint64) uint32 {
	proposed = some(proposed)
	need := layout(stackCodex32Propose)
	textAt := need.put(len(text))
	memoryAt := need.put(memory + 16)
	proposedAt := need.put(len(proposed))
	proposedLengthAt := need.put(8)
	var small [stackCodex32Propose + 2048]byte
	m := small[:]
	if need > layout(len(small)) {
		if m = onHeap(need); m == nil {
			return noMemory
		}
	}
	copy(m[textAt:], text)
	store64(m, memoryAt, memoryAt+16)
	store64(m, memoryAt+8, uint64(memory))
	answer := of_codex32_propose(m, stackCodex32Propose, textAt, uint64(len(text)), memoryAt, proposedAt, uint64(len(proposed)), proposedLengthAt)
	if answer == 0 {
		*proposedLength = load64(m, proposedLengthAt)
	}
	if answer == 0 {
		copy(proposed[:*proposedLength], m[proposedAt:])
	}
	wipe(m)
	return answer
}

func Codex32ProposeLong(text []byte, memory int, proposed []byte, proposedLength *uint64) uint32 {
	proposed = some(proposed)
	need := layout(stackCodex32ProposeLong)
	textAt := need.put(len(text))
	memoryAt := need.put(memory + 16)
	proposedAt := need.put(len(proposed))
	proposedLengthAt := need.put(8)
	var small [stackCodex32ProposeLong + 2048]byte
	m := small[:]
	if need > layout(len(small)) {
		if m = onHeap(need); m == nil {
			return noMemory
		}
	}
	copy(m[textAt:], text)
	store64(m, memoryAt, memoryAt+16)
	store64(m, memoryAt+8, uint64(memory))
	answer := of_codex32_propose_long(m, stackCodex32ProposeLong, textAt, uint64(len(text)), memoryAt, proposedAt, uint64(len(proposed)), proposedLengthAt)
	if answer == 0 {
		*proposedLength = load64(m, proposedLengthAt)
	}
	if answer == 0 {
		copy(proposed[:*proposedLength], m[proposedAt:])
	}
	wipe(m)
	return answer
}
