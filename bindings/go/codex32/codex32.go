// Package codex32 splits a secret into shares and recovers it from them, and reads, makes, derives and mends the strings of
// codex32 (BIP-93). It has the package's own errors, as bech32proved has.
//
// Strings and bytes are byte slices, which Wipe fills with zeros. What a call takes for itself is wiped, and so is the stack
// that the library used. The garbage collector may move what you hold: type secrets only on a computer that is offline.
package codex32

import (
	"crypto/rand"
	"errors"

	"bech32proved/internal/codex32c"
)

// SecretIndex is the share index of the secret.
const SecretIndex = 's'

// MaxShares is the most strings of a set, and MaxSplit the most shares that Split makes.
const (
	MaxShares = codex32c.MaxShares
	MaxSplit  = codex32c.MaxSplit
)

// Number is that of a refusal in codex32.h, and an error with its sentence.
type Number uint32

// Error returns the sentence of the refusal.
func (n Number) Error() string { return codex32c.Message(uint32(n)) }

// Refused says why a call refuses what it was given. errors.Is(err, WrongChecksum) and the like tell refusals apart. It holds
// nothing of what was given.
type Refused struct {
	Number Number
}

// Error returns the sentence of the refusal.
func (r *Refused) Error() string { return r.Number.Error() }

// Unwrap returns the number.
func (r *Refused) Unwrap() error { return r.Number }

func refused(number uint32) error {
	if number == 0 {
		return nil
	}
	return &Refused{Number(number)}
}

// Wipe fills bytes with zeros.
func Wipe(bytes []byte) { codex32c.Wipe(bytes) }

// Header is that of a string, with its payload.
type Header struct {
	// Threshold is 0, or from 2 to 9.
	Threshold int
	// Identifier and ShareIndex are in the case of the string.
	Identifier string
	ShareIndex byte
	// Payload is a part of the string that was read, and no copy.
	Payload []byte
}

// Parse reads a string of 48 to 93 characters.
//
// Refusals, the first that applies: NotUtf8, InvalidCharacter, MixedCase, NoSeparator, HrpEmpty, HrpTooLong, HrpNotAscii,
// HrpInvalid, HrpMixedCase, BadLength, NotMs, WrongChecksum, BadThreshold, BadShareIndex.
func Parse(text []byte) (*Header, error) {
	threshold, index, payload, number := codex32c.Parse(text)
	if number != 0 {
		return nil, refused(number)
	}
	identifier := text[codex32c.IdentifierAt : codex32c.IdentifierAt+codex32c.IdentifierLength]
	end := codex32c.PayloadAt + payload
	return &Header{int(threshold), string(identifier), byte(index), text[codex32c.PayloadAt:end:end]}, nil
}

// Share is a string that was read, or the secret at the index SecretIndex.
type Share struct {
	// Threshold is 0, or from 2 to 9.
	Threshold int
	// Identifier and ShareIndex are in lower case.
	Identifier string
	ShareIndex byte
	// Bytes are those of the payload: wipe them when you are done.
	Bytes []byte
}

// ReadShare reads a string of either length, with the bytes of its payload.
//
// Refusals: those of Parse, and then BitsLeftOver.
func ReadShare(text []byte) (*Share, error) {
	threshold, identifier, index, bytes, number := codex32c.Share(text)
	if number != 0 {
		return nil, refused(number)
	}
	return &Share{int(threshold), identifier, byte(index), bytes}, nil
}

// thresholdOf is a threshold as the library takes it: no string has 1, which stands for those out of range.
func thresholdOf(threshold int) uint32 {
	if threshold < 0 || threshold > 9 {
		return 1
	}
	return uint32(threshold)
}

// Encode makes the string of a header and bytes, in lower case. To share a secret, call Split.
//
// Refusals, the first that applies: BadThreshold, BadIdentifier, NoShareIndex, BadShareIndex, BadSize.
func Encode(threshold int, identifier string, shareIndex byte, bytes []byte) ([]byte, error) {
	text, number := codex32c.Encode(thresholdOf(threshold), []byte(identifier), uint32(shareIndex), bytes)
	return text, refused(number)
}

// EncodePayload makes the string of a header and the characters of a payload, in lower case. To share a secret, call Split.
//
// Refusals, the first that applies: BadThreshold, BadIdentifier, NoShareIndex, BadShareIndex; of the payload InvalidCharacter,
// MixedCase, BadSize.
func EncodePayload(threshold int, identifier string, shareIndex byte, payload []byte) ([]byte, error) {
	text, number := codex32c.EncodePayload(thresholdOf(threshold), []byte(identifier), uint32(shareIndex), payload)
	return text, refused(number)
}

// Derive makes the string at an index from others of its set, in lower case: at SecretIndex the secret.
//
// Refusals, the first that applies: BadLengths (more than MaxShares texts), NoShareIndex; of the texts in their order those of
// Parse; then OtherSet, IndexTwice, BadShareIndex, TooFewShares, Contradiction.
func Derive(shareIndex byte, texts ...[]byte) ([]byte, error) {
	text, number := codex32c.Derive(uint32(shareIndex), texts)
	return text, refused(number)
}

// Recover returns the secret of shares of one set. If there are more than the threshold, all are tested; if there are not, a
// share of another secret gives other bytes, unnoticed.
//
// Refusals: those of Derive at SecretIndex, and then BitsLeftOver.
func Recover(texts ...[]byte) ([]byte, error) {
	bytes, number := codex32c.Recover(texts)
	return bytes, refused(number)
}

// Split makes count shares of a secret of 16 to 44 bytes, or of 63 or 64, of which any threshold of them recover it, and
// fewer reveal nothing about it. The random bytes come from crypto/rand; if that fails, Split returns its error and no shares.
//
// The identifier is four characters of the alphabet; if it is empty, it is drawn. Give each split a new one. Shares of two
// splits of one secret with the same identifier are taken for one set, and Recover returns other bytes, without an error. To
// get more shares later, derive them from enough shares (Derive).
//
// Refusals, the first that applies: BadThreshold, BadIdentifier, BadShareIndex (the threshold is 0), BadSize, BadCount,
// EqualRandom (the bytes of crypto/rand are all equal).
func Split(secret []byte, threshold, count int, identifier string) ([][]byte, error) {
	random := make([]byte, 8*(8*codex32c.BytesSize+4)/5)
	defer Wipe(random)
	if _, err := rand.Read(random); err != nil {
		return nil, err
	}
	if identifier == "" {
		drawn := make([]byte, codex32c.IdentifierLength)
		if _, err := rand.Read(drawn); err != nil {
			return nil, err
		}
		for _, element := range drawn {
			identifier += string("qpzry9x8gf2tvdw0s3jn54khce6mua7l"[element%32])
		}
	}
	needed := 0
	if threshold >= 2 && threshold <= 9 {
		needed = (threshold - 1) * ((8*len(secret) + 4) / 5)
	}
	if needed > len(random) {
		needed = len(random)
	}
	return SplitWith(secret, threshold, count, identifier, random[:needed])
}

// SplitWith makes shares by random bytes of yours: (threshold - 1) * ((8 * len(secret) + 4) / 5) of them, for one call alone.
//
// Refusals: those of Split, with BadRandom before EqualRandom: bytes that are all equal were never filled in.
func SplitWith(secret []byte, threshold, count int, identifier string, random []byte) ([][]byte, error) {
	if count < 0 {
		count = 0
	}
	shares, number := codex32c.Split(thresholdOf(threshold), []byte(identifier), secret, random, count)
	return shares, refused(number)
}

// ErrNone is returned where no string is near enough to a damaged one.
var ErrNone = errors.New("codex32: there is no nearest text")

// Propose returns the nearest string to a damaged one, in which each `?` behind the last `1` cannot be read, in lower case:
// twice the number of changed characters, plus the number of unreadable ones, is at most 8. It may not be what was meant:
// show it, and ask. Where there is none, the error is ErrNone.
//
// Refusals, the first that applies: NotUtf8, InvalidCharacter, MixedCase, NoSeparator, HrpEmpty, HrpTooLong, HrpNotAscii,
// HrpInvalid, HrpMixedCase, BadLength, NotMs.
func Propose(text []byte) ([]byte, error) { return proposed(codex32c.Propose(false, text)) }

// ProposeLong is the same for a long string, of 125 to 127 characters.
func ProposeLong(text []byte) ([]byte, error) { return proposed(codex32c.Propose(true, text)) }

func proposed(text []byte, number uint32) ([]byte, error) {
	if number == codex32c.NoNearest {
		return nil, ErrNone
	}
	return text, refused(number)
}
