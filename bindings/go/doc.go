// Package bech32proved writes, reads and mends texts of Bech32 (BIP-173) and Bech32m (BIP-350). Addresses are in the
// package segwit, confidential addresses of Liquid in liquid, checksums of output descriptors (BIP-380) in descriptor,
// and shares of a secret (BIP-93) in codex32.
//
// The work is done by C functions, each of which is proved to do what its header says of every input; what is proved is
// the library, and these packages are tested. They want a C compiler, and nothing else.
//
// What is refused is a *Refused, with the number of the refusal, and the place of the character at fault, where a single
// one is. errors.Is tells refusals apart:
//
//	_, _, err := bech32proved.Decode(text)
//	if errors.Is(err, bech32proved.WrongChecksum) { … }
//
// Places are those of bytes, from 0 at the front of a text; people count from 1, as what is printed does. All functions may
// be called from any number of goroutines.
package bech32proved
