package segwit

import (
	"bech32proved"
	"bech32proved/internal/bech32c"
)

// Row is what DecodeMany says of a text: why it is no address, or 0, and the address.
type Row struct {
	Number  bech32proved.Number
	Address Address
}

// Addresses is what DecodeColumn says, an item a row: its number, 0 where it is accepted, as CheckColumn has them, or that of
// OtherHrp; its witness version, and the length of the human-readable part, with which it begins, which are 0 where the number
// is not; and its program, which then is null.
type Addresses struct {
	Numbers    []byte
	Versions   []byte
	HRPLengths []byte
	Programs   bech32proved.Column
}

// Texts is what EncodeColumn makes, an item a row: its number, 0 where there is an address, and the address, in lower case, else
// null.
type Texts struct {
	Numbers []byte
	Texts   bech32proved.Column
}

// DecodeColumn reads the addresses of a column. Name the human-readable part of your network: another address then has the
// number OtherHrp. Where it is empty any is accepted, and yours to compare.
//
// Refusals of a human-readable part that is not empty: NotUtf8, HrpTooLong, HrpNotAscii, HrpInvalid, HrpMixedCase.
func DecodeColumn(texts bech32proved.Column, hrp string) (Addresses, error) {
	found, versions, lengths, number := bech32c.SegwitDecodeMany(texts.Laid(), hrp)
	if number != 0 {
		return Addresses{}, &bech32proved.Refused{Number: bech32proved.Number(number), Text: hrp, Place: -1}
	}
	return Addresses{found.Numbers, versions, lengths, bech32proved.MadeColumn(found)}, nil
}

// EncodeColumn makes the addresses of one human-readable part: a witness version, from 0 to 16, and a program for each.
func EncodeColumn(hrp string, versions []byte, programs bech32proved.Column) Texts {
	if len(versions) != programs.Len() {
		panic("segwit: there are not as many versions as programs")
	}
	made := bech32c.SegwitEncodeMany(hrp, versions, programs.Laid())
	return Texts{made.Numbers, bech32proved.MadeColumn(made)}
}

// DecodeMany reads the addresses of a list by one call of the library. Name the human-readable part of your network: another
// address then has the number OtherHrp. Where it is empty any is accepted, and yours to compare. It refuses as DecodeColumn does.
func DecodeMany(texts []string, hrp string) ([]Row, error) {
	found, err := DecodeColumn(bech32proved.ColumnOf(texts), hrp)
	if err != nil {
		return nil, err
	}
	rows := make([]Row, len(texts))
	for at, number := range found.Numbers {
		rows[at].Number = bech32proved.Number(number)
		if program, is := found.Programs.Row(at); is {
			rows[at].Address = Address{texts[at][:found.HRPLengths[at]], int(found.Versions[at]), program}
		}
	}
	return rows, nil
}

// EncodeMany makes the addresses of one human-readable part by one call of the library: a witness version, from 0 to 16, and a
// program for each. Of a row that makes none the text is empty, and the number says why.
func EncodeMany(hrp string, versions []byte, programs [][]byte) (numbers []bech32proved.Number, texts []string) {
	made := EncodeColumn(hrp, versions, bech32proved.ColumnOf(programs))
	numbers, texts = make([]bech32proved.Number, len(programs)), make([]string, len(programs))
	for at := range programs {
		text, _ := made.Texts.Row(at)
		numbers[at], texts[at] = bech32proved.Number(made.Numbers[at]), string(text)
	}
	return numbers, texts
}
