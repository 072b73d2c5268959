package bech32proved_test

import (
	"bytes"
	"errors"
	"fmt"
	"strings"
	"testing"

	"bech32proved"
	"bech32proved/descriptor"
	"bech32proved/internal/bech32c"
	"bech32proved/liquid"
	"bech32proved/segwit"
)

func ExampleEncode() {
	text, err := bech32proved.Encode(bech32proved.Bech32m, "abc", bytes.Repeat([]byte{0xab}, 5))
	fmt.Println(text, err)
	// Output: abc14w46h2ata5yucn <nil>
}

func ExampleDecode() {
	hrp, data, err := bech32proved.Decode("abc14w46h2ata5yucn")
	fmt.Printf("%s %x %v\n", hrp, data, err)
	_, _, err = bech32proved.Decode("x1b4n0q5v")
	var refused *bech32proved.Refused
	fmt.Println(errors.As(err, &refused), errors.Is(err, bech32proved.InvalidCharacter), refused.Place)
	fmt.Println(err)
	// Output:
	// abc ababababab <nil>
	// true true 2
	// a character behind the separator may not stand there: character 3, b
}

func ExampleDecodeElements() {
	hrp, elements, err := bech32proved.DecodeElements(bech32proved.Bech32, "a1qpamnt9j")
	fmt.Println(hrp, elements, err)
	// Output: a [0 1] <nil>
}

func ExampleCorrect() {
	mended, err := bech32proved.Correct(bech32proved.Bech32, "A12UEL5Q")
	fmt.Println(mended.Text, mended.Changes[0], err)
	mended, err = bech32proved.Correct(bech32proved.Bech32, "a1?ue?5q", 7)
	fmt.Println(mended.Text, mended.Changes, err)
	// Output:
	// A12UEL5L character 8: Q becomes L <nil>
	// a12uel5l [character 3: ? becomes 2 character 6: ? becomes l character 8: q becomes l] <nil>
}

func ExampleNearest() {
	near, err := bech32proved.Nearest(bech32proved.Bech32, "bc1q?508d6qejxtdg4y5r3zarvaty0c5xw7kv8f3t4", 2)
	fmt.Println(len(near), near[0].Text, err)
	// Output: 1 bc1qw508d6qejxtdg4y5r3zarvary0c5xw7kv8f3t4 <nil>
}

func ExampleNearEdits() {
	near, err := bech32proved.NearEdits(bech32proved.Bech32, "a12uel5")
	fmt.Println(near[0].Text, near[0].Edit, err)
	// Output: a12uel5l character 8: l is put in <nil>
}

func Example_address() {
	address, err := segwit.Decode("BC1QW508D6QEJXTDG4Y5R3ZARVARY0C5XW7KV8F3T4")
	fmt.Println(address.HRP, address.Version, len(address.Program), err)
	meant, err := segwit.Suggest("bc1q?508d6qejxtdg4y5r3zarvaty0c5xw7kv8f3t4", "bc")
	fmt.Println(meant[0].Text, meant[0].Changes, err)
	// Output:
	// BC 0 20 <nil>
	// bc1qw508d6qejxtdg4y5r3zarvary0c5xw7kv8f3t4 [character 5: ? becomes w character 28: t becomes r] <nil>
}

func Example_descriptor() {
	checksum, err := descriptor.Checksum("raw(deadbeef)")
	fmt.Println(checksum, err)
	mended, err := descriptor.Mend("raw(deedbeef)#89f8spxm", 1)
	fmt.Println(mended[0].Text, mended[0], err)
	// Output:
	// 89f8spxm <nil>
	// raw(deadbeef)#89f8spxm character 7: e becomes a <nil>
}

// With two characters changed a descriptor comes out alone, with both places, and what stood and stands there.
func TestTwoChangedCharacters(t *testing.T) {
	right, longer := "raw(deadbeef)#89f8spxm", "wpkh(02f9308a019258c31049344f85f89d5229b531c845836f99b08601f113bce036f9)#8zl0zxma"
	mends := func(right string, first, second int, one, other byte) {
		wrong := []byte(right)
		wrong[first], wrong[second] = one, other
		expected := descriptor.MendedTwice{Text: right, Places: [2]int{first, second}, From: string([]byte{one, other}),
			To: right[first:first+1] + right[second:second+1]}
		if found, err := descriptor.MendTwo(string(wrong)); err != nil || len(found) != 1 || found[0] != expected {
			t.Error(string(wrong), found, err)
		}
	}
	otherThan := func(letter byte) byte {
		if letter == 'x' {
			return 'y'
		}
		return 'x'
	}
	for first := 0; first < len(right); first += 3 {
		for second := first + 1; second < len(right); second += 5 {
			mends(right, first, second, otherThan(right[first]), otherThan(right[second]))
		}
	}
	mends(longer, 0, len(longer)-1, 'W', 'q')
	mends(longer, len(longer)-9, len(longer)-1, ' ', '#')
	mends(right, 5, 6, 0xc3, 0xa9)
	found, _ := descriptor.MendTwo("sawqdeadbeef)#89f8spxm")
	if said := fmt.Sprint(found[0]); said != "characters 1 and 4: s becomes r, q becomes (" {
		t.Error(said)
	}
	for _, text := range []string{right, "xaw(deadbeef)#89f8spxm", "", "#", "raw(deadbeef)"} {
		if found, err := descriptor.MendTwo(text); err != nil || len(found) != 0 {
			t.Error(text, found, err)
		}
	}
	if found, err := descriptor.MendTwo(strings.Repeat("x", 1400)); err != nil || len(found) != 0 {
		t.Error(found, err)
	}
	long := strings.Repeat("x", 1401)
	var refused *bech32proved.Refused
	if _, err := descriptor.MendTwo(long); !errors.As(err, &refused) || !errors.Is(err, bech32proved.DescriptorTooLong) ||
		refused.Number != 89 || refused.Place != -1 || refused.Text != long {
		t.Error(err)
	}
}

// Confidential addresses that are known to be right, as vectors/liquid.py has them.
func TestLiquid(t *testing.T) {
	text := "lq1qqf8er278e6nyvuwtgf39e6ewvdcnjupn9a86rzpx655y5lhkt0walu3djf9cklkxd3ryld97hu8h3xepw7sh2rlu7q45dcew5"
	address, err := liquid.Decode(text)
	if err != nil || address.HRP != "lq" || len(address.Key) != 33 {
		t.Fatal(address, err)
	}
	made, err := liquid.Encode(address.HRP, address.Version, address.Key, address.Program)
	if err != nil || made != text {
		t.Fatal(made, err)
	}
	wrong := strings.Replace(text, "er278", "qr2q8", 1)
	near, err := liquid.Nearest(wrong, 3)
	if err != nil || len(near) != 1 || near[0].Text != text || len(near[0].Changes) != 2 {
		t.Fatal(near, err)
	}
	if near, err = liquid.Nearest(text, 3, 5); err != nil || len(near) == 0 || near[0].Text != text {
		t.Fatal(near, err)
	}
	if _, err = liquid.Nearest(text, 3, 5, 6); !errors.Is(err, bech32proved.BadNumber) {
		t.Fatal(err)
	}
	if near, err = liquid.Nearest(text, 3, 5, 6, 7, 8, 9, 10, 11); err != nil || len(near) != 0 {
		t.Fatal(near, err)
	}
	if _, err := liquid.Encode("lq", 0, nil, address.Program); !errors.Is(err, bech32proved.NoBlindingKey) {
		t.Fatal(err)
	}
}

func decodedMany(t *testing.T, texts []string, hrp string) []segwit.Row {
	rows, err := segwit.DecodeMany(texts, hrp)
	if err != nil {
		t.Fatal(hrp, err)
	}
	return rows
}

func decodedColumn(t *testing.T, texts bech32proved.Column, hrp string) segwit.Addresses {
	found, err := segwit.DecodeColumn(texts, hrp)
	if err != nil {
		t.Fatal(hrp, err)
	}
	return found
}

// A wanted human-readable part that is none is refused, also of a column without rows.
func TestWantedParts(t *testing.T) {
	for hrp, want := range map[string]bech32proved.Number{"\xff": bech32proved.NotUtf8, strings.Repeat("q", 84): bech32proved.HrpTooLong,
		"b\u00e9": bech32proved.HrpNotAscii, " bc": bech32proved.HrpInvalid, "Bc": bech32proved.HrpMixedCase} {
		for _, texts := range [][]string{nil, {"bc1qw508d6qejxtdg4y5r3zarvary0c5xw7kv8f3t4"}} {
			if rows, err := segwit.DecodeMany(texts, hrp); rows != nil || !errors.Is(err, want) {
				t.Error(hrp, rows, err)
			}
		}
	}
}

// The text itself may be of any form, here version 1 with 33 bytes, and a guess may not.
func TestFormsInUse(t *testing.T) {
	other := "bc1paek6qccmuwpjh9cyknjdedcyr06lgvh83edqsvtpmaaahwx2cszk7d0t7tv"
	if found, err := segwit.Suggest(other, "bc"); err != nil || len(found) != 1 || found[0].Text != other {
		t.Error(found, err)
	}
	if found, err := segwit.Suggest(strings.Replace(other, "7tv", "7tw", 1), "bc"); err != nil || len(found) != 0 {
		t.Error(found, err)
	}
}

// Of each text a column says what the call for one text says.
func TestColumns(t *testing.T) {
	texts := []string{"bc1qw508d6qejxtdg4y5r3zarvary0c5xw7kv8f3t4", "BC1SW50QGDZ25J", "bc1pw5dgrnzv", "", "é", "a12uel5l",
		"tb1qrp33g0q5c5txsp9arysrx4k6zdkfs4nce4xj0gdcccefvpysxf3q0sl5k7"}
	for at, row := range decodedMany(t, texts, "") {
		address, err := segwit.Decode(texts[at])
		if err == nil && (row.Number != 0 || row.Address.HRP != address.HRP || row.Address.Version != address.Version ||
			!bytes.Equal(row.Address.Program, address.Program)) {
			t.Error(texts[at], row)
		}
		if err != nil && !errors.Is(err, row.Number) {
			t.Error(texts[at], row, err)
		}
	}
	if rows := decodedMany(t, texts, "bc"); rows[1].Number != 0 || rows[6].Number != bech32proved.OtherHrp {
		t.Error(rows)
	}
	for _, checksum := range []bech32proved.Checksum{bech32proved.Bech32, bech32proved.Bech32m} {
		numbers, err := bech32proved.CheckMany(checksum, texts)
		for at, number := range numbers {
			_, _, refused := bech32proved.Check(checksum, texts[at])
			if err != nil || (refused == nil) != (number == 0) || refused != nil && !errors.Is(refused, number) {
				t.Error(texts[at], number, err)
			}
		}
	}
	if numbers, err := bech32proved.CheckMany(0, []string{"a12uel5l", "a1lqfn3a"}); err != nil || numbers[0]+numbers[1] != 0 {
		t.Error(numbers, err)
	}
	if _, err := bech32proved.CheckMany(9, texts); !errors.Is(err, bech32proved.BadNumber) {
		t.Error(err)
	}
	numbers, made := segwit.EncodeMany("bc", []byte{0, 17}, [][]byte{make([]byte, 20), make([]byte, 32)})
	one, _ := segwit.Encode("bc", 0, make([]byte, 20))
	if numbers[0] != 0 || made[0] != one || numbers[1] != bech32proved.EncodedBadVersion || made[1] != "" {
		t.Error(numbers, made)
	}
	if rows := decodedMany(t, nil, "bc"); len(rows) != 0 {
		t.Error(rows)
	}
}

// A column as Arrow has it, with nulls and any offsets, cut, and what is made of it, which is one again.
func TestColumnsOfArrow(t *testing.T) {
	address, other := "bc1qw508d6qejxtdg4y5r3zarvary0c5xw7kv8f3t4", "BC1SW50QGDZ25J"
	data := []byte(address + other + "x")
	column := bech32proved.Column{Bytes: data, Offsets: []int32{0, 42, 56, 56, 57, -1, 0, 42, 58, 2147483647}, Validity: []byte{0xfb, 0xff}}
	found := decodedColumn(t, column, "bc")
	if !bytes.Equal(found.Numbers, []byte{0, 0, 1, 23, 4, 4, 0, 4, 4}) && !bytes.Equal(found.Numbers, []byte{0, 0, 1, 21, 4, 4, 0, 4, 4}) {
		t.Error(found.Numbers)
	}
	if found.Versions[1] != 16 || found.HRPLengths[0] != 2 || found.Programs.Len() != 9 {
		t.Error(found)
	}
	if program, is := found.Programs.Row(6); !is || len(program) != 20 {
		t.Error(program, is)
	}
	for _, null := range []int{2, 3, 4, 9, -1} {
		if row, is := found.Programs.Row(null); is {
			t.Error(null, row)
		}
	}
	made := segwit.EncodeColumn("bc", found.Versions, found.Programs)
	if text, is := made.Texts.Row(0); !is || string(text) != address {
		t.Error(string(text))
	}
	if again := decodedColumn(t, made.Texts.Slice(1, 7).Slice(0, 2), "bc"); !bytes.Equal(again.Numbers, []byte{0, 1}) {
		t.Error(again)
	}
	large := bech32proved.Column{Bytes: data, LargeOffsets: []int64{0, 42, 1 << 62, -1 << 63, 42, 56}}
	numbers, err := bech32proved.CheckColumn(0, large)
	if err != nil || numbers[0] != 0 || numbers[1] != 4 || numbers[2] != 4 || numbers[3] != 4 || numbers[4] != 0 {
		t.Error(numbers, err)
	}
	short := bech32proved.Column{Bytes: data, Offsets: make([]int32, 18), Validity: []byte{0xff}}
	if numbers, err = bech32proved.CheckColumn(bech32proved.Bech32, short); err != nil || numbers[7] == 4 || numbers[8] != 4 {
		t.Error(numbers, err)
	}
	if _, is := short.Row(8); is || (bech32proved.Column{}).Len() != 0 || len(decodedColumn(t, bech32proved.Column{}, "").Numbers) != 0 {
		t.Error("a row that is none")
	}
	programs := bech32proved.ColumnOf([][]byte{make([]byte, 20), make([]byte, 20), make([]byte, 5000)})
	if made := segwit.EncodeColumn("bc", []byte{17, 200, 1}, programs); !bytes.Equal(made.Numbers, []byte{52, 52, 47}) {
		t.Error(made.Numbers)
	}
	// More rows than are in one call of the library.
	many := make([]string, 140000)
	for at := range many {
		many[at] = other
	}
	all := decodedColumn(t, bech32proved.ColumnOf(many), "bc")
	if row, is := all.Programs.Row(139999); !is || len(row) != 2 || len(all.Programs.Bytes) != 280000 {
		t.Error(row, is)
	}
	for _, rows := range [][2]int{{-1, 0}, {2, 1}, {0, 10}} {
		func() {
			defer func() {
				if recover() == nil {
					t.Error(rows)
				}
			}()
			column.Slice(rows[0], rows[1])
		}()
	}
}

// Each refusal of the table has a sentence of its own.
func TestSentences(t *testing.T) {
	said := map[string]bech32proved.Number{}
	for number := bech32proved.Number(1); number < 100; number++ {
		sentence := number.Error()
		if other, is := said[sentence]; is && sentence != "" {
			t.Errorf("%d and %d say the same", number, other)
		}
		said[sentence] = number
	}
	if len(said) < 34 {
		t.Errorf("only %d sentences", len(said))
	}
}

func TestWhatIsNotGiven(t *testing.T) {
	if _, err := bech32proved.Correct(bech32proved.Bech32, "a12uel5q", 8); err == nil {
		t.Error("a place that the text has not")
	}
	if _, err := bech32proved.Nearest(bech32proved.Bech32, "a12uel5q", -1); !errors.Is(err, bech32proved.BadNumber) {
		t.Error(err)
	}
	if _, err := bech32proved.Nearest(bech32proved.Bech32, "a12uel5q", 3); !errors.Is(err, bech32proved.BadNumber) {
		t.Error(err)
	}
	if _, err := segwit.Encode("bc", -1, make([]byte, 20)); !errors.Is(err, bech32proved.BadNumber) {
		t.Error(err)
	}
	if _, err := segwit.Encode("bc", 17, make([]byte, 20)); !errors.Is(err, bech32proved.EncodedBadVersion) {
		t.Error(err)
	}
	for _, text := range []string{"", "\x80", "1", "a1"} {
		if _, _, err := bech32proved.Decode(text); err == nil {
			t.Errorf("%q is accepted", text)
		}
	}
}

// Texts of up to 7,089 characters by the long checksums, and none longer.
func TestLongTexts(t *testing.T) {
	data := bytes.Repeat([]byte{7}, 4425)
	text, err := bech32proved.Encode(bech32proved.LongBech32, "a", data)
	if err != nil || len(text) != 7088 {
		t.Fatal(len(text), err)
	}
	if _, _, err := bech32proved.Decode(text); !errors.Is(err, bech32proved.TextTooLong) {
		t.Error(err)
	}
	hrp, read, err := bech32proved.DecodeStrict(bech32proved.LongBech32, text)
	if err != nil || hrp != "a" || !bytes.Equal(read, data) {
		t.Error(hrp, len(read), err)
	}
	if _, err := bech32proved.Encode(bech32proved.LongBech32, "a", append(data, 7)); !errors.Is(err, bech32proved.EncodedTooLong) {
		t.Error(err)
	}
}

// Whatever is given: nothing panics, and what is read is written again, in lower case.
func FuzzTexts(f *testing.F) {
	for _, text := range []string{
		"A12UEL5L", "abcdef1qpzry9x8gf2tvdw0s3jn54khce6mua7lmqqqxw", "abcdef1l7aum6echk45nj3s0wdvt2fg8x9yrzpqzd3ryx",
		"BC1QW508D6QEJXTDG4Y5R3ZARVARY0C5XW7KV8F3T4", "x1b4n0q5v", "raw(deadbeef)#89f8spxm", "a1?ue?5q", "é1qq",
	} {
		f.Add(text, 1)
	}
	f.Fuzz(func(t *testing.T, text string, place int) {
		if hrp, data, err := bech32proved.DecodeStrict(bech32proved.Bech32, text); err == nil {
			if made, err := bech32proved.Encode(bech32proved.Bech32, hrp, data); err != nil || made != strings.ToLower(text) {
				t.Errorf("%q is read, and %q written: %v", text, made, err)
			}
		}
		if hrp, elements, err := bech32proved.DecodeElements(bech32proved.Bech32m, text); err == nil {
			made, err := bech32proved.EncodeElements(bech32proved.Bech32m, hrp, elements)
			if err != nil || made != strings.ToLower(text) {
				t.Errorf("%q is read, and %q written: %v", text, made, err)
			}
		}
		if address, err := segwit.Decode(text); err == nil {
			made, err := segwit.Encode(address.HRP, address.Version, address.Program)
			if err != nil || made != strings.ToLower(text) {
				t.Errorf("%q is read, and %q written: %v", text, made, err)
			}
		}
		if mended, err := bech32proved.Correct(bech32proved.Bech32, text, place); err == nil {
			if _, _, err := bech32proved.Check(bech32proved.Bech32, mended.Text); err != nil {
				t.Errorf("%q is mended to %q: %v", text, mended.Text, err)
			}
		}
		if plain, err := descriptor.Check(text); err == nil {
			if checksum, err := descriptor.Checksum(plain); err != nil || plain+"#"+checksum != text {
				t.Errorf("%q has the checksum %q: %v", text, checksum, err)
			}
		}
		var refused *bech32proved.Refused
		if _, _, err := bech32proved.Check(bech32proved.Bech32, text); err != nil && !errors.As(err, &refused) {
			t.Errorf("%q: %v", text, err)
		}
	})
}

// plainDecode decodes a text as most libraries do: a character at a time, by a table and five words of the generator.
func plainDecode(text string) (string, []byte, bool) {
	lower := strings.ToLower(text)
	if lower != text && strings.ToUpper(text) != text || len(text) > bech32c.MaxAddress {
		return "", nil, false
	}
	one := strings.LastIndexByte(lower, '1')
	if one < 1 || one+7 > len(lower) {
		return "", nil, false
	}
	elements := make([]byte, 0, len(lower))
	for _, letter := range []byte(lower[one+1:]) {
		element := strings.IndexByte(bech32proved.Alphabet, letter)
		if element < 0 {
			return "", nil, false
		}
		elements = append(elements, byte(element))
	}
	residue := uint32(1)
	step := func(element byte) {
		top := residue >> 25
		residue = (residue&0x1ffffff)<<5 ^ uint32(element)
		for at, word := range [5]uint32{0x3b6a57b2, 0x26508e6d, 0x1ea119fa, 0x3d4233dd, 0x2a1462b3} {
			if top>>uint(at)&1 == 1 {
				residue ^= word
			}
		}
	}
	for _, letter := range []byte(lower[:one]) {
		step(letter >> 5)
	}
	step(0)
	for _, letter := range []byte(lower[:one]) {
		step(letter & 31)
	}
	for _, element := range elements {
		step(element)
	}
	if residue != 1 {
		return "", nil, false
	}
	var data []byte
	held, bits := uint32(0), uint(0)
	for _, element := range elements[:len(elements)-6] {
		held, bits = held<<5|uint32(element), bits+5
		if bits >= 8 {
			bits -= 8
			data = append(data, byte(held>>bits))
		}
	}
	return lower[:one], data, true
}

const measured = "npub10elfcs4fr0l0r8af98jlmgdh9c8tcxjvz9qkw038js35mp4dma8qzvjptg"

func TestPlainDecode(t *testing.T) {
	hrp, data, _ := bech32proved.Decode(measured)
	plain, bytesOfPlain, is := plainDecode(measured)
	if !is || plain != hrp || !bytes.Equal(data, bytesOfPlain) {
		t.Error(plain, bytesOfPlain)
	}
}

func BenchmarkDecode(b *testing.B) {
	for at := 0; at < b.N; at++ {
		if _, _, err := bech32proved.Decode(measured); err != nil {
			b.Fatal(err)
		}
	}
}

func BenchmarkPlainDecode(b *testing.B) {
	for at := 0; at < b.N; at++ {
		if _, _, is := plainDecode(measured); !is {
			b.Fatal("refused")
		}
	}
}

func BenchmarkSegwitDecode(b *testing.B) {
	for at := 0; at < b.N; at++ {
		if _, err := segwit.Decode("BC1QW508D6QEJXTDG4Y5R3ZARVARY0C5XW7KV8F3T4"); err != nil {
			b.Fatal(err)
		}
	}
}

func BenchmarkCorrect(b *testing.B) {
	for at := 0; at < b.N; at++ {
		if _, err := bech32proved.Correct(bech32proved.Bech32, "bc1qw508d6qejxtdg4y5r3zarvaty0c5xw7kv8f3t4"); err != nil {
			b.Fatal(err)
		}
	}
}
