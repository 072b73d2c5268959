// Lines replies to each line of standard input as the programs b32, c32 and mend do, by these packages: lines b32|c32|mend.
package main

import (
	"bufio"
	"encoding/hex"
	"errors"
	"fmt"
	"io"
	"os"
	"strconv"
	"strings"
	"unicode/utf8"

	"bech32proved"
	"bech32proved/codex32"
	"bech32proved/descriptor"
	"bech32proved/liquid"
	"bech32proved/segwit"
)

// lineLimit is how many bytes a line has at most; one of b32 has fewer.
const lineLimit = 16384

// notAnswered is the number of a refusal of the programs.
type notAnswered int

func (n notAnswered) Error() string { return strconv.Itoa(int(n)) }

const (
	lineTooLong notAnswered = 1
	lineNotUTF8 notAnswered = 2
	noCommand   notAnswered = 3
	badWord     notAnswered = 4
	badHex      notAnswered = 5
)

// command takes some words, and says what is put behind "ok", or something else.
type command struct {
	least, most int
	reply       func(words []string) (string, error)
}

func checksumOf(word string) (bech32proved.Checksum, error) {
	switch word {
	case "bech32":
		return bech32proved.Bech32, nil
	case "bech32m":
		return bech32proved.Bech32m, nil
	}
	return 0, noCommand
}

// anyChecksumOf knows the checksums for long texts too.
func anyChecksumOf(word string) (bech32proved.Checksum, error) {
	switch word {
	case "long-bech32":
		return bech32proved.LongBech32, nil
	case "long-bech32m":
		return bech32proved.LongBech32m, nil
	}
	return checksumOf(word)
}

func numberOf(word string, most int) (int, error) {
	number, err := strconv.Atoi(word)
	if err != nil || number > most || strconv.Itoa(number) != word || number < 0 {
		return 0, badWord
	}
	return number, nil
}

// placesOf counts the locations of a word from the front. One that the text has not is refused by the library, so it is left.
func placesOf(word string, text string) (places []int, has bool, err error) {
	has = true
	for _, piece := range strings.Split(word, ",") {
		location, err := numberOf(piece, 1022)
		if err != nil {
			return nil, false, err
		}
		if location >= len(text) {
			has = false
			continue
		}
		places = append(places, len(text)-1-location)
	}
	return places, has, nil
}

func bytesOf(word string) ([]byte, error) {
	if word == "-" {
		return nil, nil
	}
	bytes, err := hex.DecodeString(word)
	if err != nil {
		return nil, badHex
	}
	return bytes, nil
}

func hexOf(bytes []byte) string {
	if len(bytes) == 0 {
		return "-"
	}
	return hex.EncodeToString(bytes)
}

func lowered(hrp string) string { return strings.ToLower(hrp) }

func encode(words []string, by func(bech32proved.Checksum, string, []byte) (string, error)) (string, error) {
	checksum, err := anyChecksumOf(words[0])
	if err != nil {
		return "", err
	}
	data, err := bytesOf(words[2])
	if err != nil {
		return "", err
	}
	text, err := by(checksum, words[1], data)
	return "ok " + text, err
}

func decode(words []string, by func(bech32proved.Checksum, string) (string, []byte, error)) (string, error) {
	checksum, err := anyChecksumOf(words[0])
	if err != nil {
		return "", err
	}
	hrp, data, err := by(checksum, words[1])
	return "ok " + lowered(hrp) + " " + hexOf(data), err
}

// fault replies where a text without `?` is at fault.
func correct(words []string) (string, error) {
	checksum, err := checksumOf(words[0])
	if err != nil {
		return "", err
	}
	var places []int
	var order []int
	has := true
	if len(words) == 3 {
		if places, has, err = placesOf(words[2], words[1]); err != nil {
			return "", err
		}
		order = places
	}
	if hasUnreadable(words[1]) {
		return "", errors.Unwrap(bech32proved.Fault(checksum, words[1]))
	}
	mended, err := bech32proved.Correct(checksum, words[1], places...)
	if err == nil && !has && len(mended.Changes) > 0 {
		return "none", nil
	}
	if errors.Is(err, bech32proved.NoCorrection) {
		return "none", nil
	}
	if err != nil {
		return "", err
	}
	if len(mended.Changes) == 0 {
		return "fine", nil
	}
	left := map[int]bech32proved.Change{}
	for _, change := range mended.Changes {
		left[change.Place] = change
	}
	reply := "ok"
	put := func(place int) {
		if change, is := left[place]; is {
			from := strings.IndexByte(bech32proved.Alphabet, lowered(string(change.From))[0])
			to := strings.IndexByte(bech32proved.Alphabet, lowered(string(change.To))[0])
			reply += fmt.Sprintf(" %d:%c", len(words[1])-1-place, bech32proved.Alphabet[from^to])
			delete(left, place)
		}
	}
	for _, place := range order {
		put(place)
	}
	for place := len(words[1]) - 1; place >= 0; place-- {
		put(place)
	}
	return reply + " " + lowered(mended.Text), nil
}

// Of more near texts than this, as many are listed, the first, and that there are more.
const mostTexts = 1000

func nearest(words []string) (string, error) {
	checksum, err := checksumOf(words[0])
	if err != nil {
		return "", err
	}
	var places []int
	has := true
	if len(words) == 4 {
		if places, has, err = placesOf(words[2], words[1]); err != nil {
			return "", err
		}
	}
	most, err := numberOf(words[len(words)-1], 2)
	if err != nil {
		return "", err
	}
	if refused := bech32proved.Fault(checksum, words[1]); refused != nil && refused.Number != bech32proved.WrongChecksum {
		return "", refused
	}
	if !has {
		return "ok", nil
	}
	near, err := bech32proved.Nearest(checksum, words[1], most, places...)
	reply := []string{"ok"}
	for at, it := range near {
		if at == mostTexts {
			reply = append(reply, "more")
			break
		}
		reply = append(reply, lowered(it.Text))
	}
	return strings.Join(reply, " "), err
}

var done = map[bech32proved.Kind]string{
	bech32proved.Unchanged: "unchanged", bech32proved.Swapped: "swapped", bech32proved.LeftOut: "left-out",
	bech32proved.PutIn: "put-in", bech32proved.Replaced: "replaced",
}

func edits(words []string) (string, error) {
	checksum, err := checksumOf(words[0])
	if err != nil {
		return "", err
	}
	near, err := bech32proved.NearEdits(checksum, words[1])
	reply := "ok"
	for _, it := range near {
		location := len(words[1]) - 1 - it.Edit.Place
		switch it.Edit.Kind {
		case bech32proved.Swapped:
			location--
		case bech32proved.PutIn:
			location++
		}
		reply += fmt.Sprintf(" %s %d %s", done[it.Edit.Kind], location, lowered(it.Text))
	}
	return reply, err
}

func suggest(words []string) (string, error) {
	meant, err := segwit.Suggest(words[1], words[0])
	reply := "ok"
	for _, it := range meant {
		reply += fmt.Sprintf(" %s %d %s", done[it.Kind], it.Place, lowered(it.Text))
	}
	return reply, err
}

// length is what stands in the place of a place where no single character is at fault.
func length(text string, number bech32proved.Number) int {
	switch number {
	case bech32proved.NotUtf8, bech32proved.BadNumber:
		return 0
	case bech32proved.HrpEmpty, bech32proved.HrpTooLong:
		return strings.LastIndexByte(text, '1')
	}
	return len(text)
}

func fault(words []string) (string, error) {
	checksum, err := checksumOf(words[0])
	if err != nil {
		return "", err
	}
	refused := bech32proved.Fault(checksum, words[1])
	if refused == nil {
		return "ok", nil
	}
	place := refused.Place
	if place < 0 {
		place = length(words[1], refused.Number)
	}
	return fmt.Sprintf("err %d %d", refused.Number, place), nil
}

func checksum(words []string) (string, error) {
	_, _, err := bech32proved.Check(bech32proved.Bech32m, words[0])
	if err == nil {
		return "ok bech32m", nil
	}
	if _, _, other := bech32proved.Check(bech32proved.Bech32, words[0]); other == nil {
		return "ok bech32", nil
	}
	return "", err
}

func liquidEncode(words []string) (string, error) {
	version, err := numberOf(words[1], 31)
	if err != nil {
		return "", err
	}
	key, err := bytesOf(words[2])
	if err != nil || len(key) != liquid.KeyLength {
		return "", badHex
	}
	program, err := bytesOf(words[3])
	if err != nil {
		return "", err
	}
	text, err := liquid.Encode(words[0], version, key, program)
	return "ok " + text, err
}

func liquidDecode(words []string) (string, error) {
	address, err := liquid.Decode(words[0])
	return fmt.Sprintf("ok %s %d %s %s", lowered(address.HRP), address.Version, hexOf(address.Key), hexOf(address.Program)), err
}

// hasUnreadable is whether a text has a `?`, which to the programs is a character like others, where it cannot be read.
func hasUnreadable(text string) bool {
	return strings.ContainsRune(text[strings.LastIndexByte(text, '1')+1:], '?') && strings.ContainsRune(text, '1')
}

// isTooMuch reports whether a search for this many errors is refused, given the locations in a word; equal ones count once.
func isTooMuch(word string, errors int) bool {
	different := map[string]bool{}
	for _, piece := range strings.Split(word, ",") {
		different[piece] = true
	}
	return len(different) <= 6 && 2*errors+len(different) > 7
}

func liquidNearest(words []string) (string, error) {
	var places []int
	var err error
	has := true
	if len(words) == 3 {
		if places, has, err = placesOf(words[1], words[0]); err != nil {
			return "", err
		}
	}
	most, err := numberOf(words[len(words)-1], 3)
	if err != nil {
		return "", err
	}
	if len(words) == 3 && isTooMuch(words[1], most) {
		return "", badWord
	}
	if hasUnreadable(words[0]) {
		_, err := liquid.Decode(words[0])
		return "", err
	}
	near, err := liquid.Nearest(words[0], most, places...)
	reply := "ok"
	for _, it := range near {
		if has {
			reply += " " + lowered(it.Text)
		}
	}
	return reply, err
}

func descriptorMend(words []string) (string, error) {
	mended, err := descriptor.Mend(words[0], 1)
	reply := "ok"
	for _, it := range mended {
		kind := done[it.Kind]
		if it.Kind == descriptor.Changed {
			kind = "changed"
		}
		reply += fmt.Sprintf(" %s %d %s", kind, it.Place, it.Text)
	}
	return reply, err
}

// withPlace puts the place of a character that may not stand where it does behind the number.
func withPlace(reply string, err error) (string, error) {
	var refused *bech32proved.Refused
	if errors.As(err, &refused) && refused.Number == bech32proved.NotInDescriptor {
		return fmt.Sprintf("err %d %d", refused.Number, refused.Place), nil
	}
	return reply, err
}

func descriptorCheck(words []string) (string, error) {
	_, err := descriptor.Check(words[0])
	return withPlace("ok", err)
}

func descriptorChecksum(words []string) (string, error) {
	checksum, err := descriptor.Checksum(words[0])
	return withPlace("ok "+checksum, err)
}

var b32 = map[string]command{
	"encode":          {3, 3, func(words []string) (string, error) { return encode(words, bech32proved.Encode) }},
	"encode-elements": {3, 3, func(words []string) (string, error) { return encode(words, bech32proved.EncodeElements) }},
	"decode": {1, 1, func(words []string) (string, error) {
		hrp, data, err := bech32proved.Decode(words[0])
		return "ok " + lowered(hrp) + " " + hexOf(data), err
	}},
	"decode-strict":   {2, 2, func(words []string) (string, error) { return decode(words, bech32proved.DecodeStrict) }},
	"decode-elements": {2, 2, func(words []string) (string, error) { return decode(words, bech32proved.DecodeElements) }},
	"segwit-encode": {3, 3, func(words []string) (string, error) {
		version, err := numberOf(words[1], 31)
		if err != nil {
			return "", err
		}
		program, err := bytesOf(words[2])
		if err != nil {
			return "", err
		}
		text, err := segwit.Encode(words[0], version, program)
		return "ok " + text, err
	}},
	"segwit-decode": {1, 1, func(words []string) (string, error) {
		address, err := segwit.Decode(words[0])
		return fmt.Sprintf("ok %s %d %s", lowered(address.HRP), address.Version, hexOf(address.Program)), err
	}},
	"correct":       {2, 3, correct},
	"liquid-encode": {4, 4, liquidEncode},
	"liquid-decode": {1, 1, liquidDecode},
}

var mend = map[string]command{
	"nearest": {3, 4, nearest}, "edits": {2, 2, edits}, "suggest": {2, 2, suggest}, "fault": {2, 2, fault},
	"checksum": {1, 1, checksum}, "liquid": {2, 3, liquidNearest},
	"descriptor": {1, 1, descriptorMend}, "descriptor-check": {1, 1, descriptorCheck},
	"descriptor-checksum": {1, 1, descriptorChecksum},
}

// takesRest has the commands whose one word is the rest of the line, which may have spaces, or be empty.
var takesRest = map[string]bool{"descriptor": true, "descriptor-check": true, "descriptor-checksum": true}

// thresholdOf is 1, which no string has, where a word is no threshold.
func thresholdOf(word string) int {
	if number, err := numberOf(word, 9); err == nil {
		return number
	}
	return 1
}

func indexOf(word string) byte {
	if len(word) == 1 {
		return word[0]
	}
	return 0
}

func proposed(text []byte, err error) (string, error) {
	if errors.Is(err, codex32.ErrNone) {
		return "none", nil
	}
	return "some " + string(text), err
}

func textsOf(words []string) [][]byte {
	texts := make([][]byte, len(words))
	for at, word := range words {
		texts[at] = []byte(word)
	}
	return texts
}

// refusedMany says why more texts than a set has are refused: the library takes no more.
func refusedMany(index byte, texts [][]byte) error {
	if _, err := codex32.Derive(index, texts[0]); errors.Is(err, codex32.NoShareIndex) {
		return err
	}
	for _, text := range texts {
		if _, err := codex32.Derive(codex32.SecretIndex, text); err != nil && !errors.Is(err, codex32.TooFewShares) {
			return err
		}
	}
	for _, text := range texts {
		if _, err := codex32.Derive(codex32.SecretIndex, texts[0], text); errors.Is(err, codex32.OtherSet) {
			return err
		}
	}
	return codex32.IndexTwice
}

func derived(index byte, texts [][]byte) (string, error) {
	if len(texts) > codex32.MaxShares {
		return "", refusedMany(index, texts)
	}
	text, err := codex32.Derive(index, texts...)
	return "ok " + string(text), err
}

var c32 = map[string]command{
	"parse": {1, 1, func(words []string) (string, error) {
		header, err := codex32.Parse([]byte(words[0]))
		if err != nil {
			return "", err
		}
		return fmt.Sprintf("ok %d %s %c %s", header.Threshold, header.Identifier, header.ShareIndex, header.Payload), nil
	}},
	"share": {1, 1, func(words []string) (string, error) {
		share, err := codex32.ReadShare([]byte(words[0]))
		if err != nil {
			return "", err
		}
		return fmt.Sprintf("ok %d %s %c %x", share.Threshold, share.Identifier, share.ShareIndex, share.Bytes), nil
	}},
	"encode": {4, 4, func(words []string) (string, error) {
		bytes, err := bytesOf(words[3])
		if err != nil {
			return "", err
		}
		text, err := codex32.Encode(thresholdOf(words[0]), words[1], indexOf(words[2]), bytes)
		return "ok " + string(text), err
	}},
	"propose":      {1, 1, func(words []string) (string, error) { return proposed(codex32.Propose([]byte(words[0]))) }},
	"propose-long": {1, 1, func(words []string) (string, error) { return proposed(codex32.ProposeLong([]byte(words[0]))) }},
	"derive":       {2, lineLimit, func(words []string) (string, error) { return derived(indexOf(words[0]), textsOf(words[1:])) }},
	"recover":      {1, lineLimit, func(words []string) (string, error) { return derived(codex32.SecretIndex, textsOf(words)) }},
	"split": {5, 5, func(words []string) (string, error) {
		count, err := numberOf(words[1], 99)
		if err != nil {
			return "", err
		}
		secret, err := bytesOf(words[3])
		if err != nil {
			return "", err
		}
		random, err := bytesOf(words[4])
		if err != nil {
			return "", err
		}
		shares, err := codex32.SplitWith(secret, thresholdOf(words[0]), count, words[2], random)
		reply := "ok"
		for _, share := range shares {
			reply += " " + string(share)
		}
		return reply, err
	}},
}

// program is the commands of a program, and the bytes that a line of it has at most.
type program struct {
	commands  map[string]command
	lineLimit int
}

var programs = map[string]program{"b32": {b32, 4096}, "c32": {c32, lineLimit}, "mend": {mend, lineLimit}}

func reply(it program, line string) (string, error) {
	if len(line) > it.lineLimit {
		return "", lineTooLong
	}
	if !utf8.ValidString(line) {
		return "", lineNotUTF8
	}
	words := strings.Split(line, " ")
	if takesRest[words[0]] {
		words = strings.SplitN(line, " ", 2)
	} else {
		for _, word := range words {
			if word == "" {
				return "", noCommand
			}
		}
	}
	asked, is := it.commands[words[0]]
	if count := len(words) - 1; !is || count < asked.least || count > asked.most {
		return "", noCommand
	}
	return asked.reply(words[1:])
}

// numbered is the number of a refusal.
func numbered(err error) string {
	var ours notAnswered
	var number bech32proved.Number
	var secret codex32.Number
	switch {
	case errors.As(err, &ours):
		return ours.Error()
	case errors.As(err, &number):
		return strconv.Itoa(int(number))
	case errors.As(err, &secret):
		return strconv.Itoa(int(secret))
	}
	return err.Error()
}

func run(it program, in io.Reader, out io.Writer) error {
	lines, replies := bufio.NewReaderSize(in, 1<<16), bufio.NewWriter(out)
	for {
		line, err := lines.ReadString('\n')
		if err != nil && line == "" {
			return replies.Flush()
		}
		said, refused := reply(it, strings.TrimSuffix(line, "\n"))
		if refused != nil {
			said = "err " + numbered(refused)
		}
		if _, err := fmt.Fprintln(replies, said); err != nil {
			return err
		}
	}
}

func main() {
	if len(os.Args) != 2 || programs[os.Args[1]].commands == nil {
		fmt.Fprintln(os.Stderr, "usage: lines b32|c32|mend, with commands on standard input")
		os.Exit(2)
	}
	if err := run(programs[os.Args[1]], os.Stdin, os.Stdout); err != nil {
		fmt.Fprintf(os.Stderr, "%s: %v\n", os.Args[1], err)
		os.Exit(1)
	}
}
