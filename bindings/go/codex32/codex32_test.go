package codex32_test

import (
	"bytes"
	"errors"
	"fmt"
	"testing"

	"bech32proved/codex32"
)

func ExampleSplit() {
	secret := bytes.Repeat([]byte{0xab}, 16)
	shares, err := codex32.Split(secret, 2, 3, "test")
	fmt.Println(len(shares), len(shares[0]), err)
	found, err := codex32.Recover(shares[2], shares[0])
	fmt.Println(bytes.Equal(found, secret), err)
	_, err = codex32.Recover(shares[1])
	fmt.Println(errors.Is(err, codex32.TooFewShares), err)
	// Output:
	// 3 48 <nil>
	// true <nil>
	// true there are fewer shares than the threshold
}

// The example of BIP-93 for a secret that is not shared.
func ExampleReadShare() {
	share, err := codex32.ReadShare([]byte("ms10testsxxxxxxxxxxxxxxxxxxxxxxxxxx4nzvca9cmczlw"))
	fmt.Printf("%d %s %c %x %v\n", share.Threshold, share.Identifier, share.ShareIndex, share.Bytes, err)
	// Output: 0 test s 318c6318c6318c6318c6318c6318c631 <nil>
}

func ExamplePropose() {
	proposed, err := codex32.Propose([]byte("ms10testsxx?xxxxxxxxxxxqxxxxxxxxxxx4nzvca9cmczlw"))
	fmt.Println(string(proposed), err)
	_, err = codex32.Propose([]byte("ms10testsqqqqqqqqqqqqqqqqqqqqqqqqqx4nzvca9cmczlw"))
	fmt.Println(errors.Is(err, codex32.ErrNone))
	// Output:
	// ms10testsxxxxxxxxxxxxxxxxxxxxxxxxxx4nzvca9cmczlw <nil>
	// true
}

// Every size of a secret, threshold and number of shares: any of the shares recover it.
func TestSplit(t *testing.T) {
	for size := 0; size <= 65; size++ {
		secret := bytes.Repeat([]byte{byte(size)}, size)
		for threshold := 0; threshold <= 10; threshold++ {
			shares, err := codex32.Split(secret, threshold, 10, "")
			is := (size >= 16 && size <= 44 || size == 63 || size == 64) && threshold >= 2 && threshold <= 9
			if is != (err == nil) {
				t.Fatal(size, threshold, err)
			}
			if !is {
				continue
			}
			found, err := codex32.Recover(shares[10-threshold:]...)
			if err != nil || !bytes.Equal(found, secret) {
				t.Fatal(size, threshold, err)
			}
		}
	}
}

func TestRefusals(t *testing.T) {
	secret := make([]byte, 16)
	if _, err := codex32.SplitWith(secret, 2, 3, "test", make([]byte, 25)); !errors.Is(err, codex32.BadRandom) {
		t.Error(err)
	}
	if _, err := codex32.SplitWith(secret, 2, 3, "test", make([]byte, 26)); !errors.Is(err, codex32.EqualRandom) {
		t.Error(err)
	}
	if _, err := codex32.SplitWith(secret, 2, 3, "test", append(make([]byte, 25), 1)); err != nil {
		t.Error(err)
	}
	if _, err := codex32.Split(secret, 2, 32, "test"); !errors.Is(err, codex32.BadCount) {
		t.Error(err)
	}
	if _, err := codex32.Split(secret, 2, -1, "test"); !errors.Is(err, codex32.BadCount) {
		t.Error(err)
	}
	if _, err := codex32.Recover(); err == nil {
		t.Error("nothing is recovered of nothing")
	}
	var refused *codex32.Refused
	if _, err := codex32.ReadShare(nil); !errors.As(err, &refused) || refused.Number == 0 {
		t.Error(err)
	}
	header, err := codex32.Parse([]byte("ms10testsxxxxxxxxxxxxxxxxxxxxxxxxxx4nzvca9cmczlw"))
	if err != nil || header.Identifier != "test" || header.ShareIndex != 's' || len(header.Payload) != 26 {
		t.Error(header, err)
	}
	wiped := []byte{1, 2}
	codex32.Wipe(wiped)
	if !bytes.Equal(wiped, []byte{0, 0}) {
		t.Error(wiped)
	}
}

func FuzzStrings(f *testing.F) {
	f.Add([]byte("ms10testsxxxxxxxxxxxxxxxxxxxxxxxxxx4nzvca9cmczlw"), byte('a'))
	f.Add([]byte("MS12NAMEA320ZYXWVUTSRQPNMLKJHGFEDCAXRPP870HKKQRM"), byte('S'))
	f.Fuzz(func(t *testing.T, text []byte, index byte) {
		if share, err := codex32.ReadShare(text); err == nil {
			if _, err := codex32.Encode(share.Threshold, share.Identifier, share.ShareIndex, share.Bytes); err != nil {
				t.Error(err)
			}
		}
		if proposed, err := codex32.Propose(text); err == nil {
			if _, err := codex32.Propose(proposed); err != nil {
				t.Error(err)
			}
		}
		_, _ = codex32.Derive(index, text)
		_, _ = codex32.Recover(text, text)
	})
}
