"""Replies to each line of standard input, as the programs b32, c32 and mend do.

    python -m bech32_proved [b32|c32|mend]

All lines of these programs are answered, by the functions of the package, and their replies are the same; `err NUMBER`
says why a line is refused, by the numbers of `bech32_proved.errors`, and 1 to 5 (the line has more than 4,096 bytes, or
16,384 in c32 and mend; is not UTF-8; no such command or checksum, wrong number of words, or a space too many; a word is no number, version or list of
locations; a word is not hexadecimal digits, or no blinding key) and 91 (out of memory). Locations are counted from the end
of a text, and 0 is its last character. What is proved is the library; this is tested.

Lines to b32, which answers without a name too, each with its reply:

    encode bech32 a -
        ok a12uel5l
    decode a12uel5l
        ok a -
    decode-strict bech32 a1qqqd87cq
        ok a 00
    decode-elements bech32 a1qpamnt9j
        ok a 0001
    encode-elements bech32 a 0001
        ok a1qpamnt9j
    segwit-encode bc 16 751e
        ok bc1sw50qgdz25j
    segwit-decode bc1sw50qgdz25j
        ok bc 16 751e
    correct bech32 a12uel5q
        ok 0:l a12uel5l
    correct bech32 a12uqqql 1,2,3
        ok 1:5 2:l 3:e a12uel5l
    decode-strict long-bech32m a1lqfn3a
        ok a -
    liquid-decode lq1qqf8er278e6nyvuwtgf39e6ewvdcnjupn9a86rzpx655y5lhkt0walu3djf9cklkxd3ryld97hu8h3xepw7sh2rlu7q45dcew5
        ok lq 0 024f91abc7cea64671cb42625ceb2e63713970332f4fa18826d5284a7ef65bdddf f22d924b8b7ec66c464fb4bebf0f789b2177a175
    liquid-encode lq 0 024f91abc7cea64671cb42625ceb2e63713970332f4fa18826d5284a7ef65bdddf f22d924b8b7ec66c464fb4bebf0f789b2177a175
        ok lq1qqf8er278e6nyvuwtgf39e6ewvdcnjupn9a86rzpx655y5lhkt0walu3djf9cklkxd3ryld97hu8h3xepw7sh2rlu7q45dcew5

Lines to c32. Nothing of them is wiped, and whoever sees them has what is secret:

    parse ms10testsxxxxxxxxxxxxxxxxxxxxxxxxxx4nzvca9cmczlw
        ok 0 test s xxxxxxxxxxxxxxxxxxxxxxxxxx
    propose ms1?testsxxxxxxxxxxxxxxxxxxxxxxxxxx4nzvca9cmcz?w
        some ms10testsxxxxxxxxxxxxxxxxxxxxxxxxxx4nzvca9cmczlw
    propose-long ms1
        err 82
    share ms12namea320zyxwvutsrqpnmlkjhgfedcaxrpp870hkkqrm
        ok 2 name a 8a9e2219cce2e030067bfda574272dc7
    encode 2 test a 318c6318c6318c6318c6318c6318c631
        ok ms12testaxxxxxxxxxxxxxxxxxxxxxxxxxyd4umcz4ujtgxy
    derive d ms12namea320zyxwvutsrqpnmlkjhgfedcaxrpp870hkkqrm ms12namecacdefghjklmnpqrstuvwxyz023ftr2gdzmpy6pn
        ok ms12namedll4f8jlh4e5vdvuldlfxu2jhdnlsm97xvenrxeg
    recover ms12namea320zyxwvutsrqpnmlkjhgfedcaxrpp870hkkqrm ms12namecacdefghjklmnpqrstuvwxyz023ftr2gdzmpy6pn
        ok ms12names6xqguzttxkeqnjsjzv4jv3nz5k3kwgsphuh6evw
    split 2 3 test d1808e096b35b209ca12132b264662a5 3dd392cc02d0b240df956e5306318332acfb903db2fa703193d2
        ok ms12testaanjvzsjql4wnx3rjvmsaj6s3nj23sq6nhm8sypn ms12testcrmyzxxgv99pjwpzje5flkkqsdmlal8uyezkl7pw ms12testdxq6clc5we6h747wjnzp805lugv4lf2akr29fzpl

Lines to mend:

    nearest bech32 a12uxl5q 2
        ok a12uel5l
    nearest bech32 a12uqq5l 2,3 0
        ok a12uel5l
    edits bech32 a12uel5
        ok put-in 0 a12uel5l
    suggest bc bc1qw508d6qejxtdg4y5r3zarvary0c5xw7kv8f3t?
        ok replaced 41 bc1qw508d6qejxtdg4y5r3zarvary0c5xw7kv8f3t4
    fault bech32 a12uelbl
        err 21 6
    checksum a12uel5l
        ok bech32
    liquid lq1qqf8er278e6nyvuwtgf39e6ewvdcnjupn9a86rzpx655y5lhkt0walu3djf9cklkxd3ryld97hu8h3xepw7sh2rlu7q45dcew6 1
        ok lq1qqf8er278e6nyvuwtgf39e6ewvdcnjupn9a86rzpx655y5lhkt0walu3djf9cklkxd3ryld97hu8h3xepw7sh2rlu7q45dcew5

And of descriptors, each the rest of its line, with the place in bytes from 0. One may hold private keys: nothing is wiped.

    descriptor raw(deedbeef)#89f8spxm
        ok changed 6 raw(deadbeef)#89f8spxm
    descriptor-check raw(deadbeef)#89f8spxm
        ok
    descriptor-checksum raw(deadbeef)
        ok 89f8spxm
"""

import os
import sys
from typing import List, Optional

from ._lines import LINE_LIMITS, PROGRAMS, reply

# So much is read at once.
_READ_SIZE = 65536


def _write(written: str) -> None:
    rest = written.encode("ascii")
    while rest:
        rest = rest[os.write(sys.stdout.fileno(), rest) :]


def _read() -> bytes:
    return os.read(sys.stdin.fileno(), _READ_SIZE)


def _run(program: str) -> Optional[str]:
    # Replies to all lines, those that have ended before more are read. Returns what failed, or nothing.
    line = b""
    while True:
        try:
            got = _read()
        except OSError:
            return "reading failed"
        *ended, line = (line + got).split(b"\n") if got else [line, b""]
        # One byte more than a line may have shows that it is too long.
        line = line[: LINE_LIMITS[program] + 1]
        try:
            if got or ended != [b""]:
                _write("".join(f"{reply(program, it)}\n" for it in ended))
        except OSError:
            return "writing failed"
        if not got:
            return None


def main(words: List[str]) -> int:
    """Replies to the lines of standard input, and returns the status of the program."""
    if "--help" in words:
        print(__doc__.strip())
        return 0
    program = "".join(words) or "b32"
    if len(words) > 1 or program not in PROGRAMS:
        print("usage: python -m bech32_proved [b32|c32|mend], with lines on standard input, or --help", file=sys.stderr)
        return 2
    try:
        failed = _run(program)
    except KeyboardInterrupt:
        return 130
    if failed is not None:
        print(f"{program}: {failed}", file=sys.stderr)
    return 0 if failed is None else 1


if __name__ == "__main__":
    sys.exit(main(sys.argv[1:]))
