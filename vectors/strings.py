"""A model of c32's replies about strings: `parse`, `share`, `encode`, `derive` and `recover`, by the rules of BIP-93 by cases.

    strings.py check LINES REPLIES    prints where the model's reply to one of these commands is another
    strings.py known                  lines of BIP-93's strings, a line of each size, and refusals: a line, a tab, and the reply

The grammar, remainders and bits are those of model.py, the values of polynomials those of shares.py. Nothing is shared with
the library.
"""

import sys
from pathlib import Path

import model
from damaged import is_near
from model import CODEX32, Refusal, VALUE
from shares import LENGTHS, LONG_CODEX32, SIZES, THRESHOLDS, bytes_of, code_of, elements_of_bytes, given, with_checksum

# The strings of BIP-93: a secret alone; two shares, one that they give, and their secret; one of another set; a long secret.
ALONE = "ms10testsxxxxxxxxxxxxxxxxxxxxxxxxxx4nzvca9cmczlw"
A = "MS12NAMEA320ZYXWVUTSRQPNMLKJHGFEDCAXRPP870HKKQRM"
C = "MS12NAMECACDEFGHJKLMNPQRSTUVWXYZ023FTR2GDZMPY6PN"
D = "ms12namedll4f8jlh4e5vdvuldlfxu2jhdnlsm97xvenrxeg"
SECRET = "ms12names6xqguzttxkeqnjsjzv4jv3nz5k3kwgsphuh6evw"
OTHER = "ms13cashd0wsedstcdcts64cd7wvy4m90lm28w4ffupqs7rm"
LONG = ("ms100c8vsm32zxfguhpchtlupzry9x8gf2tvdw0s3jn54khce6mua7lqpzygsfjd6an074rxvcemlh8wu3tk925acdefghjklmnpqrstuvwxy06fh"
        "pv80undvarhrak")
BYTES = "d1808e096b35b209ca12132b264662a5"

# The shares of a secret of 17 bytes, as another program made them: any three of the five give it back.
FIVE = [f"ms13cash{it}" for it in ("ats46lyfwncaz8v3kmq9205e7rgdjsr3djsvtycwrj", "chupxts46lyfwncaz8v3kmq9205e7tv2pxcwu8c9n3",
                                   "da45p28eepycj8xe70em750f0ngrdsqaar9mkykxm2", "engwvz8sterlssc86m9h2gnq63wqkrnqlktsydzdvl",
                                   "f9d0hhyqutl6qsj0j0uf7ngstpwwfrsv0878edv958")]
OF_FIVE = "ms13cashsqqqsyqcyq5rqwzqfpg9scrgwpugqpka0zlzem56r7"


# --- strings ---

def payload_of(text):
    """The characters between the header and the checksum."""
    return text[9:len(text) - len(code_of(len(text)).generator)]


def test_string(text, lengths):
    """Refuses what is no string of one of these lengths, by its first fault."""
    hrp, elements = model.parts(text)
    if len(text) not in lengths:
        raise Refusal(82)
    if hrp.lower() != "ms":
        raise Refusal(81)
    if not model.leaves_target(code_of(len(text)), hrp, elements):
        raise Refusal(33)
    if text[3] not in THRESHOLDS:
        raise Refusal(83)
    if text[3] == "0" and text[8].lower() != "s":
        raise Refusal(84)


def parse(text):
    test_string(text, range(48, 94))
    return f"{text[3]} {text[4:8]} {text[8]} {payload_of(text)}"


def share(text):
    test_string(text, LENGTHS)
    data, left = model.to_bytes([VALUE[it] for it in payload_of(text)])
    if len(left) > 4:
        raise Refusal(87)
    return f"{text[3]} {text[4:8].lower()} {text[8].lower()} {data.hex()}"


def encode(threshold, identifier, index, word):
    data = bytes_of(word)
    if len(threshold) != 1 or threshold not in THRESHOLDS:
        raise Refusal(83)
    if len(identifier) != 4 or not set(identifier) <= set(VALUE) or model.has_both_cases(identifier):
        raise Refusal(85)
    if index not in VALUE:
        raise Refusal(86)
    if threshold == "0" and index.lower() != "s":
        raise Refusal(84)
    if len(data) not in SIZES:
        raise Refusal(56)
    front = [VALUE[it] for it in threshold + identifier + index] + elements_of_bytes(data)
    return with_checksum(CODEX32 if len(data) <= 44 else LONG_CODEX32, front)


def derive(index, *texts):
    if index not in VALUE:
        raise Refusal(86)
    for text in texts:
        test_string(text, LENGTHS)
    lower = [text.lower() for text in texts]
    if len({(text[3:8], len(text)) for text in lower}) > 1:
        raise Refusal(75)
    if len({text[8] for text in lower}) < len(lower):
        raise Refusal(76)
    threshold = int(lower[0][3])
    if threshold == 0 and index.lower() != "s":
        raise Refusal(84)
    if len(lower) < threshold:
        raise Refusal(74)
    text = given(lower, max(threshold, 1), VALUE[index])
    if text is None:
        raise Refusal(77)
    return text


CALLS = {"parse": (parse, [1]), "share": (share, [1]), "encode": (encode, [4]), "derive": (derive, range(2, 1 << 14)),
         "recover": (lambda *texts: derive("s", *texts), range(1, 1 << 14))}


def reply(line):
    """The reply to a line of one of these commands, of words that are not empty and as many as it takes."""
    command, *words = line.split(" ")
    call, counts = CALLS[command]
    if len(words) not in counts or "" in words:
        return "err 3"
    try:
        return f"ok {call(*words)}"
    except Refusal as refusal:
        return f"err {refusal.number}"


# --- lines ---

def of_shares():
    """What two of four strings give, which is one of them again; any three of five; and sets that are refused."""
    for first, second in ((A, C), (A, D), (C, D), (D, A), (SECRET, D)):
        yield from (f"derive {index} {first} {second}" for index in "acDs")
    for places in ((0, 1, 2), (0, 1, 3), (0, 1, 4), (0, 2, 3), (0, 2, 4), (0, 3, 4), (1, 2, 3), (1, 2, 4), (1, 3, 4), (2, 3, 4)):
        yield " ".join(["recover", *(FIVE[place] for place in places)])
    for texts in ((A, C, D), (A, C, OTHER), (A, C, A), (ALONE, ALONE, ALONE), (ALONE,), (A,)):
        yield " ".join(["recover", *texts])
    yield f"derive a {ALONE}"


def of_headers():
    for words in ("2 name s", "0 NAME S", "1 nam b", "22 name s", "0 nAme bb", "0 names a", "0 name b", "0 name a"):
        yield f"encode {words} {BYTES}"


def of_sizes():
    """A string of each number of bytes, and what is none."""
    data = "dc5423251cb87175ff8110c8531d0952d8d73e1194e95b5f19d6f9df7c01111104c9baecdfea8cccc677fb9ddc8aec5553b86e528bcadfdcc201c17c638c47e9"
    for size in range(15, 66):
        yield f"encode 2 name s {(data * 2)[:2 * size]}"
    yield "encode 2 name s -"


# Damaged strings, each with what it was.
DAMAGED = [("propose MS12NAMEA320ZYXWVUTQRQPNMLK?HGF?DCAXRPP870HKKQQM", A), (f"propose-long {LONG.replace('zxfg', 'z??p')}", LONG),
           (f"propose-long {LONG}", LONG)]


def known():
    for line in [*of_shares(), f"share {SECRET}", f"share {LONG}", *of_headers(), *of_sizes()]:
        print(f"{line}\t{reply(line)}")
    for line, text in DAMAGED:
        command, damaged = line.split(" ")
        assert is_near(LONG_CODEX32 if command == "propose-long" else CODEX32, damaged, text.lower())
        print(f"{line}\tsome {text.lower()}")
    assert reply(f"recover {' '.join(FIVE[:3])}") == f"ok {OF_FIVE}"
    return 0


def check(lines, replies):
    pairs = list(zip(Path(lines).read_text("latin-1").split("\n"), Path(replies).read_text().split("\n")))
    asked = [(line, want) for line, want in pairs if line.split(" ")[0] in CALLS and want != "err 1" and line.isascii()]
    wrong = [(line, want) for line, want in asked if reply(line) != want]
    for line, want in wrong:
        print(f"{line}: {reply(line)}, not {want}")
    print(f"{len(asked)} lines, {len(wrong)} of which differ")
    return 1 if wrong else 0


def main(words):
    if len(words) == 3 and words[0] == "check":
        return check(*words[1:])
    if words == ["known"]:
        return known()
    return __doc__.strip()


if __name__ == "__main__":
    sys.exit(main(sys.argv[1:]))
