"""Compares what the extension says of texts with the model, vectors/model.py: against_model.py TOP <ROWS

A row is a line with tabs: the text in hexadecimal, segwit_number, the parts that are joined by spaces, and bech32_number. Prints how many
rows the model has otherwise, and how many are addresses; the first others go to standard error. Takes all processors.
"""
import itertools
import multiprocessing
import sys

sys.path.insert(0, sys.argv[1] + "/vectors")
import model  # noqa: E402

divided = model.remainder
latest = [None, None]


def remainder(code, coefficients):
    """The model's, which is made once for each text: Bech32 and Bech32m have one generator."""
    if latest[0] != (code.generator, coefficients):
        latest[:] = (code.generator, coefficients), divided(code, coefficients)
    return latest[1]


model.remainder = remainder


def of_address(text):
    try:
        hrp, version, program = model.segwit_decode(text)
    except model.Refusal as refusal:
        return str(refusal.number), ""
    return "0", f"{hrp.lower()} {version} {program.hex()}"


def of_text(text):
    for code in (model.BECH32M, model.BECH32):
        try:
            model.test_checksum(code, text)
            return "0"
        except model.Refusal as refusal:
            number = str(refusal.number)
    return number


def compared(line):
    """Whether it is an address, and the line if the model has it otherwise."""
    words = line.rstrip("\n").split("\t")
    try:
        text = bytes.fromhex(words[0]).decode()
        expected = [*of_address(text), of_text(text)]
    except UnicodeDecodeError:
        expected = ["2", "", "2"]
    return words[1] == "0", "" if words[1:] == expected else f"{line.rstrip()}: {expected}"


def main():
    others = addresses = 0
    with multiprocessing.Pool() as pool:
        while lines := list(itertools.islice(sys.stdin, 100_000)):
            for is_address, other in pool.imap(compared, lines, chunksize=1000):
                addresses += is_address
                others += other != ""
                if other and others <= 10:
                    print(other, file=sys.stderr)
    print(f"{others} others, {addresses} addresses")


if __name__ == "__main__":
    main()
