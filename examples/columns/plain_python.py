"""Segwit addresses in plain Python, as BIP-173 and BIP-350 write it down: for comparison."""

ALPHABET = "qpzry9x8gf2tvdw0s3jn54khce6mua7l"
GENERATOR = (0x3B6A57B2, 0x26508E6D, 0x1EA119FA, 0x3D4233DD, 0x2A1462B3)


def residue(values):
    found = 1
    for value in values:
        top = found >> 25
        found = (found & 0x1FFFFFF) << 5 ^ value
        for i in range(5):
            found ^= GENERATOR[i] if top >> i & 1 else 0
    return found


def regrouped(values):
    """Bytes of values of five bits, or None where padding is left that is no padding."""
    held = bits = 0
    found = []
    for value in values:
        held = (held << 5 | value) & 0xFFF
        bits += 5
        while bits >= 8:
            bits -= 8
            found.append(held >> bits & 0xFF)
    return None if bits >= 5 or held << 8 - bits & 0xFF else bytes(found)


def decode(hrp, text):
    """The version and the program of an address of this part, in lower case, or None."""
    lower = text.lower()
    if any(not 33 <= ord(it) <= 126 for it in text) or text not in (lower, text.upper()) or len(text) > 90:
        return None
    at = lower.rfind("1")
    if at < 1 or at + 7 > len(text) or lower[:at] != hrp or not all(it in ALPHABET for it in lower[at + 1 :]):
        return None
    values = [ALPHABET.find(it) for it in lower[at + 1 :]]
    found = residue([ord(it) >> 5 for it in hrp] + [0] + [ord(it) & 31 for it in hrp] + values)
    program = regrouped(values[1:-6])
    if len(values) < 7 or values[0] > 16 or program is None or not 2 <= len(program) <= 40:
        return None
    if values[0] == 0 and len(program) not in (20, 32) or found != (1 if values[0] == 0 else 0x2BC830A3):
        return None
    return values[0], program


def count(texts):
    """How many are addresses of Bitcoin."""
    return sum(decode("bc", text) is not None for text in texts)
