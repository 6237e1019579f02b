"""Letters of UTF-8 and bytes that are none: well-formed texts in many scripts, and texts that are ill-formed in every way.

Letters are written by Python's encoder; the model (tests/model.py) judges texts by ranges of its own, and nothing here is
taken from it.
"""

# The first and the last code point of each alternative of RFC 3629's letters, and U+FEFF.
LIMITS = [0x0, 0x7F, 0x80, 0x7FF, 0x800, 0xFFF, 0x1000, 0xCFFF, 0xD000, 0xD7FF, 0xE000, 0xFFFF]
LIMITS += [0x10000, 0x3FFFF, 0x40000, 0xFFFFF, 0x100000, 0x10FFFF, 0xFEFF]
LETTERS = [chr(limit).encode() for limit in LIMITS]

# ASCII, Latin letters with accents, Cyrillic, CJK, and letters of four bytes.
SCRIPTS = [(0x20, 0x7E), (0xC0, 0x17F), (0x410, 0x44F), (0x4E00, 0x9FFF), (0x1F300, 0x1F64F)]

# Tails alone; overlong forms; surrogates, one and two; above U+10FFFF; bytes that are in no letter.
NO_LETTERS = ["80", "bf", "c080", "c0af", "c1bf", "e08080", "e09fbf", "f0808080", "f08fbfbf", "eda080", "edbfbf", "eda080edb080"]
NO_LETTERS += ["f4908080", "f4bfbfbf", "f5808080", "f7bfbfbf", "f888808080", "fc8480808080", "fe", "ff"]


def broken():
    """What is ill-formed, and stays so between letters: the above, letters that are cut, and letters with another byte instead
    of a tail."""
    yield from map(bytes.fromhex, NO_LETTERS)
    for letter in LETTERS:
        for k in range(1, len(letter)):
            yield letter[:k]
            for byte in (b"\x7f", b"\xc0"):
                yield letter[:k] + byte + letter[k + 1 :]


BROKEN = sorted(set(broken()))


def text(rng, size):
    """A well-formed text of so many bytes: of one script, or of all, with letters at the limits among them."""
    scripts = rng.choice([SCRIPTS, [rng.choice(SCRIPTS)]])
    made = b""
    while len(made) < size:
        letter = chr(rng.choice(LIMITS) if rng.random() < 0.1 else rng.randint(*rng.choice(scripts))).encode()
        made += letter if len(made) + len(letter) <= size else b"."
    return made


def ill_formed(rng, size):
    """A text of so many bytes or a few more, ill-formed in one place."""
    before = rng.randint(0, size)
    return text(rng, before) + rng.choice(BROKEN) + text(rng, size - before)


def garbage(rng, size):
    """What stands where no text is read: any bytes, or a text, ill-formed or not."""
    return rng.choice([rng.randbytes(size), ill_formed(rng, size), text(rng, size)])


def changed(rng, row):
    """A text of as many bytes that differs in a letter, well-formed if this one is. It is not to be empty."""
    letters = row.decode(errors="surrogateescape")
    k = rng.randrange(len(letters))
    old, size = ord(letters[k]), len(letters[k].encode(errors="surrogateescape"))
    others = [old ^ 1 << bit for bit in range(21)]
    others = [c for c in others if c <= 0x10FFFF and not 0xD800 <= c <= 0xDFFF and len(chr(c).encode()) == size]
    # a byte that is in no letter differs in its last bit
    return (letters[:k] + chr(rng.choice(others or [old ^ 1])) + letters[k + 1 :]).encode(errors="surrogateescape")
