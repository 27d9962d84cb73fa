"""What the Rust is asked about a source with vertical tabs (byte 11): they are blanks, and it takes them for none."""
import random

VERTICAL_TAB, TAB = b"\x0b", b"\t"

def asked(call, source):
    """The source with a tab, which the Rust takes for a blank, in place of each vertical tab; unescaping, in which no blank has a part, is asked as it is."""
    return source if call == "unescape" else source.replace(VERTICAL_TAB, TAB)

def holds(source):
    return VERTICAL_TAB in source

def put(source):
    """The source with vertical tabs: in place of some blanks, beside some, and anywhere."""
    def blank(byte):
        return random.choice((VERTICAL_TAB, VERTICAL_TAB + byte, byte + VERTICAL_TAB, byte))
    found = b"".join(blank(byte) if byte in (b" ", b"\t", b"\x0c") else byte for byte in (source[i:i + 1] for i in range(len(source))))
    if holds(found) and random.random() < 0.7:
        return found
    at = random.randrange(len(found) + 1)
    return found[:at] + VERTICAL_TAB * random.choice((1, 1, 2)) + found[at:]
