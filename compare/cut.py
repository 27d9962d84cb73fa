"""Which sources end inside a character: the Rust refuses them with all others that are not UTF-8."""

NOT_UTF8, ENDS_INSIDE = 2, 10

# The beginnings of characters, none of them whole. The last byte, which none of them has, tells 64 characters apart.
BEGINNINGS = {whole[:count] for whole in (chr(n).encode() for n in range(0, 0x110000, 64) if not 0xd800 <= n < 0xe000) for count in range(1, len(whole))}

def rest(source):
    """What remains when whole characters are taken off the front."""
    try:
        source.decode()
    except UnicodeDecodeError as error:
        return source[error.start:]
    return b""

def ends_inside(source):
    return rest(source) in BEGINNINGS

def refusal(rust, source):
    """The refusal of a source that the Rust refuses so."""
    return ENDS_INSIDE if rust == NOT_UTF8 and ends_inside(source) else rust

def listing(rust, source):
    """A listing of the oracle, with that refusal."""
    word, given, counts = rust.split(",", 2)
    return f"{word},{refusal(int(given), source)},{counts}"
