"""Ways to damage a text. Each takes a random generator and a text, and gives a text; some leave it as it was."""

import re
from dataclasses import replace

from form import NotInForm, Operand, read_text, write_text

NUMBER = re.compile(rb"-?[0-9]+")
# what texts are made of, and what stands beside it in ASCII: `/` and `:` beside the digits, `+` and `.` beside `,` and `-`
BYTES = b"019,-\nLEOPF/:+.\t\v\r \x00\xff"
VALUES = (0, 1, 2, 3, 5, 7, 8, 9, 63, 64, 65, 1_024, 1_025, 2**20, 2**20 + 1, 2**31, 2**32, 2**60, 2**62, 2**63 - 1, 2**63, 2**64 - 1, 2**64, -1, -2,
          -(2**31), -(2**62), 1 - 2**63, -(2**63), -(2**63) - 1)


def place(rng, text):
    return rng.randint(0, len(text))


def spliced(text, start, end, put):
    return text[:start] + put + text[end:]


def byte(rng):
    return bytes([rng.choice(BYTES) if rng.random() < 0.8 else rng.randrange(256)])


def changed(rng, text):
    at = place(rng, text)
    return spliced(text, at, at + 1, byte(rng))


def inserted(rng, text):
    at = place(rng, text)
    return spliced(text, at, at, byte(rng))


def deleted(rng, text):
    at = place(rng, text)
    return spliced(text, at, at + 1, b"")


def swapped(rng, text):
    one, two = sorted((place(rng, text), place(rng, text)))
    if rng.random() < 0.5:
        two = one + 1
    return text[:one] + text[two : two + 1] + text[one + 1 : two] + text[one : one + 1] + text[two + 1 :] if one < two else text


def cut_off(rng, text):
    return text[: place(rng, text)]


def lines_of(text):
    return text.splitlines(keepends=True) or [b"\n"]


def line_doubled(rng, text):
    lines = lines_of(text)
    at = rng.randrange(len(lines))
    return b"".join(lines[: at + 1] + lines[at:])


def line_dropped(rng, text):
    lines = lines_of(text)
    del lines[rng.randrange(len(lines))]
    return b"".join(lines)


def lines_swapped(rng, text):
    lines = lines_of(text)
    one, two = rng.randrange(len(lines)), rng.randrange(len(lines))
    lines[one], lines[two] = lines[two], lines[one]
    return b"".join(lines)


def line_emptied(rng, text):
    lines = lines_of(text)
    lines.insert(rng.randint(0, len(lines)), rng.choice((b"\n", b",\n", b"#\n", b" \n")))
    return b"".join(lines)


def carriage_returns(rng, text):
    if rng.random() < 0.5:
        return text.replace(b"\n", b"\r\n")
    return text.replace(b"\n", b"\r\n", 1)


def no_last_end(rng, text):
    return text[:-1]


def behind(rng, text):
    return text + rng.choice((b"\n", b"\x00", b" ", b"Z", text, b"O,8\n", byte(rng) * rng.randint(1, 5)))


def at_number(rewrite):
    """Damage to one of the text's numbers."""

    def damage(rng, text):
        numbers = list(NUMBER.finditer(text))
        if not numbers:
            return text
        found = rng.choice(numbers)
        return spliced(text, found.start(), found.end(), rewrite(rng, found[0]))

    return damage


def signed(rng, number):
    return rng.choice((b"-", b"-", b"+", b"--")) + number


def sign_turned(rng, number):
    return number.removeprefix(b"-") if number.startswith(b"-") else b"-" + number


def leading_zero(rng, number):
    minus = b"-" if number.startswith(b"-") else b""
    return minus + b"0" * rng.randint(1, 20) + number.removeprefix(b"-")


def spaced(rng, number):
    return rng.choice((b" " + number, number + b" ", b"\t" + number, number[:1] + b" " + number[1:]))


def lengthened(rng, number):
    return number + bytes(rng.choice(b"0123456789") for _ in range(rng.choice((1, 1, 1, 2, 3, 10, 18, 300))))


def shortened(rng, number):
    return number[:-1]


def replaced(rng, number):
    return str(rng.choice(VALUES)).encode()


def nudged(rng, number):
    return str(int(number[:25]) + rng.choice((-1, 1))).encode()


def other_notation(rng, number):
    return rng.choice((b"-0", b"0x" + number, number + b".0", number + b"e1", b"1_0", b"", b"-", b"'" + number, "\u0661".encode()))


def field_doubled(rng, number):
    return number + b"," + number


def field_dropped(rng, text):
    numbers = list(re.finditer(rb",-?[0-9]+", text))
    if not numbers:
        return text
    found = rng.choice(numbers)
    return spliced(text, found.start(), found.end(), b"")


def at_layout(rewrite):
    """Another layout in the form, if the text is in the form: a rewriting of its extents and operands."""

    def damage(rng, text):
        try:
            layout = read_text(text)
        except NotInForm:
            return text
        return write_text(rewrite(rng, layout))

    return damage


def of_axes(layout, axes):
    """The layout of these axes of a layout."""
    operands = (Operand(operand.size, tuple(operand.strides[i] for i in axes)) for operand in layout.operands)
    return replace(layout, extents=tuple(layout.extents[i] for i in axes), operands=tuple(operands))


def axes_shuffled(rng, layout):
    axes = list(range(len(layout.extents)))
    rng.shuffle(axes)
    return of_axes(layout, axes)


def axes_repeated(rng, layout):
    return of_axes(layout, list(range(len(layout.extents))) * rng.choice((0, 2, 2, 3, 30)))


def operands_repeated(rng, layout):
    return replace(layout, operands=layout.operands * rng.choice((0, 2, 3, 5)))


def chosen_anew(rng, layout):
    return replace(layout, chosen=rng.choice((None, 0, 1, len(layout.operands) - 1, len(layout.operands), 2**64 - 1, 2**64)))


def letters(rng, text):
    return rng.choice((text.lower(), text.replace(b"P", b"F", 1), text.replace(b"F", b"P", 1), text.replace(b"E", b"O"), text.replace(b",", b", ")))


# damages that mostly leave the form, and damages that mostly keep it
BREAKING = {
    "a byte changed": changed,
    "a byte inserted": inserted,
    "a byte deleted": deleted,
    "bytes swapped": swapped,
    "cut off": cut_off,
    "a line doubled": line_doubled,
    "a line dropped": line_dropped,
    "a line without a letter": line_emptied,
    "CR LF": carriage_returns,
    "no last LF": no_last_end,
    "bytes behind the end": behind,
    "a sign put": at_number(signed),
    "leading zeros": at_number(leading_zero),
    "spaces": at_number(spaced),
    "another notation": at_number(other_notation),
    "a field doubled": at_number(field_doubled),
    "a field dropped": field_dropped,
}
KEEPING = {
    "lines swapped": lines_swapped,
    "other letters": letters,
    "a sign turned": at_number(sign_turned),
    "a number longer": at_number(lengthened),
    "a number shorter": at_number(shortened),
    "a number replaced": at_number(replaced),
    "a number 1 off": at_number(nudged),
    "axes shuffled": at_layout(axes_shuffled),
    "axes repeated": at_layout(axes_repeated),
    "operands repeated": at_layout(operands_repeated),
    "another chosen operand": at_layout(chosen_anew),
}
DAMAGES = BREAKING | KEEPING
