"""Files that are spoiled by changes that are drawn: a byte, a word or a line is another one, or is left out, doubled or moved."""

ODD_BYTES = [b"\0", b"\r", b"\n", b" ", b"\t", b"#", b":", b".", b"-", b"0", b"1", b"9", b"\x7f", b"\xff"]
ODD_WORDS = [b"0", b"1", b"2", b"01", b"-0", b"-1", b"255", b"256", b"65535", b"65536", b"100000", b"100001", b"4294967295"]
ODD_WORDS += [b"4294967296", b"18446744073709551615", b"18446744073709551616", b"9223372036854775807", b"c:0", b"c:-0", b"t:"]
ODD_WORDS += [b"c:9223372036854775808", b"t:thirteenchars", b"a", b"nine_long", b"A", b":", b"::", b"#", b"x", b"bakery", b"bits"]
ODD_WORDS += [b"record", b"trace", b"ask", b"pcg"]
# the greatest line, and the greatest number of lines of a scenario
MOST_BYTES, MOST_LINES = 128, 4096


def other_byte(draws, text):
    """The text in which a byte is another one, is left out, or has one more before it."""
    at, byte = draws.randrange(len(text)), draws.choice([*ODD_BYTES, bytes([draws.randrange(256)]), text[:1], text[-2:-1]])
    return text[:at] + draws.choice([byte, byte, b"", byte + text[at : at + 1]]) + text[at + 1 :]


def cut(draws, text):
    return text[: draws.randrange(len(text))]


def other_line(draws, text):
    """The text in which a line is doubled, dropped, exchanged with the next, or moved."""
    lines = text.splitlines(keepends=True)
    at, to = draws.randrange(len(lines)), draws.randrange(len(lines))
    how = draws.randrange(4)
    if how == 3:
        lines.insert(to, lines.pop(at))
    else:
        lines[at : at + 2] = [[lines[at], *lines[at : at + 2]], lines[at + 1 : at + 2], lines[at : at + 2][::-1]][how]
    return b"".join(lines)


def other_word(draws, text):
    """The text in which a word is another one, is doubled, or is left out."""
    lines = text.split(b"\n")
    at = draws.randrange(len(lines))
    words = lines[at].split(b" ")
    place, odd = draws.randrange(len(words)), draws.choice([*ODD_WORDS, *text.split()[:40]])
    words[place : place + 1] = draws.choice([[odd], [odd], [odd, words[place]], [words[place]] * 2, []])
    lines[at] = b" ".join(words)
    return b"\n".join(lines)


def long_line(draws, text):
    """The text with a comment of about the greatest length."""
    lines = text.split(b"\n")
    ends = [b"", b"\r"]
    lines.insert(draws.randrange(len(lines)), b"#" * (MOST_BYTES + draws.randint(-1, 1)) + draws.choice(ends))
    return b"\n".join(lines)


def many_lines(draws, text):
    """The text with about the greatest number of lines."""
    lines = text.splitlines(keepends=True)
    lines[draws.randrange(len(lines) + 1) : 0] = [b"#\n"] * (MOST_LINES + draws.randint(-2, 2) - len(lines))
    return b"".join(lines)


CHANGES = {other_byte: 6, other_word: 6, other_line: 4, cut: 2, long_line: 1, many_lines: 0.2}


def spoiled(draws, text):
    """The text after one to three changes."""
    for _ in range(draws.choice([1, 1, 2, 3])):
        if text:
            text = draws.choices([*CHANGES], [*CHANGES.values()])[0](draws, text)
    return text
