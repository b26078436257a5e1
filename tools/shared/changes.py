"""Histories, and how a text is changed by chance. tools/hand/changed_texts and tools/hand/same_verdicts use it."""

# Histories of each call and each reply, in both versions, and two with the words that came with the second.
HISTORIES = [
    b'locks 2\na 1 4 acquire 9 10.0 = taken\na 2 1 visit 1.1 1 12.0 r = wait\na 3 2 visit 2.1 2 15.0 r = wait\na 4 3 visit 3.1 3 1.0 w = wait\na 5 4 update 9 13.0 = raised let 1.1\na 6 4 finish 9 = freed let 2.1 3.1\na 7 3 look 3 = reserved\nb 1 3 leave 3 = absent\n',
    b'locks 2\na 1 3 acquire 9 10.0 = taken\na 2 2 visit 2.1 2 10.0 w = wait\na 3 3 finish 9 = freed let 2.1\na 4 1 visit 1.1 1 10.0 w = pass\na 5 2 look 2 = idle\na 6 1 look 1 = reserved\na 7 1 acquire 1 11.0 = taken\na 8 1 finish 1 = freed\na 9 2 look 2 = reserved\na 10 2 leave 2 = left\n',
    b'locks 2\na 1 1 acquire 7 20.0 = taken\na 2 1 acquire 7 5.0 = kept\na 3 2 acquire 8 30.0 = other\nb 1 2 look 5 = nothing\nc 1 2 finish 8 = other\n',
    b'locks 1\na 1 4 acquire 9 10.0 = taken\na 2 1 visit 1.1 1 12.0 r = wait\na 3 2 visit 2.1 2 15.0 r = wait\na 4 3 visit 3.1 3 1.0 w = wait\na 5 4 update 9 13.0 = raised let 1.1\na 6 4 finish 9 = freed let 2.1 3.1\na 7 3 look 3 = reserved\nb 1 3 leave 3 = absent\n',
    b'locks 1\na 1 3 acquire 9 10.0 = taken\na 2 2 visit 2.1 2 10.0 w = wait\na 3 3 finish 9 = freed let 2.1\na 4 1 visit 1.1 1 10.0 w = pass\na 5 2 look 2 = idle\na 6 1 look 1 = reserved\na 7 1 acquire 1 11.0 = taken\na 8 1 finish 1 = freed\na 9 2 look 2 = reserved\na 10 2 leave 2 = left\n',
    b'locks 1\na 1 1 acquire 7 20.0 = taken\na 2 1 acquire 7 5.0 = kept\na 3 2 acquire 8 30.0 = other\nb 1 2 look 5 = nothing\nc 1 2 finish 8 = other\n',
    b'locks 2\na 1 4 acquire 9 10.0 = taken\na 2 1 visit 1.1 - 1.0 w = wait\na 3 2 visit 2.1 2 1.0 w max=1 = long\na 4 3 visit 3.1 3 1.0 w max=2 = wait\na 5 4 finish 9 = freed let 1.1 3.1\na 6 1 visit 1.2 - 1.0 w = pass\n',
    b'locks 2\na 1 1 visit 1.1 - 1.0 r max=4294967295 = pass\nb 1 1 visit 2.1 - 1.0 w max=1 = pass\n',
]


def random_byte(rng):
    return rng.randrange(256) if rng.randrange(4) == 0 else rng.choice(b' .\n0123456789arw')


def changed(rng, text):
    """The text with one or two changes."""
    text = bytearray(text)
    for _ in range(rng.randint(1, 2)):
        if not text:
            text.append(random_byte(rng))
        at, kind = rng.randrange(len(text)), rng.randrange(5)
        if kind == 0:
            text[at] = random_byte(rng)
        elif kind == 1:
            del text[at]
        elif kind == 2:
            text.insert(at, random_byte(rng))
        elif kind == 3:
            text += text[at:at + rng.randrange(len(text) - at)]
        else:
            del text[at:]
    return bytes(text)
