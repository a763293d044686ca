#!/usr/bin/env python3
"""Makes files of calls from texts that can be read.

usage: python3 tools/messages.py TEXT FILE   writes the file that a text says
       python3 tools/messages.py             writes each stored file of the repository that has a text anew
       python3 tools/messages.py --check     writes nothing, and fails where a stored file is not what its text says

A file begins with its header. Then each line of the text is a message: its verb, and the fields that the verb uses.

    T TIME                           the time: 15:45, 16:00:05, or seconds after midnight
    S PRICE                          a sale
    Q BID OFFER                      a quote
    E KIND SIDE NUMBER PRICE SIZE    an entry; at its end may stand `marked`
    X NUMBER                         a cancel; at its end may stand `error`
    R NUMBER SIZE                    a reduction; at its end may stand `error`
    P                                a publication; at its end may stand `significant`
    C PRICE                          a close

Other lines say what no such message does.

    fields VERB KIND SIDE FLAG NUMBER PRICE QUANTITY    a message of any fields; each of the first four is a letter or a number
    bytes 43 4c 4f                   these bytes, in hex
    no header                        the file has no header; it is the first line
    1025 times LINE                  the line so often; `i` in it is 1, then 2, and so on

What follows `#` is a comment, and an empty line says nothing.
"""

import glob
import os
import struct
import sys

HEADER = b"CLO\0\1"


def byte(word):
    return ord(word) if len(word) == 1 and not word.isdigit() else int(word)


def time(word):
    if ":" not in word:
        return int(word)
    hours, minutes, *seconds = map(int, word.split(":"))
    return hours * 3600 + minutes * 60 + sum(seconds)


def message(verb, kind="0", side="0", flag="0", number=0, price=0, quantity=0):
    return struct.pack(">4B3I", *map(byte, (verb, kind, side, flag)), int(number), int(price), int(quantity))


def flagged(verb, count, words):
    """The words without the flag that a verb may have at their end, and the flag."""
    name = {"E": "marked", "X": "error", "R": "error", "P": "significant"}.get(verb)
    if len(words) == count:
        return words, "0"
    if len(words) == count + 1 and words[-1] == name:
        return words[:-1], "1"
    raise ValueError("other fields than the verb uses")


def line_bytes(line):
    first, *words = line.split()
    if words[:1] == ["times"]:
        repeated = words[1:]
        return b"".join(
            line_bytes(" ".join(str(i) if word == "i" else word for word in repeated)) for i in range(1, int(first) + 1)
        )
    if first == "bytes":
        return bytes.fromhex(" ".join(words))
    if first == "fields":
        return message(*words)
    counts = {"T": 1, "S": 1, "Q": 2, "E": 5, "X": 1, "R": 2, "P": 0, "C": 1}
    if first not in counts:
        raise ValueError("no verb")
    words, flag = flagged(first, counts[first], words)
    if first == "T":
        return message("T", quantity=time(words[0]))
    if first in "SC":
        return message(first, price=words[0])
    if first == "Q":
        return message("Q", price=words[0], quantity=words[1])
    if first == "E":
        kind, side, number, price, size = words
        return message("E", kind, side, flag, number, price, size)
    if first == "X":
        return message("X", flag=flag, number=words[0])
    if first == "R":
        return message("R", flag=flag, number=words[0], quantity=words[1])
    return message("P", flag=flag)


def file_of(path):
    """The bytes of the file that a text says."""
    with open(path, encoding="ascii") as text:
        lines = [(number, line.split("#")[0].strip()) for number, line in enumerate(text, 1)]
    lines = [(number, line) for number, line in lines if line]
    out = HEADER
    if lines and lines[0][1] == "no header":
        out, lines = b"", lines[1:]
    for number, line in lines:
        try:
            out += line_bytes(line)
        except (ValueError, TypeError, struct.error) as error:
            sys.exit(f"{path}:{number}: {line}: {error}")
    return out


def stored():
    """Each stored file of the repository that has a text, by its text."""
    top = os.path.join(os.path.dirname(os.path.abspath(__file__)), "..", "crates")
    for program in ("arrival", "turns"):
        yield os.path.join(top, program, "day.txt"), os.path.join(top, program, "stdin")
    for text in sorted(glob.glob(os.path.join(top, "cases", "texts", "*.txt"))):
        name = os.path.splitext(os.path.basename(text))[0]
        yield text, os.path.join(top, "cases", "data", name + ".clo")


def write(text, path):
    with open(path, "wb") as file:
        file.write(file_of(text))


def is_as_said(text, path):
    try:
        with open(path, "rb") as file:
            return file.read() == file_of(text)
    except FileNotFoundError:
        return False


def main(words):
    if len(words) == 2:
        write(*words)
    elif not words:
        for text, path in stored():
            write(text, path)
    elif words == ["--check"]:
        others = [os.path.relpath(path) for text, path in stored() if not is_as_said(text, path)]
        if others:
            sys.exit("not what their texts say: " + " ".join(others))
    else:
        sys.exit(__doc__)


if __name__ == "__main__":
    main(sys.argv[1:])
