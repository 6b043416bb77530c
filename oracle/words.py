"""The files of words: 16 hex digits and one byte each; see README.md."""
import os
import struct


def bits(x):
    return struct.unpack(">Q", struct.pack(">d", x))[0]


def number(word):
    return struct.unpack(">d", struct.pack(">Q", word))[0]


def floats(values):
    return [bits(x) for x in values]


def record_text(lines):
    """A record from its lines of words, its length in front."""
    length = sum(len(line) for line in lines)
    return f"{length:016x} " + "".join(" ".join(f"{word:016x}" for word in line) + "\n" for line in lines if line)


def file_text(records):
    """A file from its records as texts."""
    return f"{len(records):016x}\n" + "".join(records)


def write(path, text):
    """Whole or not at all: a temporary name first."""
    part = path + ".tmp"
    with open(part, "w", encoding="ascii", newline="\n") as file:
        file.write(text)
    os.replace(part, path)


def read(path):
    """Each record as (words without the length, its text). The oracle wrote the file, so its form is trusted."""
    with open(path, encoding="ascii") as file:
        text = file.read()
    at, records = 17, []
    for _ in range(int(text[:16], 16)):
        end = at + 17 * (1 + int(text[at:at + 16], 16))
        records.append(([int(word, 16) for word in text[at:end].split()[1:]], text[at:end]))
        at = end
    return records
