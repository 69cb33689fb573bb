"""Reads PGN files, compressed ones and streams too, and cuts their texts into parts that can be verified apart.

A text is cut only at a tag line after a line of moves and any empty lines: there the parts are proved to have the
pieces of the whole."""

import mmap
import os
import re
import shutil
import stat
import subprocess
import tempfile
from dataclasses import dataclass

import needed

MEBIBYTE = 2**20
UNCUT = 256 * MEBIBYTE  # a text is given up if it has no cut in so many bytes

# The kinds of lines, as crates/pgn_pieces/specs/Pieces.antt defines them. But a tag line that has moves, too, is no
# line of moves here: so a text is cut less often than it might be.
# The first FRONT bytes of a line decide its kind. A byte order mark of UTF-8 (MARK) at their start is left out.
FRONT = 256
MARK = b"\xef\xbb\xbf"
TAG_LINE = re.compile(rb'\[[A-Za-z0-9_]+[ \t]*"')
ESCAPE = b"%"
EMPTY_FRONT = re.compile(rb";|[ \t\r\n]*\Z")
LINE_END = re.compile(rb"[\r\n]")
BRACKET = re.compile(rb"\n(?:" + MARK + rb")?\[")

# What some programs put after the last game: NULs, as where a file fills a block, and the ^Z of DOS.
NUL, CONTROL_Z = b"\0", b"\x1a"
PADDING = NUL + CONTROL_Z + b" \t\r\n"

# The compressed forms: the program that unpacks each, and how such a file begins.
FORMS = {
    ".gz": ("gzip", b"\x1f\x8b"),
    ".bz2": ("bzip2", b"BZh"),
    ".xz": ("xz", b"\xfd7zXZ\0"),
    ".zst": ("zstd", b"\x28\xb5\x2f\xfd"),
}
ARCHIVES = {"zip": b"PK\x03\x04", "7z": b"7z\xbc\xaf\x27\x1c", "rar": b"Rar!\x1a\x07"}
UTF_16_MARKS = (b"\xff\xfe", b"\xfe\xff")


class Unreadable(Exception):
    """Why a file can't be read, or not to its end; the line in which reading ended, if it is known."""

    def __init__(self, reason, line=None):
        super().__init__(reason)
        self.line = line


# ---- cuts


def front(text, start):
    """Returns the bytes that decide the kind of the line at an offset: its first FRONT bytes at most, without a byte
    order mark and then spaces and tabs at the start."""
    return LINE_END.split(text[start : start + FRONT], maxsplit=1)[0].removeprefix(MARK).lstrip(b" \t")


def is_empty(text, start):
    """Returns whether the line at an offset counts as empty."""
    return text[start : start + 1] == ESCAPE or bool(EMPTY_FRONT.match(front(text, start)))


def line_start(text, end):
    """Returns where the line begins that ends at an offset."""
    size = FRONT
    while True:
        low = max(end - 1 - size, 0)
        found = max(text.rfind(b"\n", low, end - 1), text.rfind(b"\r", low, end - 1))
        if found >= 0 or low == 0:
            return found + 1
        size *= 2


def follows_moves(text, start):
    """Returns whether the last line before an offset that is not empty is a line of moves."""
    while start > 0:
        start = line_start(text, start)
        if not is_empty(text, start):
            return not TAG_LINE.match(front(text, start))
    return False


def next_cut(text, start, end):
    """Returns the first offset, from `start` on and before `end`, of a tag line after moves, or None."""
    for found in BRACKET.finditer(text, start - 1):
        cut = found.start() + 1
        if cut >= end:
            return None
        if TAG_LINE.match(front(text, cut)) and follows_moves(text, cut):
            return cut
    return None


def last_cut(text):
    """Returns the last offset of a tag line after moves, or 0."""
    last = 0
    while (cut := next_cut(text, last + 1, len(text))) is not None:
        last = cut
    return last


def text_end(text):
    """Returns the offset of a text's first NUL or ^Z after which there are only such bytes and white space, or else its
    length."""
    end = len(text)
    while end and not (kept := len(text[max(end - MEBIBYTE, 0) : end].rstrip(PADDING))):
        end = max(end - MEBIBYTE, 0)
    last = max(end - MEBIBYTE, 0) + kept if end else 0
    return min((it for it in (text.find(NUL, last), text.find(CONTROL_Z, last)) if it >= 0), default=len(text))


@dataclass
class Part:
    """A part of a text: its offset, how many lines end before it (if lines are counted), and its bytes."""

    start: int
    lines: int
    text: bytearray | memoryview


def mapped_parts(text, end, least, counts_lines):
    """Yields the parts of a mapped file up to an offset, of `least` bytes or more."""
    start = lines = 0
    while start < end:
        cut = next_cut(text, start + least, end) or end
        yield Part(start, lines, memoryview(text)[start:cut])
        lines += count_lines(text, start, cut) if counts_lines else 0
        start = cut


def count_lines(text, start, end):
    """Counts the lines that end between two offsets of a mapped file."""
    return sum(text[it : min(it + MEBIBYTE, end)].count(b"\n") for it in range(start, end, MEBIBYTE))


class Cutter:
    """Cuts a text, to which one block after another is added, into parts of `least` bytes or more."""

    def __init__(self, least, counts_lines):
        """With `counts_lines` each part gets the number of the lines before it."""
        self.least, self.counts_lines = least, counts_lines
        self.start, self.lines, self.text = 0, 0, bytearray()  # what is not cut yet
        self.tried = least  # it has no cut before this offset
        self.padding = 0  # how many bytes at its end are left out

    def add(self, block):
        """Adds a block, and yields the parts that end in it."""
        self.text += block
        yield from self.parts(FRONT)
        if len(self.text) > UNCUT:
            raise Unreadable(f"no game ends in {UNCUT} bytes; try arbiter verify --keep-going")

    def finish(self):
        """Yields the last parts of the text, without NULs and ^Z at its end: one at least if it is empty."""
        end = text_end(self.text)
        self.padding = len(self.text) - end
        del self.text[end:]
        yield from self.parts(0)
        if self.text or self.start == 0:
            yield self.cut_at(len(self.text))

    def break_off(self):
        """Yields the last parts of a text whose end is missing, but not the games that this may change."""
        yield from self.parts(0)
        if cut := last_cut(self.text):
            yield self.cut_at(cut)

    def parts(self, unknown):
        """Yields parts; the kinds of lines are not known yet in so many bytes at the end."""
        while (end := len(self.text) - unknown) > self.tried:
            cut = next_cut(self.text, self.tried, end)
            if cut is None:
                self.tried = end
            else:
                yield self.cut_at(cut)

    def cut_at(self, cut):
        """Returns the text up to an offset, and keeps the rest."""
        part = Part(self.start, self.lines, self.text)
        self.text, self.tried = self.text[cut:], self.least
        del part.text[cut:]
        self.start += cut
        self.lines += part.text.count(b"\n") if self.counts_lines else 0
        return part

    def line(self):
        """Returns the number of the last line that was added, or None if lines are not counted."""
        return self.lines + self.text.count(b"\n") + 1 if self.counts_lines else None


# ---- blocks


def blocks_of(descriptor):
    """Yields the bytes of a descriptor in blocks."""
    try:
        while block := os.read(descriptor, MEBIBYTE):
            yield block
    except OSError as error:
        raise Unreadable(error.strerror) from None


def unpacked_blocks(source, program):
    """Yields the bytes that a program unpacks from a descriptor."""
    if not shutil.which(program):
        raise Unreadable(f"{program} is not on the path{needed.package_of(program)}")
    with tempfile.TemporaryFile() as errors:
        how = {"stdin": source, "stdout": subprocess.PIPE, "stderr": errors, "start_new_session": True}
        process = subprocess.Popen([program, "-dc"], **how)
        try:
            yield from blocks_of(process.stdout.fileno())
        finally:
            process.stdout.close()
            status = process.wait()
        if status:
            errors.seek(0)
            message = first_message(program, errors.read().decode(errors="replace"))
            raise Unreadable(message or f"{program} ended with status {status}")


def first_message(program, errors):
    """Returns the first message that a program wrote, or an empty text."""
    messages = [line.strip(" \t\r;") for line in errors.split("\n")]
    first = next(filter(None, messages), "")
    return first if not first or first.startswith(program) else f"{program}: {first}"


def refuse_no_text(front):
    """Raises Unreadable, with advice, if a file that begins so is no text that can be verified; NULs and ^Z at the end
    don't count."""
    beginning = front.rstrip(PADDING) or front
    for ending, (program, magic) in FORMS.items():
        if beginning.startswith(magic):
            raise Unreadable(f"this is no text but compressed: name it *{ending}, or pipe it through {program} -dc")
    for kind, magic in ARCHIVES.items():
        if beginning.startswith(magic):
            raise Unreadable(f"this is no text but a {kind} archive: unpack it first")
    fewer, more = sorted((beginning[::2].count(0), beginning[1::2].count(0)))
    if 8 * fewer > len(beginning):
        raise Unreadable("this is no text: it has many bytes 0")
    if beginning.startswith(UTF_16_MARKS) or 4 * more > len(beginning):
        raise Unreadable("this is no text but UTF-16: convert it by iconv -f UTF-16 -t UTF-8")


def text_blocks(blocks):
    """Yields the blocks of a text, unless its beginning shows that it is none."""
    beginning = b""
    while len(beginning) < FRONT and (block := next(blocks, b"")):
        beginning += block
    refuse_no_text(beginning[:FRONT])
    yield beginning
    yield from blocks


# ---- files


def size_of(name):
    """Returns the bytes of a file, or None if it is a stream."""
    try:
        status = os.fstat(0) if name == "-" else os.stat(name)
    except OSError:
        return 0
    return status.st_size if stat.S_ISREG(status.st_mode) else None


class File:
    """A file that is read as a text: it may be compressed; `-` is standard input."""

    def __init__(self, name):
        self.name = name
        self.form = FORMS.get(os.path.splitext(name)[1].lower())
        self.size, self.position = size_of(name), 0  # in bytes, of the file as it is
        self.padding = 0  # so many bytes at its text's end, NULs or ^Z and white space, are left out

    def is_plain(self):
        """Returns whether it is a file with a text that is not compressed."""
        return self.size is not None and not self.form

    def parts(self, least, counts_lines):
        """Yields the parts of its text, of `least` bytes or more; then raises Unreadable if it was not read whole."""
        source = 0 if self.name == "-" else self.open()
        try:
            if self.size and self.is_plain() and os.lseek(source, 0, os.SEEK_CUR) == 0:
                yield from self.mapped(source, least, counts_lines)
            else:
                yield from self.streamed(source, Cutter(least, counts_lines or self.form is not None))
        finally:
            if source:
                os.close(source)

    def open(self):
        """Opens the file, and returns its descriptor."""
        try:
            return os.open(self.name, os.O_RDONLY)
        except OSError as error:
            raise Unreadable(error.strerror) from None

    def mapped(self, source, least, counts_lines):
        """Yields the parts of a plain file."""
        text = mmap.mmap(source, 0, prot=mmap.PROT_READ)
        refuse_no_text(text[:FRONT])
        end = text_end(text)
        self.padding = len(text) - end
        for part in mapped_parts(text, end, least, counts_lines):
            self.position = part.start + len(part.text)
            yield part

    def streamed(self, source, cutter):
        """Yields the parts that a cutter makes of a stream."""
        try:
            for block in text_blocks(unpacked_blocks(source, self.form[0]) if self.form else blocks_of(source)):
                self.position = os.lseek(source, 0, os.SEEK_CUR) if self.size else 0
                yield from cutter.add(block)
            yield from cutter.finish()
            self.padding = cutter.padding
        except Unreadable as fault:
            yield from cutter.break_off()
            if cutter.start or cutter.text:
                raise Unreadable(f"{fault}; not verified from byte {cutter.start} on", cutter.line()) from None
            raise
