"""How tests/command.py looks at pictures: the texts of an SVG, and the colours of what a renderer makes of it."""
import re
import struct
import subprocess
import xml.etree.ElementTree
import zlib

from common import SECONDS, installed, must

SVG = "{http://www.w3.org/2000/svg}"
WIDTH = 300  # of what a renderer draws, in points
MARK = b"\x89PNG\r\n\x1a\n"


def texts(picture):
    """The texts of a picture that is well-formed, in their order."""
    root = xml.etree.ElementTree.fromstring(picture)
    must(root.tag == SVG + "svg", "the root is %s", root.tag)
    return ["".join(element.itertext()) for element in root.iter(SVG + "text")]


def words(lines):
    """The words and numbers of some texts; a number's thousands may be parted."""
    return re.findall(r"[\w-]+", re.sub(r"(?<=\d),(?=\d{3})", "", "\n".join(lines)))


def looked_at(picture):
    """It is drawn in several colours, and in each of its halves."""
    rows = rendered(picture)
    must(len(rows) >= 60 and len(rows[0]) == WIDTH, "it is %d points high", len(rows))
    colours = {point for row in rows for point in row}
    must(len(colours) > 8, "it has %d colours", len(colours))
    height = len(rows) // 2
    for half in rows[:height], rows[height:], [row[: WIDTH // 2] for row in rows], [row[WIDTH // 2 :] for row in rows]:
        must(len({point for row in half for point in row}) > 2, "a half of it is empty")


def rendered(picture):
    """The picture's rows of points as a renderer draws them."""
    renderer = [installed("rsvg-convert", "librsvg2-bin"), "--format", "png", "--width", str(WIDTH)]
    done = subprocess.run(renderer, input=picture, stdout=subprocess.PIPE, stderr=subprocess.PIPE, timeout=SECONDS)
    must(done.returncode == 0, "it cannot be rendered: %.200r", done.stderr)
    return points(done.stdout)


def points(png):
    """The rows of a PNG of eight bits a channel, each a list of points."""
    must(png.startswith(MARK), "no PNG")
    head, packed = b"", b""
    at = len(MARK)
    while at < len(png):
        length, kind = struct.unpack_from(">I4s", png, at)
        part = png[at + 8 : at + 8 + length]
        head, packed = (part if kind == b"IHDR" else head), packed + (part if kind == b"IDAT" else b"")
        at += 12 + length
    width, height, depth, colours, _, _, interlaced = struct.unpack(">IIBBBBB", head)
    must((depth, interlaced) == (8, 0) and colours in (2, 6), "a PNG of another kind")
    return unfiltered(zlib.decompress(packed), width, height, 3 if colours == 2 else 4)


def unfiltered(raw, width, height, size):
    """A PNG's rows start with the number of a filter, by which each byte is told from those to its left and above."""
    rows, above, stride = [], bytearray(width * size), width * size
    for y in range(height):
        start = y * (stride + 1)
        row = bytearray(raw[start + 1 : start + 1 + stride])
        for x in range(stride):
            left, corner = (row[x - size], above[x - size]) if size <= x else (0, 0)
            row[x] = (row[x] + predicted(raw[start], left, above[x], corner)) % 256
        rows.append([bytes(row[x : x + size]) for x in range(0, stride, size)])
        above = row
    return rows


def predicted(kind, left, up, corner):
    if kind == 4:
        return min((left, up, corner), key=lambda value: abs(left + up - corner - value))
    return (0, left, up, (left + up) // 2)[kind]
