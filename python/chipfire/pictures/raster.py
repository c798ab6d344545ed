"""Pictures of points as files: by Pillow if it is installed, else as PNG by what stands here.

A picture is rows of bytes, each the number of a point's colour. Colours are bytes of red, green and blue; 256 at most.
"""

from __future__ import annotations

import os
import struct
import zlib
from collections.abc import Sequence
from typing import Any

from chipfire.utils import FileName, import_optional

Rows = Sequence[bytes]


def pillow() -> Any:
    """The module that Pillow makes pictures with, or None if it is not installed."""
    return import_optional("PIL.Image")


def write(file: FileName, frames: Sequence[Rows], colours: bytes, milliseconds: int = 0) -> None:
    """Writes a picture, or several, each shown for `milliseconds`; the end of the file's name says in which form."""
    maker = pillow()
    if maker is not None:
        images = [
            maker.frombytes("P", (len(rows[0]), len(rows)), b"".join(rows)) for rows in frames
        ]
        for image in images:
            image.putpalette(colours)
        several = {
            "save_all": True,
            "append_images": images[1:],
            "duration": milliseconds,
            "loop": 0,
        }
        images[0].save(file, bits=8, **(several if len(images) > 1 else {}))
    elif os.fspath(file).lower().endswith(".png") and len(frames) == 1:
        with open(file, "wb") as out:
            out.write(png(frames[0], colours))
    else:
        raise ValueError(
            f"{os.fspath(file)}: without Pillow there are .png and .svg of one picture, .html of several"
        )


def png(rows: Rows, colours: bytes) -> bytes:
    """The bytes of a PNG file: a table of colours, and a byte for each point."""
    header = struct.pack(">IIBBBBB", len(rows[0]), len(rows), 8, 3, 0, 0, 0)
    points = zlib.compress(b"".join(b"\0" + row for row in rows))
    parts = (b"IHDR", header), (b"PLTE", colours), (b"IDAT", points), (b"IEND", b"")
    chunks = (
        struct.pack(f">I4s{len(it)}sI", len(it), kind, it, zlib.crc32(kind + it))
        for kind, it in parts
    )
    return b"\x89PNG\r\n\x1a\n" + b"".join(chunks)
