#!/usr/bin/env python3
"""The image in src/checks.rt as docs/FORMATS.md spells it, by the independent writer in images.py."""
import sys

sys.dont_write_bytecode = True
from images import FALSE, NONE, NULL, TRUE, context, frame, image, name, rows, text, thread, u8, u32  # noqa: E402

# A build of `def a` and `sh 1` that waits for its task. The nodes of the script: 0 all of it, 1 the declaration, 2 the
# statement, 3 the call, 4 its argument.
TASK = u32(1, 0) + u8(1) + u32(0) + text(b"/w") + text(b"/w") + rows() + text(b"1") + u8(0, 0) + bytes(8) + text(b"")
BUILD = image(2, 1, 0, 0, [name(b"x", 0)], [u8(0) + NULL],
              [u8(0) + text(b"") + u32(0) + rows(), u8(1) + text(b"sh") + u32(0) + rows(u32(2))],
              b"", [TASK], [],
              [thread(0, NONE, 3, u8(0) + u32(1), context([], [], []),
                      [frame(0, 0, 1, [name(b"a", 0)], []), frame(42, 3, 1, [name(b"a", 0)], [FALSE, TRUE])])])

if __name__ == "__main__":
    for start in range(0, len(BUILD), 25):
        print("    " + "".join(f"\\x{byte:02x}" for byte in BUILD[start:start + 25]) + "\\")
    print(len(BUILD))
