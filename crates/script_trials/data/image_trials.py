#!/usr/bin/env python3
"""The images that the trials `images: ..` write, as docs/FORMATS.md spells them, by the independent writer of
form_trials. Nodes, cells, frames and logs were worked out by hand from docs/LANGUAGE.md, STEPS.md and WORLD.md."""
import os
import sys

sys.dont_write_bytecode = True
sys.path.append(f"{os.path.dirname(os.path.realpath(__file__))}/../../form_trials/data")
from images import (  # noqa: E402
    FALSE, NONE, NULL, TRUE, context, frame, image, in_cell, name, rows, some, text, thread, u8, u32, whole)

BEGUN = b"[Pipeline] Start of Pipeline\n"
ASKED = b"[Pipeline] input\ngo?\nProceed or Abort\n"
OUTSIDE = context([], [], [])


def node(kind, word, *parents, start=0):
    """A flow node: of the kinds there are here 0 start, 1 atom, 2 block, 3 body, 4 end of a body, 6 end."""
    return u8(kind) + text(word) + u32(start) + rows(*map(u32, parents))


def a_text(value):
    """A cell of a text."""
    return u8(1) + text(value)


def an_input(number, asks=0):
    """The request of an input, and the thread that asks."""
    return u32(number, asks) + u8(2) + text(b"%d" % number)


# `input 'go?'`, with a cell for the text. The nodes of the script: 0 all of it, 1 the statement, 2 the call, 3 its
# argument.
INPUT = image(2, 1, 0, 0, [], [a_text(b"go?")],
              [node(0, b""), node(1, b"input", 2)], BEGUN + ASKED, [an_input(1)], [],
              [thread(0, NONE, 3, u8(0) + u32(1), OUTSIDE, [frame(0, 0, 0, [], []), frame(43, 2, 1, [], [])])])

# Two closures that share a variable, of which one has run. The nodes of the script: 1 and 2 the declaration of `n`; 3
# that of `inc`, 4 its closure; 12 that of `show`, 13 its closure; 20 and 21 the call of `inc`; 22 the statement of
# `input`, 23 the call. The cells: `n`, the closure in `inc`, `inc`, the closure in `show`, `show`, the `it` of the call
# of `inc`, and the text `go?`.
SEEN = [name(b"show", 4), name(b"inc", 2), name(b"n", 0)]
SHARED = image(2, 1, 0, 0, [],
               [u8(0) + whole(2), u8(4) + u32(4) + rows(name(b"n", 0)), u8(0) + in_cell(1),
                u8(4) + u32(13) + rows(name(b"inc", 2), name(b"n", 0)), u8(0) + in_cell(3), u8(0) + NULL,
                a_text(b"go?")],
               [node(0, b""), node(1, b"input", 2)], BEGUN + ASKED, [an_input(1)], [],
               [thread(0, NONE, 3, u8(0) + u32(1), OUTSIDE, [frame(0, 0, 4, SEEN, []), frame(43, 23, 1, SEEN, [])])])

# `echo 'hi'`: a build that has ended, with a cell for the text.
ENDED = image(1, 1, 0, 1, [], [a_text(b"hi")], [node(0, b""), node(1, b"echo", 2), node(6, b"", 3)],
              BEGUN + b"[Pipeline] echo\nhi\n[Pipeline] End of Pipeline\nFinished: SUCCESS\n", [], [], [])

# `node { echo sh(script: 'make', returnStdout: true) }`, of whose task seven bytes of the log were taken, and two bytes
# of output are kept. The nodes of the script: 0 all of it, 1 the statement, 2 the call of `node`, 3 its closure, 4 the
# statements of that, 5 the one, 6 the call of `echo`, 7 the call of `sh`, 8 and 10 its entries, 9 and 11 their values.
# The cells: the closure, its `it`, the text `make`, and the map of the arguments of `sh`. Request 1 was that of `node`.
WORKSPACE = b"/w/workspace/demo"
IT = [name(b"it", 1)]
TASK = image(3, 1, 0, 0, [],
             [u8(4) + u32(3) + rows(), u8(0) + NULL, a_text(b"make"),
              u8(3) + rows(u8(1) + text(b"script") + in_cell(2), u8(1) + text(b"returnStdout") + TRUE)],
             [node(0, b""), node(2, b"node", 2), node(3, b"", 3), node(1, b"sh", 4)],
             BEGUN + b"[Pipeline] node\nRunning on m in /w/workspace/demo\n[Pipeline] {\n[Pipeline] sh\n+ make\n",
             [u32(2, 0) + u8(1) + u32(0) + text(WORKSPACE) + text(WORKSPACE)
              + rows(*(text(a) + text(b) for a, b in [(b"JOB_NAME", b"demo"), (b"BUILD_NUMBER", b"1"),
                                                      (b"NODE_NAME", b"m"), (b"EXECUTOR_NUMBER", b"0"),
                                                      (b"WORKSPACE", WORKSPACE)]))
              + text(b"make") + u8(0, 1) + u32(0, 7) + text(b"ab")],
             [u32(0, 1, 1)],
             [thread(0, NONE, 5, u8(0) + u32(2), context([1], [WORKSPACE], []),
                     [frame(0, 0, 0, [], []), frame(39, 2, 1, [], [whole(3), whole(4)]), frame(33, 3, 0, [], []),
                      frame(0, 4, 0, IT, []), frame(23, 6, 0, IT, []), frame(42, 7, 2, IT, [FALSE, TRUE])])])

# `parallel a: { input 'go?' }, b: { 1 }, c: { node('x') { } }`, of which `b` has ended, `a` waits for a person and `c`
# for an executor. The nodes of the script: 0 all of it, 1 the statement, 2 the call of `parallel`, 3, 9 and 14 its
# entries, 4, 10 and 15 their closures, behind each its statements and the one; 7 the call of `input`, 8 its argument; 13
# the number; 18 the call of `node`, 19 its label, 20 its closure. The cells: the three closures, their map, the `it` of
# `a`, the text `go?`, the `it` of `b`, that of `c`, the text `x`, and the closure of `node`.
BRANCHES = image(3, 4, 0, 0, [],
                 [u8(4) + u32(4) + rows(), u8(4) + u32(10) + rows(), u8(4) + u32(15) + rows(),
                  u8(3) + rows(*(u8(1) + text(key) + in_cell(cell) for key, cell in [(b"a", 0), (b"b", 1), (b"c", 2)])),
                  u8(0) + NULL, a_text(b"go?"), u8(0) + NULL, u8(0) + NULL, a_text(b"x"),
                  u8(4) + u32(20) + rows(name(b"it", 7))],
                 [node(0, b""), node(2, b"parallel", 2), node(3, b"Branch: a", 3), node(3, b"Branch: b", 3),
                  node(3, b"Branch: c", 3), node(1, b"input", 4), node(4, b"", 5, start=5), node(2, b"node", 6)],
                 BEGUN + b"[Pipeline] parallel\n[Pipeline] { (Branch: a)\n[Pipeline] { (Branch: b)\n"
                 + b"[Pipeline] { (Branch: c)\n" + ASKED + b"[Pipeline] }\n[Pipeline] node\n",
                 [an_input(1, 1), u32(2, 3) + u8(0) + some(text(b"x"))], [],
                 [thread(0, NONE, 3,
                         u8(1) + rows(text(b"a") + u32(1) + u8(0, 0),
                                      text(b"b") + u32(2) + u8(1) + u32(8) + u8(1, 0) + whole(1) + u32(0),
                                      text(b"c") + u32(3) + u8(0, 0)),
                         OUTSIDE, [frame(0, 0, 0, [], []), frame(44, 2, 3, [], [whole(3)])]),
                  thread(1, some(u32(0)), 7, u8(0) + u32(1), OUTSIDE,
                         [frame(45, 4, 0, [], [whole(4)]), frame(33, 4, 0, [], []), frame(0, 5, 0, [name(b"it", 4)], []),
                          frame(43, 7, 1, [name(b"it", 4)], [])]),
                  thread(3, some(u32(0)), 9, u8(0) + u32(2), OUTSIDE,
                         [frame(45, 15, 0, [], [whole(6)]), frame(33, 15, 0, [], []),
                          frame(0, 16, 0, [name(b"it", 7)], []), frame(38, 18, 2, [name(b"it", 7)], [in_cell(9)])])])

if __name__ == "__main__":
    for row in (INPUT, SHARED, ENDED, TASK, BRANCHES):
        for start in range(0, len(row), 50):
            print(row[start:start + 50].hex())
        print(len(row))
    # where the first frame of SHARED has the number of its first cell
    print(SHARED.index(rows(*SEEN)) + 4 + len(text(b"show")))
    # where TASK has the request for which executor 0 is held, and BRANCHES the thread of branch `a`
    print(TASK.index(rows(u32(0, 1, 1))) + 8, BRANCHES.index(text(b"a") + u32(1) + u8(0, 0)) + len(text(b"a")))
