#!/usr/bin/env python3
"""The stores that trials are given, as docs/FORMATS.md spells them, by the independent writer of form_trials: a line
`> store ..` for each trial of them, and the places that the others tell. What the images hold was worked out by hand
from docs/LANGUAGE.md and WORLD.md."""
import os
import struct
import sys

sys.dont_write_bytecode = True
CRATES = f"{os.path.dirname(os.path.realpath(__file__))}/../.."
sys.path += [f"{CRATES}/form_trials/data", f"{CRATES}/script_trials/data"]
from deltas import delta, grown, grown_list, grown_map  # noqa: E402
from image_trials import ASKED, BEGUN, INPUT, OUTSIDE, a_text, an_input, node  # noqa: E402
from images import FALSE, NONE, NULL, TRUE, context, frame, image, in_cell, name, rows, text, thread, u8, u32, whole  # noqa: E402

AGENTS = b'{"job":"demo","agents":[{"name":"m","root":"/w","executors":1}]}'
INPUT_SCRIPT = b"input 'go?'\n"
SET_SCRIPT = b"x = 6\ninput 'go?'\necho \"x=${x}\"\n"
NODE_SCRIPT = b"node { }\n"
STEPS_SCRIPT = b"node {\n  sh 'make'\n  sh 'ship'\n}\n"
ROUND_SCRIPT = b"input 'a?'\ninput 'b?'\ninput 'c?'\necho 'over'\n"


def start(script):
    return u8(0) + text(script) + text(AGENTS)


def decided(number, proceeds, who):
    return u8(5) + u32(number) + u8(proceeds) + text(who)


def record(event, after):
    """A record of an event and of the build after it."""
    return u8(1) + event + after


def changes(event, delta_of_it):
    """A record of an event and of what it changed."""
    return u8(2) + event + delta_of_it


def store(*payloads):
    return b"".join(u8(1) + text(payload) for payload in payloads) + u8(0)


def set_image(value):
    """SET_SCRIPT, which waits for its input, where `x` has this value. The nodes of the script: 1, 2 and 3 the
    assignment, its name and its value, 4 the statement of `input`, 5 the call. The cells: `x`, and the text `go?`."""
    return image(2, 1, 0, 0, [name(b"x", 0)], [u8(0) + whole(value), a_text(b"go?")],
                 [node(0, b""), node(1, b"input", 2)], BEGUN + ASKED, [an_input(1)], [],
                 [thread(0, NONE, 3, u8(0) + u32(1), OUTSIDE, [frame(0, 0, 1, [], []), frame(43, 5, 1, [], [])])])


def asked_image(cell):
    """INPUT_SCRIPT where it asks for the second time, as no build of it does; `y` is a variable in this cell."""
    return image(3, 1, 0, 0, [name(b"y", cell)], [u8(0) + whole(7)],
                 [node(0, b""), node(1, b"input", 2)], BEGUN + ASKED, [an_input(1)], [],
                 [thread(0, NONE, 3, u8(0) + u32(1), OUTSIDE, [frame(0, 0, 0, [], []), frame(43, 2, 1, [], [])])])


OVER = b"[Pipeline] End of Pipeline\nFinished: SUCCESS\n"


def approved(who):
    """What changes of a build of asked_image(0) when somebody lets it go on: it ends."""
    return changes(decided(1, 1, who), delta(3, 1, 0, 1, nodes=[node(6, b"", 3)], log=b"Approved by " + who + b"\n" + OVER,
                                             closed=[1], ended_threads=[0]))


# NODE_SCRIPT where it waits for an executor, which is free. The nodes of the script: 2 the call of `node`, 3 its
# closure, which cell 0 holds.
ASKS = b"[Pipeline] node\n"
CLOSURE = u8(4) + u32(3) + rows()
DUE = image(2, 1, 0, 0, [], [CLOSURE], [node(0, b""), node(2, b"node", 2)], BEGUN + ASKS,
            [u32(1, 0) + u8(0) + NONE], [],
            [thread(0, NONE, 3, u8(0) + u32(1), OUTSIDE,
                    [frame(0, 0, 0, [], []), frame(38, 2, 1, [], [in_cell(0)])])])
# What changes where it has got the executor: it ends. Cell 1 is the closure's `it`; the nodes behind that of `node` are
# its body, the ends of both, and the end.
GRANT = changes(u8(1) + u32(1, 0),
                delta(2, 1, 0, 1, cells=[u32(1) + u8(0) + NULL],
                      nodes=[node(3, b"", 3), node(4, b"", 4, start=4), node(5, b"", 5, start=3), node(6, b"", 6)],
                      log=b"Running on m in /w/workspace/demo\n[Pipeline] {\n[Pipeline] }\n[Pipeline] // node\n" + OVER,
                      closed=[1], ended_threads=[0]))

# STEPS_SCRIPT, two shell steps on an executor. The nodes of the script: 2 the call of `node`, 3 its closure, 4 the block,
# 5 the first statement, 6 its call, 7 its text; 8, 9 and 10 the second one. The cells: the closure, its `it`, and the
# texts.
STEPS = [b"make", b"ship"]
PLACE = b"/w/workspace/demo"
IT = [name(b"it", 1)]
RUNNING = [(b"JOB_NAME", b"demo"), (b"BUILD_NUMBER", b"1"), (b"NODE_NAME", b"m"), (b"EXECUTOR_NUMBER", b"0"),
           (b"WORKSPACE", PLACE)]
STEP_CELLS = [CLOSURE, u8(0) + NULL, *map(a_text, STEPS)]
STEP_NODES = [node(0, b""), node(2, b"node", 2), node(3, b"", 3), node(1, b"sh", 4), node(1, b"sh", 5),
              node(4, b"", 6, start=4), node(5, b"", 7, start=3), node(6, b"", 8)]
AROUND = [frame(0, 0, 0, [], []), frame(39, 2, 1, [], [whole(3), whole(4)]), frame(33, 3, 0, [], [])]
HELD = [u32(0, 1, 1)]
STARTED = b"Running on m in " + PLACE + b"\n[Pipeline] {\n[Pipeline] sh\n"
CLOSED = b"[Pipeline] }\n[Pipeline] // node\n" + OVER


def u64(value):
    return u32(0, value)


def printed(step):
    return b"+ " + STEPS[step] + b"\n"


def a_task(step, taken):
    """The open request of this step, of whose log so many bytes are taken."""
    return (u32(2 + step, 0) + u8(1) + u32(0) + text(PLACE) + text(PLACE) + rows(*(text(a) + text(b) for a, b in RUNNING))
            + text(STEPS[step]) + u8(0, 0) + u64(taken) + text(b""))


def step_frames(step):
    return [frame(0, 4, step, IT, []), frame(42, 6 + 3 * step, 1, IT, [FALSE, FALSE])]


def step_log(step):
    return BEGUN + ASKS + STARTED + (printed(0) + b"[Pipeline] sh\n" if step == 1 else b"")


def step_image(step, taken):
    return image(3 + step, 1, 0, 0, [], STEP_CELLS[:3 + step], STEP_NODES[:4 + step],
                 step_log(step) + printed(step)[:taken], [a_task(step, taken)], HELD,
                 [thread(0, NONE, 5 + step, u8(0) + u32(2 + step), context([1], [PLACE], []),
                         AROUND + step_frames(step))])


def step_thread(step, kept_frames, frames):
    return (u32(0) + NONE + u32(5 + step) + u8(0) + u32(2 + step) + context([1], [PLACE], []) + u32(kept_frames)
            + rows(*frames))


def output(step):
    return u8(2) + u32(2 + step) + u8(0) + u64(0) + text(printed(step))


def exited(step):
    return u8(3) + u32(2 + step, 0)


def takes(step):
    """The record of what a step printed: the task grows."""
    return (record(output(step), step_image(step, len(printed(step)))),
            changes(output(step), delta(3 + step, log=printed(step), requests=[grown(2 + step, len(printed(step)), b"")],
                                        held=HELD)))


# The executor is got: of the thread's two frames the outer one is the same. The first step has ended, and the next one
# begins: three frames are. The second one has ended, and so has the build.
STEPS_GRANTED = (record(u8(1) + u32(1, 0), step_image(0, 0)),
                 changes(u8(1) + u32(1, 0),
                         delta(3, cells=[u32(1) + STEP_CELLS[1], u32(2) + STEP_CELLS[2]], nodes=STEP_NODES[2:4], log=STARTED,
                               closed=[1], requests=[u8(0) + a_task(0, 0)], held=HELD,
                               threads=[step_thread(0, 1, AROUND[1:] + step_frames(0))])))
STEPS_NEXT = (record(exited(0), step_image(1, 0)),
              changes(exited(0), delta(4, cells=[u32(3) + STEP_CELLS[3]], nodes=STEP_NODES[4:5], log=b"[Pipeline] sh\n",
                                       closed=[2], requests=[u8(0) + a_task(1, 0)], held=HELD,
                                       threads=[step_thread(1, 3, step_frames(1))])))
STEPS_OVER = (record(exited(1), image(4, 1, 0, 1, [], STEP_CELLS, STEP_NODES, step_log(1) + printed(1) + CLOSED, [], [], [])),
              changes(exited(1), delta(4, 1, 0, 1, nodes=STEP_NODES[5:], log=CLOSED, closed=[3], ended_threads=[0])))

# ROUND_SCRIPT asks three times. The nodes of the script: 1 the first statement, 2 its call, 3 its argument, and so on;
# each text gets a cell.
WORDS = [b"a?", b"b?", b"c?"]


def asked(word):
    return b"[Pipeline] input\n" + word + b"\nProceed or Abort\n"


def asking(number):
    """The thread that asks for the time of this number."""
    return [frame(0, 0, number - 1, [], []), frame(43, 3 * number - 1, 1, [], [])]


def round_log(number):
    return BEGUN + b"Approved by ann\n".join(asked(word) for word in WORDS[:number])


def round_nodes(number):
    return [node(0, b"")] + [node(1, b"input", k + 2) for k in range(number)]


def round_image(number):
    """The build that asks for the time of this number: ann let it go on each time before."""
    return image(number + 1, 1, 0, 0, [], [a_text(word) for word in WORDS[:number]], round_nodes(number),
                 round_log(number), [an_input(number)], [],
                 [thread(0, NONE, number + 2, u8(0) + u32(number), OUTSIDE, asking(number))])


def round_delta(number):
    """What changes of round_image(number - 1) to round_image(number): no frame is the same."""
    return delta(number + 1, cells=[u32(number - 1) + a_text(WORDS[number - 1])], nodes=[node(1, b"input", number + 1)],
                 log=b"Approved by ann\n" + asked(WORDS[number - 1]), closed=[number - 1],
                 requests=[u8(0) + an_input(number)],
                 threads=[u32(0) + NONE + u32(number + 2) + u8(0) + u32(number) + OUTSIDE + u32(0)
                          + rows(*asking(number))])


def yes(number):
    return decided(number, 1, b"ann")


ROUND_BEGIN = record(start(ROUND_SCRIPT), round_image(1))
# The build that has ended, and what changes of round_image(3) then.
ROUND_NODES = [node(1, b"echo", 5), node(6, b"", 6)]
ROUND_LOG = b"Approved by ann\n[Pipeline] echo\nover\n" + OVER
ROUND_OVER = record(yes(3), image(4, 1, 0, 1, [], [a_text(word) for word in WORDS + [b"over"]],
                                  round_nodes(3) + ROUND_NODES, round_log(3) + ROUND_LOG, [], [], []))
ROUND_END = changes(yes(3), delta(4, 1, 0, 1, cells=[u32(3) + a_text(b"over")], nodes=ROUND_NODES, log=ROUND_LOG,
                                  closed=[3], ended_threads=[0]))
SECOND = changes(yes(1), round_delta(2))
# A binding whose cell no image has.
UNBOUND = changes(yes(1), delta(2, bindings=[name(b"y", 9)]))


def gap(number):
    """Changes of round_image(number - 1) that do not fit it: a cell behind a gap."""
    return changes(yes(number - 1), delta(number + 1, cells=[u32(5) + a_text(b"b?")], closed=[number - 1],
                                          requests=[u8(0) + an_input(number)]))


def kept(*records):
    """The records as a program keeps them: all of a build where nothing is kept of it yet, or where what is kept behind
    the last one of all of it has as many bytes as that one; else what changed."""
    written, behind = [], 0
    for all_of_it, changed in records:
        if not written or behind >= full:
            written, full, behind = written + [all_of_it], len(all_of_it), 0
        else:
            written, behind = written + [changed], behind + len(changed)
    return store(*written)


ROUND = kept((ROUND_BEGIN, None), *((record(yes(k), round_image(k + 1)), changes(yes(k), round_delta(k + 1)))
                                    for k in (1, 2)), (ROUND_OVER, ROUND_END))

# GROWING_SCRIPT puts one value behind a list, and one entry behind a map, between its questions. The nodes of the script:
# 1 and 2 the declaration of `all` and its list, 3 and 4 that of `by` and its map, 5, 6 and 7 the first question, its call
# and its argument; 8, 9 and 10 the call of `f`, 11 to 14 that of `g`, and so on. The cells: the list, `all`, the map, `by`
# and `a?`; then `l`, `m`, `k` and the next question, each time.
GROWING_SCRIPT = b"""def all = []
def by = [:]
input 'a?'
f(all)
g(by, 5)
input 'b?'
f(all)
g(by, 6)
input 'c?'
def f(l) { l.add(1) }
def g(m, k) { m.put(k, true) }
"""
GATHERS = [name(b"by", 3), name(b"all", 1)]


def gathering(number):
    """The thread that asks for the time of this number."""
    return [frame(0, 0, 3 * number - 1, GATHERS, []), frame(43, 10 * number - 4, 1, GATHERS, [])]


def growth(number):
    """What changes up to the question of this number, from the one before."""
    first = 4 * number - 3
    return changes(yes(number - 1),
                   delta(number + 1,
                         cells=[grown_list(0, whole(1)), grown_map(2, u8(0) + struct.pack(">i", number + 3) + TRUE),
                                u32(first) + u8(0) + in_cell(0), u32(first + 1) + u8(0) + in_cell(2),
                                u32(first + 2) + u8(0) + whole(number + 3), u32(first + 3) + a_text(WORDS[number - 1])],
                         nodes=[node(1, b"input", number + 1)], log=b"Approved by ann\n" + asked(WORDS[number - 1]),
                         closed=[number - 1], requests=[u8(0) + an_input(number)],
                         threads=[u32(0) + NONE + u32(number + 2) + u8(0) + u32(number) + OUTSIDE + u32(0)
                                  + rows(*gathering(number))]))


GROWING = store(record(start(GROWING_SCRIPT),
                       image(2, 1, 0, 0, [], [u8(2) + rows(), u8(0) + in_cell(0), u8(3) + rows(), u8(0) + in_cell(2),
                                              a_text(b"a?")],
                             round_nodes(1), round_log(1), [an_input(1)], [],
                             [thread(0, NONE, 3, u8(0) + u32(1), OUTSIDE, gathering(1))])), growth(2), growth(3))

BEGIN = record(start(INPUT_SCRIPT), INPUT)
# It waits again, as its log does not tell.
WAITS = record(decided(1, 1, b"ann"), asked_image(0))
# A record between the first and the last that is so long that the event of `an` fits behind the last one, and that of
# `ann` does not.
MOST = 1 << 30


def most(first, last, event):
    """How long that record may be: with what it holds the record of the event fits just behind the last one."""
    return MOST - len(store(first, b"", last)) - 5 - len(event)


def filled(first, room, last):
    """A store with a record between these two, of so many bytes that are put in by `stretch`."""
    return store(first)[:-1] + u8(1) + u32(room) + store(last)


GATE = len(store(BEGIN)) - 1
ROOM = most(BEGIN, WAITS, approved(b"an"))
# The same of a build whose grant is due, which it lacks in its store: it fits, and with a byte more it does not.
NODE_BEGIN = record(start(NODE_SCRIPT), DUE)
NODE_WAITS = record(decided(1, 1, b"ann"), DUE)
NODE_GATE = len(store(NODE_BEGIN)) - 1
NODE_ROOM = most(NODE_BEGIN, NODE_WAITS, GRANT)
STORES = [
    ("a last image that its events would not give", store(record(start(SET_SCRIPT), set_image(5)))),
    ("records between the first and the last", store(BEGIN, b"\xff", WAITS)),
    ("bytes behind a closed gate", store(BEGIN) + b"\x01\x00\x00\x00\x03abc"),
    ("a first record that is no start", store(WAITS)),
    ("a first record of a script with a fault", store(record(start(b"echo 'a\n"), INPUT))),
    ("a first record with a byte too many", store(BEGIN + b"\x00")),
    ("a last record that is none of the build", store(BEGIN, record(decided(1, 1, b"ann"), asked_image(1)))),
    ("a last record that is cut", store(BEGIN, WAITS)[:-1]),
    ("a store that is full", filled(BEGIN, ROOM, WAITS)),
    ("a store with room for the grant that is due", filled(NODE_BEGIN, NODE_ROOM, NODE_WAITS)),
    ("a store without room for the grant that is due", filled(NODE_BEGIN, NODE_ROOM + 1, NODE_WAITS)),
    ("commands that leave each byte of the store", store(NODE_BEGIN, GRANT)),
    ("a build of which some records hold what changed", ROUND),
    ("shell steps of which records hold what changed",
     kept((record(start(STEPS_SCRIPT), DUE), None), STEPS_GRANTED, takes(0), STEPS_NEXT, takes(1), STEPS_OVER)),
    ("a list and a map of which records hold what came to them", GROWING),
    ("a build of which records hold all, as they did in earlier programs",
     store(ROUND_BEGIN, *(record(yes(k), round_image(k + 1)) for k in (1, 2)))),
    ("the same, one question later", store(ROUND_BEGIN, *(record(yes(k), round_image(k + 1)) for k in (1, 2)), ROUND_END)),
    ("changes of what is not read, before all of a build",
     store(ROUND_BEGIN, gap(2), record(yes(2), round_image(3)))),
    ("changes that leave a gap", store(ROUND_BEGIN, SECOND, gap(3))),
    ("changes that leave a gap, and others behind them", store(ROUND_BEGIN, gap(2), changes(yes(2), round_delta(3)))),
    ("changes with a byte too many", store(ROUND_BEGIN, SECOND + b"\x00")),
    ("changes of a third kind", store(ROUND_BEGIN, b"\x03" + SECOND[1:])),
    ("changes that give an image with a fault", store(ROUND_BEGIN, UNBOUND)),
    ("changes before all of a build", store(changes(start(ROUND_SCRIPT), round_delta(2)))),
]

if __name__ == "__main__":
    for title, file in STORES:
        print(f"=== {title}\n> store {file.hex(' ')}")
    print(GATE, "is the place of the second gate of a store that begins with `input 'go?'`")
    print(GATE + 5, ROOM, "are where and how many zeros stand in the one that is full, which has",
          len(filled(BEGIN, 0, WAITS)) + ROOM, "bytes; its next event has", 5 + len(approved(b"ann")))
    print(NODE_GATE + 5, NODE_ROOM, "are where and how many zeros stand in the one with room for its grant, which has",
          len(filled(NODE_BEGIN, 0, NODE_WAITS)) + NODE_ROOM, "bytes; the grant has", 5 + len(GRANT))
