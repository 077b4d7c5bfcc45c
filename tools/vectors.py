#!/usr/bin/env python3
"""vectors.py: writes crates/vectors/data/answers.txt and crates/vectors/stdout from the oracle. Run it at the root of the repository, after
`cargo build --release --offline` in oracle/.

The cases: every one of the oracle's answers.txt; of its more.txt those that LONG names; the deepest shapes that a text of 512 nodes can hold; and the
rules of docs/RULES.md. Each answer is the oracle's: kaori's own, or document 01's where kaori has none. Last comes one case with a wrong answer, which
the replay must report."""
import pathlib
import re
import subprocess
import sys
import tempfile

ORACLE = pathlib.Path("oracle/target/release/oracle")
CRATE = pathlib.Path("crates/vectors")
COLUMN = 11
NUMBERS = 4
DEPTH = 510
SOURCES = {"": 0, "kaori panicked": 1}
DOCUMENT = 2
WRONG = 3
X, Y = 0, 1
LONG = [
    "254 nil arguments to x",
    "255 nil arguments to x",
    "past 2,048 instructions",
    "513 marks",
    "text: 513 nodes",
    "text: 513 list words",
]
PAGE = "the worked page"
JUMP, OTHER_JUMP = [41, 2, 0, 0], [41, 3, 0, 0]


def line(words):
    return "".join(f"{word:>{COLUMN}}" for word in words) + "\n"


def text_of(nodes, items, names, mode=0):
    lines = [line([mode, len(nodes) - 1, len(nodes), len(items), len(names)])]
    lines += [line(node + [0] * (6 - len(node))) for node in nodes]
    lines += [line([word]) for word in items + names]
    return "".join(lines).encode()


def chain(node):
    """Names x and y, and DEPTH nodes, each made of the one before."""
    nodes = [[4, X], [4, Y]]
    for _ in range(DEPTH):
        nodes.append(node(len(nodes) - 1))
    return nodes


def deep():
    """The name and the text of each deep shape."""
    shapes = {
        "blocks": lambda last: [11, last],
        "ands, on the left": lambda last: [8, last, X],
        "ors, on the right": lambda last: [9, X, last],
        "ifs, in the condition": lambda last: [10, last, X, Y],
        "ifs, in the then": lambda last: [10, X, last, Y],
        "ifs, in the else": lambda last: [10, X, Y, last],
        "calls, in the callee": lambda last: [12, last, 0, 0],
    }
    for name, node in shapes.items():
        yield f"{DEPTH} {name}", text_of(chain(node), [], [X, Y])
    places = iter(range(DEPTH))
    nodes = chain(lambda last: [12, X, next(places), 1])
    yield f"{DEPTH} calls, in the argument", text_of(nodes, list(range(1, DEPTH + 1)), [X, Y])


def rules():
    """The title, the text and the listing of each rule of the page."""
    page = pathlib.Path("docs/RULES.md").read_text(encoding="utf-8")
    for section in page.split("\n## ")[1:]:
        blocks = re.findall(r"```\n(.*?)```", section, re.S)
        yield "rule: " + section.split("\n")[0].lower(), blocks[1].encode(), blocks[2].encode()


def recorded(path):
    """The cases of a file that the oracle's `record` wrote."""
    data = path.read_bytes()
    at = 0
    while data[at : at + 1] == b"#":
        at = data.index(b"\n", at) + 1
    end = data.index(b"\n", at)
    count, at = int(data[at:end]), end + 1
    for _ in range(count):
        end = data.index(b"\n", at)
        head = data[at:end]
        _, source, text, answer = (int(head[COLUMN * k : COLUMN * (k + 1)]) for k in range(NUMBERS))
        at = end + 1
        yield head[COLUMN * NUMBERS + 1 :].decode(), source, data[at : at + text], data[at + text : at + text + answer]
        at += text + answer


def answered(name, text):
    run = subprocess.run([ORACLE, "answer"], input=text, capture_output=True, check=True)
    said = run.stderr.decode()
    if "otherwise" in said:
        sys.exit(f"{name}: {said}")
    return name, SOURCES.get(said.split(";")[0].strip(), DOCUMENT), text, run.stdout


def cases():
    with tempfile.TemporaryDirectory() as folder:
        subprocess.run([ORACLE, "record", folder], check=True, capture_output=True)
        yield from recorded(pathlib.Path(folder) / "answers.txt")
        for case in recorded(pathlib.Path(folder) / "more.txt"):
            if case[0] in LONG:
                yield case
    for name, text in deep():
        yield answered(name, text)
    for name, text, listing in rules():
        case = answered(name, text)
        if case[3] != listing:
            sys.exit(f"{name}: the page has another listing than the oracle")
        yield case


def wrong(cases):
    """The worked page, with one digit of its answer changed: the offset of its jump. A replay that finds no difference is no test, so one case must
    differ. It is the last one: the report names the first case that differs, so any other that does is named in its place."""
    _, _, text, answer = next(case for case in cases if case[0] == PAGE)
    right, other = line(JUMP).encode(), line(OTHER_JUMP).encode()
    if answer.count(right) != 1:
        sys.exit(f"{PAGE}: not one jump in its answer")
    return f"wrong on purpose: {PAGE} with another offset", WRONG, text, answer.replace(right, other)


def first_line(place, name, source, text, answer):
    numbers = line([place, source, len(text), len(answer)]).rstrip("\n")
    return f"{numbers} {name}\n"


HEAD = """\
# Recorded answers for `lowerlist`: the text it reads, and what it must print. tools/vectors.py made this file; it says which cases there are.
#
# Lines that begin with '#' stand only here. Then, every number right-justified in a column of 11:
#   one line: the number of cases.
# And for each case:
#   one line: the case's place from 0, its source, the bytes of its text, the bytes of its answer, a space, a name;
#   the text;
#   the answer.
# Nothing follows the last answer.
#
# Source: 0 kaori's own answer; 1 kaori panics there, and document 01 gives the panic its number; 2 document 01's answer, kaori has none (refused
# before the walk, a bound, or a text laid out otherwise); 3 a wrong answer, made of kaori's by changing one digit. Only the last case has a wrong
# answer. The replay must report it, and it reports the first case that differs: so it reports this one only if no other differs.
"""


def main():
    listed = list(cases())
    missing = set(LONG) - {name for name, _, _, _ in listed}
    if missing:
        sys.exit(f"the oracle records no {missing}")
    listed.append(wrong(listed))
    data = HEAD.encode() + line([len(listed)]).encode()
    for place, case in enumerate(listed):
        data += first_line(place, *case).encode() + case[2] + case[3]
    last = len(listed) - 1
    report = f"{last} of {len(listed)} answers agree\n" + first_line(last, *listed[last])
    (CRATE / "data").mkdir(parents=True, exist_ok=True)
    (CRATE / "data" / "answers.txt").write_bytes(data)
    (CRATE / "stdout").write_text(report, encoding="utf-8")
    sources = [sum(source == of for _, source, _, _ in listed) for of in range(4)]
    print(
        f"{len(listed)} cases ({sources[0]} of kaori's, {sources[1]} of its panics, {sources[2]} of document 01's, {sources[3]} wrong on purpose), "
        f"{len(data)} bytes"
    )


main()
