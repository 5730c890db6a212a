#!/usr/bin/env python3
"""Opens the sheets of the examples in a browser and looks at what the pages show.

    browser.py [--program PATH] [FILE ...]

Without files it takes every example, and two walks that are hard to show. The pages
are made by the program, `pogandir sheet FILE`, and held against `pogandir list FILE`;
it is built first, where no other is named. The browser is Debian's package chromium.
"""
import argparse
import html
import json
import pathlib
import shutil
import struct
import subprocess
import sys
import tempfile

FRONT = pathlib.Path(__file__).resolve().parent.parent
EXAMPLES = FRONT.parent / "examples"
PROBE = (FRONT / "tests" / "probe.js").read_text()
WIDTHS = [1200, 800]
PAIR = 5
ISSUE, AUTHENTICATE, ACCEPT, FINISH, TICK, LEAK = 3, 4, 5, 6, 7, 9
REFUSED_UNUSED, REFUSED_RANGE = 5, 6


def header():
    return b"HD" + struct.pack(">BHII", 3, 0, 100, 10)


def term(kind, left, right):
    return b"TM" + struct.pack(">BHH", kind, left, right)


def step(number, m=0):
    return b"ST" + struct.pack(">BBBBHI", number, 0, 0, 0, m, 0)


def made_walks(folder):
    """A term of 2^400 leaves, and a walk of 9,000 records."""
    pairs = b"".join(term(PAIR, i, i) for i in range(400))
    deep = folder / "deep.walk"
    deep.write_bytes(header() + term(1, 0, 0) + pairs + step(10, 400))
    long = folder / "long.walk"
    long.write_bytes(header() + b"".join(term(1, 0, i % 50) for i in range(8999)))
    return [deep, long]


def run(*command):
    done = subprocess.run(command, capture_output=True, timeout=120)
    return done.stdout.decode()


def shown(browser, folder, page, width, folds):
    """What the page shows at this width, after its scripts and the probe have run."""
    probe = PROBE if folds else "window.noFolds = true;\n" + PROBE
    at = folder / "page.html"
    at.write_text(page.replace("</body>", f"<script>\n{probe}</script>\n</body>"))
    dumped = run(
        browser, "--headless=new", "--no-sandbox", "--disable-gpu", "--hide-scrollbars",
        f"--user-data-dir={folder / 'profile'}", f"--window-size={width},900",
        "--virtual-time-budget=20000", "--dump-dom", at.as_uri())
    _, found, rest = dumped.partition('<pre id="findings">')
    if not found:
        raise RuntimeError("the probe did not end")
    return json.loads(html.unescape(rest.partition("</pre>")[0]))


def number(answer):
    """The refusal's number, if it is one."""
    return int(answer.split()[1]) if answer.startswith("refused ") else None


def check_rows(found, lines):
    listed = [line.split(" ", 2) for line in lines if not line.startswith("end ")]
    rows = [[row["record"], row["answer"]] for row in found["rows"]]
    yield "rows", rows == [[record, answer] for record, _, answer in listed]
    yield "every row is visible", all(row["visible"] for row in found["rows"])


def check_layout(found, width):
    yield "the window has its width", found["width"] == width
    yield f"nothing overflows: {found['overflow']}", max(found["overflow"]) <= width


def sources(row, senders, terms, mark):
    """Where the parts of a message come from: runs, or else the intruder."""
    message = int(row["takes"])
    if message in senders:
        return [senders[message]]
    kind, left, right = terms[3 * message:3 * message + 3]
    takes_pair = int(row["step"]) == ACCEPT or (int(row["step"]), mark) == (AUTHENTICATE, "H5")
    if kind == PAIR and takes_pair:
        halves = [senders.get(half, "intruder") for half in (left, right)]
        return halves if halves[0] != halves[1] else halves[:1]
    return ["intruder"]


def parts(name, message, terms, mark):
    """The parts of a message that can come as halves of another: both halves of a pair
    that is passed on, and the ticket inside of a reply."""
    _, left, right = terms[3 * message:3 * message + 3]
    if name == "delivery" or (name, mark) == ("reply", "H5"):
        return [left, right]
    if (name, mark) == ("reply", "H4"):
        for _ in range(4):
            left = terms[3 * left + 2]
        return [left]
    return []


def expected_arrows(row, senders, terms, mark):
    """The arrows of a row; None where the page alone does not tell."""
    at, refused = int(row["step"]), number(row["answer"])
    if at == LEAK and refused is None:
        return [[f"run-{row['answer'].split()[1]}", "intruder"]]
    if not ISSUE <= at <= FINISH or refused == REFUSED_RANGE:
        return []
    if refused == REFUSED_UNUSED or row["takes"] is None:
        return None
    to = None if refused else f"run-{row['answer'].split()[1]}"
    return [[source, to] for source in sources(row, senders, terms, mark)]


def check_chart(found, mark):
    steps = [row for row in found["rows"] if row["step"] is not None]
    events = found["events"]
    yield "an event a step", [e["record"] for e in events] == [r["record"] for r in steps]
    senders = {}
    for row, event in zip(steps, events):
        expected = expected_arrows(row, senders, found["terms"], mark)
        arrows = event["arrows"]
        if expected is not None:
            fits = len(arrows) == len(expected) and all(
                arrow[0] == wanted[0] and wanted[1] in (None, arrow[1])
                for arrow, wanted in zip(arrows, expected))
            yield f"arrows of record {row['record']}: {arrows}, not {expected}", fits
        refused = number(row["answer"])
        told = refused is None or f"refused {refused}" in event["words"]
        yield f"record {row['record']} tells its refusal", told
        yield f"crosses of record {row['record']}", (event["crosses"] > 0) == (refused is not None)
        is_clock = int(row["step"]) == TICK and refused is None
        yield f"clock of record {row['record']}", event["clock"] == is_clock
        told = ("not covered" in event["words"]) == row["warned"]
        yield f"record {row['record']} tells what is not covered", told
        for sent, its_run, name in row["sends"]:
            for term in [int(sent), *parts(name, int(sent), found["terms"], mark)]:
                senders[term] = f"run-{its_run}"


def checks(found, lines, width, name):
    yield from check_layout(found, width)
    yield from check_rows(found, lines)
    yield from check_chart(found, lines[0].split()[1])
    yield "; ".join(found["faults"][:5]) or "folds and cuts", not found["faults"]
    if name == "deep.walk":
        yield "a cut is there to unfold", found["cuts"] > 0


def arguments():
    parser = argparse.ArgumentParser(description=__doc__.splitlines()[0])
    parser.add_argument("--program")
    parser.add_argument("files", nargs="*", type=pathlib.Path)
    return parser.parse_args()


def built():
    """The program, or None with what cargo said."""
    done = subprocess.run(["cargo", "build", "--quiet", "--release", "--offline"], cwd=FRONT)
    return str(FRONT / "target/release/pogandir") if done.returncode == 0 else None


def faults(browser, program, folder, file, width):
    """What is wrong with the sheet of a file at a width."""
    page = run(program, "sheet", str(file))
    lines = run(program, "list", str(file)).splitlines()
    try:
        found = shown(browser, folder, page, width, file.name != "long.walk")
    except (RuntimeError, subprocess.TimeoutExpired) as error:
        return [str(error)]
    return [what for what, is_so in checks(found, lines, width, file.name) if not is_so]


def main():
    given = arguments()
    browser = shutil.which("chromium")
    if browser is None:
        print("no chromium: install Debian's package chromium", file=sys.stderr)
        return 1
    program = given.program or built()
    if program is None:
        print("pogandir was not built", file=sys.stderr)
        return 1
    passed, failed = 0, 0
    with tempfile.TemporaryDirectory() as name:
        folder = pathlib.Path(name)
        examples = sorted(EXAMPLES.glob("*.walk")) + sorted(EXAMPLES.glob("*.names"))
        for file in given.files or examples + made_walks(folder):
            for width in WIDTHS:
                wrong = faults(browser, program, folder, file, width)
                passed, failed = passed + (not wrong), failed + bool(wrong)
                for what in wrong:
                    print(f"{file.name} at {width}: FAILED: {what}")
    print(f"{passed} passed, {failed} failed")
    return 1 if failed else 0


if __name__ == "__main__":
    sys.exit(main())
