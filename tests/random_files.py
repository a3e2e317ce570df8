"""Random files of offsets through the layout tool, held against an independent reading. Usage: random_files.py TOOL FOLDER COUNT"""
import os
import random
import re
import subprocess
import sys

tool, folder, count = sys.argv[1], sys.argv[2], int(sys.argv[3])
os.makedirs(folder, exist_ok=True)
os.chdir(folder)
dice = random.Random(20)


def number(p):
    text = dice.choice(["%d", "%d", "0x%x", "0x%X", "%05d"]) % p
    before = dice.choice(["", "", " ", "\t "])
    return before + text + dice.choice(["", "", " ", "\t", " # note", "#0x7", "  # 12 # 13"])


def text_of(kind):
    space = dice.choice([4, 40, 300, 65536])
    lines = [number(dice.randrange(space)) for _ in range(dice.choice([0, 1, 5, 60, 400]))]
    for _ in range(dice.randrange(4)):
        lines.insert(dice.randrange(len(lines) + 1), dice.choice(["", "# a comment", "  ", "#", "#complete: 9 offsets"]))
    if kind == "list":
        lines.append("# complete: %d offset%s" % dice.choice([(len(named(lines)), "s"), (len(named(lines)) + 1, "s"), (len(named(lines)), "")]))
        if dice.random() < 0.2:
            lines.append(number(5))
    if kind == "bad":
        wrong = ["x", "65536", "0x10000", "0x", "1 2", "-1", "0X5", "5\r6", "\r", "9" * 30, "12.", "# complete: 5", "# complete: x offsets", "y" * 60, "# complete: 70000 offsets"]
        for _ in range(dice.choice([1, 2, 30])):
            lines.insert(dice.randrange(len(lines) + 1), dice.choice(wrong))
    end = dice.choice(["\n", "\r\n"])
    text = end.join(lines) + (end if dice.random() < 0.7 else "")
    if dice.random() < 0.2:
        text = "\ufeff" + text
    return text.encode()


def named(lines):
    return {p for kind, p in map(read_line, lines) if kind == "offset"}


def read_line(line):
    if len(line.encode() if isinstance(line, str) else line) > 2048:
        return "bad", None
    line = line.decode("latin-1") if isinstance(line, bytes) else line
    if line.endswith("\r"):
        line = line[:-1]
    if "\r" in line:
        return "bad", None
    line = line.lstrip(" \t")
    if line.startswith("# complete:"):
        last = re.fullmatch(r"# complete: ([0-9]+) offsets?", line)
        return ("says", int(last[1])) if last and int(last[1]) <= 65536 else ("bad", None)
    body = line.split("#", 1)[0].strip(" \t")
    if not body:
        return "blank", None
    if re.fullmatch("0x[0-9a-fA-F]+", body):
        value = int(body[2:], 16)
    elif re.fullmatch("[0-9]+", body):
        value = int(body)
    else:
        return "bad", None
    return ("offset", value) if value < 65536 else ("bad", None)


def read_file(text):
    """The set of a file, or None where it is refused, and the numbers of its bad lines and repeats."""
    lines = text.split(b"\n")
    if lines[-1] == b"":
        lines.pop()
    if lines and lines[0].startswith(b"\xef\xbb\xbf"):
        lines[0] = lines[0][3:]
    seen, twice, said, bad, repeats = {}, set(), False, [], []
    for k, line in enumerate(lines, 1):
        kind, value = read_line(line)
        if kind == "bad" or kind == "offset" and said or kind == "says" and value != len(seen):
            bad.append(k)
        elif kind == "offset":
            if value in seen and value not in twice:
                twice.add(value)
                repeats.append((k, value, seen[value]))
            seen.setdefault(value, k)
        said = said or kind == "says"
    return set(seen) if not bad and seen else None, bad, repeats


def ran(*words):
    done = subprocess.run([tool, *words], capture_output=True)
    return done.returncode, done.stdout.decode(), done.stderr.decode()


def listed(offsets):
    return "".join("%d\n" % p for p in offsets) + "# complete: %d offset%s\n" % (len(offsets), "" if len(offsets) == 1 else "s")


def messages(name, bad, repeats):
    lines = [(k, "ERROR: %s, line %d: " % (name, k)) for k in bad[:20]]
    lines += [(k, "warning: %s, line %d: offset %d was named on line %d" % (name, k, p, first)) for k, p, first in repeats[:20]]
    return [text for _, text in sorted(lines)]


def compared(a, b, x, y):
    only, other = sorted(a - b), sorted(b - a)
    lines = ["offset %d: in %s, not in %s\n" % (p, x, y) for p in only] + ["offset %d: in %s, not in %s\n" % (p, y, x) for p in other]
    if not only and not other:
        return 0, "same: %d offset%s in each\n" % (len(a), "" if len(a) == 1 else "s")
    return 1, "".join(lines) + "DIFFERENT: %d in %s, %d in %s; %d only in %s, %d only in %s\n" % (len(a), x, len(b), y, len(only), x, len(other), y)


lists = {
    "union": lambda a, b: sorted(a) + sorted(b - a),
    "intersection": lambda a, b: sorted(a & b),
    "difference": lambda a, b: sorted(a - b),
    "symmetric-difference": lambda a, b: sorted(a - b) + sorted(b - a),
}
differ, files, first = 0, [], ""


def hold(what, got, wanted):
    global differ, first
    if got != wanted:
        differ += 1
        first = first or "; the first: %s: %.200r instead of %.200r" % (what, got, wanted)


for k in range(count):
    name = "f%d" % k
    text = text_of(dice.choice(["plain", "plain", "plain", "list", "bad"]))
    with open(name, "wb") as file:
        file.write(text)
    offsets, bad, repeats = read_file(text)
    status, out, err = ran("list", name)
    hold(name, (status, out), (0, listed(sorted(offsets))) if offsets is not None else (2, ""))
    said = messages(name, bad, repeats)
    hold(name + " messages", [line[: len(text)] for line, text in zip(err.splitlines(), said)], said)
    if offsets is not None:
        files.append((name, offsets))
        other, others = dice.choice(files)
        hold("compare %s %s" % (name, other), ran("compare", name, other)[:2], compared(offsets, others, name, other))
        command = dice.choice(list(lists))
        wanted = lists[command](offsets, others)
        hold("%s %s %s" % (command, name, other), ran(command, name, other)[:2], (0, listed(wanted)))
print("%d differ, of %d files%s" % (differ, count, first))
