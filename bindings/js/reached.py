"""Leaves out of a module of LLVM, as text, what none of some functions reaches: reached.py MODULE NAME.. writes the rest."""
import re
import sys

NAME = re.compile(r'@("[^"]*"|[-\w$.]+)')
OWN = re.compile(r'(?:define|declare)\b[^@]*@("[^"]*"|[-\w$.]+)\(|@("[^"]*"|[-\w$.]+) = ')


def parts(lines):
    """The parts of a module: functions, and single lines."""
    part = []
    for line in lines:
        part.append(line)
        if part[0].startswith("define ") and line != "}\n":
            continue
        yield "".join(part)
        part = []


def main(path, *wanted):
    others, named = [], {}
    with open(path, encoding="utf-8") as file:
        for part in parts(file):
            own = OWN.match(part)
            if own:
                named[own[1] or own[2]] = part
            others.append((own and (own[1] or own[2]), part))
    missing = [name for name in wanted if name not in named]
    if missing:
        sys.exit(f"reached.py: not in the module: {' '.join(missing)}")
    waiting = [*wanted, *(name for own, part in others if not own for name in NAME.findall(part))]
    reached = set()
    while waiting:
        name = waiting.pop()
        if name in named and name not in reached:
            reached.add(name)
            waiting += NAME.findall(named[name])
    sys.stdout.writelines(part for own, part in others if not own or own in reached)


if __name__ == "__main__":
    main(*sys.argv[1:])
