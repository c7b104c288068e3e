"""Writes what the tests ask: data.py FOLDER makes rows.json of the fixtures, and deep.bin and hostile.bin of the sources of
tools/depths.py and tools/hostile, as records of c/records.h."""
import json
import re
import sys
from collections import Counter
from itertools import groupby
from pathlib import Path

TOP = Path(__file__).resolve().parents[3]
sys.dont_write_bytecode = True
sys.path[:0] = [str(TOP / "bindings/python"), str(TOP / "tools")]

import depths
from tests import asked
from tests.asked import fixtures, reports, words_for
from tests.fixtures import Reader, unescaped

# With fewer, some would be passed over that were asked before.
LEAST = 780
KINDS = {"@star": ("c", "star\n*"), "@none": ("o", ""), "@error": ("e", "")}


class WholeReader(Reader):
    """Also reads what a text is where the formatter is asked about the whole of it."""

    def directive(self, number, sign, rest, start, end):
        super().directive(number, sign, rest, start, end)
        if sign == "#:":
            self.rows[-1].whole = unescaped(rest)


asked.Reader = WholeReader


def lines(texts):
    return "".join(f"{text}\n" for text in texts)


def argument(name, word):
    if word.startswith('"'):
        return name, "t", unescaped(word[1:-1])
    return (name, *KINDS.get(word, ("n", word)))


def link(bundle):
    settings = bundle.settings
    sources = [{"text": source.text, "overrides": source.is_overriding, "report": None if report is None else lines(report)}
               for source, report in reports(bundle)]
    return {"language": settings.language, "rules": None if (settings.cardinal, settings.ordinal) == (None, None) else
            [settings.cardinal or "", settings.ordinal or ""], "isolates": settings.isolating, "limit": settings.limit,
            "objects": list(settings.objects), "sources": sources}


def functions(each):
    """The functions that a row's message may call."""
    calling = [link for link in each.bundle.links() if any(re.search("[A-Z] *\\(", source.text) for source in link.sources)]
    words = set().union(*(words_for(each.id, link) for link in calling))
    return sorted(word for word in words if word.isupper())


def row(file, each):
    return {"where": f"{file}:{each.line}", "sign": each.sign, "functions": functions(each), "id": each.id, "name": each.attribute or "",
            "args": [argument(*pair) for pair in each.arguments], "text": each.text, "whole": getattr(each, "whole", None),
            "errors": lines(each.errors)}


def reason(each):
    """Why a row is passed over, or None."""
    return "the writer fails" if each.sign == "#<" else None


def groups(counts):
    """Bundles, and the rows that they are asked."""
    for file, reader in fixtures():
        for _, rows in groupby(reader.rows, key=lambda each: id(each.bundle)):
            rows = list(rows)
            counts.update(reason(each) or "asked" for each in rows)
            rows = [each for each in rows if not reason(each)]
            if rows:
                yield {"links": [link(bundle) for bundle in rows[0].bundle.links()], "rows": [row(file, each) for each in rows]}


def sized(text):
    text = text if isinstance(text, bytes) else text.encode("utf-8")
    return len(text).to_bytes(4, "little") + text


def record(kind, *texts):
    return kind + bytes([len(texts)]) + b"".join(map(sized, texts))


def values(words):
    pairs = [word.split("=", 1) for word in words]
    return b"".join(b"n" + sized(name) + sized(value) for name, value in pairs)


def hostile_cases():
    """The cases of tools/hostile, which is a program."""
    path = TOP / "tools/hostile"
    text = path.read_text(encoding="utf-8").replace("\nsys.exit(main())\n", "\n")
    scope = {"__file__": str(path), "__name__": "hostile"}
    exec(compile(text, str(path), "exec"), scope)
    for shapes in ("unclosed", "nested", "texts", "literals", "lists"):
        yield from scope[shapes]()


def hostile():
    """A source, and its message `a` as it must be shown. Without one there is no message."""
    for name, (source, words, (status, text, errors)) in hostile_cases():
        yield record(b"s", source)
        told = lines(re.findall("^Resolver error: .*", errors, re.MULTILINE))
        yield record(b"m" if status else b"f", name, "100", values(words), text.removesuffix("\n"), told)


def deep():
    words = [f"{name}={digits}" for name, digits in depths.WORDS.items()]
    for product in depths.products():
        yield record(b"s", product.source)
        for limit in depths.LIMITS:
            wanted = depths.wanted(product, limit)
            yield record(b"f", f"{product.name}, with a limit of {limit}", str(limit), values(words), *wanted)


def main():
    folder, counts = Path(sys.argv[1]), Counter()
    (folder / "rows.json").write_text(json.dumps(list(groups(counts))), encoding="utf-8")
    for name, records in (("hostile.bin", hostile), ("deep.bin", deep)):
        with open(folder / name, "wb") as file:
            file.writelines(records())
    print(", ".join(f"{count} rows {why}" for why, count in counts.most_common()))
    return counts["asked"] < LEAST


if __name__ == "__main__":
    sys.exit(main())
