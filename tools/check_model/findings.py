"""What `fluent check` says of files, and what the model says of them: where the two differ."""
import itertools
import random
import re

from . import meaning, syntax

LINE = re.compile(r"(.+?):([0-9]+):([0-9]+): (error|warning): (.*)")
COUNTS = re.compile(r"([0-9]+) errors?, ([0-9]+) warnings?(.*)")
UNREAD = " (status 3: a file can't be read)"
MAYBE = " (status 1: a text may open too many placeables)"
MARK = "\ufeff"
IN = r".* \(in '([^']+)'\)"
TEXTS = [(kind, re.compile(text)) for kind, text in (
    ("unreadable", r"(.+); what begins in line ([0-9]+) can't be read"),
    ("taken", r"the id of '([^']+)' is taken by (.+):([0-9]+):([0-9]+)"),
    ("function id", r"the id of '([^']+)' is that of a function.*"),
    ("repeated", r"'([^']+)' stands there twice.*"),
    ("no message", r"no message '([^']+)'" + IN),
    ("no attribute", r"no attribute '([^']+)'" + IN),
    ("no value", r"no value of message '([^']+)'" + IN),
    ("no term", r"no term '-([^']+)'" + IN),
    ("not a function", r"no function '([^']+)': a message or a term has that id" + IN),
    ("no function", r"no function '([^']+)'" + IN),
    ("itself", r"'([^']+)' refers to itself.*"),
    ("cycle", r"'([^']+)' refers to '([^']+)', which leads back to it.*"),
    ("large", r"'([^']+)' can open ([0-9]+) placeables.*"),
    ("maybe large", r"'([^']+)' may open ([0-9]+) placeables.*"),
    ("leads to", r"'([^']+)' refers to '([^']+)', where something is wrong.*"))]
MISSING = {"no message", "no attribute", "no value", "no term", "no function", "not a function"}
TRIES = 24
# How many keys of a place's selects are tried one by one.
KEYS = 32


class Finding:
    """A line of the report; `kind` is None where its text is none of those above."""

    def __init__(self, file, line, column, weight, text):
        self.file, self.line, self.column, self.weight, self.text = file, int(line), int(column), weight, text
        self.kind, self.parts = next(((kind, found.groups()) for kind, rule in TEXTS if (found := rule.fullmatch(text))), (None, ()))

    @property
    def place(self):
        """The value or the attribute that it is of."""
        return self.parts[1] if self.kind in MISSING else self.parts[0]

    def __str__(self):
        return f"{self.file}:{self.line}:{self.column}: {self.weight}: {self.text}"


def findings_in(output, status):
    """The findings of a report of a run with this status, and what is wrong with its lines."""
    *lines, last = output.split("\n")[:-1] or [""]
    found = [LINE.fullmatch(line) for line in lines]
    faults = [f"this line is no finding: {line!r}" for line, match in zip(lines, found) if not match]
    findings = [Finding(*match.groups()) for match in found if match]
    faults += [f"nothing is known of this error: {one}" for one in findings if one.kind is None and one.weight == "error"]
    counts, weights = COUNTS.fullmatch(last), [one.weight for one in findings]
    if not counts or [int(count) for count in counts.groups()[:2]] != [weights.count("error"), weights.count("warning")]:
        faults.append(f"the last line doesn't count the findings: {last!r}")
    elif counts[3] != (UNREAD if status == 3 else MAYBE if status == 1 and "error" not in weights else ""):
        faults.append(f"the last line doesn't say why the status is {status}: {last!r}")
    return findings, faults


# ---- the model's side

class Place:
    """A value or an attribute that the bundle has, with its pattern and what that refers to: (KIND, ID, ATTRIBUTE, START)."""

    def __init__(self, name, file, start, pattern, references):
        self.name, self.file, self.start, self.pattern, self.references = name, file, start, pattern, references
        self.needs = list(needs_of(pattern, ()))


def needs_of(pattern, conditions):
    """What a pattern refers to, each as (KIND, ID, ATTRIBUTE) with the selects and the variants in which it stands."""
    for element in pattern:
        if element[0] == "place":
            yield from needs_in(element[1], conditions)


def needs_in(expression, conditions):
    kind = expression[0]
    if kind == "select":
        yield from needs_in(expression[1], conditions)
        for index, (_, pattern, _) in enumerate(expression[2]):
            yield from needs_of(pattern, conditions + ((expression[1], expression[2], index),))
    elif kind == "nested":
        yield from needs_in(expression[1], conditions)
    elif kind not in ("string", "number"):
        yield (kind, expression[1], expression[2] if kind in ("message", "term") else None), conditions
        given = {"function": 2, "term": 3}.get(kind)
        if given and expression[given]:
            for one in expression[given][0] + tuple(value for _, value in expression[given][1]):
                yield from needs_in(one, conditions)


def calls_placed(pattern, conditions=()):
    """The calls that stand in placeables themselves: elsewhere a function that isn't there is an error value, and no error."""
    for element in pattern:
        if element[0] == "place":
            yield from calls_in(element[1], conditions)


def calls_in(expression, conditions):
    kind = expression[0]
    if kind == "select":
        for index, (_, pattern, _) in enumerate(expression[2]):
            yield from calls_placed(pattern, conditions + ((expression[1], expression[2], index),))
    elif kind == "nested":
        yield from calls_in(expression[1], conditions)
    elif kind == "function":
        yield (kind, expression[1], None), conditions


def name_of(kind, name, attribute):
    return ("-" if kind == "term" else "") + meaning.dotted(name, attribute)


class Model:
    """What the files mean, as one source."""

    def __init__(self, texts):
        self.texts = texts
        self.entries = {name: syntax.read(text) for name, text in texts.items()}
        self.bundle, self.left = meaning.Bundle(), []
        for name, entries in self.entries.items():
            self.left += [(name, entry) for entry in self.bundle.add(entries)]
        self.places = {}
        for name, entries in self.entries.items():
            for entry in entries:
                if entry.kind != "junk" and self.bundle.entry(entry.kind, entry.name) is entry:
                    self.add_places(name, entry)
        self.leads = {name: [to for to, _ in self.edges(place)] for name, place in self.places.items()}

    def add_places(self, file, entry):
        if entry.value is not None:
            name = name_of(entry.kind, entry.name, None)
            self.places[name] = Place(name, file, entry.start, entry.value, entry.references)
        for one in entry.attributes:
            name = name_of(entry.kind, entry.name, one.name)
            if name not in self.places:
                self.places[name] = Place(name, file, one.start, one.pattern, one.references)

    def spot(self, file, at):
        return syntax.line_of(self.texts[file], at), syntax.column_of(self.texts[file], at)

    def edges(self, place):
        """The places that a place refers to, each with whether it does in all variants."""
        return [(name_of(*need), not conditions) for need, conditions in place.needs if need[0] in ("message", "term") and name_of(*need) in self.places]

    def reached(self, start, leads=None):
        """The places that follow one, and itself where it comes again."""
        found, waiting = set(), [start]
        while waiting:
            for name in (leads or self.leads)[waiting.pop()]:
                if name not in found:
                    found.add(name)
                    waiting.append(name)
        return found

    def lacks(self, kind, name, attribute):
        """The kind of finding and its name, where what is referred to isn't there; else None."""
        if kind == "function":
            return None if self.bundle.function(name) else ("not a function" if self.is_taken(name) else "no function", name)
        if kind == "variable":
            return None
        target = self.bundle.target(kind, name, attribute)
        if target[0] == "found":
            return None
        if target[0] == "no value":
            return ("no value", name)
        if self.bundle.entry(kind, name) is None:
            return (f"no {kind}", name)
        return ("no attribute", name_of(kind, name, attribute))

    def is_taken(self, name):
        """Whether a message or a term has this id, so that no function can be added."""
        return any(self.bundle.entry(kind, name) for kind in ("message", "term"))

    def missing(self, place):
        return {lack for need, _ in place.needs if (lack := self.lacks(*need))}

    def asked(self, place):
        """The variables that a place asks the arguments for: its own, and those of messages that it refers to."""
        found, waiting, seen = set(), [place.name], {place.name}
        while waiting:
            for need, _ in self.places[waiting.pop()].needs:
                if need[0] == "variable":
                    found.add(need[1])
                elif need[0] == "message" and (name := name_of(*need)) in self.places and name not in seen:
                    seen.add(name)
                    waiting.append(name)
        return sorted(found)

    # ---- counts of placeables, of places that lead to no cycle

    def most(self, name, known):
        if name not in known:
            known[name] = self.most_in_pattern(self.places[name].pattern, known)
        return known[name]

    def most_in_pattern(self, pattern, known):
        return sum(self.most_in(element[1], known) + 1 for element in pattern if element[0] == "place")

    def most_in(self, expression, known):
        kind = expression[0]
        if kind == "select":
            return self.most_in(expression[1], known) + max(self.most_in_pattern(pattern, known) for _, pattern, _ in expression[2])
        if kind == "nested":
            return self.most_in(expression[1], known)
        given = expression[{"function": 2, "term": 3}[kind]] if kind in ("function", "term") else None
        count = sum(self.most_in(one, known) for one in given[0]) if given else 0
        if kind in ("message", "term") and name_of(*expression[:3]) in self.places:
            count += self.most(name_of(*expression[:3]), known)
        return count

    # ---- formatting

    def errors(self, place, arguments):
        return meaning.format_pattern(self.bundle, place.pattern, arguments)[1]

    def values(self, name):
        """Values that decide something for a place: of each variable, those of the keys beside it in it and in what follows it."""
        found = {}
        for other in {name} | self.reached(name):
            for _, conditions in self.places[other].needs:
                for selector, variants, _ in conditions:
                    self.add_values(selector, variants, found)
        return found

    def add_values(self, selector, variants, found):
        if selector[0] == "function" and selector[2][0]:
            selector = selector[2][0][0]
        if selector[0] == "variable":
            listed = found.setdefault(selector[1], [])
            listed += [value for key, _, _ in variants if (value := value_of_key(key)) not in listed]

    def tries(self, place, rng, count=TRIES):
        """Arguments that give all that a place asks for."""
        decisive = self.values(place.name)
        others = [("text", "zzz"), meaning.value_of("1"), meaning.value_of("2"), meaning.value_of("0.5"), meaning.CUSTOM, meaning.NO_VALUE]
        asked = self.asked(place)
        choices = [decisive.get(name, []) + others[:3] for name in asked]
        size = 1
        for one in choices:
            size *= len(one)
        if size <= count:
            for values in itertools.product(*choices):
                yield dict(zip(asked, values))
        else:
            for _ in range(count):
                yield {name: rng.choice(decisive.get(name, []) + others) for name in asked}


def value_of_key(key):
    return ("text", key[1]) if key[0] == "name" else meaning.value_of(key[1])


def choices_of(pattern):
    """Each select of a pattern that is on a variable, with each of its keys: (VARIABLE, KEY)."""
    for element in pattern:
        if element[0] == "place":
            yield from choices_in(element[1])


def choices_in(expression):
    kind = expression[0]
    if kind == "select":
        selector, variants = expression[1:3]
        yield from choices_in(selector)
        if selector[0] == "variable":
            yield from ((selector[1], key) for key, _, _ in variants)
        for _, pattern, _ in variants:
            yield from choices_of(pattern)
    elif kind == "nested":
        yield from choices_in(expression[1])
    elif kind in ("function", "term") and (given := expression[{"function": 2, "term": 3}[kind]]):
        for one in given[0] + tuple(value for _, value in given[1]):
            yield from choices_in(one)


def tried_of(pattern):
    """The arguments with which a pattern is tried: none, then one variable each with the value of a key, for the first KEYS."""
    yield {}
    for variable, key in itertools.islice(choices_of(pattern), KEYS):
        yield {variable: value_of_key(key)}


def deciding(conditions):
    """Arguments that lead to a part that stands in these variants; None where that is not for arguments to say, or can't be."""
    given = {}
    for selector, variants, index in conditions:
        value = value_of_key(variants[index][0])
        if selector[0] != "variable" or given.setdefault(selector[1], value) != value:
            return None
        if next(number for number, (key, _, _) in enumerate(variants) if meaning.goes_to(value, key)) != index:
            return None
    return given


# ---- where the two differ

class Comparison:
    def __init__(self, model, findings, rng):
        self.model, self.findings, self.rng, self.faults = model, findings, rng, []
        self.shown = self.unshown = 0

    def of(self, *kinds):
        return [one for one in self.findings if one.kind in kinds]

    def fault(self, text):
        self.faults.append(text)

    def compare(self):
        self.unreadable()
        self.taken()
        self.repeated()
        self.names()
        self.missing()
        self.cycles()
        self.large()
        self.leads()
        self.clean()
        return self.faults

    def unreadable(self):
        """Each Junk is told once, by the line where it begins and at a place behind that, and nothing else is."""
        left = self.of("unreadable")
        for file, entries in self.model.entries.items():
            text = self.model.texts[file]
            lines = text.split("\n")
            for junk in (one for one in entries if one.kind == "junk"):
                first = syntax.line_of(text, junk.start)
                told = [one for one in left if one.file == file and int(one.parts[1]) == first]
                if len(told) != 1:
                    self.fault(f"what can't be read in line {first} of {file} is told {len(told)} times")
                for one in told:
                    left.remove(one)
                    is_there = first <= one.line <= len(lines) and 1 <= one.column <= len(lines[one.line - 1]) + 1
                    if one.weight != "error" or not is_there:
                        self.fault(f"what can't be read in line {first} is told wrongly: {one}")
        for one in left:
            self.fault(f"this can be read: {one}")

    def taken(self):
        """Each id that an entry before has is told, at its entry, with the first one's place; and each that is a function's."""
        first, wanted, functions = {}, [], []
        for file, entries in self.model.entries.items():
            for entry in (one for one in entries if one.kind != "junk"):
                name, spot = name_of(entry.kind, entry.name, None), self.model.spot(file, entry.start)
                if entry.name == "NUMBER":
                    functions.append((file, *spot, name))
                elif entry.name in first:
                    wanted.append((file, *spot, name, *first[entry.name]))
                first.setdefault(entry.name, (file, *spot))
        told = [(one.file, one.line, one.column, one.parts[0], one.parts[1], int(one.parts[2]), int(one.parts[3])) for one in self.of("taken")]
        # A second entry with a function's id may be told both ways.
        told = [one for one in told if one[3].lstrip("-") != "NUMBER"]
        if sorted(told) != sorted(wanted):
            self.fault(f"ids that are taken are {sorted(wanted)}, and told are {sorted(told)}")
        told = [(one.file, one.line, one.column, one.parts[0]) for one in self.of("function id")]
        if sorted(told) != sorted(functions):
            self.fault(f"ids of functions are {sorted(functions)}, and told are {sorted(told)}")

    def repeated(self):
        wanted = []
        for file, entries in self.model.entries.items():
            for entry in (one for one in entries if one.kind != "junk"):
                seen = set()
                for one in entry.attributes:
                    if one.name in seen:
                        wanted.append((file, *self.model.spot(file, one.start), name_of(entry.kind, entry.name, one.name)))
                    seen.add(one.name)
        told = [(one.file, one.line, one.column, one.parts[0]) for one in self.of("repeated")]
        if sorted(told) != sorted(wanted):
            self.fault(f"attributes that stand twice are {sorted(wanted)}, and told are {sorted(told)}")

    def names(self):
        """Each finding of a pattern names one that is there."""
        for one in self.of(*MISSING, "itself", "cycle", "large", "maybe large", "leads to"):
            if one.place not in self.model.places:
                self.fault(f"there is no such value or attribute: {one}")
                self.findings.remove(one)

    def stands_at(self, one, place, references):
        """A finding stands where its place does, or one of these references."""
        starts = [place.start] + [reference[3] for reference in references]
        if one.file != place.file or (one.line, one.column) not in [self.model.spot(place.file, at) for at in starts]:
            self.fault(f"this stands elsewhere: {one}")

    def missing(self):
        """What isn't there is told of each pattern that refers to it, and nothing else is; and it shows its error."""
        told = {name: set() for name in self.model.places}
        for one in self.of(*MISSING):
            place = self.model.places[one.place]
            lack = (one.kind, one.parts[0])
            told[place.name].add(lack)
            if lack not in self.model.missing(place):
                self.fault(f"the model has nothing of it: {one}")
            self.stands_at(one, place, [reference for reference in place.references if self.model.lacks(*reference[:3]) == lack])
            needs = calls_placed(place.pattern) if one.kind == "not a function" else place.needs
            needs = [(need, conditions) for need, conditions in needs if self.model.lacks(*need) == lack]
            if one.kind != "no function" and one.weight == "error" and needs:
                self.shows(one, place, needs)
        for name, place in self.model.places.items():
            for lack in self.model.missing(place) - told[name]:
                self.fault(f"this isn't told of '{name}': {' '.join(lack)}")

    def shows(self, one, place, needs):
        """Some arguments show the error of what is missing. They must where they alone decide whether it is reached."""
        errors = {f"No value: {need[1]}" if one.kind == "no value" else meaning.lost(need) for need, _ in needs} | {meaning.TOO_MANY}
        asked, must = self.model.asked(place), False
        for _, conditions in needs:
            given = deciding(conditions)
            if given is not None:
                must = True
                if errors & set(self.model.errors(place, {**dict.fromkeys(asked, ("text", "zzz")), **given})):
                    self.shown += 1
                    return
        self.shown_by_any(one, place, errors, must)

    def shown_by_any(self, one, place, errors, must):
        for arguments in self.model.tries(place, self.rng):
            if errors & set(self.model.errors(place, arguments)):
                self.shown += 1
                return
        self.unshown += 1
        if must:
            self.fault(f"no arguments show this error: {one}")

    def cycles(self):
        always = {name: [to for to, is_always in self.model.edges(place) if is_always] for name, place in self.model.places.items()}
        for one in self.of("itself", "cycle"):
            place, to = self.model.places[one.place], one.parts[-1]
            if to not in self.model.leads[place.name] or to != place.name and place.name not in self.model.reached(to):
                self.fault(f"there is no such cycle: {one}")
                continue
            self.stands_at(one, place, [reference for reference in place.references if name_of(*reference[:3]) == to])
            self.shown_by_any(one, place, {meaning.CYCLE, meaning.TOO_MANY}, place.name in self.model.reached(place.name, always))
        named = {one.place for one in self.of("itself", "cycle")}
        for name in self.model.places:
            reached = self.model.reached(name)
            if name in reached and not any(to in named and name in self.model.reached(to) for to in reached):
                self.fault(f"'{name}' is on a cycle, and none is told there")

    def unclean(self):
        """The places where something is missing or that are on a cycle, and those that lead there."""
        bad = {name for name, place in self.model.places.items() if self.model.missing(place) or name in self.model.reached(name)}
        return bad, bad | {name for name in self.model.places if bad & self.model.reached(name)}

    def large(self):
        """Where nothing else is wrong, too many placeables are told, and their count: an error exactly where it is shown."""
        _, unclean = self.unclean()
        known, told = {}, {one.place: one for one in self.of("large", "maybe large")}
        for name, place in self.model.places.items():
            if name in unclean:
                continue
            count = min(self.model.most(name, known), 2**64 - 1)
            if (count > meaning.LIMIT) != (name in told):
                self.fault(f"'{name}' opens {count} placeables at most, and {'that is' if name in told else 'nothing is'} told")
            elif name in told:
                one = told[name]
                self.stands_at(one, place, place.references)
                if int(one.parts[1]) != count:
                    self.fault(f"'{name}' opens {count} placeables at most: {one}")
                self.weighs(one, place)

    def weighs(self, one, place):
        """It is an error where some of the arguments that are tried show it, and else a warning."""
        is_shown = any(meaning.TOO_MANY in self.model.errors(place, arguments) for arguments in tried_of(place.pattern))
        self.shown += is_shown
        if (one.kind, one.weight) != (("large", "error") if is_shown else ("maybe large", "warning")):
            self.fault(f"{'some' if is_shown else 'none'} of the arguments that are tried show it: {one}")

    def leads(self):
        _, unclean = self.unclean()
        for one in self.of("leads to"):
            if one.parts[1] not in unclean or one.parts[1] not in self.model.leads[one.place]:
                self.fault(f"nothing is wrong there: {one}")

    def clean(self):
        """What isn't told, and leads to nothing that is, shows no error; what is wrong is told, or leads to what is."""
        named = {one.place for one in self.of(*MISSING, "itself", "cycle", "large", "maybe large", "leads to")}
        _, unclean = self.unclean()
        for name, place in self.model.places.items():
            if named & ({name} | self.model.reached(name)):
                continue
            if name in unclean:
                self.fault(f"something is wrong in '{name}', and nothing is told of it")
            for arguments in self.model.tries(place, self.rng, 8):
                errors = self.model.errors(place, arguments)
                if errors:
                    self.fault(f"nothing is told of '{name}', and with {arguments} it shows {errors}")
                    break


def text_of(content):
    """The text of a file without a byte order mark; None where it is not UTF-8."""
    try:
        return content.decode().removeprefix(MARK)
    except UnicodeDecodeError:
        return None


def said_of(name, content):
    """The line that says of a file that it is not UTF-8, with the line and the index of the first byte that is none."""
    try:
        content.decode()
    except UnicodeDecodeError as error:
        line = content.count(b"\n", 0, error.start) + 1
        return [f"fluent: {name}:{line}: not UTF-8 at byte {error.start}"]
    return []


def compare(files, status, output, errors, has_strict, seed):
    """What is wrong with a run of `check` on these files, and how many errors were shown by arguments, and not shown."""
    texts = {name: text for name, content in files if (text := text_of(content)) is not None}
    said = [line for name, content in files for line in said_of(name, content)]
    faults = [] if [line for line in errors.splitlines() if "not UTF-8" in line] == said else [f"of what is no UTF-8 is said {errors!r}, not {said}"]
    if not texts:
        nothing = f"0 errors, 0 warnings{UNREAD}\n"
        return faults + ([] if (status, output) == (3, nothing) else [f"status {status} and {output!r}, where no file is read"]), 0, 0
    findings, more = findings_in(output, status)
    model = Model(texts)
    # What may open too many placeables has no status 0 either.
    told = [one for one in findings if one.weight == "error" or one.kind == "maybe large" or not has_strict]
    if status != (3 if said else 1 if told else 0):
        faults.append(f"status {status} beside {len(findings)} findings")
    comparison = Comparison(model, [one for one in findings if one.kind], random.Random(seed))
    return faults + more + comparison.compare(), comparison.shown, comparison.unshown
