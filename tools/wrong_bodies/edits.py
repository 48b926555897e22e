"""Wrong bodies: edits of a crate's files, their places, and which of them one check can decide."""
import os
import re

from .sources import functions_of


class Edit:
    """A wrong body: its pairs of texts, the functions that it is in, and those that must fall."""

    def __init__(self, file, sources):
        self.label = f"{os.path.basename(sources.folder)}/{os.path.basename(file)[: -len('.edit')]}"
        self.pairs, self.falls, self.stands, self.touched, self.alone, self.why = (
            [],
            [],
            [],
            set(),
            False,
            "",
        )
        self.twin_text = None
        self.verdict, self.is_told = None, False
        try:
            with open(file, encoding="utf-8") as it:
                self.read(it.read())
            self.place(sources)
            self.twin_text = self.for_twin(sources)
        except (OSError, UnicodeDecodeError) as error:
            self.why = f"it cannot be read: {error}"
        except ValueError as error:
            self.why = str(error)

    def read(self, text):
        path, old = "", None
        for line in text.split("\n"):
            if line.startswith("file: "):
                path = line[len("file: ") :].strip()
                if os.path.normpath(path) != path or not path.startswith(
                    ("src/", "specs/", "proofs/")
                ):
                    raise ValueError("a 'file:' line names no file below src/, specs/ or proofs/")
            elif line.startswith("falls:"):
                self.falls += [it.strip() for it in line[len("falls:") :].split(",") if it.strip()]
            elif line.startswith("old: "):
                old = line[len("old: ") :]
            elif line.startswith("new:"):
                new = line[len("new:") :]
                if not path or not old:
                    raise ValueError("a 'new:' line is before any 'file:' or 'old:' line")
                self.pairs.append((path, old, new[1:] if new.startswith(" ") else new))
                old = None
        if not self.pairs or old is not None:
            raise ValueError(
                "it has no 'old:' and 'new:' pair"
                if not self.pairs
                else "an 'old:' line has no 'new:' line"
            )

    def apply(self, texts, sources):
        """Makes the edit in these texts, or raises ValueError and leaves them. Text that another
        edit has added there is no obstacle."""
        made = dict(texts)
        for path, old, new in self.pairs:
            try:
                text = made.get(path) or sources.text(path)
            except OSError:
                raise ValueError(f"there is no file {path}") from None
            at = text.find(old)
            if text.count(old) != 1:
                at = self.place_of(old, path, text, sources)
            if at < 0:
                raise ValueError(
                    f"an 'old:' text is in {path} {text.count(old)} times, and not once"
                )
            made[path] = text[:at] + new + text[at + len(old) :]
        texts.update(made)

    def place_of(self, old, path, text, sources):
        """Returns the place of a text that occurs once in the file as it is, within the function
        that has it there, or -1 if there is none."""
        whole = sources.text(path)
        holds = [
            it.path
            for file, it in sources.functions
            if file == path and it.start <= whole.find(old) < it.end
        ]
        if whole.count(old) != 1 or not holds:
            return -1
        spans = [
            (it.start, it.end)
            for it in functions_of(path, text, sources.homes)
            if it.path == holds[-1]
        ]
        if len(spans) != 1 or text[slice(*spans[0])].count(old) != 1:
            return -1
        return text.find(old, spans[0][0])

    def place(self, sources):
        """Finds the functions that the edit is in, and those whose verdict it may change."""
        self.apply({}, sources)
        outside = []
        for path, old, _ in self.pairs:
            at = sources.text(path).find(old)
            if at < 0:
                # (a later pair may change what an earlier one brought)
                continue
            holds = [
                i
                for i, (file, it) in enumerate(sources.functions)
                if file == path and it.start <= at < it.end
            ]
            self.stands += [i for i in holds if i not in self.stands]
            if not holds:
                outside.append((path, old))
        named = []
        for name in self.falls:
            fits = [
                i
                for i, (_, it) in enumerate(sources.functions)
                if f"::{it.path}".endswith(f"::{name}")
            ]
            if len(fits) != 1:
                raise ValueError(f"its 'falls:' names {name}, which fits {len(fits)} functions")
            named += fits
        if outside and not named:
            raise ValueError(
                f"its text {outside[0][1].strip()[:60]!r} is in no function, and no line 'falls:' "
                "names those that must fall by it"
            )
        self.touched = {*self.stands, *named}
        for path, old in outside:
            words = re.match(r"\s*(?:pub(?:\([a-z]+\))? )?(?:const|use (?:\w+::)*)\s*(\w+)", old)
            if not words or not path.endswith(".rt"):
                self.alone = True
                continue
            self.touched |= {
                i
                for i, (_, it) in enumerate(sources.functions)
                if re.search(rf"\b{words[1]}\b", it.text)
            }
        self.must = named or self.stands
        self.all_must = bool(named)

    def for_twin(self, sources):
        """Returns the edited text of its function with the attributes above it, if a second
        function with that text and the same contract and proof can be beside the first, else None.
        A function that a trait names cannot, nor one that calls itself or is proved by hand, nor an
        edit of anything else too."""
        if (
            self.alone
            or self.all_must
            or len(self.touched) != 1
            or len({path for path, _, _ in self.pairs}) != 1
        ):
            return None
        path, function = sources.functions[self.stands[0]]
        above = sources.text(path)[: function.start].split("\n")[:-1]
        attributes = []
        while above and above[-1].lstrip().startswith(("///", "#[")):
            attributes[:0] = [it for it in [above.pop()] if "#[" in it]
        *outer, name = function.path.split("::")
        outer = "/".join([f"{sources.folder}/proofs", *outer])
        files = os.listdir(f"{outer}/{name}") if os.path.isdir(f"{outer}/{name}") else []
        is_by_itself = not {*files} - {"Answers.antt", "Invariants.antt"} and not (
            os.path.isdir(outer) and any(it.startswith("+") for it in os.listdir(outer))
        )
        if (
            function.is_of_trait
            or not function.has_body_apart()
            or not is_by_itself
            or "#[test]" in "".join(attributes)
            or above
            and above[-1].endswith("]")
        ):
            return None
        text = function.text
        for _, old, new in self.pairs:
            if text.count(old) != 1:
                return None
            text = text.replace(old, new)
        return "\n".join([*attributes, text])

    def is_apart(self, other):
        """Whether one check can decide both."""
        return not self.alone and not other.alone and not self.touched & other.touched

    def can_be_twin_of(self, other):
        """Whether one can be in a twin of the function that the other is in."""
        return (
            self.twin_text is not None
            and other.twin_text is not None
            and self.touched == other.touched
        )


def made_of(batch, sources):
    """Makes the edits of a batch, the second and later ones of a function each in a twin of it.
    Returns the texts, and the twins by their edits."""
    texts, twins, stood = {}, {}, set()
    for it in batch:
        if it.twin_text is not None and it.touched & stood:
            twins[it] = sources.functions[it.stands[0]][1].twin(it.twin_text, len(twins) + 2)
        else:
            it.apply(texts, sources)
            stood |= it.touched
    for it, twin in twins.items():
        path, function = sources.functions[it.stands[0]]
        text = texts[path]
        first = next(f for f in functions_of(path, text, sources.homes) if f.path == function.path)
        texts[path] = f"{text[: first.end]}\n\n{twin.text}{text[first.end :]}"
    return texts, twins


def batches_of(edits, sources, has_twins):
    """Sorts edits into batches whose members are apart, or twins if there may be any: those that
    are apart from fewest go first."""
    is_apart = lambda one, other: one.is_apart(other) or has_twins and one.can_be_twin_of(other)
    apart = {
        (i, j): is_apart(edits[i], edits[j])
        for i in range(len(edits))
        for j in range(len(edits))
        if i != j
    }
    order = sorted(
        range(len(edits)), key=lambda i: sum(apart[i, j] for j in range(len(edits)) if j != i)
    )
    batches = []
    for i in order:
        for batch in batches:
            try:
                if all(apart[i, j] for j in batch):
                    made_of([edits[j] for j in [*batch, i]], sources)
                    batch.append(i)
                    break
            except ValueError:
                pass
        else:
            batches.append([i])
    return [[edits[i] for i in batch] for batch in batches]
