"""The prover's output for a check: which functions are proved, which goals are open, and whether
more fell than what a proof names."""
import collections
import re

TOLD = re.compile(r"^(?:fn) ([^:\s]\S*?): (.*)$", re.M)
# What is said of a function whose own goals are all proved, but not those of one that it calls; and
# of one whose goals were not all tried, since they wait for a proof of what it calls.
MASKED = re.compile(r"no proof: it calls .*not proved$")
BLOCKED = re.compile(
    r"no proof: the borrow checker's part in its proof is not made yet: a call of "
)
WAITS = re.compile(r"`search` has not tried the goals of `([^`]*)`")
# The message for a goal that no file has an answer for.
OPEN = re.compile(r"`search` did not prove `")
# A goal of the source, with its name; and what is said at a line of a proof's file, to its end.
GOAL = re.compile(
    r"^(?:note: )?(?:\./)?(\S+?):(\d+):\d+: (?:error: |it is not proved that |(?=`search` found "
    r"no proof))(.*)$",
    re.M,
)
ERROR = re.compile(
    r"^(?:note: )?(?:\./)?(proofs/(\S+?)/\w+\.antt):(\d+):\d+: error: (.*(?:\n  .*)*)$", re.M
)
NAME = re.compile(r"`([^`\s]+)`")
# The message at a name of a proof that does not exist: a goal, a fact or a field of before the
# edit.
GONE = re.compile(r"has no field|is not in scope|has no `|was not admitted")
# The name of a place of the code in a proof, as c.match-read.in-Ok or c.sync-2: the words of it are
# those of what is called there.
PLACE = re.compile(r"\bc\.([\w.-]+)")
# What an answer expects of a fact, where it says how two types differ.
EXPECTED = re.compile(r"\bone has `([^`]+)` \(expected\)")
# A goal of an operation, that it can be carried out: it belongs to no clause.
OPERATION = re.compile(r"(?:overflow_(\w+)|slice_bounds|bounds)-")
# The signs of operations by their goals.
SIGNS = {
    "add": "+",
    "sub": "-",
    "mul": "*",
    "shl": "<<",
    "shr": ">>",
    "cast": " as ",
    "step": "step_by",
    "": "[",
}

# What is open of a function: is_of_proof where an answer names what an edit took away, is_of_answer
# where it spells out a term that the edit has replaced, is_of_edit where an operation that the edit
# brings cannot be shown to be carried out.
Finding = collections.namedtuple("Finding", "text is_of_proof is_of_answer is_of_edit")


def says_of_clause(finding):
    """Returns whether it means that a clause refuses the edit."""
    return not (finding.is_of_proof or finding.is_of_answer or finding.is_of_edit)


def spells(answers, line, term):
    """Whether the answer at a line of a file of answers spells a term out that is more than a
    name."""
    lines = answers.split("\n")[:line]
    while len(lines) > 1 and not lines[-1].startswith("pub "):
        lines.pop()
    one = re.split(r"\n(?=pub )", "\n".join(answers.split("\n")[max(len(lines) - 1, 0) :]))
    one = " ".join(one[0].split())
    return bool(re.search(r"\S \S", term)) and " ".join(term.split()) in one


def is_of_new_operation(goal, before, after):
    """Whether a goal, by its name, is of an operation of which a function has more than before."""
    found = OPERATION.match(goal)
    sign = SIGNS.get(found[1] or "") if found else None
    return bool(sign) and after.count(sign) > before.count(sign)


def calls_of(text):
    """Returns how often a function's text calls each name."""
    return collections.Counter(re.findall(r"\b(\w+)(?:::<[^>]*>)?\(", text))


def changed_calls(before, after):
    """Returns the names that two texts of a function do not call equally often."""
    one, other = calls_of(before), calls_of(after)
    return {it for it in one | other if one[it] != other[it]}


def kind_of(goal):
    """Returns what a goal's name says of the clause that it belongs to, wherever in the code it
    arises: that of returns-in-Err-clause-any is returns, any."""
    first, _, clause = goal.partition("-clause-")
    return re.split(r"-(?=in|then|else|after|\d)", first)[0], clause


class Said:
    """The output of a check of a crate."""

    def __init__(self, crate_name, status, text):
        self.status, self.text = status, text
        own = f"{crate_name}::"
        self.told = [
            (name.removeprefix(own), verdict)
            for name, verdict in TOLD.findall(text)
            if name.startswith(own)
        ]
        # (of these the prover tried no goal, since they wait for a callee's proof)
        self.waiting = [name.partition("::")[2] for name in WAITS.findall(text)]

    def reached_the_prover(self):
        return self.status in (0, 1, 3) and bool(self.told)

    def of(self, function):
        """Returns what is said of a function and of the closures in it."""
        return {name: verdict for name, verdict in self.told if function.is_told_by(name)}

    def findings(self, function, span, calls=frozenset(), before="", answers=lambda path: ""):
        """Returns the goals that the prover left open in a function, and of each whether it says
        less than that a clause refuses the edit. The function calls the names `calls` more or less
        often, its text was `before`, and `answers` returns its answers by their files. The span is
        that of the function in a file: its first and last line, and the path."""
        first, last, path = span
        owner = function.of_type + function.of_trait
        folder = "/".join([*function.modules, *([owner] if owner else []), function.name])
        errors = [
            it
            for it in ERROR.finditer(self.text)
            if it[2] == folder and not it[4].startswith("`no-help`")
        ]
        gone = {
            kind_of(NAME.search(it[4])[1])
            for it in errors
            if GONE.search(it[4]) and NAME.search(it[4])
        }
        found = []
        for it in GOAL.finditer(self.text):
            if it[1] == path and first <= int(it[2]) <= last:
                text = it[3].split(";")[0]
                names = NAME.findall(text)
                is_of_edit = bool(names) and is_of_new_operation(names[-1], before, function.text)
                found.append(
                    Finding(
                        text[:160], bool(names) and kind_of(names[-1]) in gone, False, is_of_edit
                    )
                )
        for it in errors:
            places = {word for place in PLACE.findall(it[4]) for word in re.split(r"[.-]", place)}
            term = EXPECTED.search(it[4])
            is_of_answer = bool(term) and spells(answers(it[1]), int(it[3]), term[1])
            found.append(
                Finding(
                    f"{it[1]}:{it[3]}: {it[4].partition(chr(10))[0][:130]}",
                    bool(GONE.search(it[4]) or places & calls),
                    is_of_answer,
                    False,
                )
            )
        return found
