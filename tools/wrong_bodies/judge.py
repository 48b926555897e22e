"""The verdicts on one crate's edits."""
import collections
import re
import time

from .checks import Checks
from .edits import batches_of, made_of
from .said import BLOCKED, MASKED, OPEN, Said, changed_calls, says_of_clause
from .sources import functions_of

BY_CLAUSE, BY_PROOF, STANDS, NOT_TRIED = (
    "refused by a clause",
    "refused by a proof file alone",
    "NOT REFUSED",
    "not tried",
)
BY_ANSWER, BY_EDIT = (
    "refused at a term that an answer spells out",
    "refused for an operation that it brings",
)
# verdicts that say little of a contract
WEAK = (BY_EDIT, BY_PROOF, BY_ANSWER)


# the results for a function that an edit has to fell; the third waits for the functions that it
# calls
FELL, STOOD, MASKED_ONLY, UNCLEAR = "fell", "stood", "masked", "unclear"

# the end of the name of a twin's folder
TWIN = re.compile(r"_twin\d*/")


def weak_word(found):
    """The reason for the refusal of an edit by which no clause fell."""
    if any(it.is_of_answer for it in found):
        return BY_ANSWER
    return BY_PROOF if any(it.is_of_proof for it in found) else BY_EDIT


class Verdict(collections.namedtuple("Verdict", "word why")):
    """A word, and the reason for it."""

    def is_refusal(self):
        return self.word == BY_CLAUSE or self.word in WEAK


class Judge:
    """Gives each edit of a crate its verdict, over some of its checks."""

    def __init__(self, rtlib, crate, edits, sources, args, room, tell):
        self.crate, self.edits, self.sources, self.args, self.tell = (
            crate,
            edits,
            sources,
            args,
            tell,
        )
        self.checks = Checks(rtlib, crate, sources, room)
        self.proved_unedited, self.bad = set(), None

    def check(self, *how, **more):
        return Said(self.crate.name, *self.checks.check(*how, **more))

    def run(self):
        left = []
        for it in self.edits:
            if it.why:
                it.verdict = Verdict(NOT_TRIED, it.why)
            else:
                left.append(it)
        for turn in range(2):
            groups, left = (
                batches_of(left, self.sources, self.args.proved)
                if not turn
                else [[it] for it in left],
                [],
            )
            for batch in groups:
                cuts = self.args.proved and not turn
                left += self.judge(batch, bool(turn) or len(batch) == 1 and not cuts, cuts)
                if self.args.proved:
                    self.tell(batch)
        if not self.args.proved:
            self.control()

    def compile(self, edits):
        """Gives a verdict to those of some edits that do not compile, and to no other."""
        for batch in batches_of(edits, self.sources, True):
            self.compile_batch(batch)

    def compile_batch(self, batch):
        texts, twins = made_of(batch, self.sources)
        said = Said(self.crate.name, *self.checks.compile(texts, self.pairs(twins)))
        if said.status == 0:
            return
        for part in self.parts_of(batch, twins, self.edited(texts), said.text):
            self.compile_batch(part)

    def pairs(self, twins):
        """Returns the functions and their twins."""
        return [(self.sources.functions[it.stands[0]][1], twin) for it, twin in twins.items()]

    def edited(self, texts):
        return {
            path: functions_of(path, text, self.sources.homes)
            for path, text in texts.items()
            if path.endswith(".rt")
        }

    def judge(self, batch, is_last, cuts):
        """Tries a batch; returns the edits that are to be tried again."""
        if time.monotonic() > self.args.until:
            for it in batch:
                it.verdict = Verdict(NOT_TRIED, "its time was over")
            return []
        texts, twins = made_of(batch, self.sources)
        must = sorted({i for it in batch for i in it.must})
        touched = {i for it in batch for i in it.touched}
        silent = [*(self.sources.functions[i][1] for i in must), *twins.values()]
        only = [it.path for it in silent] if self.args.proved else []
        spared = {(path, it.path) for path, it in (self.sources.functions[i] for i in touched)} | {
            (it.pairs[0][0], twin.path) for it, twin in twins.items()
        }
        said = self.check(texts, only, spared if cuts else None, self.pairs(twins), silent)
        if only and said.status == 2:
            # (a name that the prover does not know as this text spells it)
            cuts = False
            said = self.check(texts, [], None, self.pairs(twins))
        edited = self.edited(texts)
        if not said.reached_the_prover():
            return [
                it
                for part in self.parts_of(batch, twins, edited, said.text)
                for it in self.judge(part, False, cuts)
            ]
        for i, (_, function) in enumerate(self.sources.functions):
            if i not in touched and not any(it.alone for it in batch):
                told = said.of(function)
                if told and all(it.startswith("proved") for it in told.values()):
                    self.proved_unedited.add(i)
        elsewhere = self.fallen_elsewhere(
            said, range(len(self.sources.functions)) if cuts else touched, twins.values()
        )
        again = []
        for it, twin in twins.items():
            again += self.judge_twin(it, twin, edited, texts, said, cuts)
        for it in batch:
            if it not in twins and self.judge_one(
                it, edited, texts, said, elsewhere, is_last, cuts
            ):
                again.append(it)
        return again

    def parts_of(self, batch, twins, edited, text):
        """If a check did not reach the prover: takes out the edits whose lines its errors name, or
        halves the batch. One alone gets its verdict."""
        if len(batch) == 1:
            lines = [
                it for it in text.split("\n") if "error" in it or it.startswith("rattle")
            ] or text.strip().split("\n")[-1:]
            batch[0].verdict = Verdict(NOT_TRIED, f"it did not reach the prover: {lines[0][:200]}")
            return []
        places = re.findall(r"(src/\S+?\.rt):(\d+)", text)
        named = {
            f.path
            for path, line in places
            for f in edited.get(path, [])
            if f.first <= int(line) <= f.last
        }
        bad = [
            it
            for it in batch
            if named
            & (
                {twins[it].path}
                if it in twins
                else {self.sources.functions[i][1].path for i in it.stands}
            )
        ]
        good = [it for it in batch if it not in bad]
        parts = (
            [good] + [[it] for it in bad]
            if bad and good
            else [batch[: len(batch) // 2], batch[len(batch) // 2 :]]
        )
        return [part for part in parts if part]

    def findings(self, said, function, same, path, texts):
        """Returns what is open of a function, as a file has it now."""
        span = same.head_in(texts.get(path) or self.sources.text(path)), same.last, path
        return said.findings(
            same, span, changed_calls(function.text, same.text), function.text, self.answers
        )

    def answers(self, path):
        """Returns the text of a file of answers, of a function or of a twin of it."""
        try:
            return self.sources.text(TWIN.sub("/", path))
        except OSError:
            return ""

    def judge_twin(self, it, twin, edited, texts, said, cuts):
        """Refuses an edit in a twin if a goal fell. If none did, or a name in its proof is not
        found, the edit is tried in the function itself."""
        path, function = self.sources.functions[it.stands[0]]
        bad = [v for v in said.of(twin).values() if not v.startswith(("proved", "could not tell"))]
        same = next((f for f in edited[path] if f.path == twin.path), twin)
        goal = next(
            (f.text for f in self.findings(said, function, same, path, texts) if says_of_clause(f)),
            "",
        ) or next((v[:120] for v in bad if OPEN.search(v)), "")
        if goal and any(not MASKED.search(v) and not BLOCKED.search(v) for v in bad):
            it.verdict = Verdict(BY_CLAUSE, f"{function.path}: {goal}")
            return []
        return self.judge([it], False, cuts)

    def judge_one(self, it, edited, texts, said, elsewhere, is_last, cuts):
        """Gives an edit its verdict, or returns that it has to be tried again."""
        found = collections.defaultdict(list)
        for i in it.must:
            outcome, what = self.outcome_of(i, edited, texts, said, cuts)
            found[outcome].append(what)
        if self.is_refused(it, found):
            it.verdict = Verdict(
                *max(found[FELL], key=lambda what: [*WEAK, BY_CLAUSE].index(what[0]))
            )
            return False
        open_ = found[MASKED_ONLY] or found[UNCLEAR]
        if (open_ or elsewhere) and not is_last:
            return True
        others = [] if it.all_must or found[MASKED_ONLY] else self.by_this_edit(elsewhere)
        if others:
            it.verdict = Verdict(BY_CLAUSE, others[0])
        elif open_:
            it.verdict = Verdict(NOT_TRIED, open_[0])
        else:
            it.verdict = Verdict(STANDS, f"{', '.join(found[STOOD])}: proved with this edit")
        return False

    def is_refused(self, it, found):
        """Whether the functions that an edit has to fell have fallen: all of them, or one is
        enough."""
        return bool(found[FELL]) and not (
            it.all_must and (found[STOOD] or found[MASKED_ONLY] or found[UNCLEAR])
        )

    def outcome_of(self, i, edited, texts, said, cuts):
        """The effect of an edit on a function, and its reason."""
        function = self.sources.functions[i][1]
        told, name = said.of(function), function.path
        bad = [v for v in told.values() if not v.startswith("proved")]
        if not told:
            return UNCLEAR, f"the prover says nothing of {name}"
        if not bad:
            return STOOD, name
        if all(MASKED.search(v) or BLOCKED.search(v) for v in bad):
            is_open = any(BLOCKED.search(v) for v in bad) or any(
                function.is_told_by(it) for it in said.waiting
            )
            return (MASKED_ONLY, f"{name}: {bad[0][:100]}") if is_open else (STOOD, name)
        if any(v.startswith("could not tell") for v in bad):
            return UNCLEAR, f"{name}: {bad[0][:100]}"
        return self.fall_of(i, edited, texts, said, cuts, bad)

    def fall_of(self, i, edited, texts, said, cuts, bad):
        """Returns the cause of the failure of a function: a clause, its proof, an answer or the
        text that the edit added."""
        path, function = self.sources.functions[i]
        same = next((f for f in edited.get(path, []) if f.path == function.path), function)
        found = self.findings(said, function, same, path, texts)
        if cuts and not found and not any(OPEN.search(v) for v in bad):
            # (the answer that spares the help was refused, and nothing else was told)
            return UNCLEAR, f"{function.path}: {bad[0][:100]}"
        clause = next((f.text for f in found if says_of_clause(f)), "" if found else bad[0][:120])
        return FELL, (
            BY_CLAUSE if clause else weak_word(found),
            f"{function.path}: {clause or found[0].text}",
        )

    def fallen_elsewhere(self, said, touched, twins):
        """Returns what is not proved of functions that no edit of the batch touches, and not for a
        function that they call."""
        near = [*(self.sources.functions[i][1] for i in touched), *twins]
        found = []
        for name, verdict in said.told:
            if (
                not verdict.startswith(("proved", "could not tell", "assumed"))
                and not MASKED.search(verdict)
                and not any(it.is_told_by(name) for it in near)
            ):
                found.append(f"{name}: {verdict[:120]}")
        return found

    def by_this_edit(self, elsewhere):
        """Returns what fell in other functions by an edit that is alone in its check: those that
        are proved without it."""
        return [it for it in elsewhere if it.partition(": ")[0] not in self.unproved()]

    def unproved(self):
        """Returns the functions that are not proved without any edit."""
        if self.bad is None:
            told = [] if self.args.proved else self.check({}, []).told
            self.bad = {
                name for name, verdict in told if not verdict.startswith(("proved", "assumed"))
            }
            if not self.args.proved and not told:
                self.bad |= {function.path for _, function in self.sources.functions}
        return self.bad

    def control(self):
        """Sees that each edited function is proved without its edit. If it is not, a refusal says
        nothing."""
        refused = [it for it in self.edits if it.verdict.is_refusal()]
        for i in sorted({i for it in refused for i in it.must} - self.proved_unedited):
            function = self.sources.functions[i][1]
            if any(function.is_told_by(name) for name in self.unproved()):
                for it in refused:
                    if i in it.must:
                        it.verdict = Verdict(
                            NOT_TRIED, f"{function.path} is not proved without the edit either"
                        )
