"""Plans all items of a catalogue into a folder. What was planned before is not planned again, unless it has changed."""
from __future__ import annotations

import contextlib
import json
import shutil
from collections.abc import Generator, Iterable, Iterator, Sequence
from dataclasses import asdict, dataclass, replace
from difflib import get_close_matches
from pathlib import Path

from ..compiled import load_compiler
from ..crnsim.program import program_for
from ..demand.learning import Prior
from ..store.digests import digest_of, sum_of_digests
from ..errors import Refused, argument
from ..store.files import IN_KEPT, Folder, faults_of, read_folder
from ..store.means import Means
from ..money import Currency
from ..read.catalogue_reading import CATALOGUE, READ, Catalogued
from ..read.item import Item
from ..remarks import Remark
from ..store.stored import Damaged, Store, reading
from ..store.trees import value_of
from ..table import Column, DataTable
from ..sentences import advice, sentence
from ..store.work import Work
from .after import (
    CHANGES,
    PLAN,
    asked_after,
    check_records,
    changes_since,
    keep_changes,
)
from .answer import Answer
from .changes import Change
from .correction import AIMS, corrections_of
from .learned import (
    PRIOR,
    FOLLOWING,
    PRIOR_SEASONS,
    SEASONS,
    Learned,
    following_of,
    learned_of,
    seasons_of,
)
from .one import plan_asked
from .how import LEARNED, NONE, Settings
from .question import Question, question_of
from .together import PRICES, prices_of, wants_aims
from .totals import Totals

ANSWERS = f"{IN_KEPT}answers.sqlite"
PLANNED, TOTALS = "planned", "totals"  # facts beside the answers
AGAIN = "run crnplan plan again"
OLDER = "answers.sqlite"  # what an older version has kept beside the tables
# Settings that there are no longer, each with the value by which plans are as they are now.
GONE = {"window": None, "weigh": "value"}
Decided = tuple[Item, Answer | Remark]


@dataclass(frozen=True)
class Planned:
    """How items were planned: the settings, what was learned, and the text that all digests of answers have, but for an
    earlier plan; the digest of that plan is empty if there is none."""

    settings: Settings
    prior: Prior
    base: str
    earlier: str = ""

    @property
    def common(self) -> str:
        """Returns the text that all digests of answers have."""
        return (
            json.dumps([self.base, self.earlier, self.settings.least_gain])
            if self.earlier
            else self.base
        )

    @property
    def facts(self) -> dict[str, str]:
        """Returns what is kept of it beside the answers."""
        tree = {
            "settings": asdict(self.settings),
            "borrow": self.prior.borrow,
            "common": self.base,
            "earlier": self.earlier,
        }
        return {PLANNED: json.dumps(tree, default=float)}

    @classmethod
    def of(cls, answers: Store[Answer]) -> Planned | None:
        """Returns what is kept beside answers; None if nothing is. Raises Damaged."""
        text = answers.fact(PLANNED)
        if text is None:
            return None
        try:
            tree = json.loads(text)
            prior = Prior(NONE)
            if tree["borrow"] != NONE:
                prior = Prior.parse(answers.fact(PRIOR) or "", str(answers.named))
            stated = tree["settings"]
            gone = [name for name in GONE if stated.pop(name, GONE[name]) != GONE[name]]
            for name, kind in LEARNED.items():
                stated[name] = value_of(kind | None, stated.get(name))
            settings = Settings(**stated)
            planned = cls(
                settings, prior, str(tree["common"]), str(tree.get("earlier", ""))
            )
        except (AttributeError, ValueError, LookupError, TypeError) as fault:
            raise Damaged(
                answers.named, f"what was planned is not as it was kept ({fault})"
            ) from fault
        if gone:
            what = f"{answers.named}: it was planned by {gone[0]}, which there is no longer"
            raise Refused(what, AGAIN)
        return planned


class PlannedFolder:
    """A folder whose items are all answered, as their rows are now. `planned_folder` opens it."""

    def __init__(
        self, path: Path, read: Catalogued, answers: Store[Answer], planned: Planned
    ) -> None:
        self.path, self.read, self.store, self.planned = path, read, answers, planned
        self.settings = planned.settings
        self.every, self.counts = read.fact("every"), read.fact("counts")
        self.keys: str = read.fact("keys")
        self.currency = Currency(read.fact("currency"), read.fact("decimals"))

    def check(self) -> None:
        """Raises Refused if an item is not planned as its rows are now."""
        if not self.store.is_ours:
            raise Refused(
                f"{self.path}: another version of crnplan has planned it", AGAIN
            )
        if self.store.digest != whole_digest(self.read, self.planned.common):
            raise Refused(
                f"{self.path}: its plan is not as the rows that were read last", AGAIN
            )

    @property
    def digest(self) -> str:
        """Returns the digest of all questions of the plan."""
        return digest_of(self.planned.common, self.store.digest)

    @property
    def totals(self) -> Totals:
        """Returns what the answers add up to. Raises Damaged."""
        with reading(self.store.named):
            return Totals.parse(self.store.fact(TOTALS) or "")

    def table(self, columns: Sequence[Column], things: Iterable[object]) -> DataTable:
        """Returns a table with a row for each thing, with the money and the periods of the plan."""
        return DataTable.of(
            columns,
            things,
            self.currency.decimals,
            "",
            currency=self.currency.code,
            every=self.every,
            keys=self.keys,
        )

    def changes(self) -> Iterator[Change]:
        """Yields what has changed since the earlier plan, by item. Raises Refused if that is not known."""
        if not self.planned.earlier:
            return
        with Store(self.path / CHANGES, Change) as store:
            if store.fact(PLAN) != self.digest:
                raise Refused(
                    f"{self.path}: what has changed since the earlier plan is not known",
                    AGAIN,
                )
            for _, _, change in store.answers():
                if isinstance(change, Change):
                    yield change

    def answers(self) -> Iterator[Decided]:
        """Yields the items in order of their names, each with its answer, or with the fault for which it has none."""
        answers = self.store.answers()
        for item, (_, _, answer) in zip(self.read.items(), answers, strict=True):
            yield item, answer

    def item(self, name: str) -> tuple[Item, Answer]:
        """Returns an item with its answer. Raises Refused if it is not there, left out, or not planned as its rows are
        now."""
        item, answer = self.read.item(name), self.store.answer(name)
        place = f"{self.path}: item {name!r}"
        if item is None:
            raise self._why_not(name)
        if self.store.digest_for(name) != self.read.digest(name, self.planned.common):
            raise Refused(f"{place}: it is not planned as its rows are now", AGAIN)
        if isinstance(answer, Remark):
            raise Refused(
                f"{place}: it could not be planned: {sentence(answer)}", advice(answer)
            )
        assert answer is not None
        return item, answer

    def question(self, item: Item) -> Question:
        return question_of(item, self.settings, self.planned.prior)

    def _why_not(self, name: str) -> Refused:
        """Returns why an item has no plan: it is left out, or there is none of this name."""
        for out in self.read.rejects():
            if out.kind == "item" and out.item == name:
                where = f"{out.file}:{out.line}" if out.line else out.file
                return Refused(
                    f"{self.path}: item {name!r} is left out: {where}: {sentence(out.remark)}",
                    advice(out.remark),
                )
        close = get_close_matches(name, self.read.names(), 1)
        return Refused(
            f"{self.path}: there is no item {name!r}",
            f"did you mean {close[0]!r}?" if close else "decisions.csv has all items",
        )


def whole_digest(read: Catalogued, common: str) -> str:
    """Returns the digest of what the plans of all items depend on."""
    return sum_of_digests(digest_of(*question) for question in read.digests(common))


def check_earlier(after: Path | None, out: Path | None, settings: Settings) -> None:
    """Raises Refused, before anything is written, if an earlier plan is missing, or is in the folder of this one."""
    if after is None:
        if settings.least_gain is not None:
            raise Refused(
                f"{argument('least_gain')} needs an earlier plan",
                f"name its folder by {argument('after')}",
            )
    elif out is not None and after.resolve() == out.resolve():
        raise Refused(
            f"{after}: the earlier plan and this one need folders of their own",
            "name another folder for this one",
        )
    elif not (after / ANSWERS).is_file():
        if (after / OLDER).is_file():
            raise no_plan(after)
        raise Refused(
            f"{after}: no plan is in it",
            "name the folder of an earlier crnplan plan",
        )


def copied(files: Sequence[Path], room: Path) -> Path:
    """Copies files of a folder into a room, and returns the first there."""
    with faults_of(files[0].parent):
        for file in files:
            shutil.copyfile(file, room / file.name)
    return room / files[0].name


def readable(index: Path, room: Path) -> tuple[Path, bool]:
    """Returns a store that is read without writing beside it, and whether it is the one in its folder: with what a run
    that was ended by force has left beside it, it is copied into a room."""
    logs = index.with_name(f"{index.name}-wal"), index.with_name(
        f"{index.name}-journal"
    )
    while True:
        left = [log for log in logs if log.is_file()]
        if not left or not index.is_file():
            return index, True
        try:
            return copied((index, *left), room), False
        except Refused:
            # Another reader of this process may have ended meanwhile, and SQLite has removed what stood beside the store.
            if all(log.is_file() for log in left):
                raise


@contextlib.contextmanager
def copied_folder(path: Path, room: Path) -> Iterator[PlannedFolder]:
    """Opens the plan in a folder so that nothing is written into that, and no run works there. What a run that was
    ended by force has left is copied into a room. Raises Refused if no finished plan is in it, or if a run works
    there."""
    with read_folder(path, CATALOGUE):
        index, is_read = readable(path / ANSWERS, room)
        with planned_folder(path, index, is_read) as planned:
            planned.check()
            yield planned


@contextlib.contextmanager
def earlier_folder(path: Path | None, folder: Folder) -> Iterator[PlannedFolder | None]:
    """Opens the plan in another folder; None if no folder is named. Raises as `copied_folder` does."""
    if path is None:
        yield None
        return
    copied = folder.room() / "earlier"
    copied.mkdir(exist_ok=True)
    with copied_folder(path, copied) as planned:
        yield planned


def no_plan(path: Path) -> Refused:
    """Returns why a folder has no plan."""
    if (path / OLDER).is_file():
        return Refused(f"{path}: an older version of crnplan has planned it", AGAIN)
    return Refused(
        f"{path}: no plan is in it",
        f"run crnplan plan DEMAND.csv ITEMS.csv --out {path} first",
    )


@contextlib.contextmanager
def planned_folder(
    path: Path, index: Path | None = None, is_read: bool = False
) -> Iterator[PlannedFolder]:
    """Opens a folder of `crnplan plan`, perhaps by a copy of its answers, or only to read them. Raises Refused if no
    plan is in it, and Damaged."""
    index = index or path / ANSWERS
    if not (path / READ).is_file() or not index.is_file():
        raise no_plan(path)
    with Store(index, Answer, is_read=is_read, named=path / ANSWERS) as answers:
        planned = Planned.of(answers)
        if planned is None:
            raise no_plan(path)
        with Catalogued(path / READ, planned=planned.settings.planned_by) as read:
            yield PlannedFolder(path, read, answers, planned)


def take_prior(answers: Store[Answer], earlier: PlannedFolder, again: bool) -> None:
    """Keeps what the items of an earlier plan have learned, and where they aim, unless it is to be learned again."""
    if again:
        return
    for name in (PRIOR, PRIOR_SEASONS, SEASONS, FOLLOWING, AIMS, PRICES):
        fact = earlier.store.fact(name)
        if fact is not None:
            answers.keep_facts({name: fact})


@dataclass(frozen=True)
class PlanningRun:
    """A run that plans a catalogue: its folder, the items with their answers, which come once and in order, how many of
    these were planned now or before, what was learned, now or in an earlier run, and the earlier plan.
    """

    planned: PlannedFolder
    answers: Iterator[Decided]
    work: Work[Answer]
    learned: Learned
    earlier: PlannedFolder | None

    def keep_changes(self, folder: Folder) -> None:
        """Keeps what has changed since the earlier plan, once all answers have come."""
        if self.earlier:
            changes = changes_since(self.earlier, self.planned)
            keep_changes(folder, self.planned.digest, changes)


def answered(
    planned: PlannedFolder, work: Work[Answer], means: Means, program: str
) -> Generator[Decided, None, None]:
    """Yields the items in order with their answers, as these come, and keeps what they add up to at the end. It has to
    be closed."""
    totals, workers = Totals(), means.workers(program)
    with contextlib.closing(work.answered(workers, shown=means.shown)) as questions:
        for name, digest, asked in questions:
            item = asked[0] if asked else planned.read.item(name)
            answer = work.store.found(name, digest)
            assert item is not None and answer is not None
            totals.note(item, answer)
            yield item, answer
    work.store.finish(work.questions(), planned.planned.facts | {TOTALS: totals.json})


@contextlib.contextmanager
def planning(
    folder: Folder, settings: Settings, means: Means, after: Path | None, again: bool
) -> Iterator[PlanningRun]:
    """Plans the catalogue that was read into a folder: see `plan`. An item that is not planned yet is planned when its
    answer is asked for."""
    path = program_for(means.program, means.cluster)
    with (
        faults_of(folder.path),
        earlier_folder(after, folder) as earlier,
        Catalogued(folder.path / READ, planned=settings.planned_by) as read,
        Store(folder.store(ANSWERS), Answer) as answers,
    ):
        if earlier:
            check_records(earlier.path, earlier.read, read)
            take_prior(answers, earlier, again)
        seasons = seasons_of(answers, read, settings, again)
        settings = replace(settings, seasons=seasons)
        following = following_of(answers, read, settings, again)
        settings = replace(settings, following=following)
        learned = learned_of(answers, read, settings, again)
        prior, every = learned.prior, read.fact("every")
        settings = replace(settings, borrow=learned.usual, every=every)
        if settings.correct:
            words = folder, answers, read, settings, prior, means, again
            found = corrections_of(*words, wants_aims(read, settings))
            settings, remarks = found.settled(settings)
            learned = learned._replace(remarks=(*learned.remarks, *remarks))
        if settings.shares:
            prices = prices_of(folder, answers, read, settings, prior, means, again)
            if prices.groups:
                settings = replace(settings, prices=prices)
        base = settings.common(means.program_digest(path), prior)
        planned = Planned(settings, prior, base, earlier.digest if earlier else "")
        work = Work(
            answers,
            lambda: read.digests(planned.common),
            lambda name: asked_after(read, planned, earlier, name),
            plan_asked,
            (settings, prior, path),
            load=load_compiler,
        )
        opened = PlannedFolder(folder.path, read, answers, planned)
        with contextlib.closing(answered(opened, work, means, path)) as decided:
            yield PlanningRun(opened, decided, work, learned, earlier)
