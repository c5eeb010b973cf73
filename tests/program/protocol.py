"""The ring's protocol as a second program, which shares no line with crnsim, and a search over all schedules.

It is written from docs/ARCHITECTURE.md and docs/FORMATS.md. It keeps no words of blocks, since no turn depends on what
they are. For the same reason the search may take blocks of one word, with which a ring has few states.

Actors are named as in a schedule: `p`, `e`, `r0`, `l0`.
"""
from __future__ import annotations

from collections.abc import Iterable, Iterator, Sequence
from dataclasses import dataclass, replace
from typing import NamedTuple

# What a reader's cursor holds once it has left.
LEFT_MARK = 2**63
# The stages of a reader: it has left, before or after it saw the end; it has seen the end; it is between two blocks.
# From READS on it is reading a block, of which it has read as many words as its stage is above READS.
LEFT, LEFT_AFTER_END, SEES_END, RESTS, READS = range(5)

Schedule = Sequence[str]
# The kind, the number of the word and its value; no value for a word of a slot. No step at all: None.
Step = tuple[str, int, "int | None"] | None
# The turns of a round that each actor has had, the producer first.
Counts = tuple[int, ...]


class Reader(NamedTuple):
    """Where a reader stands, and its cursor."""

    taken: int
    cursor: int
    stage: int
    # The blocks of the batch that it reads.
    batch: int = 0

    @property
    def has_left(self) -> bool:
        """Whether it has left."""
        return self.stage < SEES_END

    @property
    def has_seen_end(self) -> bool:
        """Whether it has seen the end."""
        return LEFT < self.stage < RESTS

    @property
    def has_finished(self) -> bool:
        """Whether it has left or has seen the end."""
        return self.stage < RESTS


class State(NamedTuple):
    """Where a ring stands: blocks published, end marked or not, gates passed and words stored of the next block."""

    published: int
    ended: bool
    passed: int
    stored: int
    readers: tuple[Reader, ...]
    # With batches: the blocks of the one that is being stored, the least count that is remembered, and that of the
    # cursors loaded since.
    batch: int = 0
    least: int = 0
    loaded: int = LEFT_MARK

    def with_reader(self, number: int, reader: Reader) -> State:
        """Returns the state with one reader changed."""
        return self._replace(
            readers=(*self.readers[:number], reader, *self.readers[number + 1 :])
        )

    def has_finished(self, number: int) -> bool:
        """Returns whether an actor has finished: 0 is the producer, 1 + r reader r."""
        return self.readers[number - 1].has_finished if number else self.ended

    def all_finished(self) -> bool:
        """Returns whether the end is marked, and each reader has seen it or has left."""
        return self.ended and all(it.has_finished for it in self.readers)


@dataclass(frozen=True)
class Protocol:
    """A ring of some slots, for some readers, blocks and words a block. A wrong one overrides one of its choices."""

    size: int
    readers: int
    blocks: int
    words: int

    # ---- its choices

    def lets_in(self, published: int, reader: Reader) -> bool:
        """Returns whether the producer finds room for the next block, by the cursor of a reader."""
        return reader.cursor == LEFT_MARK or published < reader.cursor + self.size

    def frees(self, state: State, reader: Reader) -> bool:
        """Returns whether a reader stores its cursor as it takes the next block."""
        del state, reader
        return True

    def may_end(self, state: State) -> bool:
        """Returns whether the producer marks the end once all blocks are published."""
        del state
        return True

    # ---- turns

    def opened(self) -> State:
        """Returns the state before any turn."""
        return State(0, False, 0, 0, (Reader(0, 0, RESTS),) * self.readers)

    def place(self, block: int, word: int) -> int:
        """Returns the number of a word of a block."""
        return 1 + self.readers + self.words * (block % self.size) + word

    def end(self, state: State) -> tuple[State, Step]:
        """Returns what storing the end mark leads to."""
        return state._replace(ended=True), ("P3", 0, 2 * state.published + 1)

    def producer_turn(self, state: State) -> tuple[State, Step]:
        """Returns what a turn `p` leads to."""
        published, passed, stored = state.published, state.passed, state.stored
        if state.ended or published == self.blocks and not self.may_end(state):
            return state, None
        if published == self.blocks:
            return self.end(state)
        if passed < self.readers:
            reader = state.readers[passed]
            return (
                state._replace(
                    passed=passed + 1 if self.lets_in(published, reader) else 0
                ),
                ("P1", 1 + passed, reader.cursor),
            )
        if stored < self.words:
            return state._replace(stored=stored + 1), (
                "P2",
                self.place(published, stored),
                None,
            )
        return state._replace(published=published + 1, passed=0, stored=0), (
            "P3",
            0,
            2 * published + 2,
        )

    def finish_turn(self, state: State) -> tuple[State, Step]:
        """Returns what a turn `e` leads to."""
        return (
            (state, None)
            if state.ended or state.passed or state.stored
            else self.end(state)
        )

    def reader_turn(self, state: State, number: int) -> tuple[State, Step]:
        """Returns what a turn `r` of a reader leads to."""
        it = state.readers[number]
        if it.has_finished:
            return state, None
        if it.stage == RESTS:
            cursor = 2 * state.published + state.ended
            stage = (
                SEES_END
                if cursor == 2 * it.taken + 1
                else READS
                if it.taken < state.published
                else RESTS
            )
            return state.with_reader(number, it._replace(stage=stage)), (
                "R1",
                0,
                cursor,
            )
        read = it.stage - READS
        if read < self.words:
            return state.with_reader(number, it._replace(stage=it.stage + 1)), (
                "R2",
                self.place(it.taken, read),
                None,
            )
        taken = it.taken + 1
        if not self.frees(state, it):
            return (
                state.with_reader(number, it._replace(taken=taken, stage=RESTS)),
                None,
            )
        return state.with_reader(number, Reader(taken, taken, RESTS)), (
            "R3",
            1 + number,
            taken,
        )

    def leave_turn(self, state: State, number: int) -> tuple[State, Step]:
        """Returns what a turn `l` of a reader leads to."""
        it = state.readers[number]
        if it.has_left or it.stage >= READS:
            return state, None
        stage = LEFT_AFTER_END if it.has_seen_end else LEFT
        return state.with_reader(number, Reader(it.taken, LEFT_MARK, stage)), (
            "R3",
            1 + number,
            LEFT_MARK,
        )

    def turn(self, state: State, actor: str) -> tuple[State, Step]:
        """Returns what a turn of an actor leads to: the state, and the step."""
        if actor == "p":
            return self.producer_turn(state)
        if actor == "e":
            return self.finish_turn(state)
        return (self.reader_turn if actor[0] == "r" else self.leave_turn)(
            state, int(actor[1:])
        )

    def moves(self, state: State, actor: str) -> Iterator[State]:
        """Yields each state to which a turn of an actor may lead."""
        yield self.turn(state, actor)[0]

    def after(self, schedule: Iterable[str]) -> State:
        """Returns the state after a schedule."""
        state = self.opened()
        for actor in schedule:
            state, _ = self.turn(state, actor)
        return state

    def actors(self) -> list[str]:
        """Returns all actors, those first that go on: the producer, and reader r as number 1 + r."""
        numbers = range(self.readers)
        return ["p", *(f"r{it}" for it in numbers), "e", *(f"l{it}" for it in numbers)]

    def turns_a_round(self) -> Counts:
        """Returns the turns of a round, by which the producer publishes a block and a reader takes one."""
        return (self.readers + self.words + 1, *(self.words + 2,) * self.readers)

    # ---- the search

    def round_ends(self, states: Iterable[State], turns: Counts) -> set[State]:
        """Returns the states in which not all have finished, and in which a round from one of these states may end.

        In a round each actor has so many turns, or has finished by its end, in any order and with any other turns.
        """
        places = range(self.readers + 1)
        seen = {(it, (0,) * len(turns)) for it in states}
        to_do, ends = list(seen), set()
        while to_do:
            state, counts = to_do.pop()
            if all(counts[it] == turns[it] or state.has_finished(it) for it in places):
                ends.add(state)
            for number, actor in enumerate(self.actors()):
                had = counts
                if number <= self.readers and counts[number] < turns[number]:
                    had = (*counts[:number], counts[number] + 1, *counts[number + 1 :])
                new = {
                    (after, had)
                    for after in self.moves(state, actor)
                    if not after.all_finished()
                } - seen
                seen |= new
                to_do += new
        return ends

    def rounds_needed(self, turns: Counts | None = None, most: int = 12) -> int | None:
        """Returns after how many rounds all have finished, under every schedule, or None if these are over `most`."""
        states = {self.opened()}
        for number in range(most + 1):
            if not states:
                return number
            states = self.round_ends(states, turns or self.turns_a_round())
        return None


@dataclass(frozen=True)
class Batches(Protocol):
    """A ring whose actors publish, and take, batches of at most so many blocks.

    The producer remembers the least count that it has loaded. It loads cursors only if that leaves too little room. A
    turn that begins a batch begins the largest one, as the program's threads do; a move may begin a smaller one.
    """

    most: int

    def moves(self, state: State, actor: str) -> Iterator[State]:
        """Yields each state to which a turn of an actor may lead, with a batch of any size that it begins."""
        yield from {
            replace(self, most=most).turn(state, actor)[0]
            for most in range(1, self.most + 1)
        }

    def producer_turn(self, state: State) -> tuple[State, Step]:
        """Returns what a turn `p` leads to."""
        published, passed = state.published, state.passed
        wanted = min(self.most, self.blocks - published)
        if state.ended or not wanted:
            return super().producer_turn(state)
        if state.batch and state.stored == self.words * state.batch:
            published += state.batch
            return state._replace(published=published, stored=0, batch=0), (
                "P3",
                0,
                2 * published,
            )
        if state.batch:
            return state._replace(stored=state.stored + 1), ("P2", 0, None)
        if not passed and published + wanted <= state.least + self.size:
            return state._replace(batch=wanted, stored=1), ("P2", 0, None)
        if passed < self.readers:
            cursor = state.readers[passed].cursor
            if not self.lets_in(published, state.readers[passed]):
                return state._replace(passed=0, least=cursor, loaded=LEFT_MARK), (
                    "P1",
                    1 + passed,
                    cursor,
                )
            return state._replace(
                passed=passed + 1, loaded=min(state.loaded, cursor)
            ), ("P1", 1 + passed, cursor)
        batch = min(wanted, state.loaded + self.size - published)
        return state._replace(
            passed=0, least=state.loaded, loaded=LEFT_MARK, batch=batch, stored=1
        ), ("P2", 0, None)

    def finish_turn(self, state: State) -> tuple[State, Step]:
        """Returns what a turn `e` leads to."""
        return (state, None) if state.batch else super().finish_turn(state)

    def reader_turn(self, state: State, number: int) -> tuple[State, Step]:
        """Returns what a turn `r` of a reader leads to."""
        it = state.readers[number]
        if it.stage < READS:
            after, step = super().reader_turn(state, number)
            batch = min(self.most, state.published - it.taken)
            return (
                after.with_reader(number, after.readers[number]._replace(batch=batch)),
                step,
            )
        if it.stage - READS < self.words * it.batch:
            return state.with_reader(number, it._replace(stage=it.stage + 1)), (
                "R2",
                0,
                None,
            )
        taken = it.taken + it.batch
        return state.with_reader(number, Reader(taken, taken, RESTS)), (
            "R3",
            1 + number,
            taken,
        )

    def turns_a_round(self) -> Counts:
        """Returns the turns of a round, by which the producer publishes a batch and a reader takes one."""
        words = self.words * self.most
        return (self.readers + words + 1, *(words + 2,) * self.readers)


def trace_of(protocol: Protocol, schedule: Schedule) -> Iterator[list[str]]:
    """Yields the fields of each line of a schedule's trace; a value that the protocol does not know is `?`."""
    state = protocol.opened()
    for actor in schedule:
        state, step = protocol.turn(state, actor)
        kind, word, value = step or ("-", "-", "-")
        yield [
            actor,
            kind,
            str(word),
            "?"
            if value is None
            else value
            if isinstance(value, str)
            else f"{value:016x}",
        ]
    yield ["published", str(state.published), "ended", f"{state.ended:d}"]
    for number, it in enumerate(state.readers):
        yield [
            "reader",
            str(number),
            "taken",
            str(it.taken),
            "left",
            f"{it.has_left:d}",
            "ended",
            f"{it.has_seen_end:d}",
        ]
