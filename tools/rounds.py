#!/usr/bin/env python3
"""Tries wrong implementations, many in one check: tools/rounds.py [CRATE ..].

Each file crates/NAME/wrong/*.edit changes the code of a crate into something wrong, and names the function whose proof
must fail then (tools/edits.py has the format). An edit of a body changes no contract, so wrong bodies of different
functions are independent: a round applies many of them to a copy of the crate and checks it once. Each edit is judged
by the function that it names. It passes only if a goal of that function is open: the check's own search has not proved
it, or a tactic of its answer has not. It fails if the function is proved, if an answer only does not fit its goal any
more, if its proof file only names something that the edit took away, if only a function that it calls is refused, or if
the check gives no verdict on it. An edit that another one hides is tried again in a later round, at last alone. An edit
that names a function that is not there fails, and the others of its round are tried without it.

An edit that tools/by_hand.toml lists, with what its goal claims that is false, passes if an answer does not fit its goal
any more. It fails if a goal is open, since it then has no place in the list. Such edits are printed and counted.

What was refused is kept, and judged again only after a change of what that depends on (tools/refused.py). One kept
verdict in twenty, drawn by the commit, is judged anew each time: it fails if the edit is no longer refused.

    --anew           judges all edits, whatever is kept
    --names A,B      only the edits with these names
    --tested         the edits of tested/ in place of these: they are proved, and a test must see each (tools/tested.py)
    --alone          each edit anew, in a check of its own, which shows what it costs
    --goals          prints for each edit the goal that is open, or the answer that does not fit
    --list           prints the edits as a table and tries none
    --proved         no control first: `rt ci` has just proved the same files
    --lanes N        runs N checks at a time; by default as many as processors and memory allow
    --limit SECONDS  stops a check that takes longer (default 1200)
    --prover PATH    runs this program instead of the kit's rattle
    --builder PATH   runs this program instead of rt, which builds what the tests of tested/ need

With no crate: all of them. The libraries below a crate must stand built in crates/NAME/out/rlib, as `rt check` and
`rt ci` leave them. The control checks each crate without an edit: it must prove every function that an edit names. A
check asks for the functions that its edits name and what they call, over what the crate's checks have kept, or else the last
rounds. With --anew these count for nothing.

Prints a line for each check and each failure. Seconds are of processor time. The last line is
`N passed, M failed (J judged, K kept)`, counted in edits.
"""
import argparse
import collections
import concurrent.futures
import contextlib
import importlib.util
import os
import re
import shutil
import subprocess
import sys
import tempfile
import threading
import time

# Compiled text is not to stand in the repository.
sys.dont_write_bytecode = True
import tested
from edits import (
    BY_HAND,
    FOLDERS,
    TOP,
    BadEdit,
    changes_of,
    crates,
    edits_of,
    functions_of,
    reasons,
    text_of,
)
from refused import Refused, cache_folder, sum_of

MEMORY_OF_A_CHECK = 3_000_000_000
# What a check says of a function, or of another item.
LINE = re.compile(r"(?:fn|impl|struct|enum|trait|type|const|static) (\S+): (.*)")
PROVED = re.compile(r"proved|no holes")
BELOW = re.compile(r"no proof: it calls")
UNDECIDED = re.compile(r"could not tell")
MEASURE = re.compile(r"expected a measure in")
# An error in a file of a function's proof, and what it says if the file only names what the edit took away, itself or
# in a declaration that others of it cite.
ERROR = re.compile(
    r"(?:note: )?(?:\./)?proofs/(\S+)/[^/\s]+\.antt:\d+:\d+: error: (.*)"
)
STALE = re.compile(
    r"has no field|is not in scope|has no `|was not admitted|that depends? on .*rejected"
)
# What such an error says if a tactic of an answer has not proved its goal. If it says neither, the answer does not fit the
# goal that the edit has changed, and whether that goal is true is open.
UNPROVED = re.compile(r"`[^`]+`: `(?:search|omega|grind|cc|assumption|first_of)`")
# What a check says where it is asked for a function that is not there.
UNKNOWN = re.compile(r"has no function `([^`]+)`")
# The last line of a check that came to its end.
ENDED = re.compile(r"only=\d+ proved=\d+|logic=(not-)?proved")

Try = collections.namedtuple("Try", "edit changes places")
Ran = collections.namedtuple("Ran", "lines verdicts errors fault seconds")
# What becomes of an edit in a round: "" if it passed, why it failed, or HIDDEN.
HIDDEN = object()


def load_kit():
    """Loads the kit's module that knows the crates of a repository. It stands beside the command rt."""
    path = f"{os.path.dirname(os.path.realpath(shutil.which('rt')))}/rtlib.py"
    spec = importlib.util.spec_from_file_location("rtlib", path)
    sys.modules["rtlib"] = kit = importlib.util.module_from_spec(spec)
    spec.loader.exec_module(kit)
    return kit


def link(one, other):
    """Copies kept work by links: a check replaces such a file and changes none."""

    def copy(source, target):
        try:
            os.link(source, target)
        except OSError:
            shutil.copy2(source, target)

    shutil.copytree(one, other, copy_function=copy)


class Prover:
    """Checks copies of one crate, over kept work that all checks of the crate share. It begins with what the crate's own
    checks have kept, or else the last rounds."""

    def __init__(self, kit, crate, room, options):
        self.crate, self.name, self.folder, self.work = (
            crate,
            crate.name,
            crate.folder,
            f"{room}/{crate.name}",
        )
        for below in crate.below():
            stamp = kit.text_of(f"{below.folder}/out/rlib/stamp")
            if not os.path.isfile(f"{below.rlib}/format") or stamp not in (
                None,
                below.stamp(),
            ):
                sys.exit(
                    f"tools/rounds.py: {self.name} needs the library {below.name}, which is not built of its "
                    f"files as they are: run `rt check` in crates/{self.name} first"
                )
        self.words = [
            options.prover or kit.RATTLE,
            "check",
            *crate.words(["--jobs", "1"], keeps=False),
        ]
        self.parts, self.limit = [
            it for it in kit.PARTS if os.path.isdir(f"{self.folder}/{it}")
        ], options.limit
        self.kept = f"{cache_folder('work')}/{crate.name}"
        self.starts = [
            f"{self.folder}/out/incremental",
            *[self.kept] * (not options.anew),
        ]

    def begin(self):
        """Begins with kept work, if there is some."""
        found = next((it for it in self.starts if os.path.isdir(it)), None)
        try:
            if found:
                link(found, self.work)
        except (OSError, shutil.Error):
            # Other rounds may have left theirs in its place meanwhile.
            shutil.rmtree(self.work, ignore_errors=True)

    def leave(self):
        """Leaves what the checks have proved to the next rounds, in place of what stood there. If that fails, these begin
        from nothing."""
        if not os.path.isdir(self.work):
            return
        new, old = f"{self.kept}.new", f"{self.kept}.old"
        shutil.rmtree(new, ignore_errors=True)
        shutil.rmtree(old, ignore_errors=True)
        with contextlib.suppress(OSError, shutil.Error):
            os.makedirs(os.path.dirname(self.kept), exist_ok=True)
            shutil.move(self.work, new)
            if os.path.isdir(self.kept):
                os.rename(self.kept, old)
            os.rename(new, self.kept)
        shutil.rmtree(old, ignore_errors=True)

    def check(self, tries, functions):
        """Checks a copy of the crate with these edits, and asks for these functions."""
        if not os.path.isdir(self.work):
            self.begin()
        with tempfile.TemporaryDirectory(prefix="round-") as room:
            for part in self.parts:
                shutil.copytree(f"{self.folder}/{part}", f"{room}/{part}")
            for file, text in self.texts(tries).items():
                with open(f"{room}/{file}", "w", encoding="utf-8") as written:
                    written.write(text)
            only = [word for name in functions for word in ("--only", name)]
            return self.run([*self.words, "--incremental", self.work, *only], room)

    def texts(self, tries):
        """The files that the edits change, as they are then."""
        lines = {}
        for each in tries:
            for (file, number), new in each.changes.items():
                lines.setdefault(file, text_of(self.name, file).split("\n"))[
                    number
                ] = new
        return {file: "\n".join(text) for file, text in lines.items()}

    def run(self, words, room):
        """Runs a check: its lines, what it says of each function, the errors in proof files, what was wrong with the
        check itself, and the seconds that it took."""
        with open(f"{room}/said", "w+", encoding="utf-8", errors="replace") as said:
            process = subprocess.Popen(
                words,
                cwd=room,
                stdin=subprocess.DEVNULL,
                stdout=said,
                stderr=subprocess.STDOUT,
            )
            timer = threading.Timer(self.limit, process.kill)
            timer.start()
            _, status, used = os.wait4(process.pid, 0)
            timer.cancel()
            process.returncode = os.waitstatus_to_exitcode(status)
            said.seek(0)
            lines = said.read().rstrip("\n").split("\n")
        return Ran(
            lines,
            *read(lines),
            fault_of(lines, process.returncode),
            used.ru_utime + used.ru_stime,
        )


def label_of(edit):
    """What an edit is called in the lines of this tool."""
    return f"{edit.crate}/{edit.name}"


def read(lines):
    """What a check says of each item, and the errors of each function's proof files. An error may take several
    lines."""
    verdicts, errors, told = {}, collections.defaultdict(list), None
    for line in lines:
        if line.startswith("  ") and told:
            told[-1] += line
            continue
        told = None
        if found := LINE.fullmatch(line):
            verdicts[found[1].partition("::")[2]] = found[2]
        elif found := ERROR.match(line):
            told = errors[found[1].replace("/", "::").replace("+", "")]
            told.append(found[2])
    return verdicts, errors


def fault_of(lines, status):
    """What is wrong with a check that gave no verdict, or "". One that refused something ends with 1."""
    if status < 0:
        return f"its check was killed by signal {-status}"
    if status in (0, 1) and ENDED.match(lines[-1]):
        return ""
    first = next((line for line in lines if "error" in line), lines[-1])
    return f"its check ended with status {status} and no verdict: {first[:200]}"


def unknown_of(ran, functions):
    """The function among these that a check was asked for and that is not there, or None."""
    found = (
        {it for line in ran.lines for it in UNKNOWN.findall(line)}
        if ran.fault
        else set()
    )
    return next(iter(found.intersection(functions)), None)


def goal_of(ran, edit):
    """The first goal that is open of the function, or of the arm, that an edit names, or None. It may be a measure."""
    verdict = ran.verdicts[edit.refused_by]
    if edit.measure:
        return verdict if MEASURE.search(verdict) else None
    told = [
        error
        for error in ran.errors[edit.refused_by]
        if UNPROVED.match(error) and not STALE.search(error)
    ]
    told += [verdict] if "did not prove" in verdict else []
    return first_of_arm(told, edit)


def misfit_of(ran, edit):
    """The first error of an answer, of the function or of the arm that an edit names, that does not fit its goal, or
    None."""
    told = [
        error
        for error in ran.errors[edit.refused_by]
        if not UNPROVED.match(error) and not STALE.search(error)
    ]
    return first_of_arm(told, edit)


def first_of_arm(told, edit):
    """The first of some errors, or None. If an edit names an arm, only those of that arm count."""
    of_arm = re.compile(rf"`[^`\s]*-in-{re.escape(edit.arm)}(-[^`\s]*)?`")
    return next((it for it in told if not edit.arm or of_arm.search(it)), None)


def judged(each, ran, is_alone):
    """What becomes of an edit in a round."""
    edit, function = each.edit, each.edit.refused_by
    verdict = ran.verdicts.get(function)
    if ran.fault:
        return ran.fault if is_alone else HIDDEN
    if verdict is None:
        return f"its check names no function {function}" if is_alone else HIDDEN
    if PROVED.match(verdict):
        return f"it is not refused: {function} is still proved"
    if goal := goal_of(ran, edit):
        return (
            f"a goal of {function} is open, so {BY_HAND} must not list it: {goal[:200]}"
            if edit.by_hand
            else ""
        )
    misfit = misfit_of(ran, edit)
    if misfit and edit.by_hand:
        return ""
    if not is_alone:
        return HIDDEN
    if edit.arm and goal_of(ran, edit._replace(arm="")):
        return f"no goal of the arm {edit.arm} of {function} is open"
    if BELOW.match(verdict):
        return f"{function} is not refused by itself: {verdict[:200]}"
    if UNDECIDED.match(verdict):
        return f"the prover could not tell of {function}"
    if misfit:
        return f"{function} is refused only because an answer does not fit the goal that the edit has changed: {misfit[:200]}"
    if ran.errors[function]:
        return f"{function} is refused only because its proof file names what the edit took away: {ran.errors[function][0][:200]}"
    return f"{function} has no open goal of its own: {verdict[:200]}"


def tries_of(crate, options):
    """The edits of a crate that are to be tried, and those that cannot be, with the reason."""
    tries, failed = [], []
    for edit in edits_of(crate):
        if options.names and edit.name not in options.names:
            continue
        try:
            if not edit.what or not edit.refused_by:
                raise BadEdit("it lacks a head line, 'what:' or 'refused by:'")
            changes = changes_of(edit)
            tries.append(Try(edit, changes, functions_of(edit, changes)))
        except BadEdit as fault:
            failed.append((edit.name, str(fault)))
    if not options.names:
        failed += [
            (name, f"{BY_HAND} lists it, and there is no such edit")
            for name in without_edit(crate)
        ]
    return tries, failed


def without_edit(crate):
    """The names of a crate's edits in the list of those that are judged by hand that no file has."""
    there = {it.name for it in edits_of(crate)}
    return [it for it in reasons().get(crate, {}) if it not in there]


def packed(left, is_alone):
    """The next round: as many edits as there are with functions, or arms, of their own. What changes more than bodies
    is alone."""
    chosen, taken = [], collections.defaultdict(set)
    for each in left:
        is_wide, arm = None in each.places, each.edit.arm
        owns = [taken[it] for it in (each.edit.refused_by, *each.places)]
        if (
            chosen
            and (is_alone or is_wide)
            or any(arms and (not arm or arms & {arm, ""}) for arms in owns)
        ):
            continue
        chosen.append(each)
        if is_alone or is_wide:
            break
        for arms in owns:
            arms.add(arm)
    return chosen


class Rounds:
    """All rounds of one crate. The verdicts "refused" are kept, under the digest of the crate and of the edit."""

    def __init__(self, prover, refused, digest, options):
        self.prover, self.refused, self.digest, self.options = (
            prover,
            refused,
            digest,
            options,
        )
        self.passed, self.kept, self.by_hand, self.failed = 0, 0, 0, []

    def control(self, tries):
        """Checks the crate as it stands; why edits cannot be tried, by the function that they name."""
        functions, lost = sorted({it.edit.refused_by for it in tries}), {}
        while functions:
            ran = self.prover.check([], functions)
            unknown = unknown_of(ran, functions)
            if not unknown:
                break
            lost[unknown] = f"there is no function {unknown}"
            functions.remove(unknown)
        open_ones = [
            it for it in functions if not PROVED.match(ran.verdicts.get(it, ""))
        ]
        lost |= {
            it: ran.fault or f"{it} is not proved without the edit" for it in open_ones
        }
        self.tell(
            f"control, {len(functions)} functions",
            ran,
            f", {len(lost)} not proved" if lost else "",
        )
        return lost

    def judge(self, tries):
        """Judges all edits but those that a kept verdict passes."""
        left = [it for it in tries if not self.is_kept(it.edit)]
        if self.kept:
            print(
                f"{self.prover.name}: {self.kept} edits refused as before, {len(left)} to judge",
                flush=True,
            )
        if left:
            self.run(left)

    def is_kept(self, edit):
        """Whether a kept verdict passes an edit."""
        goal = self.refused.goal(self.key(edit), label_of(edit))
        is_kept = goal is not None and not self.refused.is_drawn(label_of(edit))
        if is_kept:
            self.kept += 1
            self.succeed(edit, goal)
        return is_kept

    def key(self, edit):
        """The digest of all that the verdict on an edit depends on."""
        return sum_of(self.digest, repr(edit))

    def run(self, tries):
        """Judges edits, in as few checks as can be."""
        lost = {} if self.options.proved else self.control(tries)
        for each in [it for it in tries if it.edit.refused_by in lost]:
            self.fail(each, lost[each.edit.refused_by])
        left, hidden = [it for it in tries if it.edit.refused_by not in lost], []
        # Those that others have hidden are tried among themselves first, and then alone.
        for is_alone in (self.options.alone, self.options.alone, True):
            while left:
                chosen = packed(left, is_alone)
                left = [it for it in left if it not in chosen]
                hidden += self.round(chosen)
            left, hidden = hidden, []

    def round(self, chosen):
        """Tries some edits in one check; those that others hid."""
        functions = sorted({it.edit.refused_by for it in chosen})
        ran, hidden = self.prover.check(chosen, functions), []
        # What was checked is what the digest says only if nothing has changed since.
        can_keep = self.refused.digest(self.prover.crate) == self.digest
        if unknown := unknown_of(ran, functions):
            for each in [it for it in chosen if it.edit.refused_by == unknown]:
                self.fail(each, f"there is no function {unknown}")
            others = [it for it in chosen if it.edit.refused_by != unknown]
            return self.round(others) if others else []
        for each in chosen:
            outcome = judged(each, ran, len(chosen) == 1)
            if outcome is HIDDEN:
                hidden.append(each)
            elif outcome:
                self.fail(
                    each,
                    outcome if ran.fault else self.contradicted(each.edit, outcome),
                )
            else:
                goal = goal_of(ran, each.edit) or misfit_of(ran, each.edit)
                if can_keep:
                    self.refused.keep(self.key(each.edit), label_of(each.edit), goal)
                self.succeed(each.edit, goal)
        self.tell(
            f"{len(chosen)} edits",
            ran,
            f", again: {' '.join(it.edit.name for it in hidden)}" if hidden else "",
        )
        return hidden

    def contradicted(self, edit, why):
        """Why an edit fails. If a verdict that it is refused was kept, that is removed, and this says so."""
        if self.refused.drop(self.key(edit)):
            why += (
                ". But A KEPT VERDICT SAID THAT IT IS REFUSED: the digest of tools/refused.py lacks something. "
                "Judge all by tools/rounds.py --anew"
            )
        return why

    def succeed(self, edit, goal):
        """Counts an edit that is refused, and prints it if it is judged by hand."""
        self.passed += 1
        if edit.by_hand:
            self.by_hand += 1
            print(f"{label_of(edit)}, judged by hand: {edit.by_hand}", flush=True)
        if self.options.goals:
            print(f"{label_of(edit)}: {goal[:300]}", flush=True)

    def fail(self, each, why):
        """Notes and prints a failure."""
        self.failed.append(each)
        print(f"FAILED {label_of(each.edit)}: {why}", flush=True)

    def tell(self, what, ran, more):
        """Prints the line of a check."""
        print(f"{self.prover.name}: {what}, {ran.seconds:.0f} s{more}", flush=True)


def free_memory():
    """The bytes of memory that are free."""
    with open("/proc/meminfo", encoding="ascii") as file:
        return next(
            int(line.split()[1]) * 1024
            for line in file
            if line.startswith("MemAvailable:")
        )


def try_all(names, options):
    """Tries the edits of these crates, those with most edits first; how many passed, failed and passed by a kept
    verdict."""
    kit, failed, jobs = load_kit(), 0, []
    refused = Refused(kit, options.prover or kit.RATTLE, options.anew or options.alone)
    lanes = options.lanes or max(
        1, min(len(os.sched_getaffinity(0)), free_memory() // MEMORY_OF_A_CHECK)
    )
    with tempfile.TemporaryDirectory(prefix="rounds-") as room:
        for name in names:
            crate = kit.Crate(f"{TOP}/crates/{name}", TOP, {})
            digest = refused.digest(crate)
            tries, bad = tries_of(name, options)
            for edit, why in bad:
                print(f"FAILED {name}/{edit}: {why}")
            failed += len(bad)
            if tries:
                jobs.append(
                    (
                        Rounds(
                            Prover(kit, crate, room, options), refused, digest, options
                        ),
                        tries,
                    )
                )
        jobs.sort(key=lambda it: -len(it[1]) * len(it[0].prover.words))
        with concurrent.futures.ThreadPoolExecutor(lanes) as pool:
            for future in [pool.submit(rounds.judge, tries) for rounds, tries in jobs]:
                future.result()
        for rounds, _ in jobs:
            rounds.prover.leave()
    refused.remove_old()
    if refused.fault:
        print(refused.fault)
    failed += sum(len(it.failed) for it, _ in jobs)
    if by_hand := sum(it.by_hand for it, _ in jobs):
        print(f"{by_hand} of the edits are judged by hand ({BY_HAND})")
    return sum(it.passed for it, _ in jobs), failed, sum(it.kept for it, _ in jobs)


def table(names):
    """Prints the edits of these crates."""
    print(
        "| Crate | Folder | File | What goes wrong | Refused by, or seen by |\n|---|---|---|---|---|"
    )
    for edit in [
        it for name in names for folder in FOLDERS for it in edits_of(name, folder)
    ]:
        by = f"`{edit.refused_by}`" + (
            f", arm `{edit.arm}`"
            if edit.arm
            else ", its measure"
            if edit.measure
            else ""
        )
        by = (
            f"`{edit.seen_by}`" + (f": {edit.fails}" if edit.fails else "")
            if edit.folder == "tested"
            else by
        )
        print(
            f"| `{edit.crate}` | `{edit.folder}` | `{edit.name}` | {edit.what} | {by} |"
        )


def options_of(words):
    """Reads the words of the command line."""
    parser = argparse.ArgumentParser(usage=__doc__)
    parser.add_argument("crates", nargs="*")
    parser.add_argument("--names", type=lambda it: it.split(","))
    parser.add_argument("--lanes", type=int)
    parser.add_argument("--limit", type=float, default=1200)
    parser.add_argument("--prover")
    parser.add_argument("--builder")
    for flag in (
        "--tested",
        "--anew",
        "--alone",
        "--goals",
        "--list",
        "--proved",
    ):
        parser.add_argument(flag, action="store_true")
    return parser.parse_args(words)


def main(words):
    """Tries the edits; the exit status."""
    options = options_of(words)
    names = options.crates or crates()
    if lacking := [it for it in names if it not in crates()]:
        print(f"tools/rounds.py: crates.txt lists no crate {lacking[0]}")
        return 2
    if options.list:
        table(names)
        return 0
    began = time.monotonic()
    tried = (
        tested.try_tested(names, options, link, load_kit())
        if options.tested
        else try_all(names, options)
    )
    passed, failed, kept = tried
    judged_now = passed + failed - kept
    if not passed and not failed:
        print("FAILED there is no edit to try")
        failed = 1
    print(f"rounds: {time.monotonic() - began:.0f} s of wall time")
    print(f"{passed} passed, {failed} failed ({judged_now} judged, {kept} kept)")
    return 1 if failed else 0


if __name__ == "__main__":
    sys.exit(main(sys.argv[1:]))
