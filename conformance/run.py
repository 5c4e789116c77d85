#!/usr/bin/env python3
"""run.py [--library PATH] [--prefix P] [--calls N] [--seed S] [--cases FOLDER] [--only PART[:INDEX]] [--replay FILE] [--list]

Holds a box against document 01: makes the same calls to a shared library and to the model (model.py), and compares everything there is after each call.
Ends with 0 where nothing differs; else prints the smallest case that it can find, says how to play it again, and ends with 1. README.md has the rest.

  --library PATH     the shared library; `model` is the model itself                    (target/conformance/libridgeladle.so)
  --prefix P         what the names of its calls begin with                             (ridgeladle_)
  --calls N          how many random calls, beside the tables                           (12000)
  --seed S           where random numbers begin: the same seed, the same calls          (1)
  --cases FOLDER     sample cases; left out where there is no such folder               (../shared/cases beside the repository)
  --only PART[:N]    one part, or one row or session of it: boundaries, samples, sessions, damaged, unknown,
                     merged, calls
  --replay FILE      plays cases that a difference printed, a line each (- for standard input)
  --list             prints the table of boundaries, by the sentences that it tests
"""
import argparse
import collections
import itertools
import mmap
import os
import pathlib
import pickle
import random
import signal
import struct
import sys
import time

import boundaries
import box
import cases
import merged
import model
import protobuf
import rows
import sessions
import shown
import shrink

TOP = pathlib.Path(__file__).resolve().parent.parent
SHARES = {"sessions": .45, "damaged": .22, "unknown": .23, "merged": .05, "calls": .05}
PARTS = ["boundaries", "samples", *SHARES]
PATIENCE = 30    # seconds for one session
TRIAL = 5        # seconds when a case is made smaller
LONG = 20000     # a case of more bytes is printed to a file
LISTED = 20      # differences that are named of a table
BATCH = 4000     # replies that protoc is given at once


class Plan:
    """What is played: each part's n-th row or session gives calls, each with what is held of the box's answer, and takes what the model says."""

    def __init__(self, seed, wanted, folder):
        self.seed, self.wanted = seed, wanted
        self.rows = boundaries.all_rows()
        self.samples = list(cases.read(folder)) if folder and pathlib.Path(folder).is_dir() else []

    def play(self, part, index):
        """None where the part has no more."""
        if part == "boundaries":
            return self.rows[index].play() if index < len(self.rows) else None
        if part == "samples":
            return sampled(self.samples[index][1]) if index < len(self.samples) else None
        if part == "merged":
            return merged.session(self.seed, index)
        return sessions.PARTS[part](random.Random(f"{self.seed} {part} {index}"))

    def enough(self, part, calls):
        return part in SHARES and calls >= self.wanted * SHARES[part]

    def name(self, part, index):
        if part == "boundaries":
            return f"boundaries, row {index}: {self.rows[index].what}\n  \"{self.rows[index].sentence}\""
        if part == "samples":
            return f"sample case {self.samples[index][0]}"
        return f"{part}, seed {self.seed}, session {index}"

    def case(self, part, index, step=None):
        """The calls of a row or session, or those up to one, by the model alone."""
        made, after, calls = self.play(part, index), None, []
        while step is None or len(calls) <= step:
            try:
                call, _ = made.send(after)
            except StopIteration:
                break
            after = document.run(call)
            calls.append(call)
        return calls

    def before(self, part, index):
        """The calls of a part before a row or session."""
        return [call for n in range(index) for call in self.case(part, n)]


    def sides(self, part, index, step, wanted, got):
        """Where a row or a sample says by itself what is wanted: what it finds wrong in the model's answer, and in the box's."""
        made, after = self.play(part, index), None
        for _ in range(step):
            after = document.run(made.send(after)[0])
        held = made.send(after)[1]
        words = []
        for answer in wanted, got:
            try:
                words.append(held(answer) or "right")
            except Exception as why:
                words.append(f"not to be read ({why!r})")
        return f"the {'row' if part == 'boundaries' else 'sample'} itself finds the model's answer {words[0]}; the box's: {words[1]}"


document = box.Model()
MODEL = "the model"


def sampled(case):
    if not isinstance(case, str):
        call, wanted = case

        def held(after):
            wrong = [what for what in wanted if wanted[what] != after[what]]
            return f"the sample says otherwise of: {', '.join(wrong)}" if wrong else None
        yield call, held


class Work:
    """The run itself. `note` is told where it is, so that it is known if the library ends the process. What it finds: the part, its row or session, the
    call, and MODEL or, where box and model agree, what else is wrong."""

    def __init__(self, plan, its, note=lambda *where: None):
        self.plan, self.its, self.note = plan, its, note
        self.counts, self.codes, self.found = collections.Counter(), collections.Counter(), []
        self.replies, self.read = {}, 0

    def part(self, part, only=None):
        index = only or 0
        while only is None or index == only:
            playing = self.plan.play(part, index)
            if playing is None or self.plan.enough(part, self.counts[part]):
                break
            self.session(part, index, playing)
            if self.found and (part in SHARES or len(self.found) >= LISTED):
                break
            index += 1
        self.flush()

    def session(self, part, index, playing):
        after = None
        for step in itertools.count():
            try:
                call, held = playing.send(after)
            except StopIteration:
                return
            self.note(part, index, step)
            after, got = document.run(call), self.its.run(call)
            self.counts[part] += 1
            words = held(got) if got == after else MODEL
            if words:
                self.found.append((part, index, step, words))
                return
            self.count(part, index, step, call, after)

    def count(self, part, index, step, call, after):
        if call.name == "rescue":
            self.codes.update([("rescue", after["returned"])] + [("report", byte) for byte in after["report"] if after["returned"] == 0])
        if call.name != "answer":
            return
        if after["returned"]:
            self.codes["refusal", after["returned"]] += 1
            return
        reply = box.reply_of(after)[0]
        self.replies.setdefault(reply, (part, index, step))
        if part == "boundaries":
            command = model.decode("Reply", model.decode("Message", model.framed(reply)[1])[7])
            self.codes[model.BUILT.get(command[1].get(7, -1) + 1, "none"), command[3][1]] += 1
        if len(self.replies) >= BATCH:
            self.flush()

    def flush(self):
        """What protoc reads in the replies so far."""
        wrong = protobuf.different(list(self.replies)) if self.replies and not self.found else None
        if wrong:
            self.found.append((*self.replies[wrong[0]], f"protobuf: {wrong[1]}"))
        self.read += len(self.replies)
        self.replies = {}

    def gaps(self):
        """What the table of boundaries must have met: each refusal, each operation with each code that document 01 can give it, and each byte that a
        rescue reports."""
        wanted = {("refusal", n) for n in (1, 2, 3, 4, 5, 7)} | {("none", code) for code in (2, 4, 6, 16, 20)}
        for name in model.TYPES:
            wanted |= {(name, code) for code in (1, 4, 6, 16)} | ({(name, 3)} if name in model.NEEDED else set())
        wanted |= {(name, 7) for name in ("GET", "GETVERSION", "GETNEXT", "GETPREVIOUS", "DELETE", "GETLOG")}
        wanted |= {("PUT", 8), ("DELETE", 8), ("PUT", 14), ("SECURITY", 15)}
        wanted |= {("rescue", n) for n in (0, 2, 8)} | {("report", byte) for byte in range(5)}
        return sorted(f"{name} {code}" for name, code in wanted - set(self.codes))


# ---- A library's faults must not end the runner: it is called in processes of their own

def apart(work):
    """What a function gives when it is run in a process of its own, or words on how that ended."""
    sys.stdout.flush()
    reading, writing = os.pipe()
    child = os.fork()
    if child == 0:
        os.close(reading)
        try:
            told = pickle.dumps(work())
            with os.fdopen(writing, "wb") as pipe:
                pipe.write(told)
        except BaseException:
            sys.excepthook(*sys.exc_info())
            os._exit(70)
        os._exit(0)
    os.close(writing)
    with os.fdopen(reading, "rb") as pipe:
        told = pipe.read()
    status = os.waitpid(child, 0)[1]
    if os.WIFSIGNALED(status):
        number = os.WTERMSIG(status)
        return ("no answer in time" if number == signal.SIGALRM else
                f"the process ended by {signal.Signals(number).name}: the box touched what was not lent, or stopped")
    if os.WEXITSTATUS(status):
        sys.exit(2)
    return pickle.loads(told)


def last_of(its, calls):
    """What there is after the last of some calls, made to a box that has had no others; or words."""
    def work():
        signal.alarm(TRIAL)
        got = None
        for call in calls:
            got = its.run(call)
        return got
    if isinstance(its, box.Library):
        return apart(work)
    try:
        return work()
    except Exception as why:
        return f"raised {why!r}"


# ---- The runner

def run(plan, its, parts, only=None):
    """Plays parts; gives the work done and, where the library ended the process, where that was."""
    place = mmap.mmap(-1, 24)

    def note(part, index, step):
        struct.pack_into("qqq", place, 0, PARTS.index(part), index, step)
        if step == 0:
            signal.alarm(PATIENCE)

    def work():
        done = Work(plan, its, note)
        started = time.monotonic()
        for part in parts:
            done.part(part, only)
            told(done, part, time.monotonic() - started)
            if done.found:
                break
        sys.stdout.flush()
        done.plan = done.its = done.note = None
        return done

    got = apart(work)
    if not isinstance(got, str):
        return got
    part, index, step = struct.unpack("qqq", place)
    done = Work(plan, its)
    done.found.append((PARTS[part], index, step, got))
    return done


def told(done, part, seconds):
    words = f"  {part:11}{done.counts[part]:9} calls"
    if part == "boundaries":
        words += f", {len(done.plan.rows)} rows for {len({row.sentence for row in done.plan.rows})} sentences"
    if part == "samples":
        left_out = collections.Counter(case for _, case in done.plan.samples if isinstance(case, str))
        every = len(done.plan.samples)
        words += f": {every - sum(left_out.values())} of {every} cases" if every else ": there are no sample cases"
        words += f" ({', '.join(f'{number} {why}' for why, number in sorted(left_out.items()))})" if left_out else ""
    print(f"{words}, {len(done.found)} different{' or more' if done.found and part in SHARES else ''}  ({seconds:.0f} s)")


def explain(plan, its, found, again):
    """The first difference, made as small as can be, and how to see it again."""
    part, index, step, words = found
    print(f"\nDIFFERENT: {plan.name(part, index)}, call {step}")

    def differs(calls):
        return last_of(its, calls) != document.run(calls[-1])

    small = calls = plan.case(part, index, step)
    if words != MODEL and not differs(calls):
        print(f"  box and model agree, but: {words}")
    else:
        if not differs(calls):
            print("  it doesn't differ when it is played alone: the box keeps something from one call to another")
            calls = plan.before(part, index) + calls
        small = shrink.shrunk(calls, differs) if differs(calls) else small
    if part not in SHARES:
        print("  " + plan.sides(part, index, step, document.run(calls[-1]), last_of(its, calls)))
    call = small[-1]
    got, wanted = last_of(its, small), document.run(call)
    print(f"the smallest case found ({len(small)} call{'s' * (len(small) > 1)}):")
    for line in shown.call_lines(call):
        print("  " + line)
    print(f"by document 01: {shown.after_line(call, wanted)}")
    print(f"by the box:     {shown.after_line(call, got)}")
    for line in shown.difference_lines(call, wanted, got):
        print(line)
    print(f"\nagain, as it was found:  {again} --seed {plan.seed} --only {part}:{index}")
    line = box.line(small)
    if len(line) > LONG:
        file = TOP / "target" / "conformance" / "case.jsonl"
        file.parent.mkdir(parents=True, exist_ok=True)
        file.write_text(line + "\n")
        print(f"again, the smallest:     {again} --replay {file}")
    else:
        print(f"again, the smallest:     {again} --replay - <<'END'\n{line}\nEND")


def replay(its, file):
    different = 0
    for calls in box.cases_in((sys.stdin if file == "-" else open(file)).read()):
        call = calls[-1]
        got, wanted = last_of(its, calls), document.run(call)
        same = got == wanted
        different += not same
        print("same" if same else "DIFFERENT")
        for line in shown.call_lines(call):
            print("  " + line)
        print(f"by document 01: {shown.after_line(call, wanted)}\nby the box:     {shown.after_line(call, got)}")
        if not same:
            print("\n".join(shown.difference_lines(call, wanted, got)))
    return different


def table(plan):
    sentence = None
    for number, row in enumerate(plan.rows):
        if row.sentence != sentence:
            sentence = row.sentence
            print(f"\n{sentence}")
        print(f"  {number:5}  {row.what}: " + ", then ".join(wanted_shown(wanted) for _, wanted in row.steps))


def wanted_shown(wanted):
    if isinstance(wanted, rows.Refusal):
        return f"refusal {wanted.number} {shown.REFUSALS[wanted.number]}"
    if isinstance(wanted, rows.Says):
        return f"{shown.CODES[wanted.code]} ({wanted.code})" + (f" at step {wanted.step}" if wanted.code != 1 else "")
    return "as the model says" if wanted is None else f"returned {wanted}" if isinstance(wanted, int) else wanted.__doc__ or "as published"


def arguments():
    p = argparse.ArgumentParser(usage=__doc__)
    p.add_argument("--library", default=str(TOP / "target" / "conformance" / "libridgeladle.so"))
    p.add_argument("--prefix", default="ridgeladle_")
    p.add_argument("--calls", type=int, default=12000)
    p.add_argument("--seed", type=int, default=1)
    p.add_argument("--cases", default=str(TOP.parent / "shared" / "cases"))
    p.add_argument("--only")
    p.add_argument("--replay")
    p.add_argument("--list", action="store_true")
    return p.parse_args()


def main():
    given = arguments()
    plan = Plan(given.seed, given.calls, given.cases)
    if given.list:
        return table(plan)
    try:
        its = box.Model() if given.library == "model" else box.Library(given.library, given.prefix)
    except (OSError, AttributeError) as why:
        sys.exit(f"conformance: {why}")
    if given.replay:
        return 1 if replay(its, given.replay) else 0
    protobuf.installed()
    print(f"conformance: {given.library}, seed {given.seed}")
    part, _, index = (given.only or "").partition(":")
    started = time.monotonic()
    done = run(plan, its, [part] if part else PARTS, int(index) if index else None)
    if done.found:
        for where in done.found[1:]:
            print(f"  also different: {plan.name(*where[:2])}")
        explain(plan, its, done.found[0], f"{sys.argv[0]} --library {given.library} --prefix {given.prefix} --cases {given.cases}")
        return 1
    gaps = done.gaps() if not part else []
    if gaps:
        print(f"the table of boundaries has no case of: {', '.join(gaps)}")
        return 1
    print(f"  protobuf   {done.read:9} replies read and written again by protoc, 0 different")
    print(f"conformance: {sum(done.counts.values())} calls compared with document 01's model, 0 different, {time.monotonic() - started:.0f} s")
    return 0


if __name__ == "__main__":
    sys.exit(main())
