#!/usr/bin/env python3
"""Gives the built program what it must not fall over, and says what it did with it.

Words: the parts to run, of `devices turns endless picked mutated random`; all of them where there is none.
    scripts/hostile.py devices endless
The programs are the built ones (`txn_program --prove` builds them), or the one that PROGRAM names. Needs gcc.

- devices: a read or a write that fails (a folder as input, /dev/full, a closed pipe), and a pipe that
  gives one octet at a time.
- turns: each octet of a report in turn finds no room in its file, and each read of an input fails in turn
  (the octets come from a terminal whose other side is closed behind them).
- endless: an input without an end, and lines of a megabyte.
- picked: a megabyte of lines under `listen` that ask for the most work: flows that are held and never
  given to a link, and handles whose look-ups meet.
- mutated: a million lines of the line table, their words at random; of one line in ten, in a hundred or
  in a thousand an octet is changed, dropped, put in or moved.
- random: a million octets at random, in inputs of many lengths.

A run must end within a minute, with at most 146 MiB, and with a status of the table: 0, 1, 3, 7 and 8
with a text, 2 with `usage`, 4 with `read fault`, 5 only for a sink that fails, and 6 with nothing written.
Lines and octets at random must take at most 8 MiB and half a second a run. Random numbers start at a fixed
seed, so that a run can be had again.
"""

import os
import random
import resource
import signal
import subprocess
import sys
import tempfile
import time
import tty

TOP = os.path.dirname(os.path.dirname(os.path.realpath(__file__)))
LIMIT = 1_048_576
RUN = ["run", "00000000000000000000000000000001", "00000000000000000000000000000002"]
DECLARE = "00537700533145"
LISTEN = ["listen", *RUN[1:]]
MOST_SECONDS, MOST_KIB = 60, 146 * 1024
FAILED = []

# Runs a program, and writes its status and its most memory to a file. A process of its own, since what a
# forked process has before it runs the program counts as its memory too.
MEASURE = r"""
#include <stdio.h>
#include <sys/resource.h>
#include <sys/wait.h>
#include <unistd.h>
int main(int count, char **words) {
  struct rusage used;
  int status;
  pid_t child = fork();
  if (child == 0) { execv(words[2], words + 2); _exit(127); }
  wait4(child, &status, 0, &used);
  FILE *told = fopen(words[1], "w");
  fprintf(told, "%d %ld", WIFEXITED(status) ? WEXITSTATUS(status) : -WTERMSIG(status), used.ru_maxrss);
  return fclose(told);
}
"""

# Handles whose look-ups in a table of so many places all begin at one of them, and whose marks there are
# of so many kinds of 256.
COLLIDE = r"""
#include <stdint.h>
#include <stdio.h>
#include <stdlib.h>
static uint64_t fold(uint64_t a, uint64_t b) {
  unsigned __int128 product = (unsigned __int128)a * b;
  return (uint64_t)product ^ (uint64_t)(product >> 64);
}
int main(int count, char **words) {
  uint32_t wanted = atoi(words[1]), places = atoi(words[2]), kinds = atoi(words[3]), found = 0;
  for (uint64_t handle = 0; handle <= 0xffffffff && found < wanted; handle++) {
    uint64_t hash = fold(0x243f6a8885a308d3 ^ (handle | handle << 32), 0x9e3779b97f4a7c15 ^ 8);
    uint32_t mixed = hash ^ hash >> 32;
    if ((mixed & (places - 1)) == 7 && mixed >> 24 < kinds) {
      printf("%llu\n", (unsigned long long)handle);
      found++;
    }
  }
}
"""


PROGRAMS = {}


def program_of(words):
    """The built program of the first of the words."""
    word = words[0]
    if word not in PROGRAMS:
        which = subprocess.run([f"{TOP}/txn_program", "--which", word], stdout=subprocess.PIPE)
        named = os.environ.get("PROGRAM") or which.stdout.decode().strip()
        if not named:
            sys.exit(1)
        PROGRAMS[word] = named
    return PROGRAMS[word]


def built(source):
    """The program of a C source, built in a folder of its own."""
    folder = tempfile.mkdtemp()
    with open(f"{folder}/it.c", "w") as file:
        file.write(source)
    subprocess.run(["gcc", "-O2", "-o", f"{folder}/it", f"{folder}/it.c"], check=True)
    return f"{folder}/it"


class End:
    """How a run ended: its status, what it wrote, its seconds and its most memory in KiB."""

    def __init__(self, words, source, sink=None):
        with tempfile.TemporaryFile() as kept, tempfile.NamedTemporaryFile() as told:
            started = time.monotonic()
            child = subprocess.Popen(
                [MEASURER, told.name, program_of(words), *words],
                stdin=source,
                stdout=sink or kept,
                stderr=subprocess.DEVNULL,
                start_new_session=True,
            )
            try:
                child.wait(MOST_SECONDS)
            except subprocess.TimeoutExpired:
                os.killpg(child.pid, signal.SIGKILL)
                child.wait()
            self.seconds = time.monotonic() - started
            found = told.read().split()
            self.status, self.memory = map(int, found) if found else ("none within a minute", 0)
            kept.seek(0)
            self.text = kept.read()


def over(octets, words=None):
    """A run over these octets, as a file."""
    with tempfile.TemporaryFile() as source:
        source.write(octets)
        source.seek(0)
        return End(words or RUN, source)


def say(name, end, holds):
    """Prints a run, and keeps its name where it isn't as it must be."""
    holds = holds and end.memory <= MOST_KIB
    print(
        f"{'right' if holds else 'WRONG'}: {name}: status {end.status}, "
        f"{end.seconds:.2f} s, {end.memory} KiB",
        flush=True,
    )
    if not holds:
        FAILED.append(name)
        print(end.text[:400])


def is_within_the_table(end):
    """Whether status and text agree, of a run over a whole input and a sound sink."""
    shown = {
        0: end.text.endswith(b"\n") and b"stop done\n" in end.text,
        1: end.text.endswith(b"\n") and b"stop " in end.text,
        3: end.text.startswith(b"not a step: line "),
        6: end.text == b"",
        7: end.text == b"input too long\n",
        8: end.text.endswith(b"\n") and b"stop below-no-memory\n" in end.text,
    }
    return shown.get(end.status, False)


def one_commit():
    with open(f"{TOP}/examples/one-commit.steps", "rb") as steps:
        return steps.read()


def devices():
    steps = one_commit()
    wanted = over(steps)
    say("a sound run", wanted, wanted.status == 0)
    folder = os.open(TOP, os.O_RDONLY)
    end = End(RUN, folder)
    say("a folder as input", end, end.status == 4 and end.text == b"read fault\n")
    os.close(folder)
    for name, words, octets in [
        ("a report", RUN, steps),
        ("usage", ["run", "no-id"], b""),
        ("a summary", ["make", "4"], b""),
    ]:
        with open("/dev/full", "wb") as full, tempfile.TemporaryFile() as source:
            source.write(octets)
            source.seek(0)
            end = End(words, source, full)
        say(f"{name} on a full device", end, end.status == 5)
        reader, writer = os.pipe()
        os.close(reader)
        with tempfile.TemporaryFile() as source:
            source.write(octets)
            source.seek(0)
            # (a write on a closed pipe must be an answer, not a signal)
            end = End(words, source, writer)
        os.close(writer)
        say(f"{name} on a closed pipe", end, end.status == 5)
    drips = "import os,sys\nfor octet in bytes.fromhex(sys.argv[1]): os.write(1, bytes([octet]))"
    dripping = subprocess.Popen(
        [sys.executable, "-c", drips, steps.hex()], stdout=subprocess.PIPE
    )
    end = End(RUN, dripping.stdout)
    dripping.wait()
    say("one octet at a time", end, end.status == 0 and end.text == wanted.text)


def report_in(room, steps):
    """How a run over a file ends that writes to a file of at most so many octets, and what it wrote."""
    def limited():
        # (a write past the limit must be an answer, not a signal)
        signal.signal(signal.SIGXFSZ, signal.SIG_IGN)
        resource.setrlimit(resource.RLIMIT_FSIZE, (room, room))

    with tempfile.TemporaryFile() as source, tempfile.TemporaryFile() as sink:
        source.write(steps)
        source.seek(0)
        status = subprocess.run(
            [program_of(RUN), *RUN],
            stdin=source,
            stdout=sink,
            stderr=subprocess.DEVNULL,
            preexec_fn=limited,
            timeout=MOST_SECONDS,
        ).returncode
        sink.seek(0)
        return status, sink.read()


def run_from_a_terminal(octets):
    """How a run ends whose reads fail once these octets were read, and what it wrote."""
    reader, writer = os.openpty()
    tty.setraw(writer)
    child = subprocess.Popen(
        [program_of(RUN), *RUN],
        stdin=reader,
        stdout=subprocess.PIPE,
        stderr=subprocess.DEVNULL,
    )
    os.close(reader)
    for at in range(0, len(octets), 1024):
        os.write(writer, octets[at : at + 1024])
    os.close(writer)
    text, _ = child.communicate(timeout=MOST_SECONDS)
    return child.returncode, text


def turns():
    steps = one_commit()
    whole = over(steps)
    wrong = 0
    for room in range(len(whole.text) + 1):
        wanted = (0 if room == len(whole.text) else 5, whole.text[:room])
        wrong += report_in(room, steps) != wanted
    print(
        f"{'WRONG' if wrong else 'right'}: {len(whole.text)} octets of a report, "
        f"each without room in turn: {wrong} wrong",
        flush=True,
    )
    counts = (500, 585, 586, 1_000, 2_000, 20_000)
    lengths = [*range(len(steps) + 1), *(7 * lines for lines in counts)]
    odd = 0
    for length in lengths:
        octets = steps[:length] if length <= len(steps) else b"flow -\n" * (length // 7)
        odd += run_from_a_terminal(octets) != (4, b"read fault\n")
    print(
        f"{'WRONG' if odd else 'right'}: {len(lengths)} inputs whose next read fails: {odd} wrong",
        flush=True,
    )
    FAILED.extend(["reports without room"] * bool(wrong) + ["reads that fail"] * bool(odd))


def endless():
    flow = subprocess.Popen(["yes", "flow -"], stdout=subprocess.PIPE, stderr=subprocess.DEVNULL)
    end = End(RUN, flow.stdout)
    flow.stdout.close()
    flow.kill()
    flow.wait()
    say("lines without an end", end, end.status == 7 and end.text == b"input too long\n")
    with open("/dev/zero", "rb") as zeros:
        end = End(RUN, zeros)
    say("octets without an end", end, end.status == 7)
    for name, octets, status in [
        ("a line of a megabyte, no step", b"x" * LIMIT, 3),
        (
            "a payload of half a megabyte",
            b"transfer 4 - - " + b"00" * ((LIMIT - 16) // 2) + b"\n",
            None,
        ),
        (
            "nested values in half a megabyte",
            b"attach c 4\ncontrol 0 005370" + b"00" * ((LIMIT - 40) // 2) + b"\n",
            None,
        ),
        ("a megabyte and one octet", b"flow -\n" * (LIMIT // 7) + b"flow -\n", 7),
        ("a megabyte of the shortest lines", b"end\n" * (LIMIT // 4), 1),
        ("a megabyte of flows", b"flow -\n" * (LIMIT // 7), 0),
        (
            "a megabyte of attaches",
            b"".join(b"attach n%d %d\n" % (i, i) for i in range(50_000)),
            None,
        ),
        (
            "a megabyte of declares",
            (b"attach c 4\n" + b"control 0 %s\n" % DECLARE.encode() * 40_000),
            None,
        ),
    ]:
        end = over(octets)
        holds = is_within_the_table(end) and (status is None or end.status == status)
        say(name, end, holds)


def attached():
    """A megabyte: half of it flows that are held for a handle, half attaches of it that are refused."""
    held = b"flow 4 9\n" * (LIMIT // 18)
    return b"attach c 1\n" + held + b"attach c 4\n" * ((LIMIT - len(held) - 11) // 11)


def handles(each):
    """Flows for each of these handles, none of which has a link: at most a megabyte."""
    lines = b"".join(b"flow %d 9\n" % handle for handle in each)
    return lines[: lines.rfind(b"\n", 0, LIMIT) + 1]


def picked():
    rng = random.Random(20_261_128)
    collider = built(COLLIDE)
    meeting, alike = (
        subprocess.run(
            [collider, "60000", "8192", kinds], stdout=subprocess.PIPE, check=True
        ).stdout.split()
        for kinds in ("256", "30")
    )
    for name, octets in [
        ("flows of handles at random", handles(rng.sample(range(2**32), 60_000))),
        ("flows of handles whose look-ups meet", handles(map(int, meeting))),
        ("flows of handles whose look-ups meet, of few marks", handles(map(int, alike))),
        ("flows that are held, and attaches that are refused", attached()),
    ]:
        end = over(octets, LISTEN)
        say(f"{name}, {octets.count(10)} lines", end, end.status == 0 and is_within_the_table(end))


def words_of_a_line(rng):
    """A line of the table with words at random, most of them small so that lines meet."""
    small = lambda: str(rng.choice([0, 1, 2, 3, 4, 5, 9, 4_294_967_295]))
    opt = lambda: rng.choice(["-", small()])
    flag = lambda: rng.choice(["true", "false"])
    maybe = lambda: rng.choice(["-", "true", "false"])
    out = lambda: rng.choice(["-", "accepted", "rejected", "released", "modified"])
    role = lambda: rng.choice(["sender", "receiver"])
    txn = lambda: "%032x" % rng.choice([1, 2, 3])
    octets = lambda: rng.choice(["-", "6869", "00" * rng.randrange(1, 40)])
    discharge = lambda: f"005377005332c01302a010{txn()}{rng.choice(['41', '42'])}"
    message = lambda: rng.choice([DECLARE, discharge(), discharge(), octets()])
    name = lambda: rng.choice("abcdefgh")
    lines = [
        lambda: f"attach {name()} {small()}",
        lambda: f"link {name()} {small()} {role()}",
        lambda: f"flow {small()} {small()}",
        lambda: "flow -",
        lambda: f"transfer {small()} {opt()} {maybe()} {octets()}",
        lambda: f"post {txn()} {small()} {opt()} {maybe()} {out()} {octets()}",
        lambda: f"disposition {role()} {small()} {opt()} {flag()} {out()}",
        lambda: f"retire {txn()} {role()} {small()} {opt()} {flag()} {out()}",
        lambda: f"control {rng.choice(['0', '0', '0', '1', '2'])} {message()}",
        lambda: f"link-end {rng.choice('012')}",
    ]
    ends = [
        lambda: f"detach {small()} {flag()}",
        lambda: "end",
        lambda: "remote-end",
        lambda: "connection-stop",
    ]
    return rng.choice(lines if rng.randrange(400) else ends)()


def mutation(rng, line, each):
    """Of one line in so many, the line with one octet changed, dropped, put in or moved."""
    if not line or rng.randrange(each):
        return line
    at = rng.randrange(len(line))
    octet = bytes([rng.randrange(256)])
    return rng.choice(
        [
            line[:at] + octet + line[at + 1 :],
            line[:at] + line[at + 1 :],
            line[:at] + octet + line[at:],
            line[at:] + line[:at],
        ]
    )


def mutated(count=1_000_000):
    rng = random.Random(20_261_128)
    ids = RUN[1:]
    commands = [
        RUN,
        ["run", "--refuse", "2,5", *ids],
        ["run", "--starve", "3", *ids],
        LISTEN,
        ["run", "--seed", "7"],
    ]
    opened = b"attach c 4\ncontrol 0 %s\ncontrol 0 %s\n" % (DECLARE.encode(), DECLARE.encode())
    told, ends, left = {}, [], count
    while left > 0:
        length = min(left, rng.choice([10, 100, 1_000]))
        left -= length
        each = rng.choice([10, 100, 1_000])
        lines = [mutation(rng, words_of_a_line(rng).encode(), each) for _ in range(length)]
        end = over(opened + b"\n".join(lines), rng.choice(commands))
        told[end.status] = told.get(end.status, 0) + 1
        ends.append(end)
        if not is_within_the_table(end):
            say(f"mutated lines, run {len(ends)}", end, False)
    say_all(f"mutated: {count} lines", ends, told)


def say_all(name, ends, told):
    """Prints what many runs took, and keeps the name where one took more than a small one may."""
    memory, seconds = max(end.memory for end in ends), max(end.seconds for end in ends)
    holds = memory <= 8 * 1024 and seconds <= 0.5
    print(
        f"{'right' if holds else 'WRONG'}: {name} in {len(ends)} runs; "
        f"statuses {dict(sorted(told.items()))}; at most {memory} KiB and {seconds:.2f} s",
        flush=True,
    )
    if not holds:
        FAILED.append(name)


def random_octets(count=1_000_000):
    rng = random.Random(20_261_128)
    told, ends, left = {}, [], count
    while left > 0:
        octets = rng.randbytes(min(left, rng.choice([1, 7, 64, 1_000, 30_000])))
        left -= len(octets)
        end = over(octets)
        told[end.status] = told.get(end.status, 0) + 1
        ends.append(end)
        if not is_within_the_table(end):
            say(f"random octets, {len(octets)} of them", end, False)
    say_all(f"random: {count} octets", ends, told)


def main():
    global MEASURER
    parts = {
        "devices": devices,
        "turns": turns,
        "endless": endless,
        "picked": picked,
        "mutated": mutated,
        "random": random_octets,
    }
    chosen = sys.argv[1:] or list(parts)
    if any(it not in parts for it in chosen):
        sys.exit(f"usage: hostile.py [{' | '.join(parts)}]..")
    for words in (RUN, LISTEN):
        program_of(words)
    resource.setrlimit(resource.RLIMIT_CORE, (0, 0))
    MEASURER = built(MEASURE)
    for it in chosen:
        parts[it]()
    print(f"{len(FAILED)} wrong")
    sys.exit(1 if FAILED else 0)


if __name__ == "__main__":
    main()
