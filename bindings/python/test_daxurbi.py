"""Tests of the Python module: the examples of the repository through typed steps, the lines that
the core reads and those that it doesn't, layers, and misuse."""

from __future__ import annotations

import copy
import doctest
import random
import resource
import threading
import unittest
from pathlib import Path
from typing import Optional

import daxurbi
from daxurbi import Accepted, Attach, AttachCoordinator, Attached, AttachRefused, Below
from daxurbi import ConnectionStop, Control, ControlMessage, Declare, Detach, Discharge, Disposition
from daxurbi import End, Flow, Frame, GlobalId, LinkClosed, LinkEnd, LinkEnded, LinkFlow, NoLink, Ok
from daxurbi import Outcome, Received, Refusal, Refused, Refuses, Rejected, RejectText, RemoteEnd
from daxurbi import Role, Rollback, Session, SessionFlow, Step, Stopped, StoppedBefore, Takes
from daxurbi import TransactionalState, TransactionId, Transfer, UnknownId, UnknownTxnId, Vetoes

EXAMPLES = Path(__file__).resolve().parents[2] / "examples"
ONE = bytes(15) + b"\x01"
TWO = bytes(15) + b"\x02"


def opened(session: Session) -> int:
    """The number of a control link."""
    return session.step(AttachCoordinator("c", 0)).reply.link


def declared(session: Session, link: int) -> TransactionId:
    return session.step(Control(link, Declare().to_payload())).reply.txn_id


def commit(link: int, txn_id: TransactionId) -> Control:
    return Control(link, ControlMessage.commit(txn_id).to_payload())


def post(txn_id: TransactionId, number: int = 7, payload: bytes = b"hi") -> Transfer:
    return Transfer(1, number, None, TransactionalState(txn_id), payload)


class Answers(unittest.TestCase):
    """What steps are answered."""

    def setUp(self) -> None:
        self.session = Session(ids=[ONE, TWO])
        self.link = opened(self.session)

    def tearDown(self) -> None:
        self.session.close()

    def test_one_commit(self) -> None:
        txn_id = declared(self.session, self.link)
        answer = self.session.step(post(txn_id))
        state = TransactionalState(txn_id, Outcome.ACCEPTED)
        self.assertEqual(answer.sent_back, (Disposition(Role.RECEIVER, 7, None, True, state),))
        self.assertEqual(answer.handed, ())
        work = (Transfer(1, 7, None, None, b"hi"),)
        self.assertEqual(self.session.pending(txn_id), work)
        answer = self.session.step(commit(self.link, txn_id))
        self.assertEqual((answer.reply, answer.handed), (Accepted(), work))
        self.assertIsNone(self.session.pending(txn_id))

    def test_rollback(self) -> None:
        txn_id = declared(self.session, self.link)
        self.session.step(post(txn_id))
        rollback = Control(self.link, ControlMessage.rollback(txn_id).to_payload())
        answer = self.session.step(rollback)
        self.assertEqual((answer.reply, answer.handed), (Accepted(), ()))

    def test_veto(self) -> None:
        txn_id = declared(self.session, self.link)
        self.session.step(post(txn_id))
        answer = self.session.step(commit(self.link, txn_id), Vetoes())
        self.assertEqual((answer.reply, answer.handed), (Rejected(Rollback()), ()))
        self.assertEqual(answer.reply.error.condition, "amqp:transaction:rollback")

    def test_rejections(self) -> None:
        answer = self.session.step(commit(self.link, TransactionId(TWO)))
        self.assertEqual(answer.reply, Rejected(UnknownId()))
        answer = self.session.step(Control(self.link, Declare(GlobalId(b"global")).to_payload()))
        self.assertEqual(answer.reply, Rejected(UnknownId(RejectText.GLOBAL_ID)))

    def test_links(self) -> None:
        refused = self.session.step(AttachCoordinator("d", 1), Refuses(Refusal.HANDLE_IN_USE))
        self.assertEqual(refused.reply, AttachRefused(Refusal.HANDLE_IN_USE))
        self.assertEqual(self.session.step(AttachCoordinator("d", 1)).reply, Attached(1))
        self.assertEqual(self.session.step(Control(1, b"hi")).reply, LinkClosed())
        self.assertEqual(self.session.step(LinkEnd(1)).reply, NoLink())
        self.assertEqual(self.session.step(LinkEnd(self.link)).reply, LinkEnded())

    def test_plain_frames(self) -> None:
        for frame in (
            Attach("q", 1, Role.SENDER),
            Transfer(1, 7, True, None, b""),
            Disposition(Role.RECEIVER, 1, 2, True, Outcome.REJECTED),
            Detach(1, True),
        ):
            answer = self.session.step(frame)
            self.assertEqual((answer.reply, answer.handed), (Ok(), (frame,)))

    def test_flows(self) -> None:
        self.assertEqual(self.session.step(LinkFlow(1, 5)).handed, (Flow(1, 5),))
        self.assertEqual(self.session.step(SessionFlow()).handed, (Flow(),))

    def test_refusals_stop(self) -> None:
        for refusal in Refusal:
            with self.subTest(refusal), Session() as session:
                with self.assertRaises(Stopped) as caught:
                    session.step(Transfer(1, 7), Refuses(refusal))
                self.assertEqual(caught.exception.stop, Refused(refusal))
                self.assertEqual(caught.exception.handed, ())

    def test_stop_is_final(self) -> None:
        with self.assertRaises(Stopped) as caught:
            self.session.step(post(TransactionId(TWO)))
        self.assertEqual(caught.exception.stop, UnknownTxnId())
        with self.assertRaises(StoppedBefore):
            self.session.step(End())
        self.assertEqual(self.session.stop().stop, UnknownTxnId())
        with self.assertRaises(ValueError):
            self.session.answer()

    def test_large_answer(self) -> None:
        """An answer that is longer than the buffer that is tried first."""
        txn_id = declared(self.session, self.link)
        payload = bytes(range(256)) * 100
        self.session.step(post(txn_id, payload=payload))
        handed = self.session.step(commit(self.link, txn_id)).handed
        self.assertEqual(handed[0].payload, payload)

    def test_random_ids(self) -> None:
        with Session() as other:
            ids = {declared(session, opened(session)) for session in (other, Session())}
        self.assertEqual(len(ids), 2)
        self.assertTrue(all(len(txn_id.octets) == 16 for txn_id in ids))


class Payloads(unittest.TestCase):
    """Control messages."""

    def test_round_trip(self) -> None:
        for message in (
            Declare(),
            Declare(GlobalId(b"")),
            Declare(GlobalId(bytes(32))),
            Discharge(TransactionId(b"\xca\xfe")),
            Discharge(None, fail=False),
            Discharge(TransactionId(bytes(32)), fail=True),
        ):
            self.assertEqual(ControlMessage.from_payload(message.to_payload()), message)

    def test_others(self) -> None:
        self.assertIsNone(ControlMessage.from_payload(b""))
        self.assertIsNone(ControlMessage.from_payload(b"hi"))
        with self.assertRaises(ValueError):
            GlobalId(bytes(33))


class Room:
    """A layer that has room for so many messages."""

    def __init__(self, room: int) -> None:
        self.room = room
        self.taken: list[Frame] = []

    def review_commit(self, frames: tuple[Frame, ...]) -> Below:
        return Takes() if len(frames) <= self.room else Vetoes()

    def review(self, step: Step) -> Below:
        return Takes()

    def take(self, frame: Frame) -> None:
        self.room -= 1
        self.taken.append(frame)


class Layers(unittest.TestCase):
    """Steps over a layer."""

    def test_room(self) -> None:
        layer = Room(3)
        with Session() as session:
            link = session.step_over(AttachCoordinator("c", 0), layer).reply.link
            replies = []
            for _ in range(2):
                declare = Control(link, Declare().to_payload())
                txn_id = session.step_over(declare, layer).reply.txn_id
                session.step_over(post(txn_id, 1), layer)
                session.step_over(post(txn_id, 2), layer)
                replies.append(session.step_over(commit(link, txn_id), layer).reply)
        self.assertEqual(replies, [Accepted(), Rejected(Rollback())])
        self.assertEqual([frame.delivery_id for frame in layer.taken], [1, 2])


class Misuse(unittest.TestCase):
    """What is wrong raises, and changes nothing."""

    def test_fields(self) -> None:
        with Session() as session:
            for step in (
                AttachCoordinator("", 0),
                AttachCoordinator("a b", 0),
                AttachCoordinator("a\n", 0),
                AttachCoordinator("c" * 65, 0),
                AttachCoordinator("é", 0),
                AttachCoordinator("c", -1),
                AttachCoordinator("c", 2**32),
                LinkEnd(2**64),
                LinkFlow(1, -1),
                Transfer(1, state=Outcome.ACCEPTED),
                Disposition(Role.SENDER, 1, state=Received()),
            ):
                with self.subTest(step), self.assertRaises(ValueError):
                    session.step(step)
            self.assertEqual(session.step(AttachCoordinator("c", 0)).reply, Attached(0))

    def test_ids(self) -> None:
        for ids in ([], [ONE] * 65, [b"\x01"]):
            with self.subTest(len(ids)), self.assertRaises(ValueError):
                Session(ids=ids)
        for octets in (b"", bytes(33)):
            with self.assertRaises(ValueError):
                TransactionId(octets)

    def test_closed(self) -> None:
        session = Session()
        session.close()
        session.close()
        for call in (
            lambda: session.step(End()),
            session.answer,
            session.stop,
            lambda: session.pending(TransactionId(ONE)),
        ):
            with self.assertRaises(ValueError):
                call()

    def test_copy(self) -> None:
        with Session() as session, self.assertRaises(TypeError):
            copy.copy(session)


OTHER_LINES = (
    b"",
    b"end\n",
    b"end ",
    b" end",
    b"flow 01 5",
    b"flow 1 4294967296",
    b"attach c",
    b"transfer 1 7 - 686",
    b"post - 1 7 - - -",
    b"\xff",
    bytes(99),
)


class Lines(unittest.TestCase):
    """The lines of typed steps are lines to the core."""

    def test_random_steps(self) -> None:
        chance = random.Random(44)
        for _ in range(2000):
            step = random_step(chance)
            with Session() as session:
                try:
                    session.step(step)
                except Stopped:
                    pass

    def test_other_lines(self) -> None:
        """What isn't a line is an answer of the core."""
        library = daxurbi._library
        with Session() as session:
            for line in OTHER_LINES:
                self.assertEqual(library.daxurbi_step(session._slot, line, len(line), 0), 6, line)
            self.assertEqual(library.daxurbi_step(session._slot, b"end", 3, 10), 7)
            self.assertEqual(session.step(AttachCoordinator("c", 0)).reply, Attached(0))


def random_step(chance: random.Random) -> Step:
    def number() -> int:
        return chance.choice((0, 1, 9, 10, 2**32 - 1))

    def maybe(value: object) -> Optional[object]:
        return chance.choice((None, value))

    def outcome() -> Optional[Outcome]:
        return maybe(chance.choice(list(Outcome)))

    def state() -> TransactionalState:
        return TransactionalState(TransactionId(chance.randbytes(chance.randint(1, 32))), outcome())

    name = "".join(chance.choices("aZ09-_.", k=chance.randint(1, 64)))
    payload = chance.randbytes(chance.choice((0, 1, 40)))
    role = chance.choice(list(Role))
    flag = chance.choice((True, False))
    return chance.choice((
        lambda: AttachCoordinator(name, number()),
        lambda: Attach(name, number(), role),
        lambda: LinkFlow(number(), number()),
        SessionFlow,
        lambda: Transfer(number(), maybe(number()), maybe(flag), maybe(state()), payload),
        lambda: Disposition(role, number(), maybe(number()), flag, maybe(state()) or outcome()),
        lambda: Detach(number(), flag),
        lambda: Control(chance.choice((0, 2**64 - 1)), payload),
        lambda: LinkEnd(chance.choice((0, 2**64 - 1))),
        RemoteEnd,
    ))()


class Reports(unittest.TestCase):
    """The stored reports of the repository's examples, of runs over a layer that takes all."""

    def test_examples(self) -> None:
        made = 0
        for path in sorted(EXAMPLES.glob("*.words")):
            words = path.read_text().split()
            steps = path.with_suffix(".steps").read_text().splitlines()
            if words[0] != "run" or len(words) == 1 or words[1].startswith("--"):
                continue
            try:
                typed = [read_step(line) for line in steps]
            except (KeyError, ValueError):
                continue
            ids = list(map(bytes.fromhex, words[1:]))
            with self.subTest(path.stem), Session(ids=ids) as session:
                self.assertEqual(report(session, typed), path.with_suffix(".report").read_text())
            made += 1
        self.assertGreater(made, 9)


def report(session: Session, steps: list[Step]) -> str:
    lines, taken, stop = [], [], ["stop done", "handed 0"]
    for step in steps:
        try:
            answer = session.step(step)
        except Stopped as stopped:
            stop = [f"stop {stopped.stop}", f"handed {len(stopped.handed)}"]
            break
        lines += [str(answer.reply), *(f"out {frame}" for frame in answer.sent_back)]
        taken += [f"taken {frame}" for frame in answer.handed]
    return "".join(f"{line}\n" for line in lines + stop + taken)


def read_step(line: str) -> Step:
    """The typed step of a line that is one."""
    word, *words = line.split(" ")
    state = None
    if word in ("post", "retire"):
        state = TransactionalState(TransactionId(bytes.fromhex(words.pop(0))))
    optional = daxurbi._read_optional

    def with_outcome(outcome: str) -> object:
        value = optional(Outcome)(outcome)
        return value if state is None else TransactionalState(state.txn_id, value)

    if word == "attach":
        return AttachCoordinator(words[0], int(words[1]))
    if word == "link":
        return Attach(words[0], int(words[1]), Role(words[2]))
    if word == "flow":
        return SessionFlow() if words == ["-"] else LinkFlow(int(words[0]), int(words[1]))
    if word in ("transfer", "post"):
        handle, number, settled, *outcome, payload = words
        return Transfer(
            int(handle),
            optional(int)(number),
            optional(daxurbi._read_bool)(settled),
            with_outcome(outcome[0]) if word == "post" else None,
            daxurbi._read_payload(payload),
        )
    if word in ("disposition", "retire"):
        role, first, last, settled, outcome = words
        numbers = (int(first), optional(int)(last))
        return Disposition(Role(role), *numbers, daxurbi._read_bool(settled), with_outcome(outcome))
    if word == "detach":
        return Detach(int(words[0]), daxurbi._read_bool(words[1]))
    if word == "control":
        return Control(int(words[0]), daxurbi._read_payload(words[1]))
    if word == "link-end":
        return LinkEnd(int(words[0]))
    return {"end": End, "remote-end": RemoteEnd, "connection-stop": ConnectionStop}[word]()


class Resources(unittest.TestCase):
    """Memory and threads."""

    def test_memory_is_level(self) -> None:
        with Session(ids=[ONE]) as session:
            link = opened(session)

            def transactions(count: int) -> int:
                for _ in range(count):
                    txn_id = declared(session, link)
                    session.step(post(txn_id))
                    session.step(commit(link, txn_id))
                return resource.getrusage(resource.RUSAGE_SELF).ru_maxrss

            first = transactions(500)
            self.assertLess(transactions(5000) - first, 1024, "KiB")

    def test_sessions_of_threads(self) -> None:
        """Each thread has a session of its own."""
        counts: list[int] = []

        def serve() -> None:
            with Session(ids=[ONE]) as session:
                link = opened(session)
                handed = 0
                for _ in range(200):
                    txn_id = declared(session, link)
                    session.step(post(txn_id))
                    handed += len(session.step(commit(link, txn_id)).handed)
                counts.append(handed)

        threads = [threading.Thread(target=serve) for _ in range(4)]
        for thread in threads:
            thread.start()
        for thread in threads:
            thread.join(60)
        self.assertEqual(counts, [200] * 4)


def load_tests(loader: unittest.TestLoader, tests: unittest.TestSuite, _: object):
    tests.addTests(doctest.DocTestSuite(daxurbi))
    return tests


if __name__ == "__main__":
    unittest.main()
