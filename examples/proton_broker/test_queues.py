"""Tests of the queues, without a connection: a session over the layer below it."""

from __future__ import annotations

import sys
import unittest
from pathlib import Path

sys.path.insert(0, str(Path(__file__).resolve().parents[2] / "bindings" / "python"))

from daxurbi import Accepted, Attach, AttachCoordinator, Control, ControlMessage, Declare, Detach
from daxurbi import Disposition, LinkEnd, Outcome, Refusal, Refused, Rejected, Role, Rollback
from daxurbi import Session, Stopped, TransactionalState, TransactionId, Transfer

from queues import Queues, SessionQueues

IN, OUT = 1, 2


class Lists(unittest.TestCase):
    """A queue `q` with room for three messages, a link that posts to it, and one that receives."""

    def setUp(self) -> None:
        queues = Queues(3)
        self.queue = queues["q"]
        self.layer = SessionQueues(queues)
        self.session = Session()
        self.step(Attach("q", IN, Role.SENDER))
        self.step(Attach("q", OUT, Role.RECEIVER))
        self.link = self.step(AttachCoordinator("c", 0)).reply.link

    def tearDown(self) -> None:
        self.session.close()

    def step(self, step):
        return self.session.step_over(step, self.layer)

    def declare(self) -> TransactionId:
        return self.step(Control(self.link, Declare().to_payload())).reply.txn_id

    def discharge(self, message):
        return self.step(Control(self.link, message.to_payload())).reply

    def post(self, txn_id: TransactionId, *texts: bytes) -> None:
        for number, text in enumerate(texts):
            self.step(Transfer(IN, number, False, TransactionalState(txn_id), text))

    def put(self, *texts: bytes) -> None:
        for number, text in enumerate(texts):
            self.step(Transfer(IN, number, False, None, text))

    def messages(self) -> list[bytes]:
        return [message.payload for message in self.queue.messages]

    def free(self) -> list[bytes]:
        return [message.payload for message in self.queue.messages if not message.is_lent]

    def test_a_post_is_there_at_its_commit(self) -> None:
        txn_id = self.declare()
        self.post(txn_id, b"one", b"two")
        self.put(b"plain")
        self.assertEqual(self.messages(), [b"plain"])
        self.assertEqual(self.discharge(ControlMessage.commit(txn_id)), Accepted())
        self.assertEqual(self.messages(), [b"plain", b"one", b"two"])

    def test_a_commit_without_room_is_vetoed(self) -> None:
        self.put(b"plain", b"plain")
        txn_id = self.declare()
        self.post(txn_id, b"one", b"two")
        reply = self.discharge(ControlMessage.commit(txn_id))
        self.assertEqual(reply, Rejected(Rollback()))
        self.assertEqual(self.messages(), [b"plain", b"plain"])

    def test_a_commit_on_a_link_that_is_gone_is_vetoed(self) -> None:
        txn_id = self.declare()
        self.post(txn_id, b"one")
        self.step(Detach(IN, True))
        reply = self.discharge(ControlMessage.commit(txn_id))
        self.assertEqual(reply, Rejected(Rollback()))
        self.assertEqual(self.messages(), [])

    def test_a_plain_message_without_room_would_stop(self) -> None:
        self.put(b"a", b"b", b"c")
        self.assertFalse(self.layer.has_room(IN))
        with self.assertRaises(Stopped) as caught:
            self.put(b"d")
        self.assertEqual(caught.exception.stop, Refused(Refusal.ILLEGAL_STATE))
        self.assertEqual(self.messages(), [b"a", b"b", b"c"])

    def test_a_retirement_takes_out_at_its_commit(self) -> None:
        self.put(b"a", b"b")
        self.assertEqual(self.layer.lend(OUT), (0, b"a"))
        txn_id = self.declare()
        state = TransactionalState(txn_id, Outcome.ACCEPTED)
        self.step(Disposition(Role.RECEIVER, 0, None, False, state))
        self.assertEqual((self.messages(), self.free()), ([b"a", b"b"], [b"b"]))
        self.discharge(ControlMessage.commit(txn_id))
        self.assertEqual((self.messages(), self.free()), ([b"b"], [b"b"]))

    def test_a_retirement_that_is_rolled_back_leaves_the_message(self) -> None:
        self.put(b"a")
        self.layer.lend(OUT)
        txn_id = self.declare()
        state = TransactionalState(txn_id, Outcome.ACCEPTED)
        self.step(Disposition(Role.RECEIVER, 0, None, False, state))
        self.discharge(ControlMessage.rollback(txn_id))
        self.assertEqual((self.messages(), self.free()), ([b"a"], []))
        self.step(Disposition(Role.RECEIVER, 0, None, True, Outcome.RELEASED))
        self.assertEqual(self.layer.lend(OUT), (1, b"a"))

    def test_what_is_lent_is_free_when_its_link_is_gone(self) -> None:
        self.put(b"a", b"b")
        self.layer.lend(OUT)
        self.layer.lend(OUT)
        self.assertIsNone(self.layer.lend(OUT))
        self.step(Detach(OUT, True))
        self.assertEqual(self.free(), [b"a", b"b"])
        self.assertIsNone(self.layer.lend(OUT))

    def test_outcomes(self) -> None:
        self.put(b"a", b"b", b"c")
        for outcome, left in (
            (Outcome.REJECTED, [b"b", b"c"]),
            (Outcome.MODIFIED, [b"b", b"c"]),
            (None, [b"b", b"c"]),
            (Outcome.ACCEPTED, [b"c"]),
        ):
            number, _ = self.layer.lend(OUT)
            self.step(Disposition(Role.RECEIVER, number, None, True, outcome))
            self.assertEqual((self.messages(), self.free()), (left, left))

    def test_the_end_of_a_control_link_rolls_back(self) -> None:
        txn_id = self.declare()
        self.post(txn_id, b"one")
        self.step(LinkEnd(self.link))
        self.assertIsNone(self.session.pending(txn_id))
        self.assertEqual(self.messages(), [])


if __name__ == "__main__":
    unittest.main()
