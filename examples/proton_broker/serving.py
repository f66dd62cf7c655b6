"""One AMQP session of a peer, served by one Daxurbi session.

Each of the peer's frames becomes a step; what the step answers and hands becomes calls of
qpid-proton. """

from __future__ import annotations

from typing import Callable, Optional

from proton import Condition, Delivery, Described, Link, Terminus, ulong

import daxurbi
from daxurbi import Accepted, Answer, Attach, AttachCoordinator, AttachRefused, Control
from daxurbi import ControlMessage, Declared, Detach, Discharge, Disposition, LinkClosed, LinkEnd
from daxurbi import Outcome, Refusal, Refused, Rejected, RemoteEnd, Role, Rollback, Step
from daxurbi import TransactionalState, TransactionId, Transfer, UnknownTxnId

from queues import Queues, SessionQueues, deliveries

# The descriptors of part 4 of the standard, section 4.5.
DECLARED = 0x33
TRANSACTIONAL_STATE = 0x34
OUTCOMES = {
    Delivery.ACCEPTED: Outcome.ACCEPTED,
    Delivery.REJECTED: Outcome.REJECTED,
    Delivery.RELEASED: Outcome.RELEASED,
    Delivery.MODIFIED: Outcome.MODIFIED,
}
DESCRIPTORS = {outcome: int(descriptor) for descriptor, outcome in OUTCOMES.items()}

# What the peer is told where its session is over for a cause of its own.
CONDITIONS = {
    UnknownTxnId(): "amqp:transaction:unknown-id",
    Refused(Refusal.UNATTACHED_HANDLE): "amqp:session:unattached-handle",
}

# How many messages a peer may send on a link before the broker has taken one.
CREDIT = 100


class Served:
    """A peer's session."""

    def __init__(
        self, queues: Queues, tell: Callable[[str], None], log: Callable[[str], None]
    ) -> None:
        """`tell` hears of each end of a transaction, `log` of each step."""
        self._core = daxurbi.Session()
        self._layer = SessionQueues(queues)
        self._tell = tell
        self._log = log
        # Why the session is over, as the condition of an error, once it stopped.
        self.condition: Optional[str] = None
        # By handle: the links of the peer that aren't control links.
        self._links: dict[int, Link] = {}
        # By number: control links, and what was declared on each and hasn't ended.
        self._control_links: dict[int, Link] = {}
        self._live: dict[int, set[TransactionId]] = {}
        self._next_handle = 0
        # By number: deliveries of the peer, and to it.
        self._incoming: dict[int, Delivery] = {}
        self._next_incoming = 0
        self._outgoing: dict[int, Delivery] = {}
        # The deliveries that were retired under a transaction that is live.
        self._retired: dict[TransactionId, list[int]] = {}

    # ---- steps -------------------------------------------------------------------------------

    def _step(self, step: Step) -> Optional[Answer]:
        """A step of the session, over the queues; none where it stopped the session, or had."""
        if self.condition is not None:
            return None
        self._log(f"> {daxurbi.step_line(step)}")
        try:
            answer = self._core.step_over(step, self._layer)
        except daxurbi.Stopped as stopped:
            self._log(f"< stop {stopped.stop}")
            self.condition = CONDITIONS.get(stopped.stop, "amqp:internal-error")
            return None
        self._log(f"< {answer.reply}")
        for frame in answer.sent_back:
            self._log(f"< out {frame}")
            self._send_back(frame)
        for frame in answer.handed:
            self._log(f"< taken {frame}")
            self._tell_taken(frame)
        return answer

    def _send_back(self, frame: daxurbi.Frame) -> None:
        """The disposition of a post: its outcome if the transaction commits."""
        for number in deliveries(frame):
            delivery = self._incoming.pop(number)
            outcome = Described(ulong(DESCRIPTORS[frame.state.outcome]), [])
            delivery.local.data = [frame.state.txn_id.octets, outcome]
            delivery.update(TRANSACTIONAL_STATE)
            delivery.settle()

    def _tell_taken(self, frame: daxurbi.Frame) -> None:
        """Tells the peer that a frame of its was taken."""
        if isinstance(frame, Transfer):
            delivery = self._incoming.pop(frame.delivery_id, None)
            if delivery is not None:
                delivery.update(Delivery.ACCEPTED)
                delivery.settle()
        elif isinstance(frame, Disposition):
            for number in deliveries(frame):
                self._settle_outgoing(number, frame.state)

    def _settle_outgoing(self, number: int, outcome: Optional[Outcome]) -> None:
        delivery = self._outgoing.pop(number, None)
        if delivery is not None:
            if outcome is not None:
                delivery.update(DESCRIPTORS[outcome])
            delivery.settle()

    # ---- links -------------------------------------------------------------------------------

    def open_link(self, link: Link) -> None:
        """An attach of the peer."""
        handle = self._next_handle
        self._next_handle += 1
        link.source.copy(link.remote_source)
        link.target.copy(link.remote_target)
        if link.is_receiver and link.remote_target.type == Terminus.COORDINATOR:
            self._open_control_link(link, handle)
        else:
            self._open_plain_link(link, handle)

    def _open_control_link(self, link: Link, handle: int) -> None:
        answer = self._step(AttachCoordinator(spelled(link.name, handle), handle))
        if answer is None or isinstance(answer.reply, AttachRefused):
            close_link(link, "amqp:not-allowed", "no control link")
            return
        link.control = answer.reply.link
        self._control_links[link.control] = link
        self._live[link.control] = set()
        link.open()
        link.flow(CREDIT)

    def _open_plain_link(self, link: Link, handle: int) -> None:
        role = Role.SENDER if link.is_receiver else Role.RECEIVER
        terminus = link.remote_target if link.is_receiver else link.remote_source
        try:
            attach = Attach(terminus.address or "", handle, role)
            daxurbi.step_line(attach)
        except ValueError as error:
            close_link(link, "amqp:invalid-field", str(error))
            return
        link.plain = handle
        self._links[handle] = link
        if self._step(attach) is None:
            return
        # A message leaves its queue by a disposition alone, so none is sent settled.
        link.snd_settle_mode = Link.SND_MIXED if link.is_receiver else Link.SND_UNSETTLED
        link.open()
        if link.is_receiver:
            link.flow(CREDIT)

    def end_link(self, link: Link, closed: bool) -> None:
        """A detach of the peer."""
        if hasattr(link, "control"):
            self._end_control_link(link.control)
        elif hasattr(link, "plain") and self._links.pop(link.plain, None) is not None:
            self._step(Detach(link.plain, closed))
            self._forget_deliveries(link)
        if closed:
            link.close()
        else:
            link.detach()

    def _end_control_link(self, number: int) -> None:
        if self._control_links.pop(number, None) is not None:
            self._step(LinkEnd(number))
            self._roll_back_all(number)

    def _forget_deliveries(self, link: Link) -> None:
        for deliveries in (self._incoming, self._outgoing):
            for number in [n for n, delivery in deliveries.items() if delivery.link == link]:
                del deliveries[number]

    # ---- messages of the peer ----------------------------------------------------------------

    def receive(self, delivery: Delivery) -> None:
        """A message of the peer that is whole."""
        link = delivery.link
        payload = link.recv(delivery.pending) or b""
        link.advance()
        link.flow(1)
        if hasattr(link, "control"):
            self._control(link.control, delivery, payload)
        elif hasattr(link, "plain"):
            self._transfer(link.plain, delivery, payload)

    def _transfer(self, handle: int, delivery: Delivery, payload: bytes) -> None:
        state = self._transactional_state(delivery)
        if state is None and not self._layer.has_room(handle):
            reject(delivery, "amqp:resource-limit-exceeded", "the queue is full")
            return
        number = self._next_incoming
        self._next_incoming += 1
        settled = delivery.settled
        if settled:
            delivery.settle()
        else:
            self._incoming[number] = delivery
        self._step(Transfer(handle, number, settled, state, payload))

    def _control(self, number: int, delivery: Delivery, payload: bytes) -> None:
        """A message on a control link."""
        message = ControlMessage.from_payload(payload)
        answer = self._step(Control(number, payload))
        if answer is None:
            return
        reply = answer.reply
        if isinstance(reply, Declared):
            self._live[number].add(reply.txn_id)
            delivery.local.data = [reply.txn_id.octets]
            delivery.update(DECLARED)
        elif isinstance(reply, Accepted):
            delivery.update(Delivery.ACCEPTED)
            if message.fail:
                self._rolled_back(number, message, "as was asked")
            else:
                self._committed(number, message, len(answer.handed))
        elif isinstance(reply, Rejected):
            reject(delivery, reply.error.condition, reply.error.description)
            if isinstance(reply.error, Rollback):
                self._rolled_back(number, message, "a queue has no room for its work")
        elif isinstance(reply, LinkClosed):
            link = self._control_links.pop(number)
            close_link(link, "amqp:not-allowed", "no control message")
            self._roll_back_all(number)
        delivery.settle()

    # ---- outcomes ----------------------------------------------------------------------------

    def update(self, delivery: Delivery) -> None:
        """The peer told the state of a message that was sent to it, or settled it."""
        number = delivery.number
        if number not in self._outgoing:
            return
        state = self._transactional_state(delivery) or OUTCOMES.get(delivery.remote_state)
        if state is not None and state == getattr(delivery, "retired", None):
            if state.txn_id in self._retired:
                return
            # The transaction was rolled back, and the peer has told no other state.
            state = None
        elif isinstance(state, TransactionalState):
            delivery.retired = state
            self._retired.setdefault(state.txn_id, []).append(number)
        if state is not None or delivery.settled:
            self._step(Disposition(Role.RECEIVER, number, None, delivery.settled, state))

    def _transactional_state(self, delivery: Delivery) -> Optional[TransactionalState]:
        """The state of a delivery at the peer, where it is under a transaction. An id that no
        transaction can have ends the session, as one does that isn't live."""
        try:
            return transactional_state(delivery)
        except (TypeError, ValueError):
            self.condition = CONDITIONS[UnknownTxnId()]
            return None

    def _committed(self, number: int, message: Discharge, handed: int) -> None:
        self._live[number].remove(message.txn_id)
        self._retired.pop(message.txn_id, None)
        frames = "frame" if handed == 1 else "frames"
        self._tell(f"a transaction was committed: {handed} {frames} handed")

    def _rolled_back(self, number: int, message: Discharge, why: str) -> None:
        self._live[number].remove(message.txn_id)
        self._return(message.txn_id)
        self._tell(f"a transaction was rolled back: {why}")

    def _roll_back_all(self, number: int) -> None:
        for txn_id in self._live.pop(number):
            self._return(txn_id)
            self._tell("a transaction was rolled back: its link ended")

    def _return(self, txn_id: TransactionId) -> None:
        """Deliveries whose retirement was rolled back: a receiver that settled its end has let go
        of the message; another still has it, and tells its outcome anew."""
        for number in self._retired.pop(txn_id, []):
            delivery = self._outgoing.get(number)
            if delivery is not None and delivery.settled:
                self._layer.return_loans([number])
                self._outgoing.pop(number).settle()

    def send(self) -> None:
        """Sends what the queues have to the receivers that have credit for it."""
        if self.condition is not None:
            return
        for handle, link in self._links.items():
            if link.is_sender:
                self._send_on(handle, link)

    def _send_on(self, handle: int, link: Link) -> None:
        while link.credit > 0:
            lent = self._layer.lend(handle)
            if lent is None:
                link.drained()
                return
            number, payload = lent
            delivery = link.delivery(link.delivery_tag())
            delivery.number = number
            self._outgoing[number] = delivery
            link.stream(payload)
            link.advance()

    # ---- the end -----------------------------------------------------------------------------

    def end(self, last: Step = RemoteEnd()) -> None:
        """The session is over: the peer ended it, or its connection is lost. Its links end, which
        rolls back."""
        for number in list(self._control_links):
            self._end_control_link(number)
        self._step(last)
        self._core.close()
        self._layer.return_all()


def spelled(name: str, handle: int) -> str:
    """The name of a link where a step can have it, else one of its handle."""
    try:
        daxurbi.step_line(AttachCoordinator(name, handle))
    except ValueError:
        return f"link-{handle}"
    return name


def transactional_state(delivery: Delivery) -> Optional[TransactionalState]:
    """The state of a delivery at the peer, where it is under a transaction. Raises TypeError or
    ValueError where its id isn't 1 to 32 octets."""
    if delivery.remote_state != TRANSACTIONAL_STATE:
        return None
    txn_id, *outcomes = delivery.remote.data
    outcome = OUTCOMES.get(outcomes[0].descriptor) if outcomes and outcomes[0] else None
    return TransactionalState(TransactionId(bytes(txn_id)), outcome)


def reject(delivery: Delivery, condition: str, description: Optional[str]) -> None:
    delivery.local.condition = Condition(condition, description)
    delivery.update(Delivery.REJECTED)
    delivery.settle()


def close_link(link: Link, condition: str, description: str) -> None:
    link.condition = Condition(condition, description)
    link.open()
    link.close()
