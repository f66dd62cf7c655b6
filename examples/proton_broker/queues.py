"""Queues that are plain Python lists, and the layer below one session that changes them.

A queue changes in `SessionQueues.take` alone: by a frame that the session handed.
"""

from __future__ import annotations

from collections import Counter
from dataclasses import dataclass, field
from typing import Iterable, Iterator, Optional

from daxurbi import Attach, Below, Detach, Disposition, Frame, Outcome, Refusal, Refuses, Role
from daxurbi import Step, Takes, Transfer, Vetoes


@dataclass(eq=False)
class Message:
    """A message of a queue."""

    payload: bytes
    # Whether a receiver has it and hasn't told its outcome.
    is_lent: bool = False


@dataclass(eq=False)
class Queue:
    """A queue, with its greatest length."""

    name: str
    limit: int
    messages: list[Message] = field(default_factory=list)

    @property
    def room(self) -> int:
        return self.limit - len(self.messages)


class Queues:
    """The queues of a broker, each made when its name is first used."""

    def __init__(self, limit: int) -> None:
        self._limit = limit
        self._queues: dict[str, Queue] = {}

    def __getitem__(self, name: str) -> Queue:
        return self._queues.setdefault(name, Queue(name, self._limit))

    def __iter__(self) -> Iterator[Queue]:
        return iter(self._queues.values())


@dataclass(frozen=True)
class Link:
    """A link that is attached: its queue, and the role of the peer."""

    queue: Queue
    role: Role


@dataclass(frozen=True)
class Loan:
    """A message that was sent to a receiver, and the link on which it was."""

    queue: Queue
    message: Message
    handle: int


class SessionQueues:
    """The layer below one session (`daxurbi.Layer`)."""

    def __init__(self, queues: Queues) -> None:
        self._queues = queues
        self._links: dict[int, Link] = {}
        # What was sent, by the numbers of the deliveries.
        self._loans: dict[int, Loan] = {}
        self._next_number = 0

    # ---- what the layer will answer ----------------------------------------------------------

    def review(self, step: Step) -> Below:
        """A frame on a handle that isn't attached is refused, and so is a transfer that its queue
        has no room for: the broker asks `has_room` before it makes the step."""
        if isinstance(step, Transfer) and not self._may_post(step):
            return Refuses(Refusal.UNATTACHED_HANDLE)
        if isinstance(step, Transfer) and step.state is None and not self.has_room(step.handle):
            return Refuses(Refusal.ILLEGAL_STATE)
        if isinstance(step, Attach) and step.handle in self._links:
            return Refuses(Refusal.HANDLE_IN_USE)
        if isinstance(step, Detach) and step.handle not in self._links:
            return Refuses(Refusal.UNATTACHED_HANDLE)
        return Takes()

    def review_commit(self, frames: tuple[Frame, ...]) -> Below:
        """A commit is vetoed where a queue has no room for all that it would put there."""
        posts = [frame for frame in frames if isinstance(frame, Transfer)]
        if not all(self._may_post(post) for post in posts):
            return Vetoes()
        counts = Counter(self._links[post.handle].queue.name for post in posts)
        fits = all(count <= self._queues[name].room for name, count in counts.items())
        return Takes() if fits else Vetoes()

    def has_room(self, handle: int) -> bool:
        """Whether the queue of a link has room for one more message."""
        link = self._links.get(handle)
        return link is not None and link.queue.room > 0

    def _may_post(self, transfer: Transfer) -> bool:
        link = self._links.get(transfer.handle)
        return link is not None and link.role == Role.SENDER

    # ---- what was handed ---------------------------------------------------------------------

    def take(self, frame: Frame) -> None:
        """Does what a frame says that the session handed."""
        if isinstance(frame, Attach):
            self._links[frame.handle] = Link(self._queues[frame.name], frame.role)
        elif isinstance(frame, Transfer):
            self._links[frame.handle].queue.messages.append(Message(frame.payload))
        elif isinstance(frame, Disposition) and frame.role == Role.RECEIVER:
            self._settle(frame)
        elif isinstance(frame, Detach):
            del self._links[frame.handle]
            self.return_loans(of_link(self._loans, frame.handle))

    def _settle(self, disposition: Disposition) -> None:
        """A message that was accepted or rejected leaves its queue; every other is free again."""
        for number in deliveries(disposition):
            loan = self._loans.pop(number, None)
            if loan is None:
                continue
            if disposition.state in (Outcome.ACCEPTED, Outcome.REJECTED):
                loan.queue.messages.remove(loan.message)
            else:
                loan.message.is_lent = False

    # ---- lending -----------------------------------------------------------------------------

    def lend(self, handle: int) -> Optional[tuple[int, bytes]]:
        """The number and the octets of a delivery of the first free message of a receiver's queue,
        which stays in the queue."""
        link = self._links.get(handle)
        if link is None or link.role != Role.RECEIVER:
            return None
        for message in link.queue.messages:
            if not message.is_lent:
                number = self._next_number
                self._next_number += 1
                message.is_lent = True
                self._loans[number] = Loan(link.queue, message, handle)
                return number, message.payload
        return None

    def return_loans(self, numbers: Iterable[int]) -> None:
        """Deliveries that are over without an outcome: their messages are free again."""
        for number in list(numbers):
            loan = self._loans.pop(number, None)
            if loan is not None:
                loan.message.is_lent = False

    def return_all(self) -> None:
        """The session is over."""
        self.return_loans(self._loans)


def of_link(loans: dict[int, Loan], handle: int) -> list[int]:
    """The numbers of a link's deliveries."""
    return [number for number, loan in loans.items() if loan.handle == handle]


def deliveries(disposition: Disposition) -> range:
    """The numbers of a disposition's deliveries."""
    last = disposition.first if disposition.last is None else disposition.last
    return range(disposition.first, last + 1)
