"""Transactions of AMQP 1.0 (OASIS AMQP 1.0, part 4), on the side of the resource, over a core that
is proved.

A `Session` takes steps: frames of the peer, messages on control links, and ends. It holds what
comes under a transaction, and hands it to the layer below when the transaction commits. It opens no
socket and encodes no performative: it stands below an AMQP connection and above queues.

The layer below is the program's. So a step is made in three parts: ask which frames a commit would
hand (`Session.pending`); tell what the layer will answer (`Takes`, `Vetoes` or `Refuses`); and
give the layer what was handed (`Answer.handed`). `Session.step_over` makes the three over a
`Layer`.

>>> session = Session()
>>> link = session.step(AttachCoordinator("c", handle=0)).reply.link
>>> declare = Control(link, Declare().to_payload())
>>> txn_id = session.step(declare).reply.txn_id
>>> post = Transfer(handle=1, delivery_id=7, state=TransactionalState(txn_id), payload=b"hi")
>>> session.step(post).handed
()
>>> [str(frame) for frame in session.pending(txn_id)]
['transfer 1 7 - - 6869']
>>> commit = Control(link, ControlMessage.commit(txn_id).to_payload())
>>> answer = session.step(commit)
>>> answer.reply
Accepted()
>>> [str(frame) for frame in answer.handed]
['transfer 1 7 - - 6869']

What is proved is the core, in the shared object that this module loads: which answer a step has,
and which frames it hands. That this module calls the core as the core's C header asks, writes steps
and reads answers rightly, and that the program's layer below does what it said it would, is tested
or the program's.
"""

from __future__ import annotations

import ctypes
import enum
import os
import re
from dataclasses import dataclass
from pathlib import Path
from typing import Callable, Generic, Optional, Protocol, TypeVar, Union

# ---- ids, names and numbers ----------------------------------------------------------------------

U32_MAX = 0xFFFF_FFFF
U64_MAX = 0xFFFF_FFFF_FFFF_FFFF


@dataclass(frozen=True)
class TransactionId:
    """The id of a transaction: 1 to 32 octets (part 4, section 4.5.4).

    The standard allows an empty id too; no transaction is ever given it.
    """

    octets: bytes

    def __post_init__(self) -> None:
        if not 1 <= len(self.octets) <= 32:
            raise ValueError(f"a transaction id has 1 to 32 octets, not {len(self.octets)}")

    def __str__(self) -> str:
        return self.octets.hex()


@dataclass(frozen=True)
class GlobalId:
    """The id of a distributed transaction, in a declare: at most 32 octets (part 4, section 4.5.1).
    A session doesn't support them and rejects such a declare."""

    octets: bytes

    def __post_init__(self) -> None:
        if len(self.octets) > 32:
            raise ValueError(f"a global id has at most 32 octets, not {len(self.octets)}")


class Role(enum.Enum):
    """The role of a link's end (part 2, section 2.8.1)."""

    SENDER = "sender"
    RECEIVER = "receiver"


def _number(value: int, limit: int) -> str:
    if not 0 <= value <= limit:
        raise ValueError(f"{value} is not a number from 0 to {limit}")
    return str(int(value))


def _u32(value: int) -> str:
    return _number(value, U32_MAX)


def _optional_u32(value: Optional[int]) -> str:
    return "-" if value is None else _u32(value)


def _bool(flag: bool) -> str:
    return "true" if flag else "false"


def _optional_bool(flag: Optional[bool]) -> str:
    return "-" if flag is None else _bool(flag)


def _payload(octets: bytes) -> str:
    return octets.hex() or "-"


_NAME = re.compile(r"[A-Za-z0-9._-]{1,64}", re.ASCII)


def _name(text: str) -> str:
    if _NAME.fullmatch(text) is None:
        raise ValueError(f"{text!r} is not 1 to 64 of the letters, the digits, '-', '_' and '.'")
    return text


# ---- states of deliveries ------------------------------------------------------------------------


class Outcome(enum.Enum):
    """A state in which a delivery ends (part 3, section 3.4)."""

    ACCEPTED = "accepted"
    REJECTED = "rejected"
    RELEASED = "released"
    MODIFIED = "modified"

    def __str__(self) -> str:
        return self.value


@dataclass(frozen=True)
class TransactionalState:
    """The state of a delivery under a transaction, with the outcome that it has if the transaction
    commits (part 4, section 4.5.7)."""

    txn_id: TransactionId
    outcome: Optional[Outcome] = None

    def __str__(self) -> str:
        return f"txn:{self.txn_id}:{_outcome(self.outcome)}"


@dataclass(frozen=True)
class Received:
    """A part of the message was received."""

    def __str__(self) -> str:
        return "received"


DeliveryState = Union[Outcome, TransactionalState, Received]
DispositionState = Union[Outcome, TransactionalState]
S = TypeVar("S")


def _outcome(outcome: Optional[Outcome]) -> str:
    return "-" if outcome is None else outcome.value


def _state(state: Optional[DeliveryState]) -> str:
    return "-" if state is None else str(state)


# ---- frames and steps ----------------------------------------------------------------------------
#
# `str(frame)` is the frame as a report shows it; `step_line(step)` the line that the core reads.


@dataclass(frozen=True)
class Attach:
    """The attach of a link (part 2, section 2.7.3); as a step, its target is a plain one. Its name
    is 1 to 64 of the ASCII letters and digits, `-`, `_` and `.`."""

    name: str
    handle: int
    role: Role

    def _words(self) -> str:
        return f"{_name(self.name)} {_u32(self.handle)} {self.role.value}"

    def __str__(self) -> str:
        return f"attach {self._words()}"


@dataclass(frozen=True)
class Flow:
    """A flow that was handed: of a link, or of the session alone (section 2.7.4)."""

    handle: Optional[int] = None
    link_credit: Optional[int] = None

    def __str__(self) -> str:
        return f"flow {_optional_u32(self.handle)} {_optional_u32(self.link_credit)}"


@dataclass(frozen=True)
class Transfer(Generic[S]):
    """A transfer, which is one whole delivery (section 2.7.5); as a step, it has no state or one
    under a transaction (*transactional posting*)."""

    handle: int
    delivery_id: Optional[int] = None
    settled: Optional[bool] = None
    state: Optional[S] = None
    payload: bytes = b""

    def _delivery(self) -> str:
        number = _optional_u32(self.delivery_id)
        return f"{_u32(self.handle)} {number} {_optional_bool(self.settled)}"

    def __str__(self) -> str:
        return f"transfer {self._delivery()} {_state(self.state)} {_payload(self.payload)}"


@dataclass(frozen=True)
class Disposition(Generic[S]):
    """A disposition (section 2.7.6); as a step, its state is none, an outcome, or one under a
    transaction (*transactional retirement*)."""

    role: Role
    first: int
    last: Optional[int] = None
    settled: bool = False
    state: Optional[S] = None

    def _deliveries(self) -> str:
        numbers = f"{_u32(self.first)} {_optional_u32(self.last)}"
        return f"{self.role.value} {numbers} {_bool(self.settled)}"

    def __str__(self) -> str:
        return f"disposition {self._deliveries()} {_state(self.state)}"


@dataclass(frozen=True)
class Detach:
    """The detach of a link that isn't a control link (section 2.7.7)."""

    handle: int
    closed: bool = False

    def __str__(self) -> str:
        return f"detach {_u32(self.handle)} {_bool(self.closed)}"


Frame = Union[Attach, Flow, Transfer, Disposition, Detach]


@dataclass(frozen=True)
class AttachCoordinator:
    """An attach, with role sender, whose target is a coordinator: it opens a control link."""

    name: str
    handle: int


@dataclass(frozen=True)
class LinkFlow:
    """A flow for a link."""

    handle: int
    link_credit: int


@dataclass(frozen=True)
class SessionFlow:
    """A flow of the session alone."""


@dataclass(frozen=True)
class Control:
    """A message on a control link: a declare, a discharge, or neither."""

    link: int
    payload: bytes


@dataclass(frozen=True)
class LinkEnd:
    """The end of a control link, by a detach of the peer or because its connection is lost."""

    link: int


@dataclass(frozen=True)
class End:
    """The session is ended by this side."""


@dataclass(frozen=True)
class RemoteEnd:
    """The session is ended by the peer."""


@dataclass(frozen=True)
class ConnectionStop:
    """The connection stopped."""


Step = Union[
    AttachCoordinator,
    Attach,
    LinkFlow,
    SessionFlow,
    Transfer[TransactionalState],
    Disposition[DispositionState],
    Detach,
    Control,
    LinkEnd,
    End,
    RemoteEnd,
    ConnectionStop,
]


def _transfer_line(transfer: Transfer) -> str:
    delivery, payload = transfer._delivery(), _payload(transfer.payload)
    state = transfer.state
    if state is None:
        return f"transfer {delivery} {payload}"
    if isinstance(state, TransactionalState):
        return f"post {state.txn_id} {delivery} {_outcome(state.outcome)} {payload}"
    raise ValueError(f"a transfer of a step has no state or one under a transaction: {state}")


def _disposition_line(disposition: Disposition) -> str:
    deliveries, state = disposition._deliveries(), disposition.state
    if state is None or isinstance(state, Outcome):
        return f"disposition {deliveries} {_outcome(state)}"
    if isinstance(state, TransactionalState):
        return f"retire {state.txn_id} {deliveries} {_outcome(state.outcome)}"
    raise ValueError(f"a disposition of a step has an outcome or one under a transaction: {state}")


_LINES: dict[type, Callable[..., str]] = {
    AttachCoordinator: lambda step: f"attach {_name(step.name)} {_u32(step.handle)}",
    Attach: lambda step: f"link {step._words()}",
    LinkFlow: lambda step: f"flow {_u32(step.handle)} {_u32(step.link_credit)}",
    SessionFlow: lambda _: "flow -",
    Transfer: _transfer_line,
    Disposition: _disposition_line,
    Detach: str,
    Control: lambda step: f"control {_number(step.link, U64_MAX)} {_payload(step.payload)}",
    LinkEnd: lambda step: f"link-end {_number(step.link, U64_MAX)}",
    End: lambda _: "end",
    RemoteEnd: lambda _: "remote-end",
    ConnectionStop: lambda _: "connection-stop",
}


def step_line(step: Step) -> str:
    """The line of a step. Raises ValueError where a field has a value that no line has."""
    return _LINES[type(step)](step)


# ---- what the layer below answers, and why a session stops ---------------------------------------


@dataclass(frozen=True)
class Takes:
    """The layer below takes each frame. Where the core lacks the memory to keep what a step hands,
    the step stops the session with `Refusal.NO_MEMORY`, and nothing was handed."""


@dataclass(frozen=True)
class Vetoes:
    """The layer below vetoes the commit, which is rolled back; to a step that is no commit the same
    as `Takes`."""


class Refusal(enum.Enum):
    """Why the layer below refuses a frame."""

    UNATTACHED_HANDLE = "unattached-handle"
    LINK_NAME_NOT_FOUND = "link-name-not-found"
    HANDLE_IN_USE = "handle-in-use"
    ILLEGAL_STATE = "illegal-state"
    TRANSFER_TO_SENDER = "transfer-to-sender"
    CONNECTION_STOPPED = "below-connection-stopped"
    REMOTE_ENDED = "below-remote-ended"
    NO_MEMORY = "below-no-memory"

    def __str__(self) -> str:
        return self.value


@dataclass(frozen=True)
class Refuses:
    """The layer below refuses with this error: a plain frame, and the session stops; the attach of
    a control link, which isn't opened. A commit is vetoed, but for `Refusal.NO_MEMORY`, which stops
    the session with nothing handed."""

    refusal: Refusal


Below = Union[Takes, Vetoes, Refuses]

# The numbers of the header.
_ANSWERS: dict[Below, int] = {Takes(): 0, Vetoes(): 1}
_ANSWERS.update((Refuses(refusal), number) for number, refusal in enumerate(Refusal, start=2))


@dataclass(frozen=True)
class UnknownTxnId:
    """The session stopped at a frame under an id that isn't live."""

    def __str__(self) -> str:
        return "unknown-txn-id"


@dataclass(frozen=True)
class Refused:
    """The session stopped since the layer below refused a frame."""

    refusal: Refusal

    def __str__(self) -> str:
        return str(self.refusal)


@dataclass(frozen=True)
class Ended:
    """The session was ended by this side."""

    def __str__(self) -> str:
        return "ended"


@dataclass(frozen=True)
class RemoteEnded:
    """The session was ended by the peer."""

    def __str__(self) -> str:
        return "remote-ended"


@dataclass(frozen=True)
class ConnectionStopped:
    """The session stopped since the connection did."""

    def __str__(self) -> str:
        return "connection-stopped"


Stop = Union[UnknownTxnId, Refused, Ended, RemoteEnded, ConnectionStopped]


# ---- replies -------------------------------------------------------------------------------------


class RejectText(enum.Enum):
    """What is told beside an unknown id."""

    ABSENT = None
    GLOBAL_ID = "Global transaction ID is not implemented"
    IDS_REPEAT = "No unused transaction ID was drawn"


@dataclass(frozen=True)
class UnknownId:
    """The id of a discharge isn't live or was declared on another link; or a declare couldn't be
    given an id (part 4, section 4.5.8)."""

    text: RejectText = RejectText.ABSENT

    @property
    def condition(self) -> str:
        return "amqp:transaction:unknown-id"

    @property
    def description(self) -> Optional[str]:
        return self.text.value

    def __str__(self) -> str:
        words = {RejectText.GLOBAL_ID: " global-id", RejectText.IDS_REPEAT: " ids-repeat"}
        return "unknown-id" + words.get(self.text, "")


@dataclass(frozen=True)
class Rollback:
    """The layer below vetoed the commit, and the transaction was rolled back (part 4, section
    4.5.8)."""

    @property
    def condition(self) -> str:
        return "amqp:transaction:rollback"

    @property
    def description(self) -> Optional[str]:
        return None

    def __str__(self) -> str:
        return "rollback"


TransactionError = Union[UnknownId, Rollback]


@dataclass(frozen=True)
class Ok:
    """To a frame: a plain one was handed, or one under a live transaction is held."""

    def __str__(self) -> str:
        return "ok"


@dataclass(frozen=True)
class Attached:
    """The control link was opened, with this number."""

    link: int

    def __str__(self) -> str:
        return f"attached {self.link}"


@dataclass(frozen=True)
class AttachRefused:
    """The layer below refused the attach of a control link; none was opened."""

    refusal: Refusal

    def __str__(self) -> str:
        return f"attach-refused {self.refusal}"


@dataclass(frozen=True)
class LinkEnded:
    """The control link ended, and what was declared on it was rolled back."""

    def __str__(self) -> str:
        return "link-ended"


@dataclass(frozen=True)
class NoLink:
    """The control link isn't open."""

    def __str__(self) -> str:
        return "no-link"


@dataclass(frozen=True)
class LinkClosed:
    """The payload was no control message: the link is closed with `amqp:not-allowed`, as if it had
    ended."""

    def __str__(self) -> str:
        return "link-closed not-allowed"


@dataclass(frozen=True)
class Declared:
    """To a declare: the id of the new transaction."""

    txn_id: TransactionId

    def __str__(self) -> str:
        return f"declared {self.txn_id}"


@dataclass(frozen=True)
class Accepted:
    """To a discharge: the transaction is committed or rolled back, as was asked."""

    def __str__(self) -> str:
        return "accepted"


@dataclass(frozen=True)
class Rejected:
    """To a declare or a discharge: it is rejected."""

    error: TransactionError

    def __str__(self) -> str:
        return f"rejected {self.error}"


Reply = Union[
    Ok, Attached, AttachRefused, LinkEnded, NoLink, LinkClosed, Declared, Accepted, Rejected
]


@dataclass(frozen=True)
class Answer:
    """The answer to a step: the reply, the frames to be sent to the peer, and the frames that were
    handed to the layer below, both in order."""

    reply: Reply
    sent_back: tuple[Frame, ...] = ()
    handed: tuple[Frame, ...] = ()


# ---- reading -------------------------------------------------------------------------------------


def _read_optional(read: Callable[[str], S]) -> Callable[[str], Optional[S]]:
    return lambda word: None if word == "-" else read(word)


def _read_txn_id(word: str) -> TransactionId:
    return TransactionId(bytes.fromhex(word))


def _read_state(word: str) -> DeliveryState:
    if word.startswith("txn:"):
        _, txn_id, outcome = word.split(":")
        return TransactionalState(_read_txn_id(txn_id), _read_optional(Outcome)(outcome))
    return Received() if word == "received" else Outcome(word)


def _read_payload(word: str) -> bytes:
    return b"" if word == "-" else bytes.fromhex(word)


def _read_bool(word: str) -> bool:
    return {"true": True, "false": False}[word]


_FRAMES: dict[str, tuple[type, tuple[Callable, ...]]] = {
    "attach": (Attach, (str, int, Role)),
    "flow": (Flow, (_read_optional(int), _read_optional(int))),
    "transfer": (
        Transfer,
        (
            int,
            _read_optional(int),
            _read_optional(_read_bool),
            _read_optional(_read_state),
            _read_payload,
        ),
    ),
    "disposition": (
        Disposition,
        (Role, int, _read_optional(int), _read_bool, _read_optional(_read_state)),
    ),
    "detach": (Detach, (int, _read_bool)),
}


def _read_frame(line: str) -> Frame:
    word, *words = line.split(" ")
    frame, fields = _FRAMES[word]
    return frame(*(read(word) for read, word in zip(fields, words, strict=True)))


_REJECTIONS: dict[str, TransactionError] = {
    "unknown-id": UnknownId(),
    "unknown-id global-id": UnknownId(RejectText.GLOBAL_ID),
    "unknown-id ids-repeat": UnknownId(RejectText.IDS_REPEAT),
    "rollback": Rollback(),
}

_REPLIES: dict[str, Callable[[str], Reply]] = {
    "ok": lambda _: Ok(),
    "attached": lambda words: Attached(int(words)),
    "attach-refused": lambda words: AttachRefused(Refusal(words)),
    "link-ended": lambda _: LinkEnded(),
    "no-link": lambda _: NoLink(),
    "link-closed": lambda _: LinkClosed(),
    "declared": lambda words: Declared(_read_txn_id(words)),
    "accepted": lambda _: Accepted(),
    "rejected": lambda words: Rejected(_REJECTIONS[words]),
}


def _read_reply(line: str) -> Reply:
    word, _, words = line.partition(" ")
    return _REPLIES[word](words)


def _read_frames(lines: list[str], front: str) -> tuple[Frame, ...]:
    found = (line for line in lines if line.startswith(front))
    return tuple(_read_frame(line.removeprefix(front)) for line in found)


def _read_answer(text: str) -> Answer:
    if not text or text.startswith("stop "):
        raise ValueError("the last step has no answer")
    reply, *frames = text.splitlines()
    return Answer(_read_reply(reply), _read_frames(frames, "out "), _read_frames(frames, "taken "))


_STOPS: dict[str, Stop] = {
    str(stop): stop
    for stop in (
        UnknownTxnId(),
        Ended(),
        RemoteEnded(),
        ConnectionStopped(),
        *map(Refused, Refusal),
    )
}


def _read_stop(text: str) -> Stopped:
    if not text.startswith("stop "):
        raise ValueError("the session hasn't stopped")
    stop, _handed, *frames = text.splitlines()
    return Stopped(_STOPS[stop.removeprefix("stop ")], _read_frames(frames, "taken "))


# ---- errors --------------------------------------------------------------------------------------


class StepError(Exception):
    """A step has no answer."""


class Stopped(StepError):
    """The step stopped the session: the layer below refused a plain frame, a frame is under an id
    that isn't live, or the step is an end."""

    def __init__(self, stop: Stop, handed: tuple[Frame, ...] = ()) -> None:
        super().__init__(f"the session stopped: {stop}")
        self.stop = stop
        self.handed = handed


class StoppedBefore(StepError):
    """The session had stopped before."""


class NoLinkLeft(StepError):
    """2^64 - 1 control links were opened, and no more can be numbered."""


# ---- the C surface, as bindings/c/daxurbi.h declares it ------------------------------------------


class _Slot(ctypes.Structure):
    _fields_ = [("session", ctypes.c_void_p), ("is_open", ctypes.c_bool)]


class _Call(enum.IntEnum):
    """What a call answers."""

    OK = 0
    STOPPED = 1
    STOPPED_BEFORE = 2
    NO_MEMORY = 3
    NOT_OPEN = 4
    ALREADY_OPEN = 5
    NOT_A_STEP = 6
    NOT_AN_ANSWER = 7
    SHORT_BUFFER = 8
    NOT_LIVE = 9
    NOT_A_SEED = 10
    NOT_IDS = 11
    NOT_AN_ID = 12
    NOT_A_MESSAGE = 13
    NO_LINK_LEFT = 14


def _load() -> ctypes.PyDLL:
    default = Path(__file__).resolve().parent / "libdaxurbi.so"
    # PyDLL keeps the interpreter's lock during a call, so a slot is used by one call at a time.
    library = ctypes.PyDLL(os.environ.get("DAXURBI_LIB", str(default)))
    slot = ctypes.POINTER(_Slot)
    octets = (ctypes.c_char_p, ctypes.c_size_t)
    buffer = (ctypes.c_void_p, ctypes.c_size_t, ctypes.POINTER(ctypes.c_size_t))
    number = ctypes.c_uint32
    arguments = {
        "open": (slot, *octets),
        "open_with_ids": (slot, *octets),
        "close": (slot,),
        "step": (slot, *octets, number),
        "report": (slot, *buffer),
        "pending": (slot, *octets, *buffer),
        "payload": (number, *octets, *buffer),
        "message": (*octets, ctypes.POINTER(number), *buffer),
    }
    for name, types in arguments.items():
        call = getattr(library, f"daxurbi_{name}")
        call.argtypes, call.restype = types, number
    return library


_library = _load()


def _text(call: Callable, *arguments: object, length: int = 4096) -> bytes:
    """The octets that a call writes, whose last three arguments are a buffer."""
    needed = ctypes.c_size_t()
    buffer = ctypes.create_string_buffer(length)
    answer = call(*arguments, buffer, length, ctypes.byref(needed))
    if answer == _Call.SHORT_BUFFER:
        length = needed.value
        buffer = ctypes.create_string_buffer(length)
        answer = call(*arguments, buffer, length, ctypes.byref(needed))
    _check(answer)
    return buffer.raw[: needed.value]


class _Misused(ValueError):
    """A call answered that it was misused."""

    def __init__(self, call: _Call) -> None:
        super().__init__(call.name.lower().replace("_", " "))
        self.call = call


def _check(answer: int) -> None:
    if answer == _Call.NO_MEMORY:
        raise MemoryError
    if answer != _Call.OK:
        raise _Misused(_Call(answer))


# ---- control messages ----------------------------------------------------------------------------


class ControlMessage:
    """A message on a control link: a `Declare` or a `Discharge`."""

    @staticmethod
    def commit(txn_id: TransactionId) -> Discharge:
        """The discharge that commits a transaction."""
        return Discharge(txn_id, fail=False)

    @staticmethod
    def rollback(txn_id: TransactionId) -> Discharge:
        """The discharge that rolls a transaction back."""
        return Discharge(txn_id, fail=True)

    def to_payload(self) -> bytes:
        """The message's octets."""
        kind, octets = self._parts()
        return _text(_library.daxurbi_payload, kind, octets, len(octets))

    def _parts(self) -> tuple[int, bytes]:
        raise NotImplementedError

    @staticmethod
    def from_payload(payload: bytes) -> Optional[Union[Declare, Discharge]]:
        """The control message that these octets spell, if they spell one."""
        kind = ctypes.c_uint32()
        arguments = (payload, len(payload), ctypes.byref(kind))
        try:
            octets = _text(_library.daxurbi_message, *arguments, length=32)
        except _Misused as misused:
            if misused.call == _Call.NOT_A_MESSAGE:
                return None
            raise
        if kind.value <= 1:
            return Declare(GlobalId(octets) if kind.value == 1 else None)
        fail = {2: None, 3: False, 4: True}[kind.value]
        return Discharge(TransactionId(octets) if octets else None, fail)


@dataclass(frozen=True)
class Declare(ControlMessage):
    """Begins a transaction (part 4, section 4.5.2). A session supports no global id."""

    global_id: Optional[GlobalId] = None

    def _parts(self) -> tuple[int, bytes]:
        return (0, b"") if self.global_id is None else (1, self.global_id.octets)


@dataclass(frozen=True)
class Discharge(ControlMessage):
    """Ends a transaction (part 4, section 4.5.3): with `fail` true it is rolled back; false and
    none commit. The id is none where the message has an empty one, which no transaction is
    given."""

    txn_id: Optional[TransactionId]
    fail: Optional[bool] = None

    def _parts(self) -> tuple[int, bytes]:
        kind = {None: 2, False: 3, True: 4}[self.fail]
        return kind, b"" if self.txn_id is None else self.txn_id.octets


# ---- sessions ------------------------------------------------------------------------------------


class Layer(Protocol):
    """A layer below a session, as queues are: it is asked before a step, and handed frames after
    it."""

    def review_commit(self, frames: tuple[Frame, ...]) -> Below:
        """What the layer will answer to a step that hands the frames of this commit."""

    def review(self, step: Step) -> Below:
        """What the layer will answer to a step that is no commit."""

    def take(self, frame: Frame) -> None:
        """Takes a frame that was handed. It may not fail: it was reviewed."""


class Session:
    """A session of AMQP 1.0 that serves transactions (part 4, section 4.4).

    It keeps no record of what it did: its memory is that of its live transactions and open links.
    """

    def __init__(self, *, ids: Optional[list[bytes]] = None) -> None:
        """A session whose declares draw random ids, of a seed from the system; or these, 1 to 64 of
        16 octets each, and then the last one again and again."""
        self._slot = _Slot()
        if ids is None:
            seed = os.urandom(32)
            _check(_library.daxurbi_open(self._slot, seed, len(seed)))
        else:
            octets = b"".join(ids)
            if any(len(txn_id) != 16 for txn_id in ids):
                raise ValueError("an id has 16 octets here")
            _check(_library.daxurbi_open_with_ids(self._slot, octets, len(octets)))

    def __enter__(self) -> Session:
        return self

    def __exit__(self, *_: object) -> None:
        self.close()

    def __del__(self) -> None:
        self.close()

    def __reduce__(self) -> str:
        raise TypeError("a session can't be copied")

    def close(self) -> None:
        """Gives back the session's memory; what is called afterwards raises ValueError."""
        _library.daxurbi_close(self._slot)

    def step(self, step: Step, below: Below = Takes()) -> Answer:
        """One step, where the layer below answers as it is said.

        Raises Stopped where this step stopped the session, which is final, and StoppedBefore
        where one had. MemoryError, NoLinkLeft and ValueError (a field has a value that no line has,
        or the session is closed) leave the session as it was.
        """
        line = step_line(step).encode("ascii")
        answer = _library.daxurbi_step(self._slot, line, len(line), _ANSWERS[below])
        if answer == _Call.STOPPED:
            raise self.stop()
        if answer == _Call.STOPPED_BEFORE:
            raise StoppedBefore
        if answer == _Call.NO_LINK_LEFT:
            raise NoLinkLeft
        _check(answer)
        return self.answer()

    def answer(self) -> Answer:
        """The answer to the last step, where it had one; for one whose answer couldn't be read for
        want of memory."""
        return _read_answer(self._report())

    def stop(self) -> Stopped:
        """Why the session stopped, where it did."""
        return _read_stop(self._report())

    def _report(self) -> str:
        return _text(_library.daxurbi_report, self._slot).decode("ascii")

    def pending(self, txn_id: TransactionId) -> Optional[tuple[Frame, ...]]:
        """The frames that a commit of this transaction would hand, in order; None where it isn't
        live."""
        octets = txn_id.octets
        try:
            text = _text(_library.daxurbi_pending, self._slot, octets, len(octets))
        except _Misused as misused:
            if misused.call == _Call.NOT_LIVE:
                return None
            raise
        return _read_frames(text.decode("ascii").splitlines(), "")

    def step_over(self, step: Step, layer: Layer) -> Answer:
        """One step over a layer: asks it, makes the step, and hands it the frames that the step
        handed, in order. Raises what `step` raises."""
        frames = self._frames_of_commit(step)
        below = layer.review(step) if frames is None else layer.review_commit(frames)
        answer = self.step(step, below)
        for frame in answer.handed:
            layer.take(frame)
        return answer

    def _frames_of_commit(self, step: Step) -> Optional[tuple[Frame, ...]]:
        """The frames that the step would hand as a commit; None where it isn't the commit of a live
        transaction."""
        if not isinstance(step, Control):
            return None
        message = ControlMessage.from_payload(step.payload)
        if not isinstance(message, Discharge) or message.fail or message.txn_id is None:
            return None
        return self.pending(message.txn_id)
