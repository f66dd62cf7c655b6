#!/usr/bin/python3
"""Runs an AMQP 1.0 client, qpid-proton's as it is, against the broker, and checks what it finds in
the queues afterwards.

    real_client.py [--trace FILE] [--steps] [NAME ..]

With names only those runs are made. --trace writes the frames on the wire of the run `commit`, as
the client sees them, to a file; --steps shows what the broker's sessions are asked and answer.
"""

from __future__ import annotations

import argparse
import os
import socket
import subprocess
import sys
from pathlib import Path
from typing import Optional

from proton import Delivery, Event, Message, Timeout
from proton.handlers import MessagingHandler, TransactionHandler
from proton.reactor import Container, Transaction
from proton.utils import BlockingConnection

HERE = Path(__file__).resolve().parent
PYTHON = "/usr/bin/python3"
# How long a run may take, and how long a queue is listened to, in seconds.
RUN_SECONDS = 20
QUIET_SECONDS = 0.5


class Client(MessagingHandler, TransactionHandler):
    """A client with a sender and some transactions: each is declared, is given its messages, and is
    discharged. What it hears is written."""

    def __init__(self, url: str, queue: str) -> None:
        super().__init__(auto_accept=False, prefetch=0)
        self.url = url
        self.queue = queue
        self.declared: list[Transaction] = []
        self.outcomes = 0
        self.discharged = 0

    def on_start(self, event: Event) -> None:
        self.container = event.container
        self.container.schedule(RUN_SECONDS, self)
        self.connection = self.container.connect(self.url, reconnect=False)
        self.sender = self.container.create_sender(self.connection, self.queue)
        self.open()

    def on_timer_task(self, event: Event) -> None:
        tell("out of time")
        os._exit(1)

    def on_connection_closed(self, event: Event) -> None:
        self.container.stop()

    def open(self) -> None:
        self.declare()

    def declare(self, settle_before_discharge: bool = False) -> None:
        self.container.declare_transaction(
            self.connection, handler=self, settle_before_discharge=settle_before_discharge
        )

    def post(self, transaction: Transaction, text: str) -> None:
        tell(f"posts {text!r} under {name_of(self, transaction)}")
        transaction.send(self.sender, Message(body=text))

    # ---- what it hears -----------------------------------------------------------------------

    def on_transaction_declared(self, event: Event) -> None:
        self.declared.append(event.transaction)
        tell(f"declared {name_of(self, event.transaction)}")
        self.on_declared(event.transaction)

    def on_declared(self, transaction: Transaction) -> None:
        """A transaction was declared."""

    def on_delivery(self, event: Event) -> None:
        delivery = event.delivery
        if event.link.is_sender and delivery.remote_state == 0x34 and delivery.settled:
            self.outcomes += 1
            self.on_presumed(self.outcomes)

    def on_presumed(self, count: int) -> None:
        """So many posts were told their outcome if the transaction commits."""

    def on_transaction_committed(self, event: Event) -> None:
        self.heard(event, "committed")

    def on_transaction_aborted(self, event: Event) -> None:
        self.heard(event, "rolled back")

    def on_transaction_commit_failed(self, event: Event) -> None:
        condition = event.delivery.remote.condition
        self.heard(event, f"commit rejected with {condition.name}")

    def heard(self, event: Event, text: str) -> None:
        tell(f"{name_of(self, event.transaction)} {text}")
        self.discharged += 1
        self.on_discharged(self.discharged)

    def on_discharged(self, count: int) -> None:
        self.connection.close()


def name_of(client: Client, transaction: Transaction) -> str:
    """A name that is the same in each run: the ids are random."""
    if transaction not in client.declared:
        return "no transaction"
    return f"transaction {client.declared.index(transaction) + 1}"


def tell(text: str) -> None:
    print(f"  client: {text}", flush=True)


# ---- the runs ------------------------------------------------------------------------------------


class Commit(Client):
    """Three messages, committed."""

    def on_declared(self, transaction: Transaction) -> None:
        for text in ("one", "two", "three"):
            self.post(transaction, text)

    def on_presumed(self, count: int) -> None:
        if count == 3:
            tell("three posts have the presumptive outcome 'accepted'; commits")
            self.declared[0].commit()


class RollBack(Client):
    """Three messages, rolled back."""

    on_declared = Commit.on_declared

    def on_presumed(self, count: int) -> None:
        if count == 3:
            tell("rolls back")
            self.declared[0].abort()


class Killed(Client):
    """Three messages; the process is killed before it discharges."""

    on_declared = Commit.on_declared

    def on_presumed(self, count: int) -> None:
        if count == 3:
            tell("is killed")
            os.kill(os.getpid(), 9)


class Two(Client):
    """Two transactions at the same time on one connection: their posts take turns, and the second
    commits first."""

    def open(self) -> None:
        self.declare()
        self.declare()

    def on_declared(self, transaction: Transaction) -> None:
        if len(self.declared) == 2:
            first, second = self.declared
            for text in ("a", "b"):
                self.post(first, f"first {text}")
                self.post(second, f"second {text}")

    def on_presumed(self, count: int) -> None:
        if count == 4:
            tell("commits transaction 2, then transaction 1")
            self.declared[1].commit()
            self.declared[0].commit()

    def on_discharged(self, count: int) -> None:
        if count == 2:
            self.connection.close()


class Full(Commit):
    """Three messages for a queue that has room for two: the commit is rejected."""


class Late(Commit):
    """Three messages, committed, and then one more under the same id: the session ends."""

    def on_discharged(self, count: int) -> None:
        self.post(self.declared[0], "late")

    def on_session_error(self, event: Event) -> None:
        tell(f"the session ended with {event.session.remote_condition.name}")
        self.connection.close()


class Retire(Client):
    """A message is received, accepted under a transaction that is rolled back, comes again, and is
    then accepted under one that commits."""

    settle_before_discharge = False

    def open(self) -> None:
        self.receiver = self.container.create_receiver(self.connection, self.queue)
        self.delivery: Optional[Delivery] = None
        self.used = 0
        self.declare(self.settle_before_discharge)

    def on_sendable(self, event: Event) -> None:
        if event.link == self.sender and not hasattr(self, "sent"):
            self.sent = self.sender.send(Message(body="work"))

    def on_accepted(self, event: Event) -> None:
        if event.link == self.sender:
            self.receiver.flow(2)

    def on_delivery(self, event: Event) -> None:
        """Client's own takes the posts."""

    def on_message(self, event: Event) -> None:
        tell(f"receives {event.message.body!r}")
        self.delivery = event.delivery
        self.retire()

    def on_declared(self, transaction: Transaction) -> None:
        self.retire()

    def retire(self) -> None:
        """Accepts the message under the last transaction, once there are both."""
        if self.delivery is None or self.used == len(self.declared):
            return
        transaction, delivery = self.declared[self.used], self.delivery
        self.delivery = None
        self.used += 1
        tell(f"accepts it under {name_of(self, transaction)}")
        transaction.accept(delivery)
        if self.used == 1:
            tell("rolls back")
            transaction.abort()
        else:
            tell("commits")
            transaction.commit()

    def on_discharged(self, count: int) -> None:
        if count == 1:
            self.declare(self.settle_before_discharge)
        else:
            self.connection.close()


class RetireSettled(Retire):
    """The same by a client that settles what it accepts before it discharges."""

    settle_before_discharge = True


RUNS: dict[str, tuple[type[Client], list[str]]] = {
    "commit": (Commit, ["one", "two", "three"]),
    "rollback": (RollBack, []),
    "killed": (Killed, []),
    "two": (Two, ["second a", "second b", "first a", "first b"]),
    "full": (Full, []),
    "late": (Late, ["one", "two", "three"]),
    "retire": (Retire, []),
    "retire-settled": (RetireSettled, []),
}


# ---- making them ---------------------------------------------------------------------------------


def left_in(url: str, queue: str) -> list[str]:
    """What another client receives from the queue until nothing comes any more."""
    connection = BlockingConnection(url, timeout=RUN_SECONDS)
    receiver = connection.create_receiver(queue, credit=100)
    bodies = []
    try:
        while len(bodies) < 100:
            bodies.append(receiver.receive(timeout=QUIET_SECONDS).body)
            receiver.accept()
    except Timeout:
        pass
    connection.close()
    return bodies


def free_port() -> int:
    with socket.socket() as listener:
        listener.bind(("127.0.0.1", 0))
        return listener.getsockname()[1]


def run(name: str, trace: Optional[str], shows_steps: bool) -> bool:
    """Makes a run against a broker of its own; whether the queue holds what it should."""
    client, wanted = RUNS[name]
    print(f"{name}: {' '.join((client.__doc__ or '').split())}", flush=True)
    port = free_port()
    url = f"127.0.0.1:{port}"
    limit = "2" if client is Full else "100"
    words = ["--port", str(port), "--limit", limit, "--seconds", str(3 * RUN_SECONDS)]
    words += ["--steps"] * shows_steps
    broker = subprocess.Popen(
        [PYTHON, HERE / "broker.py", *words], stdout=subprocess.PIPE, text=True
    )
    try:
        assert broker.stdout is not None
        print(f"  broker: {broker.stdout.readline().strip().split(':')[0]}", flush=True)
        status = run_client(name, url, trace)
        found = left_in(url, "q")
    finally:
        broker.terminate()
        told, _ = broker.communicate(timeout=RUN_SECONDS)
    for line in told.splitlines():
        print(f"  broker: {line}")
    is_right = found == wanted and status == (-9 if client is Killed else 0)
    print(f"  then the queue has {found}: {'right' if is_right else f'WRONG, not {wanted}'}")
    return is_right


def run_client(name: str, url: str, trace: Optional[str]) -> int:
    """Runs the client in a process of its own; its status."""
    environment = dict(os.environ)
    if trace is not None and name == "commit":
        environment["PN_TRACE_FRM"] = "1"
    client = subprocess.run(
        [PYTHON, __file__, "--client", url, name],
        env=environment,
        stderr=subprocess.PIPE if trace else None,
        text=True,
        timeout=2 * RUN_SECONDS,
    )
    if trace is not None and name == "commit":
        Path(trace).write_text(client.stderr)
    return client.returncode


def main() -> int:
    arguments = argparse.ArgumentParser(description=__doc__)
    arguments.add_argument("--trace", metavar="FILE")
    arguments.add_argument("--steps", action="store_true")
    arguments.add_argument("--client", metavar="URL", help=argparse.SUPPRESS)
    arguments.add_argument("names", nargs="*", choices=[[], *RUNS], metavar="NAME")
    words = arguments.parse_args()
    if words.client is not None:
        Container(RUNS[words.names[0]][0](words.client, "q")).run()
        return 0
    right = [run(name, words.trace, words.steps) for name in words.names or RUNS]
    print(f"{len(right)} runs, {right.count(False)} of them wrong")
    return 0 if all(right) else 1


if __name__ == "__main__":
    sys.exit(main())
