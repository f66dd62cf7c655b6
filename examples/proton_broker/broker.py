#!/usr/bin/python3
"""A broker for AMQP 1.0 clients: qpid-proton speaks AMQP, Daxurbi serves the transactions, and
queues are Python lists.

It listens on 127.0.0.1 alone, and ends after some seconds.
"""

from __future__ import annotations

import argparse
import sys
from pathlib import Path

sys.path.insert(0, str(Path(__file__).resolve().parents[2] / "bindings" / "python"))

from proton import Condition, Event, Handler
from proton.reactor import Container

from daxurbi import ConnectionStop

from queues import Queue, Queues
from serving import Served


class Broker(Handler):
    """What the broker does at each event of qpid-proton."""

    def __init__(self, port: int, limit: int, seconds: float, shows_steps: bool) -> None:
        super().__init__()
        self._port = port
        self._seconds = seconds
        self._shows_steps = shows_steps
        self._queues = Queues(limit)
        self._shown: list[str] = []
        self._sessions: list[Served] = []

    # ---- the container -----------------------------------------------------------------------

    def on_reactor_init(self, event: Event) -> None:
        event.container.listen(f"127.0.0.1:{self._port}")
        event.container.schedule(self._seconds, self)
        tell(f"listening on 127.0.0.1:{self._port}")

    def on_timer_task(self, event: Event) -> None:
        event.container.stop()

    # ---- connections and sessions ------------------------------------------------------------

    def on_connection_remote_open(self, event: Event) -> None:
        event.connection.open()
        event.connection.sessions = []

    def on_connection_remote_close(self, event: Event) -> None:
        self._lose(event)
        event.connection.close()

    def on_transport_closed(self, event: Event) -> None:
        self._lose(event)

    def _lose(self, event: Event) -> None:
        """The connection was closed, or is lost."""
        sessions = getattr(event.connection, "sessions", [])
        for served in sessions:
            served.end(ConnectionStop())
            self._sessions.remove(served)
        sessions.clear()
        self._turn()

    def on_session_remote_open(self, event: Event) -> None:
        served = Served(self._queues, tell, self._log)
        event.session.served = served
        event.connection.sessions.append(served)
        self._sessions.append(served)
        event.session.open()

    def on_session_remote_close(self, event: Event) -> None:
        self._forget(event, event.session.served)
        event.session.close()
        self._turn()

    def _forget(self, event: Event, served: Served) -> None:
        if served in self._sessions:
            served.end()
            self._sessions.remove(served)
            event.connection.sessions.remove(served)

    # ---- links and messages ------------------------------------------------------------------

    def on_link_remote_open(self, event: Event) -> None:
        event.session.served.open_link(event.link)
        self._turn(event)

    def on_link_remote_close(self, event: Event) -> None:
        event.session.served.end_link(event.link, closed=True)
        self._turn(event)

    def on_link_remote_detach(self, event: Event) -> None:
        event.session.served.end_link(event.link, closed=False)
        self._turn(event)

    def on_link_flow(self, event: Event) -> None:
        self._turn()

    def on_delivery(self, event: Event) -> None:
        delivery = event.delivery
        if event.link.is_sender:
            if delivery.updated:
                event.session.served.update(delivery)
        elif delivery.readable and not delivery.partial:
            event.session.served.receive(delivery)
        self._turn(event)

    # ---- after each event --------------------------------------------------------------------

    def _turn(self, event: Event | None = None) -> None:
        """Ends a session that stopped, and sends what the queues have to who waits for it."""
        if event is not None and event.session.served.condition is not None:
            self._end_stopped(event)
        for served in self._sessions:
            served.send()
        self._show()

    def _end_stopped(self, event: Event) -> None:
        """The session stopped, as by a frame under an id that isn't live."""
        served = event.session.served
        if served in self._sessions:
            event.session.condition = Condition(served.condition)
            event.session.close()
            self._forget(event, served)

    def _show(self) -> None:
        """Writes the queues where they changed."""
        lines = [f"queue {queue.name}: {contents(queue)}" for queue in self._queues]
        for line in lines:
            if line not in self._shown:
                tell(line)
        self._shown = lines

    def _log(self, line: str) -> None:
        if self._shows_steps:
            tell(line)


def tell(line: str) -> None:
    print(line, flush=True)


def contents(queue: Queue) -> str:
    count = len(queue.messages)
    return f"{count} message{'' if count == 1 else 's'}"


def main() -> None:
    arguments = argparse.ArgumentParser(description=__doc__)
    arguments.add_argument("--port", type=int, default=5672)
    arguments.add_argument("--limit", type=int, default=1000, help="a queue's greatest length")
    arguments.add_argument("--seconds", type=float, default=60, help="how long it runs at most")
    arguments.add_argument("--steps", action="store_true", help="write each step and its answer")
    words = arguments.parse_args()
    Container(Broker(words.port, words.limit, words.seconds, words.steps)).run()


if __name__ == "__main__":
    main()
