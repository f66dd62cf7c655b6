"""A transaction with one message for a queue of at most 100 messages."""

from daxurbi import AttachCoordinator, Control, ControlMessage, Declare, Session, Takes
from daxurbi import TransactionalState, Transfer, Vetoes

queue = []

session = Session()
link = session.step(AttachCoordinator("c", handle=0)).reply.link
txn_id = session.step(Control(link, Declare().to_payload())).reply.txn_id
session.step(Transfer(1, 7, state=TransactionalState(txn_id), payload=b"hi"))
commit = Control(link, ControlMessage.commit(txn_id).to_payload())
work = session.pending(txn_id)
below = Takes() if len(queue) + len(work) <= 100 else Vetoes()
answer = session.step(commit, below)
queue += answer.handed
print(answer.reply, *answer.handed)
