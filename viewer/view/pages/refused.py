"""The page that is shown once hprof ended: its own line, the cause, and what helps."""

from ..markup import element
from ..printed import readable
from ..tables import facts


def show(frame, refusal):
    line = element("pre", readable(refusal.line))
    told = facts([("Cause", refusal.cause), ("What to do", element("code", refusal.help))])
    reply = frame.page("hprof refused", element("div", line, told, class_="refusal"))
    reply.tells_refusal = True
    return reply
