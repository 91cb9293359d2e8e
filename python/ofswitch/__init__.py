"""An OpenFlow 1.3 switch inside a test: `Switch`, over the program `ofswitch replay -`.

    from ofswitch import Sent, Switch

    with Switch() as switch:
        switch.port_add(1)
        switch.port_add(2)
        switch.connect()                  # [Answer(HELLO xid 0, ..)]
        switch.feed(message)              # the answers, and the frames that leave
        switch.frame(1, frame)            # [Sent(2, eth 02:.. > ..)], or [Answer(PACKET_IN xid 0, ..)]

`Bridge` connects a real controller in its own process. `Network` has several switches with links between them. `check` finds flows
that never win, `diff` the frames that two switches treat differently, and `paths` the steps that the frames take that a switch
receives. `require` proves requirements of a switch, or finds a frame that shows that one fails. `history` finds where in a log the fate
of a frame changes, and `shrink` the fewest rows that show a fault. `trace` finds what becomes of a frame, and `import_` converts a table of
Open vSwitch. The C library answers these questions without a process, if it is installed (docs/EMBED.md). The manuals are docs/TESTING.md and docs/LAB.md of the repository.
"""

from .bridge import Bridge
from .checking import check
from .difference import diff
from .dividing import paths
from .effects import Answer, Closed, Effect, Refused, Sent
from .flattening import NetworkPath, NetworkPaths, NotFlat
from .histories import history
from .hops import Arrived, Crossing, Hop, NetworkTrace
from .importing import import_
from .message_types import MessageType
from .network import Looped, Network
from .pcap import CaptureError
from .program import ProgramError
from .requiring import require
from .shrinking import NotShown, Shrunk, shrink
from .switch import Switch
from .tracing import trace

# also in pyproject.toml
__version__ = "0.1.0"

__all__ = [
    "Answer",
    "Arrived",
    "Bridge",
    "CaptureError",
    "Closed",
    "Crossing",
    "Effect",
    "Hop",
    "Looped",
    "MessageType",
    "Network",
    "NetworkPath",
    "NetworkPaths",
    "NetworkTrace",
    "NotFlat",
    "NotShown",
    "ProgramError",
    "Refused",
    "Sent",
    "Shrunk",
    "Switch",
    "check",
    "diff",
    "history",
    "import_",
    "paths",
    "require",
    "shrink",
    "trace",
]
