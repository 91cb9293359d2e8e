"""An application of os-ken as an object: its handlers are called at once, in the thread of the caller, without sockets or time.

The handshake, the states of a connection and the ports of a datapath are those of os-ken's own handler.
"""

from __future__ import annotations

from collections import deque
from collections.abc import Callable
from typing import Any

# before the modules that it imports, which import it
from os_ken.base import app_manager  # noqa: F401
from os_ken.controller import controller, handler, ofp_event, ofp_handler
from os_ken.ofproto import ofproto_parser, ofproto_protocol, ofproto_v1_3


class OsKenApplication:
    """What os-ken does around one application."""

    def __init__(self, application: Any) -> None:
        ofproto_protocol.set_app_supported_versions([ofproto_v1_3.OFP_VERSION])
        self.application = application
        self._brick = _Brick()
        self._paths: dict[int, _Datapath] = {}
        for it in (application, self._brick):
            handler.register_instance(it)

    def connected(self, dpid: int, send: Callable[[bytes], None]) -> None:
        path = self._paths[dpid] = _Datapath(self._brick, send)
        path.send_msg(path.ofproto_parser.OFPHello(path))
        self._pass_on()

    def message(self, dpid: int, data: bytes) -> None:
        path = self._paths[dpid]
        message = ofproto_parser.msg(path, *ofproto_parser.header(data), data)
        event = ofp_event.ofp_msg_to_ev(message)
        self._brick.send_event_to_observers(event, path.state)
        for it in self._brick.get_handlers(event, path.state):
            it(event)
        self._pass_on()

    def lost(self, dpid: int) -> None:
        path = self._paths.pop(dpid)
        path.close()
        path.is_active = False
        self._pass_on()

    def _pass_on(self) -> None:
        """The application handles its events, after os-ken's handler has done its part."""
        while self._brick.waiting:
            event, state = self._brick.waiting.popleft()
            for it in self.application.get_handlers(event, state):
                it(event)


class _Brick(ofp_handler.OFPHandler):  # type: ignore[misc]
    """The handler of os-ken, whose events wait in a queue."""

    def __init__(self) -> None:
        super().__init__()
        self.waiting: deque[tuple[Any, str]] = deque()

    def send_event_to_observers(self, ev: Any, state: Any = None) -> None:
        self.waiting.append((ev, state))


class _Datapath(controller.Datapath):  # type: ignore[misc]
    """A datapath of os-ken that sends to a function, with xids from 1."""

    def __init__(self, brick: _Brick, send: Callable[[bytes], None]) -> None:
        super().__init__(_NoSocket(), ("test", 0))
        self.xid = 0
        self.ofp_brick = brick
        self._sends = send

    def send(self, buf: bytes, close_socket: bool = False) -> bool:
        if self.is_active:
            self._sends(bytes(buf))
        return True


class _NoSocket:
    def setsockopt(self, *words: object) -> None:
        pass

    def settimeout(self, seconds: object) -> None:
        pass

    def shutdown(self, how: object) -> None:
        pass
