"""The types of messages, and their names."""

from __future__ import annotations

import enum


class MessageType(enum.IntEnum):
    """The types of messages (OpenFlow 1.3.5, 7.1, ofp_type)."""

    HELLO = 0
    ERROR = 1
    ECHO_REQUEST = 2
    ECHO_REPLY = 3
    EXPERIMENTER = 4
    FEATURES_REQUEST = 5
    FEATURES_REPLY = 6
    GET_CONFIG_REQUEST = 7
    GET_CONFIG_REPLY = 8
    SET_CONFIG = 9
    PACKET_IN = 10
    FLOW_REMOVED = 11
    PORT_STATUS = 12
    PACKET_OUT = 13
    FLOW_MOD = 14
    GROUP_MOD = 15
    PORT_MOD = 16
    TABLE_MOD = 17
    MULTIPART_REQUEST = 18
    MULTIPART_REPLY = 19
    BARRIER_REQUEST = 20
    BARRIER_REPLY = 21
    QUEUE_GET_CONFIG_REQUEST = 22
    QUEUE_GET_CONFIG_REPLY = 23
    ROLE_REQUEST = 24
    ROLE_REPLY = 25
    GET_ASYNC_REQUEST = 26
    GET_ASYNC_REPLY = 27
    SET_ASYNC = 28
    METER_MOD = 29


MULTIPART_NAMES = (
    "DESC FLOW AGGREGATE TABLE PORT_STATS QUEUE GROUP GROUP_DESC GROUP_FEATURES METER METER_CONFIG METER_FEATURES TABLE_FEATURES PORT_DESC"
).split(" ")


def message_name(message: bytes) -> str:
    """The name of a message's type, with that of a multipart message's own type, such as `MULTIPART_REPLY FLOW`."""
    try:
        name = MessageType(message[1]).name
    except ValueError:
        return f"a message of type {message[1]}"
    if name.startswith("MULTIPART") and len(message) >= 10:
        number = int.from_bytes(message[8:10], "big")
        name += f" {MULTIPART_NAMES[number] if number < len(MULTIPART_NAMES) else number}"
    return name
