"""Questions about texts, which the C library answers if it is installed, and else the program: both answer the same."""

import os
import pathlib
import timeit

import ofswitch
import pytest
from ofswitch import Switch, library

FLOWS = """priority=10,ip,nw_dst=10.0.0.0/8 actions=output:2
priority=5,ip,nw_dst=10.1.0.0/16 actions=output:3
"""
OTHER = FLOWS.replace("output:2", "output:4")
WORDS = "ip,nw_dst=10.1.2.3"

NAMED = os.environ.get("OFSWITCH_LIBRARY")


@pytest.fixture(params=["program", "library"])
def way(request, monkeypatch):
    """Who answers."""
    if request.param == "library":
        if not NAMED:
            pytest.skip("OFSWITCH_LIBRARY names no library")
        # a library that is named goes before a program that is
        monkeypatch.setenv("OFSWITCH_LIBRARY", NAMED)
    else:
        monkeypatch.setenv("OFSWITCH_LIBRARY", "")
    assert (library.load() is not None) == (request.param == "library")
    return request.param


def test_check(way):
    found = ofswitch.check(FLOWS)
    assert [it["verdict"] for it in found["flows"]] == ["wins", "never wins"]
    assert ofswitch.check(FLOWS, steps=0)["flows"] != []


def test_diff(way):
    assert ofswitch.diff(FLOWS, FLOWS)["same"] is True
    assert ofswitch.diff(FLOWS, OTHER)["same"] is False
    assert ofswitch.diff(FLOWS, OTHER, frames=True)["same"] is False


def test_paths(way):
    assert ofswitch.paths(FLOWS)["undecided"] == []
    assert ofswitch.paths(FLOWS, port=1, match="ip,nw_dst=10.0.0.0/8", to=2, each=True)["paths"] != []
    assert ofswitch.paths(FLOWS, to="controller")["paths"] == []
    with pytest.raises(ValueError):
        ofswitch.paths(FLOWS, port=77)
    with pytest.raises(ValueError):
        ofswitch.paths(FLOWS, match="no=word")


def test_trace(way):
    found = ofswitch.trace(FLOWS, 1, WORDS)
    assert [it["port"] for it in found["effects"]] == [2]
    assert ofswitch.trace(FLOWS, 1, bytes.fromhex(found["frame"])) == found
    with pytest.raises(ValueError):
        ofswitch.trace(FLOWS, 77, WORDS)
    with pytest.raises(ValueError):
        ofswitch.trace(FLOWS, 1, "no=word")


def test_import(way):
    found = ofswitch.import_(FLOWS)
    assert found["imported"] and found["text"][0].startswith("flow 0 10 ")
    refused = ofswitch.import_(FLOWS + "no=word actions=output:1\n")
    assert not refused["imported"] and [it["line"] for it in refused["faults"]] == [3]


def test_a_fault(way):
    with pytest.raises(ValueError, match="line 1"):
        ofswitch.check("flow no=word\n")
    with pytest.raises(ValueError, match="line 1"):
        ofswitch.diff(FLOWS, "flow no=word\n")


def test_a_frame_in_words(way):
    with Switch() as switch:
        frame = switch.frame_of(WORDS)
        assert frame[12:14] == b"\x08\x00" and frame[30:34] == bytes([10, 1, 2, 3])
        with pytest.raises(ValueError):
            switch.frame_of("no=word")


def test_a_fault_without_the_program(way, monkeypatch, tmp_path):
    monkeypatch.delenv("OFSWITCH", raising=False)
    monkeypatch.setenv("PATH", str(tmp_path))
    if way == "library":
        with pytest.raises(ValueError, match="line 1"):
            ofswitch.check("flow no=word\n")


def test_a_program_that_is_named(monkeypatch):
    if not NAMED:
        pytest.skip("OFSWITCH_LIBRARY names no library")
    with pytest.raises(ofswitch.ProgramError):
        ofswitch.check(FLOWS, program="/nowhere/ofswitch")


def test_a_library_that_is_missing(monkeypatch):
    monkeypatch.setenv("OFSWITCH_LIBRARY", "/nowhere/libofswitch.so")
    with pytest.raises(OSError):
        ofswitch.check(FLOWS)


def test_how_long_words_take():
    if not NAMED:
        pytest.skip("OFSWITCH_LIBRARY names no library")
    found = library.load()
    best = min(timeit.repeat(lambda: found.frame_in_words(WORDS), number=1000, repeat=5)) / 1000
    assert best < 100e-6
