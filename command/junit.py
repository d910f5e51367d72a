"""What was told of explorations, as a JUnit XML file, which services of continuous integration show."""
from __future__ import annotations

import re
from collections.abc import Sequence
from pathlib import Path
from xml.etree import ElementTree

from .ending import NO_OUTPUT, Ended
from .exploring import CLEAN
from .told import Told, identity_of, title_of

NOT_IN_XML = re.compile("[^\t\n\r -\ud7ff\ue000-\ufffd\U00010000-\U0010ffff]")


def write_junit(file: str, suite: ElementTree.Element) -> None:
    try:
        Path(file).write_bytes(ElementTree.tostring(suite, encoding="utf-8", xml_declaration=True) + b"\n")
    except OSError as fault:
        raise Ended(NO_OUTPUT, f"{file} cannot be written: {fault.strerror}") from fault


def suite_of_errors(told: Told) -> ElementTree.Element:
    """A case for each error that follows from no other one; where there is none, one for the whole exploration."""
    failed = [_case(told, identity_of(it), _element("failure", it, message=title_of(it))) for it in told.errors]
    return _suite(f"{told.name} {told.entry}", failed or [_case(told, told.explored, _outcome(told))], told.seconds)


def suite_of_tests(tests: Sequence[Told]) -> ElementTree.Element:
    """A case for each test."""
    cases = []
    for told in tests:
        outcome = _element("failure", told.report, message=f"errors {told.count}") if told.errors else _outcome(told)
        cases.append(_case(told, told.entry, outcome))
        cases[-1].set("time", _time(told.seconds))
    return _suite(tests[0].name, cases, sum(told.seconds for told in tests))


def _suite(name: str, cases: Sequence[ElementTree.Element], seconds: float) -> ElementTree.Element:
    failures, errors = (sum(case.find(tag) is not None for case in cases) for tag in ("failure", "error"))
    suite = _element("testsuite", name=name, tests=len(cases), failures=failures, errors=errors, time=_time(seconds))
    suite.extend(cases)
    return suite


def _case(told: Told, name: str, outcome: ElementTree.Element) -> ElementTree.Element:
    case = _element("testcase", classname=Path(told.source).stem, name=name)
    case.append(outcome)
    return case


def _outcome(told: Told) -> ElementTree.Element:
    """That of an exploration without errors, with the last lines of its report."""
    return _element("system-out", told.result) if told.status == CLEAN else _element("error", told.result, message="incomplete")


def _time(seconds: float) -> str:
    return f"{seconds:.3f}"


def _element(tag: str, text: str = "", **attributes) -> ElementTree.Element:
    element = ElementTree.Element(tag, {name: _in_xml(str(value)) for name, value in attributes.items()})
    element.text = _in_xml(text) or None
    return element


def _in_xml(text: str) -> str:
    """A text without the characters that XML 1.0 does not take."""
    return NOT_IN_XML.sub("\ufffd", text)
