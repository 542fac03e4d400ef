"""An engine, tested by random scenarios: `pytest examples/python`. FAULT=rising in the environment plants a fault in it
(docs/ENGINES.md has their names)."""

import os

from hypothesis import HealthCheck, given, seed, settings

from jsoncrdt import Stuck, documents
from jsoncrdt.oracle.editors import of_scenario
from jsoncrdt.oracle.engine import FAULTS
from jsoncrdt.strategies import scenarios, stuck, woven

FAULT = os.environ.get("FAULT") or None
assert FAULT in (None, *FAULTS), f"there is no fault {FAULT}"


def by_engine(scenario):
    """The documents at the end, as the engine has them, and whether it refused an event."""
    lines, is_stuck = of_scenario(scenario.parsed, FAULT)
    return documents(lines), is_stuck


def by_rules(scenario):
    try:
        return scenario.view(), False
    except Stuck as event:
        return event.before, True


@seed(1)
@settings(max_examples=1000, deadline=None, database=None, suppress_health_check=[HealthCheck.too_slow])
@given(scenarios() | woven() | stuck())
def test_documents(scenario):
    assert by_engine(scenario) == by_rules(scenario)
