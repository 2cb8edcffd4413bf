"""Compares the greatest latency that the program proves with that of all schedules, of small scenarios by chance."""

import functools
import itertools
import random
import sys

import schedules
from schedules import chance_home, chance_placed, chance_scenario, chance_target, delays_of_certificate, latency, ranks_of_certificate, small_scenarios
from support import count, need, run, tell, want


greatest = functools.lru_cache(None)(schedules.greatest)


def compare(scenario, options, told):
    """Compares one answer, and counts whether it is exact, and in one node, or open."""
    text = scenario.text()
    worst = greatest(scenario)
    done = run(["analyse", *options], text)
    lines = done.out.splitlines()
    need(done.status in (0, 3), f"status {done.status}, {done.out}\n{text}")
    if done.status == 3:
        _, least, most = lines[0].split()
        told["open"] += 1
        need(int(least) <= worst <= int(most), f"{lines[0]}, and the greatest is {worst}\n{text}")
        return
    found = [int(line.split()[1]) for line in lines if line.startswith("latency ")]
    checked = run(["check"], done.out)
    want((found, checked.status, checked.out), ([worst], 0, f"accepted {worst}\n"))
    want(latency(scenario, list(scenario.packets()), delays_of_certificate(done.out), ranks_of_certificate(done.out)), worst)
    start = max(number for number, line in enumerate(lines) if line.split(" ")[0] in ("schedule", "order"))
    told["exact"] += 1
    told["in one node"] += len(lines) - start == 3


def none_is_open(told):
    """No answer is open."""
    want(told["open"], 0)


def in_turn(further, scenarios, every):
    """The further checks of scenarios: each is made of one scenario in so many, the next check of the scenarios after these."""
    for turn, check in enumerate(further):
        yield from ((check, place, scenario) for place, scenario in enumerate(scenarios) if place % every == turn % every)


# The kinds of scenarios that have a word, and how they are made.
KINDS = {"windows": chance_target, "home": chance_home, "places": chance_placed}


def kind_of(words):
    """How scenarios are made, by the first word if it is one of a kind, and the other words."""
    named = words[:1] if words and words[0] in KINDS else []
    return KINDS[named[0]] if named else chance_scenario, words[len(named) :]


def main(documentation, real, most, further=(), every=1, made=chance_scenario, words=None):
    """Makes the scenarios of a part, in one way, and compares the answers for them, and makes the further checks of one
    in so many, which are called with the chance and the scenario. Only with a limit of tickets may an answer be open. The words are those of the command line where no others are told."""
    words = sys.argv[1:] if words is None else words
    if words[:1] in (["--help"], ["-h"]):
        sys.exit(documentation)
    number = int(words[0]) if words else 100
    chance = random.Random(int(words[1]) if len(words) > 1 else 1)
    told = {"exact": 0, "in one node": 0, "open": 0}
    scenarios = list(itertools.islice(small_scenarios(chance, most, real, made), number))
    checks = [(f"scenario {place}", lambda s=scenario: compare(s, words[2:], told)) for place, scenario in enumerate(scenarios)]
    checks += [] if "--limit" in words else [("none is open", lambda: none_is_open(told))]
    checks += [(f"{check.__name__} {place}", lambda c=check, s=scenario: c(chance, s)) for check, place, scenario in in_turn(further, scenarios, every)]
    counts = count(checks)
    print(f"{told['exact']} exact, {told['in one node']} of them in one node, {told['open']} open")
    sys.exit(tell(*counts))
