"""The page that shows a run: its parts, joined into one file that needs nothing else."""
import json
import os
import re

import colours
from homatrace import KINDS, SETTINGS, USUAL

FOLDER = os.path.dirname(os.path.abspath(__file__))
# In the order in which they are needed.
SCRIPTS = "reader trace phases view lanes arrows chart table details controls start".split()


def part(name):
    with open(os.path.join(FOLDER, name), encoding="utf-8") as it:
        return it.read()


def tables(alone):
    """What the page shares with the tools: the kinds of packets, the settings, how things look; a call's ticks alone."""
    tables = {"packets": colours.PACKETS, "signs": colours.SIGNS, "phases": colours.PHASES}
    looks = {name: {key: look._asdict() for key, look in table.items()} for name, table in tables.items()}
    given = {
        "KINDS": KINDS,
        "SETTINGS": [[name, USUAL[name]] for name in SETTINGS],
        "LOOKS": looks,
        "GIVEN_ALONE": alone,
    }
    return "\n".join(f"const {name} = {json.dumps(value)};" for name, value in given.items())


def joined(alone=None):
    """The page as two texts, between which a trace stands; without one it asks for a file."""
    script = "\n".join(['"use strict";', tables(alone), *(part(f"{name}.js") for name in SCRIPTS)])
    parts = {"STYLE": part("style.css"), "SCRIPT": script}
    whole = re.sub(r"/\*(STYLE|SCRIPT)\*/", lambda match: parts[match[1]], part("page.html"))
    before, _, behind = whole.partition("/*TRACE*/")
    return before, behind
