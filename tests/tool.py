#!/usr/bin/env python3
"""Tries the planner's tool: its messages, texts and forms, runs, pictures and pages. Says what was tried and ends 1 where something is not as it should be.
usage: tool.py [GROUP..]     the groups are those of GROUPS and SHORTER; without, all of GROUPS
TOOLS names another folder of tools, as one with a broken copy."""
import sys

import toolforms
import toolmessages
import toolpage
import toolpictures
import toolruns
from tooltrying import Unlike

GROUPS = {"messages": toolmessages.messages, "commands": toolmessages.commands, "ends": toolmessages.odd_ends,
          "examples": toolforms.examples, "forms": toolforms.forms, "refusals": toolforms.refusals,
          "runs": toolruns.runs, "tables": toolruns.tables, "contents": toolruns.contents, "waves": toolruns.waves, "long": toolruns.long, "pictures": toolpictures.pictures,
          "page": toolpage.page}

SHORTER = {"one-page": toolpage.one_page}


def main():
    failed = 0
    for name in sys.argv[1:] or GROUPS:
        try:
            print(f"{name}: {(GROUPS | SHORTER)[name]()}", flush=True)
        except Unlike as fault:
            failed = 1
            print(f"{name}: NOT AS IT SHOULD BE: {fault}", flush=True)
    sys.exit(failed)


main()
