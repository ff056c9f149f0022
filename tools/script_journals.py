#!/usr/bin/env python3
"""The journals that the columns of a bank keep in the run of a script, after Point 11 of document 02, written beside the steps of the model:

    tools/script_journals.py examples/strip-halted.script target/pulled

The journal of each column I goes to FOLDER/I."""
import os
import sys

import model
from repository import parser

KINDS = {"message": 1, "acknowledgement": 2}


class Bank(model.Bank):
    """A bank whose columns keep journals."""

    def __init__(self, *given):
        super().__init__(*given)
        self.journals = [[] for _ in self.columns]

    def put(self, packet):
        under_way = len(self.network)
        super().put(packet)
        kind, sender, to, number, _ = packet
        if len(self.network) > under_way:
            self.journals[sender].append(f"sent={KINDS[kind]},{to},{number}")

    def take(self, place):
        packet = self.network[place] if place < len(self.network) else None
        written = len(self.journals[packet[2]]) if packet else 0
        super().take(place)
        kind, sender, to, number, _ = packet
        if not any(kept is packet for kept in self.network):
            self.journals[to].insert(written, f"got={KINDS[kind]},{sender},{number}")

    def journal(self, i):
        return "".join(f"{line}\n" for line in [f"column={i}"] + self.journals[i]).encode()


def fresh(table):
    """The fresh bank of a table."""
    return model.table(table, lambda words: None, Bank)[0]


def run(script):
    """The bank after a script, or None where its table is refused."""
    bank = None
    for _, bank in model.run(script, lambda words: None, Bank):
        pass
    return bank


def main():
    words = parser(__doc__)
    words.add_argument("script", metavar="SCRIPT", help="the file of a script whose table is accepted")
    words.add_argument("folder", metavar="FOLDER", help="the folder of the journals, made where there is none")
    asked = words.parse_args()
    try:
        with open(asked.script, "rb") as file:
            bank = run(file.read())
    except OSError as error:
        sys.exit(f"cannot read {asked.script}: {error.strerror}")
    if bank is None:
        sys.exit("the table is refused: there are no journals")
    os.makedirs(asked.folder, exist_ok=True)
    for i in range(len(bank.columns)):
        with open(os.path.join(asked.folder, str(i)), "wb") as file:
            file.write(bank.journal(i))


if __name__ == "__main__":
    main()
