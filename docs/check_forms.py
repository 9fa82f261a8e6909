#!/usr/bin/env python3
"""Compares the words that FORMS.md lists with those that `cdi explain` explains.

  docs/check_forms.py --cmd PROGRAM     asks PROGRAM, a built `cdi`, for each word of FORMS.md, and reads the words that are
                                        explained in crates/cdi_findings/src/table.rt
  docs/check_forms.py                   reads both as text alone, and runs nothing

The words are the faults of deployments and scripts, the warnings, the problems with their numbers, the refusals, the causes of a cut, the
built-in exceptions, and the words with which replies and entries begin. Each word that isn't explained, and each that is explained
and that FORMS.md lacks, has a line. The last line is 'N words, M missing'; the status is 0 if M is 0, and else 1.
"""
import argparse
import os
import re
import subprocess
import sys

TOP = os.path.dirname(os.path.dirname(os.path.realpath(__file__)))
FORMS = f"{TOP}/docs/FORMS.md"
TABLE = f"{TOP}/crates/cdi_findings/src/table.rt"
# The head of each table whose cells have such words, and the column of these.
TABLES = {"| Fault | Holds if |": 0, "| Problem | Holds if | Place |": 0, "| Order | Refusal | Holds if |": 1}
# The heads of the tables of lines, whose first cells have lists that begin with such words.
LINES = ["| Reply | Meaning |", "| Entry | Meaning |"]
# What stands around the words that are in no such table.
PASSAGES = [
    r"The faults, of which the first that holds is reported:(.*?)\n\n",
    r"\(`P17 Ambiguous`,(.*?), or the line of the fault\)",
    r"the cause is (.*?)\|",
    r"\| unchecked exceptions \|(.*?)\|",
]


def read(file):
    with open(file, encoding="utf-8") as it:
        return it.read()


def quoted(text):
    return re.findall(r"`([^`]*)`", text)


def cells(text, head, column):
    """Returns the texts in a column of the table with this head."""
    lines = text[text.index(head):].split("\n\n")[0].splitlines()[2:]
    return [re.split(r"(?<!\\)\|", line)[column + 1] for line in lines]


def words_of_forms(text):
    found = []
    for head, column in TABLES.items():
        for name in [name for cell in cells(text, head, column) for name in quoted(cell)]:
            found += [word for word in name.split() if word != "PATH"]
    for head in LINES:
        found += [word for cell in cells(text, head, 0) for word in re.findall(r'`\["(\w+)"', cell)]
    for passage in PASSAGES:
        found += [word for word in quoted(re.search(passage, text, re.S)[1]) if word != "cdi"]
    return list(dict.fromkeys(found))


def words_explained(text):
    entries = re.findall(r'explanation!\(\s*\w+,\s*"([^"]*)",\s*"([^"]*)"', text)
    return list(dict.fromkeys(word for entry in entries for word in entry if word))


def is_explained(program, word):
    return subprocess.run([program, "explain", word], stdin=subprocess.DEVNULL, capture_output=True).returncode == 0


def main():
    parser = argparse.ArgumentParser(description="Compares the words of FORMS.md with those that cdi explains.")
    parser.add_argument("--cmd", metavar="PROGRAM", help="a built cdi, which is asked for each word")
    program = parser.parse_args().cmd
    listed, explained = words_of_forms(read(FORMS)), words_explained(read(TABLE))
    missing = [f"{word}: in FORMS.md, and not in table.rt" for word in listed if word not in explained]
    missing += [f"{word}: in table.rt, and not in FORMS.md" for word in explained if word not in listed]
    if program:
        missing += [f"{word}: {program} doesn't explain it" for word in listed if not is_explained(program, word)]
    print(*missing, f"{len(listed)} words, {len(missing)} missing", sep="\n")
    return 1 if missing else 0


if __name__ == "__main__":
    sys.exit(main())
