"""The command's verbs, a file each. A new one is a file in this folder and its line here."""

VERBS = (
    "build",
    "decide",
    "explain",
    "requests",
    "verdicts",
    "state",
    "hash",
)
