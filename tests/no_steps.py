"""Texts that are no steps of a plan, the first of their plan."""

# A number above its range, one too few, one too many, and what is no word.
NO_STEPS = """
take|take 256|peek 0|peek 4096 0|peek 0 4096|peek 0 0 0
realm 0|realm 4096 0|realm 0 4096|realm 0 0 256|realm 0 0 39 0|Realm 0 1|realm  0 1|realm 0 1 |realm 0 1 +39|realm 0 1 039
rtt 0 0|rtt 4096 0 2|rtt 0 4294967296 2|rtt 0 0 256|rtt 0 0 2 0|ripas 0|ripas 4294967296 1|ripas 0 65536|ripas 0 1 1
data 0 0|data 4096 0 0|data 0 4294967296 0|data 0 0 4096|data 0 0 0 0|unknown 0|unknown 4096 0|unknown 0 4294967296|unknown 0 0 0
rec|rec 4096|rec 0 4096|rec 0 1 2 3 4 5 6 7 8 9 10 11 12 13 14 15 16 17|activate 0|enter|enter 65536|enter 0 0|exit|exit 65536
poke 0 0 0|poke 65536 0 0 0|poke 0 4294967296 0 0|poke 0 0 4096 0|poke 0 0 0 256|poke 0 0 0 0 0|undo 0|abort 0|mark 0|back 0|aborts|exits 0
""".strip("\n").replace("\n", "|").split("|")
