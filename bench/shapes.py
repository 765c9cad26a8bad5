"""The plans that are measured."""

MOST_STEPS, MOST_TURNS, MOST_BYTES = 1024, 16384, 1 << 20


def plan(pages, builds, turns=None, history=16384):
    """A plan in which the builds take turns, and the turns that are over find no step."""
    turns = len(builds) * max(map(len, builds), default=0) if turns is None else turns
    order = ", ".join(str(i % len(builds)) for i in range(turns))
    head = f"pages = {pages}\nhistory = {history}\norder = [{order}]\n"
    tables = ("[[build]]\nsteps = [" + ", ".join(f'"{step}"' for step in steps) + "]\n" for steps in builds)
    return head + "".join(tables)


def mixed_orders(build):
    """Takes and undos of mixed orders, with up to four blocks open."""
    steps, open_blocks, seed = [], 0, build + 1
    while len(steps) < MOST_STEPS:
        seed = (seed * 1664525 + 1013904223) % 2**32
        if open_blocks and (open_blocks == 4 or seed >> 16 & 1):
            steps, open_blocks = steps + ["undo"], open_blocks - 1
        else:
            steps, open_blocks = steps + [f"take {(seed >> 20) % 8}"], open_blocks + 1
    return steps


def all_steps(build):
    """512 pages, filled, delegated and taken back in turn."""
    steps, page = ["take 9"], build
    while len(steps) + 4 <= MOST_STEPS:
        steps += [f"fill {page} {page % 255 + 1}", f"delegate {page}", "undo", f"fill {page} 7"]
        page = (page + 37) % 512
    return steps


def filled():
    return ["take 9"] + [f"fill {page} {page % 255 + 1}" for page in range(512)]


def with_realm(steps):
    """The steps after a realm with tables over its first pages: page 4 is DELEGATED, and page 5 the host's."""
    realm = ["take 3"] + [f"delegate {page}" for page in range(5)] + ["realm 0 1", "rtt 2 0 2", "rtt 3 0 3"]
    return realm + steps


def data_commands():
    """A page becomes DATA at each of 512 IPAs in turn, and is taken back."""
    steps = [step for ipa in range(512) for step in (f"data 4 {ipa} 5", "undo")]
    return with_realm(steps[: MOST_STEPS - 9])


def high_data(build):
    """The same over 512 pages of each build, of which the highest are used: the pages that are written lie high."""
    steps = ["take 9"] + [f"delegate {page}" for page in range(507, 512)]
    steps += ["realm 511 510", "rtt 509 0 2", "rtt 508 0 3"]
    return (steps + [step for ipa in range(512) for step in (f"data 507 {ipa} {build}", "undo")])[:MOST_STEPS]


def recs():
    """A REC is made and taken back 200 times, so the next has number 200. That one runs and stops, realm ACTIVE."""
    made = ["rec 4", "undo"] * 200 + ["rec 4", "activate"]
    return (with_realm(made) + ["enter 200", "exit 200"] * 300)[:MOST_STEPS]


def aborts():
    """Realms with tables and data that are aborted, one after another."""
    return (with_realm(["data 4 0 5", "abort"]) * 93)[:MOST_STEPS]


def padded(text):
    """The plan with comments, up to the greatest length."""
    lines = text.split("\n")
    room = (MOST_BYTES - len(text)) // len(lines) - 3
    return "\n".join(f"# {'-' * room}\n{line}" for line in lines)


def dense():
    """As many entries of `order` as fit: more than a plan may have."""
    head, tail = "pages = 1\norder = [", "0]\n[[build]]\nsteps = []\n"
    return head + "0," * ((MOST_BYTES - len(head) - len(tail)) // 2) + tail


# Of each shape, the plan, and the words where the program is not asked for a plain replay. A plan that is run by
# threads has no step that is refused.
SHAPES = {
    "start-up, 1 page": (lambda: plan(1, [[]]),),
    "boot of 4096 pages": (lambda: plan(4096, [[]] * 8, history=1024),),
    "boot, longest history": (lambda: plan(4096, [[]] * 8),),
    "take and undo": (lambda: plan(4096, [mixed_orders(b) for b in range(8)], turns=MOST_TURNS),),
    "take and undo, one build": (lambda: plan(4096, [mixed_orders(0)]),),
    "all steps, 4096 pages": (lambda: plan(4096, [all_steps(b) for b in range(8)], turns=MOST_TURNS),),
    "all steps, 2 builds": (lambda: plan(4096, [all_steps(b) for b in range(2)]),),
    "map of 4096 lines": (lambda: plan(4096, [["take 9"]] * 8),),
    "map of 512 lines": (lambda: plan(4096, [["take 9"]]),),
    "map of 4096 filled": (lambda: plan(4096, [filled() for _ in range(8)]),),
    "plan of 1 MiB": (lambda: padded(plan(4096, [mixed_orders(b) for b in range(8)], turns=MOST_TURNS)),),
    "plan of 1 MiB, refused": (dense,),
    "data commands": (lambda: plan(64, [data_commands() for _ in range(8)]),),
    "data in high pages": (lambda: plan(4096, [high_data(b) for b in range(8)]),),
    "RECs": (lambda: plan(64, [recs() for _ in range(8)]),),
    "storm of aborts": (lambda: plan(64, [aborts() for _ in range(8)], turns=MOST_TURNS),),
    "erase after all steps": (
        lambda: plan(4096, [all_steps(b) for b in range(8)], turns=MOST_TURNS), "replay --erase 7"),
    "threads: all steps": (lambda: plan(4096, [all_steps(b) for b in range(8)]), "run"),
    "threads: one build of 8": (lambda: plan(4096, [all_steps(0)] + [[]] * 7), "run"),
    "threads: data commands": (lambda: plan(64, [data_commands() for _ in range(8)]), "run"),
    "threads: storm of aborts": (lambda: plan(64, [aborts() for _ in range(8)], turns=MOST_TURNS), "run"),
}
# The one shape of which nothing but the reader is measured: it has no ratio.
READ_ALONE = {"plan of 1 MiB, refused"}

# The series of growth: of each one, the numbers, and the plan of one.
SERIES = {
    "turns": (range(2048, MOST_TURNS + 1, 2048), lambda n: plan(4096, [mixed_orders(b) for b in range(8)], turns=n)),
    "pages": (range(512, 4097, 512), lambda n: plan(n, [filled() for _ in range(n // 512)])),
    "builds": (range(1, 9), lambda n: plan(4096, [all_steps(b) for b in range(n)])),
}
