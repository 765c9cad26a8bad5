"""Plans for `tests/test_page.py`: machines of many pages, with builds that use them all."""
from programs import plan_of


def text_of(pages, order, builds, title=""):
    comment = f"# {title}\n" if title else ""
    return comment.encode() + plan_of(builds, pages=pages, order=order)


def in_rotation(builds, more=0):
    """Turns for all steps, one of each build after the other, and `more` for each after them."""
    most = max(map(len, builds))
    return [b for turn in range(most) for b, steps in enumerate(builds) if turn < len(steps)] + [*range(len(builds))] * more


def life(order, mapped, value):
    """A build of 2^order pages: a realm with `mapped` pages of memory, each from the build's last page."""
    last = 2**order - 1
    steps = [f"take {order}", f"fill {last} {value}", *(f"delegate {page}" for page in range(4 + mapped))]
    steps += ["realm 0 1", "rtt 2 0 2", "rtt 3 0 3"]
    return steps + [f"data {4 + k} {k} {last}" for k in range(mapped)] + ["activate"]


def of_128_pages():
    """Four builds on 128 pages; the last one aborts, a turn for each operation."""
    builds = [life(5, 20, 1), life(5, 8, 2), life(4, 6, 3), [*life(5, 16, 4)[:-4], "abort"]]
    return text_of(128, in_rotation(builds) + [3] * 50, builds, "Four builds on 128 pages. The last one gives up.")


def of_4096_pages():
    """Eight builds that lease all of 4,096 pages, and map 240 pages each."""
    builds = [life(9, 240, 1 + k) for k in range(8)]
    return text_of(4096, in_rotation(builds), builds, "Eight builds on 4096 pages.")


def of_written_pages():
    """Two builds of which each step writes, clears or moves bytes: fill, delegate, data, poke, undo and abort."""
    one = [
        "take 3", "fill 5 7", "fill 6 9", "delegate 6", "undo", *(f"delegate {page}" for page in (0, 1, 2, 3, 4, 7)), "realm 0 1",
        "rtt 2 0 2", "rtt 3 0 3", "data 4 0 5", "fill 5 1", "rec 7", "activate", "enter 0", "poke 0 0 9 1", "poke 0 0 9 255",
        "poke 0 0 10 0", "peek 4 9", "exit 0", "mark", "delegate 6", "unknown 6 1", "back", "undo", "undo", "peek 4 0", "abort",
    ]
    two = [
        "take 1", "fill 0 255", "take 0", "fill 2 3", "undo", "take 2", "peek 2 0", "fill 3 4", "delegate 3", "fill 3 1",
        "delegate 3", "abort",
    ]
    return text_of(16, in_rotation([one, two]) + [0, 1] * 14, [one, two])


def of_each_build():
    """Eight builds of two pages, to be distinguished."""
    builds = [["take 1", f"fill 0 {b}", "delegate 1"] for b in range(8)]
    return text_of(16, in_rotation(builds), builds)


PLANS = {"128-pages": of_128_pages, "4096-pages": of_4096_pages, "written-pages": of_written_pages, "each-build": of_each_build}
