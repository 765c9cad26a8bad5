"""The picture of the life of a page: which step leads from which state to which, and where the page is cleared."""
from drawing import HEAD, MARKER, cell, path, picture, rect, text

TITLE = "The life of a page"
SAID = (
    "A free page is zero. take makes it UNDELEGATED: the host can fill and read it. delegate clears it and makes it "
    "DELEGATED, out of the host's reach. Then realm makes it RD or RTT, rtt makes it RTT, data and unknown make it DATA, "
    "and rec makes it REC or REC_AUX. undo leads back: from these to DELEGATED, and clears it; from DELEGATED to "
    "UNDELEGATED, where it is still zero; and from UNDELEGATED to free, and clears it."
)
BECOMES = (
    ("realm", ("RD", "RTT"), "descriptor, starting tables"),
    ("rtt", ("RTT",), "a table of level 2 or 3"),
    ("data", ("DATA",), "memory, the host's bytes"),
    ("unknown", ("DATA",), "memory, zeros"),
    ("rec", ("REC", "REC_AUX"), "a virtual processor"),
)
TOP, HEIGHT, MIDDLE, ROW, BOTTOM = 76, 354, 250, 54, 411


def zone(x, width, said):
    return rect(x, TOP, width, HEIGHT, "band", 6) + text(x + 12, TOP + 22, said, "ink b")


def box(x, width, kind, ink, name, *facts):
    lines = [text(x + width / 2, MIDDLE + 10 + 16 * i, it, ink, "middle") for i, it in enumerate(facts)]
    name = text(x + width / 2, MIDDLE - 10, name, f"m b {ink}", "middle")
    return rect(x, MIDDLE - 34, width, 68, kind, 6) + name + "".join(lines)


def cleared(x, y):
    """The mark of an arrow on which the page is cleared, with its middle at x."""
    return rect(x - 27, y, 54, 17, "good", 8) + text(x, y + 12.5, "cleared", "card w", "middle")


def there_and_back(x, end, step, *marks):
    """The arrow of a step and that of its undo, each with what becomes of the page's bytes."""
    middle = (x + end) / 2
    yield path(f"M{x + 4} {MIDDLE - 12}H{end - 5}", more=HEAD) + text(middle, MIDDLE - 20, step, "m ink", "middle")
    yield path(f"M{end - 4} {MIDDLE + 12}H{x + 5}", more=HEAD) + text(middle, MIDDLE + 28, "undo", "m ink", "middle")
    yield from marks


def becomes(x, end):
    """The states that a DELEGATED page can get, and the way back of all."""
    first, last = MIDDLE - ROW * 2, MIDDLE + ROW * 2
    yield path(f"M{x + 4} {MIDDLE}h14M{x + 18} {first}V{last}")
    for y, (step, states, said) in zip(range(first, last + 1, ROW), BECOMES):
        yield path(f"M{x + 18} {y}h70", more=HEAD) + text(x + 52, y - 6, step, "m ink", "middle")
        yield rect(x + 94, y - 22, end - x - 94, 44, "card", 6) + text(x + 102, y + 14, said, "soft s")
        yield from (cell(x + 102 + 66 * i, y - 17, 60, 17, state, state) for i, state in enumerate(states))
        yield path(f"M{end} {y}h8")
    yield path(f"M{end + 8} {first}V{BOTTOM}H{x - 46}V{MIDDLE + 40}", more=HEAD)
    yield text(x + 50, BOTTOM - 7, "undo", "m ink", "middle") + cleared(x + 103, BOTTOM - 20)


def life_picture():
    drawn = [
        MARKER, text(20, 34, TITLE, "ink b h"),
        text(20, 56, "Each arrow is a step of a plan. It is refused where the page is not in the state that the arrow "
             "starts from.", "soft"),
        zone(16, 104, "nobody's"), zone(202, 156, "in the host's reach"), zone(440, 374, "out of the host's reach"),
        box(26, 84, "card", "ink", "free", "zero"),
        box(212, 136, "u", "ou", "UNDELEGATED", "fill writes to it,", "peek reads it"),
        box(450, 92, "d", "od", "DELEGATED", "zero"),
        *there_and_back(110, 212, "take", cleared(161, MIDDLE + 36)),
        *there_and_back(348, 450, "delegate", cleared(399, MIDDLE - 52),
                        text(399, MIDDLE + 46, "still zero", "soft", "middle")),
        *becomes(542, 802),
        text(20, 455, "A page that the host can read is never a realm's, and on the way from one to the other it is "
             "cleared.", "ink b"),
        text(20, 475, "A build undoes its own arrows alone, the newest first; abort and back are such undos, one a turn.",
             "soft"),
        text(20, 495, "RMM 1.0 does not say that a delegation clears the page: that is a choice of the RMM here.", "soft"),
    ]
    return picture(TITLE, SAID, 512, drawn)
