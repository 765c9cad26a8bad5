"""The parts of the pictures: a card for light and dark pages, the colours of the states, and elements of SVG.

Each cell has its state's word beside its colour, and the colours differ in lightness too: no hue has to be distinguished.
"""
from xml.sax.saxutils import escape

WIDTH = 830  # as wide as GitHub shows a README
SANS = "-apple-system,'Segoe UI','Noto Sans',Helvetica,Arial,sans-serif"
MONO = "ui-monospace,SFMono-Regular,Menlo,Consolas,'DejaVu Sans Mono',monospace"
WORD = {"UNDELEGATED": "U", "DELEGATED": "D", "RD": "RD", "RTT": "RTT", "DATA": "DATA", "REC": "REC", "REC_AUX": "AUX"}
# The colour of each class on a light and on a dark page: for the cell of a word, and with an o before it for the word.
FILLS = {
    "card": "#ffffff #0d1117", "band": "#eef1f4 #1b222c", "alarm": "#fbd9d4 #58211d", "bar": "#bcc5cf #566170",
    "ink": "#1f2328 #f0f6fc", "soft": "#57606a #a5aeb8", "bad": "#a3180d #ffa198", "good": "#0a5c8f #79c0ff",
    "u": "#cfe6f7 #28465f", "d": "#f2cf5b #e3bd45", "rd": "#5b1f55 #d19bc6", "rtt": "#3fae8c #3aa585",
    "ou": "#12303f #d5e9f8", "od": "#3a2b00 #2b2000", "ord": "#ffffff #2f0a28", "ortt": "#04231a #021a13",
    "data": "#0f5c9e #1d6fb8", "rec": "#b0400b #b94a14", "aux": "#f0a36b #e6985f",
    "odata": "#ffffff #ffffff", "orec": "#ffffff #ffffff", "oaux": "#3a1a05 #2b1303",
}
STROKES = {"edge": "#d0d7de #3d444d", "line": "#57606a #a5aeb8", "cross": "#a3180d #ffa198"}
FONTS = (
    f"text{{font:12px {SANS}}}.m{{font:12px {MONO}}}.w{{font:11px {MONO}}}.s{{font-size:11px}}.h{{font-size:17px}}"
    ".b{font-weight:600}.edge,.line,.cross{fill:none}"
)
# The end of an arrow, and the definition that a picture with arrows begins with.
HEAD = ' marker-end="url(#head)"'
MARKER = (
    '<defs><marker id="head" viewBox="0 0 8 8" refX="6" refY="4" markerWidth="8" markerHeight="8" orient="auto">'
    '<path d="M0 0L8 4L0 8z" class="soft"/></marker></defs>'
)


def paint(page):
    """The rules for a light (0) or a dark (1) page."""
    rules = [(name, "fill", it) for name, it in FILLS.items()] + [(name, "stroke", it) for name, it in STROKES.items()]
    return "".join(f".{name}{{{what}:{colours.split()[page]}}}" for name, what, colours in rules)


def text(x, y, words, kind="ink", anchor="start", more=""):
    where = "" if anchor == "start" else f' text-anchor="{anchor}"'
    return f'<text x="{x:g}" y="{y:g}" class="{kind}"{where}{more}>{escape(words)}</text>'


def rect(x, y, width, height, kind, corner=3):
    return f'<rect x="{x:g}" y="{y:g}" width="{width:g}" height="{height:g}" rx="{corner}" class="{kind}"/>'


def path(steps, kind="line", more=""):
    return f'<path d="{steps}" class="{kind}"{more}/>'


def word(x, y, state, more="", said=None):
    """The word of a state, or what is said in its place, with its middle at x."""
    return text(x, y, said or WORD[state], f"w o{WORD[state].lower()}", "middle", more)


def cell(x, y, width, height, state, said=None):
    return rect(x, y, width, height, WORD[state].lower()) + word(x + width / 2, y + height / 2 + 4, state, said=said)


def picture(title, description, height, elements, width=WIDTH):
    """The whole file; a screen reader says the title and the description."""
    return "\n".join([
        f'<svg xmlns="http://www.w3.org/2000/svg" width="{width}" height="{height}" viewBox="0 0 {width} {height}"'
        ' role="img" aria-labelledby="t d">',
        f'<title id="t">{escape(title)}</title>\n<desc id="d">{escape(description)}</desc>',
        f"<style>{FONTS}{paint(0)}@media(prefers-color-scheme:dark){{{paint(1)}}}</style>",
        *(rect(0.5, 0.5, width - 1, height - 1, kind, 8) for kind in ("card", "edge")),
        *elements, "</svg>\n",
    ])
