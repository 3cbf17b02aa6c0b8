"""People who use pages in a browser, by steps: who does or sees what."""
import json
import math
import shlex

from .browser import PATIENCE, Page

MARKUP = "<b>bold</b><img src=x onerror=alert(1)>"

# What is drawn, in hundredths of the board's width and height.
STROKES = {
    "grass": [(8 + 4 * step, 88 - 3 * (step % 2)) for step in range(22)],
    "roof": [(26, 45), (45, 20), (64, 45)],
    "walls": [(30, 45), (30, 80), (60, 80), (60, 45)],
    "door": [(41, 80), (41, 62), (49, 62), (49, 80)],
    "sun": [(80 + 6 * math.cos(step * math.pi / 12), 20 + 8 * math.sin(step * math.pi / 12)) for step in range(25)],
    "cross": [(10, 10), (20, 25)],
}

SEES = """[...document.querySelectorAll({0})].filter((it) => it.checkVisibility() && it.textContent.includes({1})).length"""

# Whether a point of the canvas is painted as it is said: any colour, or one of the page's.
PAINTED = """(() => {{
  const canvas = document.getElementById("canvas");
  const [x, y] = [canvas.width * {0} / 100, canvas.height * {1} / 100].map(Math.round);
  const points = canvas.getContext("2d").getImageData(x - 1, y - 1, 3, 3).data;
  const value = getComputedStyle(document.documentElement).getPropertyValue("--" + {2}).trim();
  const wanted = [1, 3, 5].map((at) => parseInt(value.slice(at, at + 2), 16));
  return [0, 1, 2, 3, 4, 5, 6, 7, 8].some((at) => {{
    const [red, green, blue, alpha] = points.slice(4 * at, 4 * at + 4);
    return alpha > 64 && (!{2} || [red, green, blue].every((it, part) => Math.abs(it - wanted[part]) < 16));
  }});
}})()"""

SENDS_A_PICTURE = """(async () => {
  const canvas = document.createElement("canvas");
  canvas.width = canvas.height = 64;
  canvas.getContext("2d").fillRect(8, 8, 48, 48);
  const blob = await new Promise((made) => canvas.toBlob(made));
  const files = new DataTransfer();
  files.items.add(new File([blob], "square.png", { type: "image/png" }));
  const input = document.getElementById("picture");
  input.files = files.files;
  input.dispatchEvent(new Event("change"));
})()"""


class Person:
    """One who has a page, perhaps over a way that can be cut, and with a script of one's own in it."""

    ready = "typeof document.getElementById('enter')?.onsubmit === 'function'"

    def __init__(self, browser, url, width, way=None, script=""):
        self.way, self.page = way, Page(browser, "about:blank", width)
        self.page.call("Page.addScriptToEvaluateOnNewDocument", source=script)
        self.page.call("Emulation.setFocusEmulationEnabled", enabled=True)
        self.page.turn_to("light")
        self.page.call("Page.navigate", url=url)
        self.page.becomes(self.ready)

    def fills(self, field, text):
        self.page.run(f"(() => {{ const it = document.querySelector({json.dumps(field)}); it.focus(); it.select(); }})()")
        self.page.call("Input.insertText", text=text)

    def submits(self, form):
        self.page.run(f"document.querySelector({json.dumps(form)}).requestSubmit()")

    def presses(self, selector):
        box = f"document.querySelector({json.dumps(selector)}).getBoundingClientRect()"
        x, y = self.page.run(f"(() => {{ const it = {box}; return [it.x + it.width / 2, it.y + it.height / 2]; }})()")
        for kind in ("mousePressed", "mouseReleased"):
            self.page.call("Input.dispatchMouseEvent", type=kind, x=x, y=y, button="left", clickCount=1)

    def sees(self, selector, text, times=1):
        """Whether so many elements with this text are seen, or more."""
        return self.page.becomes(f"{SEES.format(json.dumps(selector), json.dumps(text))} >= {times}")

    def misses(self, selector, text):
        return self.counts(selector, text, 0)

    def counts(self, selector, text, times):
        return self.page.becomes(f"{SEES.format(json.dumps(selector), json.dumps(text))} === {times}")

    def sends_a_picture(self):
        self.page.run(SENDS_A_PICTURE)

    def sees_the_picture(self):
        return self.page.becomes("document.querySelector('article img')?.naturalWidth === 64")

    def says_until_acknowledged(self, text):
        """What is said while no app is there is lost, so it is said again."""
        before = self.page.run("document.querySelectorAll('.own').length")
        for _ in range(PATIENCE):
            self.fills("#text", text)
            self.submits("#write")
            if self.page.becomes(f"[...document.querySelectorAll('.own')].slice({before}).some((it) => it.textContent.includes('✓'))", 1):
                return True
        return False

    def points_of(self, stroke):
        box = self.page.run("(() => { const it = canvas.getBoundingClientRect(); return [it.x, it.y, it.width, it.height]; })()")
        return [(box[0] + box[2] * x / 100, box[1] + box[3] * y / 100) for x, y in STROKES[stroke]]

    def draws(self, stroke):
        points = self.points_of(stroke)
        moves = [("mousePressed", points[0]), *(("mouseMoved", it) for it in points), ("mouseReleased", points[-1])]
        for kind, (x, y) in moves:
            self.page.call("Input.dispatchMouseEvent", type=kind, x=x, y=y, button="left", buttons=1, clickCount=1)

    def draws_by_hand(self, stroke):
        points = self.points_of(stroke)
        for kind, it in [("touchStart", points[0]), *(("touchMove", it) for it in points), ("touchEnd", None)]:
            self.page.call("Input.dispatchTouchEvent", type=kind, touchPoints=[{"x": it[0], "y": it[1]}] if it else [])

    def has(self, stroke, colour=""):
        """Whether the line is seen, halfway between each two of its points too."""
        points = STROKES[stroke]
        halves = [((a[0] + b[0]) / 2, (a[1] + b[1]) / 2) for a, b in zip(points, points[1:])]
        painted = [PAINTED.format(x, y, json.dumps(colour)) for x, y in points + halves]
        return self.page.becomes(" && ".join(painted))

    def has_no(self, stroke):
        return self.page.becomes(" && ".join(f"!{PAINTED.format(x, y, json.dumps(''))}" for x, y in STROKES[stroke]))

    def is_cut_off(self):
        self.way.turn("cut")

    def is_back(self):
        self.way.turn("mended")

    def goes(self):
        self.page.close()


def steps_of(text, names):
    """Of each step who, what, and with which values. A step has a name, if it is another one than before, a method, and what this
    is given."""
    lines = [line for line in text.strip().splitlines() if not line.lstrip().startswith("#")]
    for words in map(shlex.split, ";".join(lines).split(";")):
        if words[0] in names:
            who = words.pop(0)
        yield who, *(MARKUP if it == "MARKUP" else it for it in words)


def play(text, doers, checks):
    """Plays the steps. Those that say whether it is so are checks."""
    for who, verb, *values in steps_of(text, doers):
        result = getattr(doers[who], verb.replace("-", "_"))(*values)
        if result is not None:
            checks(" ".join([who, verb.replace("-", " "), *values]), result)
        if result is False:
            break  # what comes behind it needs it
