#!/usr/bin/env python3
"""Runs the story of examples/watch in headless Chromium, by a seed, and compares the stores on all sides.

    tests/browser/browse.py [--seed N] [--write] [--pairs N]

Pictures of it, light, dark and narrow, go to out/watch; with --write the light one also to docs/watch.png, and the dark
one to docs/watch-dark.png. The last line is 'N passed, M failed'.
"""

from __future__ import annotations

import argparse
import os
import pathlib
import random
import re
import signal
import sys
import time

sys.dont_write_bytecode = True
TOP = pathlib.Path(__file__).resolve().parent.parent.parent
sys.path[:0] = [str(TOP / "scripts"), str(TOP / "examples/common")]
from browser import Browser  # noqa: E402
from followers import Results  # noqa: E402
from picture import small  # noqa: E402
from watched import Watched, reached  # noqa: E402

PICTURES = TOP / "out/watch"
ALL_SAME = "both followers hold the nodes of the leader"
QUICK = 100  # milliseconds
ON_PAGES = {"light": "watch.png", "dark": "watch-dark.png"}
SIGHTS = [("light", "light", 1280), ("dark", "dark", 1280), ("middle", "dark", 820), ("narrow", "light", 390)]

# Elements without a name that have a role, which a person operates or is notified by.
NAMED = {"button", "textbox", "combobox", "slider", "spinbutton", "checkbox", "image", "list", "region", "table"}
REACHED = {"line", "to", "auto", "key", "loss", "late", "stream", "talk", "player", "rank", "from"}

# The least contrast of a text with its background, and where.
CONTRAST = """
const part = c => (c /= 255, c <= 0.04045 ? c / 12.92 : ((c + 0.055) / 1.055) ** 2.4);
const light = ([r, g, b]) => 0.2126 * part(r) + 0.7152 * part(g) + 0.0722 * part(b);
const numbers = colour => colour.match(/[\\d.]+/g).map(Number);
const seen = colour => numbers(colour).length < 4 || numbers(colour)[3] > 0;
function behind(e) {
  const box = e.closest("g.cell")?.querySelector("rect");
  if (box) return getComputedStyle(box).fill;
  while (e && !seen(getComputedStyle(e).backgroundColor)) e = e.parentElement;
  return e ? getComputedStyle(e).backgroundColor : "rgb(255, 255, 255)";
}
const found = [...document.querySelectorAll("body *")].filter(e => e.checkVisibility() && !e.disabled
  && [...e.childNodes].some(n => n.nodeType === 3 && n.data.trim()));
return found.map(e => {
  const style = getComputedStyle(e), front = e.closest("g.cell") ? style.fill : style.color;
  const [a, b] = [light(numbers(front)), light(numbers(behind(e)))].sort((x, y) => y - x);
  return [(a + 0.05) / (b + 0.05), `${e.tagName}.${e.getAttribute("class") ?? ""}: ${e.textContent.slice(0, 40)}`];
}).sort((x, y) => x[0] - y[0])[0];
"""

# Truncated words, and boxes that leave their card or overlap.
UGLY = """
const cut = [...document.querySelectorAll("button, h2, label, select, td, dd, .lamp")]
  .filter(e => e.checkVisibility() && (e.scrollWidth > e.clientWidth + 1 && e.clientWidth));
const rects = [...document.querySelectorAll("button, h2, select, input, svg, output, table")]
  .filter(e => e.checkVisibility()).map(e => [e, e.getBoundingClientRect()]);
const over = rects.filter(([e, r]) => rects.some(([f, s]) => e !== f && !e.contains(f) && !f.contains(e)
  && r.left < s.right - 1 && s.left < r.right - 1 && r.top < s.bottom - 1 && s.top < r.bottom - 1)).map(([e]) => e);
return [...cut, ...over].map(e => e.outerHTML.slice(0, 80));
"""

# Boxes that slide are in their place; events continue to fly.
SETTLED = """
const isBox = each => each.effect.target.closest("svg");
document.getAnimations().filter(isBox).forEach(each => each.finish());
"""

# The time of a line from the key that sends it until its reply and the new box of its pair are painted: a message that
# is sent in a frame arrives after the frame is painted.
ANSWERED = """
const [line, pair] = a, reply = document.getElementById("reply"), before = performance.now();
const has = node => node.textContent === pair;
const isThere = () => reply.textContent && [...document.querySelectorAll("#lead title")].some(has);
reply.textContent = "";
const drawn = new Promise(done => new MutationObserver((_, it) => {
  if (!isThere()) return;
  it.disconnect();
  const painted = new MessageChannel();
  painted.port1.onmessage = done;
  requestAnimationFrame(() => painted.port2.postMessage(""));
}).observe(document.body, { childList: true, characterData: true, subtree: true }));
document.getElementById("line").value = line;
document.getElementById("say").requestSubmit();
await drawn;
return performance.now() - before;
"""


class Story:
    """A person at the page."""

    def __init__(self, seed: int, pairs: int, browser: Browser, watch: Watched) -> None:
        self.chance, self.pairs, self.browser, self.watch = random.Random(seed), pairs, browser, watch
        self.results = Results()

    def check(self, name: str, is_right: object) -> None:
        self.results.check(name, bool(is_right))

    def sees(self, selector: str, words: str, seconds: float = 120) -> bool:
        """Waits for words on the page. Returns whether they appear in time."""
        return reached(lambda: words in self.browser.text(selector), seconds)

    def says(self, line: str, to: str | None = None) -> str:
        """Types a line, and returns the reply on the page."""
        if to:
            self.browser.run("document.getElementById('to').value = a[0]", to)
        self.browser.run("document.getElementById('what').textContent = ''")
        self.browser.type("#line", line, "Enter")
        self.check(f"“{line}” is answered", self.sees("#what", f"“{line}”:"))
        return self.browser.text("#reply")

    def acts(self, act: str, who: str) -> None:
        self.browser.click(f"[aria-label='{act}, {who}']")

    def lamp(self, who: str) -> str:
        return self.browser.text(f"[aria-label='store {who}'] .lamp")

    def slides(self, **percent: int) -> None:
        for name, value in percent.items():
            self.browser.run("const e = document.getElementById(a[0]); e.value = a[1]; e.oninput()", name, value)

    def ends_same(self, when: str) -> None:
        """Returns whether the page shows that all stores are equal, and they are: the replies, and the boxes of the
        page."""
        head = self.watch.file["head"]
        leader = self.watch.leader["who"]
        is_level = reached(lambda: self.watch.is_level(head, leader) and ALL_SAME in self.browser.text("#all"))
        self.check(f"{when}: the page says that all are the same", is_level)
        self.check(f"{when}: the replies to sum and nodes are", reached(self.watch.is_same))

    def puts(self, count: int) -> list[str]:
        """Yields commands, most of which put."""
        keys = [1000 + self.chance.randrange(60) for _ in range(count)]
        is_cut = [self.chance.random() < 0.25 for _ in keys]
        return [f"cut {key}" if it else f"put {key} {self.chance.randrange(1000)}" for key, it in zip(keys, is_cut)]

    def types_lines(self) -> None:
        self.check("the page says that all are the same", self.sees("#all", ALL_SAME))
        self.browser.press("/")
        self.check("/ leads to the line", self.browser.run("return document.activeElement.id") == "line")
        for key in range(4):
            self.says(f"put {key} {10 + key}")
        told = self.says("put 1 99").split("\n")
        events = ["4 split 3:13 2", "5 remove 1:11 1:11 1", "6 insert 0:10 1:99 1"]
        self.check("a reply stands with its events", told[:4] == ["old 11", *events])
        self.check("what means nothing is bad", self.says("what is this") == "bad" and self.says("") == "bad")
        self.check("rank", self.says("rank 9") == "4")
        reached(lambda: self.watch.is_level(7))
        self.check("a follower reads", self.says("nodes", "B").startswith("0:10 1:99\n2:12 3:13\nnext 7"))
        self.check("a follower takes no command", self.says("put 1 2") == "bad")
        self.check("a snapshot", self.says("snapshot", "C").startswith("start 7\nnode 0:10 1:99"))
        self.browser.press("Up", "Up")
        line = self.browser.run("return document.getElementById('line').value")
        self.check("the key up brings an earlier line", line == "put 1 2")
        self.browser.run("document.getElementById('to').value = 'A'; document.getElementById('line').value = ''")
        self.ends_same("by hand")

    def loses(self) -> None:
        self.slides(loss=20, repeat=15, late=15)
        self.watch.ask("line", to="A", lines=self.puts(24))
        self.browser.click("#put8")
        self.ends_same("over a channel that loses")
        shown = self.browser.text("[aria-label='store B'] dl")
        counts = {name: int(count) for name, count in re.findall(r"(\w+)\s+(\d+)", shown)}
        self.check("events were lost, asked for and sent again", counts["lost"] and counts["gap"] and counts["again"])
        self.slides(loss=0, repeat=0, late=0)

    def pictured(self, name: str, width: int) -> None:
        """Writes some commands, and a picture of the whole page while their events are on the way."""
        self.browser.size(width, 1000)
        self.browser.size(width, self.browser.run("return document.documentElement.scrollHeight") + 40)
        self.watch.ask("line", to="A", lines=self.puts(8))
        time.sleep(0.9)
        self.browser.run(SETTLED)
        self.browser.picture(PICTURES / f"{name}.png")

    def kills_followers(self) -> None:
        self.acts("kill -9", "B")
        self.check("a killed follower has ended", self.sees("[aria-label='store B'] .lamp", "ended, status -9"))
        self.watch.ask("line", to="A", lines=self.puts(10))
        self.acts("Snapshot", "B")
        self.ends_same("after a snapshot")
        self.check("the snapshot stands among the replies", "B starts from A" in self.browser.text("#talk"))
        os.kill(self.watch.stores["C"]["pid"], signal.SIGKILL)
        self.check("a kill from outside is seen", self.sees("[aria-label='store C'] .lamp", "ended"))
        self.acts("From nothing", "C")
        self.ends_same("after a beginning from nothing")

    def kills_leaders(self) -> None:
        self.acts("kill -9", "A")
        self.check("no leader is there", self.sees("#all", "no leader"))
        self.check("a follower still reads", self.says("len", "B").isdigit())
        self.acts("Promote", "B")
        self.check("a follower leads", self.sees("[aria-label='store B'] .lamp", "leads"))
        self.check("its card stands first", self.sees("#lead h2", "B"))
        self.check("it takes commands", self.says("put 77 7", "B").split("\n")[0] != "bad")
        self.acts("Snapshot", "A")
        self.ends_same("with another leader")
        before = self.watch.line("B", "snapshot")
        self.acts("kill -9", "B")
        self.check("no leader is there again", self.sees("#all", "no leader"))
        self.acts("From the file", "B")
        self.check("the file brings the leader back", self.sees("[aria-label='store B'] .lamp", "leads"))
        self.check("with the nodes that it had", self.watch.line("B", "snapshot") == before)
        self.acts("Promote", "A")
        self.check("a leader hands over", self.sees("#lead h2", "A"))
        self.watch.ask("line", to="A", lines=self.puts(10))
        self.ends_same("with the first leader again")

    def plays_board(self) -> None:
        self.browser.click("#players")
        for player, score in ((7, 500), (8, 900), (7, 950)):
            self.browser.type("#player", str(player))
            self.browser.type("#points", str(score), "Enter")
            wanted = f"put {100_000 + (999 - score) * 100 + player} {player}"
            self.check(f"score {score} of player {player} is put", self.sees("#talk", wanted))
        self.ends_same("after scores")
        self.check("the board is what its store replies", reached(self.board_is_new))
        self.browser.click("#rank")
        self.check("a rank is read from a follower", self.sees("#place", "player 7, score 950: place"))
        pages = [self.rows()]
        while self.turns("down"):
            pages.append(self.rows())
        rows = [row for page in pages for row in page]
        self.check("the board has pages", len(pages) > 1 and all(len(page) == 10 for page in pages[:-1]))
        self.check("places ascend", [row[0] for row in rows] == list(range(1, len(rows) + 1)))
        self.check("scores descend", all(one[2] >= other[2] for one, other in zip(rows, rows[1:])))
        self.check("each player stands once", len({row[1] for row in rows}) == len(rows))
        place = next(row[0] for row in rows if row[1] == 7)
        self.check("the rank is the place", f"place {place} of {len(rows)}" in self.browser.text("#place"))

    def board_is_new(self) -> bool:
        """Returns whether the board shows the present replies of its store: it is read again some time after a
        change."""
        shown = [line.split(" → ") for line in self.browser.text("#asked").split("\n")]
        told = self.watch.ask("line", to="B", lines=[line for line, _ in shown], is_shown=False)
        return bool(told == [[reply] for _, reply in shown])

    def turns(self, button: str) -> bool:
        """Turns to another page of the board, if there is one."""
        shown = self.browser.text("#page")
        if self.browser.run("return document.getElementById(a[0]).disabled", button):
            return False
        self.browser.click(f"#{button}")
        return reached(lambda: self.browser.text("#page") != shown)

    def rows(self) -> list[list[int]]:
        """Returns the rows of the board: place, player, score."""
        cells = "[...row.cells].map(cell => +cell.textContent)"
        script = f"return [...document.querySelectorAll('#rows tr')].map(row => {cells})"
        found: list[list[int]] = self.browser.run(script)
        return found

    def looks(self) -> None:
        """Checks widths, colours, names and keys."""
        self.slides(loss=25, repeat=15, late=15)
        while self.turns("up"):
            pass
        for name, theme, width in SIGHTS:
            self.browser.prefer(color_scheme=theme)
            self.pictured(name, width)
            wide = self.browser.run("return document.documentElement.scrollWidth")
            self.check(f"{theme}, {width} wide: no scrolling to the side", wide <= width)
            ugly = self.browser.run(UGLY)
            self.check(f"{theme}, {width} wide: nothing is cut or lies over another {ugly[:3] or ''}", not ugly)
            contrast, where = self.browser.run(CONTRAST)
            self.check(f"{theme}, {width} wide: contrast {contrast:.1f} ({where})", contrast >= 4.5)
        self.slides(loss=0, repeat=0, late=0)
        self.browser.size(1280, 1300)
        tree = self.browser.devtools("Accessibility.getFullAXTree")["nodes"]
        acted = [it for it in tree if not it["ignored"] and it["role"]["value"].lower() in NAMED]
        nameless = [it["role"]["value"] for it in acted if not it["name"]["value"].strip()]
        self.check(f"{len(acted)} controls and regions have a name {nameless or ''}", len(acted) > 30 and not nameless)
        self.ends_same("after the looks")

    def by_keys(self) -> None:
        """Uses only the keyboard."""
        wanted, met = {*REACHED, "kill -9, B", "Snapshot, C"}, set()
        self.browser.run("document.activeElement.blur()")
        for _ in range(60):
            self.browser.press("Tab")  # one at a time, to see what each focuses
            met.add(self.browser.run("const e = document.activeElement; return e.id || e.getAttribute('aria-label')"))
        self.check(f"the keyboard reaches all {sorted(wanted - met) or ''}", wanted <= met)
        self.browser.run("document.querySelector(`[aria-label='kill -9, B']`).focus()")
        self.browser.press("Enter")
        self.check("kill by Enter", self.sees("[aria-label='store B'] .lamp", "ended"))
        focused = self.browser.run("return document.activeElement.getAttribute('aria-label')")
        self.check("the focus stays with the store", focused == "Snapshot, B")
        self.browser.press("Space")
        self.ends_same("after a snapshot by Space")

    def grows(self) -> None:
        """Checks many pairs: a reply in time, and few of the nodes drawn."""
        for who in "BC":
            self.acts("kill -9", who)
        keys = self.chance.sample(range(1_000_000, 2_000_000), self.pairs)
        for at in range(0, self.pairs, 500):
            self.watch.ask("line", to="A", lines=[f"put {key} 1" for key in keys[at : at + 500]], is_shown=at == 0)
        for who in "BC":
            self.acts("Snapshot", who)
        self.ends_same(f"with {self.pairs} pairs more")
        times = []
        for key in keys[:10]:
            times.append(self.browser.run(ANSWERED, f"put {key} {key % 1000}", f"{key}:{key % 1000}"))
            reached(lambda: self.watch.is_level(self.watch.file["head"]))
        told = ", ".join(f"{it:.0f}" for it in times)
        self.check(f"each of {len(times)} lines is answered and drawn in time: {told} ms", max(times) < QUICK)
        boxes = self.browser.run("return document.querySelectorAll('.cell').length")
        self.check(f"{boxes} boxes are drawn", 0 < boxes < 1500)
        self.browser.type("#key", str(min(keys)), "Enter")
        self.check("the nodes about a key are drawn", self.sees("#lead svg", str(min(keys))[:3]))

    def reloads(self) -> None:
        self.browser.open(self.watch.url)
        self.check("a page that is opened again shows the same", self.sees("#all", ALL_SAME))
        events = self.browser.run("return document.querySelectorAll('#stream li').length")
        self.check("with the last events", events == min(200, self.watch.file["head"]))
        self.browser.prefer(reduced_motion="reduce")
        self.browser.open(self.watch.url)
        self.check("and where motion is to be reduced", self.sees("#all", ALL_SAME))
        self.watch.ask("line", to="A", lines=["put 3 3"])
        time.sleep(0.2)
        self.check("nothing flies", self.browser.run("return document.querySelectorAll('.way .pill').length") == 0)
        self.ends_same("at the end")
        errors = self.browser.errors()
        self.check(f"nothing stands in the console {errors[:2] or ''}", not errors)

    def play(self) -> None:
        self.browser.prefer(color_scheme="light")
        self.browser.size(1280, 1300)
        self.browser.open(self.watch.url)
        self.types_lines()
        self.loses()
        self.kills_followers()
        self.kills_leaders()
        self.plays_board()
        self.looks()
        self.by_keys()
        self.grows()
        self.reloads()


def main() -> None:
    ask = argparse.ArgumentParser(description="Plays the story of examples/watch in a browser.")
    ask.add_argument("--seed", type=int, default=1, metavar="N", help="default: %(default)s")
    ask.add_argument("--pairs", type=int, default=10_000, metavar="N", help="how many at last (%(default)s)")
    ask.add_argument("--write", action="store_true", help="write the pictures of docs")
    given = ask.parse_args()
    watch = Watched("--seed", str(given.seed))
    try:
        browser = Browser()
        try:
            story = Story(given.seed, given.pairs, browser, watch)
            story.play()
        finally:
            browser.end()
    finally:
        watch.process.terminate()
        watch.process.wait()
    for sight, name in ON_PAGES.items() if given.write else ():
        (TOP / "docs" / name).write_bytes(small((PICTURES / f"{sight}.png").read_bytes()))
    story.results.end()


if __name__ == "__main__":
    main()
