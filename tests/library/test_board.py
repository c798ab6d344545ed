"""The page chipfire.html in a browser: plays beside the native library, chips by hand, files and addresses, sizes and
colours. Where no Chromium is installed these tests are skipped. With CHIPFIRE_PICTURES, a folder, pictures of the page
are left there."""
import glob
import json
import os
import sys
import tempfile
import time
import unittest

import browser
import contents
import library
from library import LARGEST, ROOT, Graph, Room, stabilize_all
from test_games import stepped
from test_web import WEB

PAGE = f"{WEB}/{contents.BOARD}"
PICTURES = os.environ.get("CHIPFIRE_PICTURES")
STATUS = "document.getElementById('status').textContent"
IS_DONE = f"document.getElementById('stop').disabled && {STATUS} && !{STATUS}.endsWith('..')"
BOX = "document.getElementById('board').getBoundingClientRect()"
#: A phone, and a screen.
SIZES = {"phone": (390, 844, True), "screen": (1280, 900, False)}
#: Texts whose contrast with the colour under them is too low, where there is one at all.
FAINT = """(() => {
    const parts = (colour) => colour.match(/[\\d.]+/g).slice(0, 3).map((it) => {
        const share = it / 255;
        return share <= 0.04045 ? share / 12.92 : ((share + 0.055) / 1.055) ** 2.4;
    });
    const light = (colour) => parts(colour).reduce((sum, it, at) => sum + it * [0.2126, 0.7152, 0.0722][at], 0);
    const background = (it) => {
        for (; it; it = it.parentElement) {
            const colour = getComputedStyle(it).backgroundColor;
            if (!/, 0\\)$/.test(colour)) return colour;
        }
        return "rgb(255, 255, 255)";
    };
    const texts = [...document.querySelectorAll("h1, h2, p, label, button:enabled, select, input, summary, span")];
    return texts.filter((it) => it.offsetWidth).flatMap((it) => {
        const [one, other] = [getComputedStyle(it).color, background(it)].map(light).sort().reverse();
        const ratio = (Math.max(one, other) + 0.05) / (Math.min(one, other) + 0.05);
        return ratio < 4.5 ? [`${it.tagName} ${it.textContent.slice(0, 20)}: ${ratio.toFixed(1)}`] : [];
    });
})()"""


def grid_of(rows, columns):
    """The grid of this size, as the native library takes it."""
    edges = []
    for square in range(rows * columns):
        y, x = divmod(square, columns)
        for v, u in ((y - 1, x), (y, x - 1), (y, x + 1), (y + 1, x)):
            is_inside = 0 <= v < rows and 0 <= u < columns
            edges.append((square, columns * v + u if is_inside else rows * columns, 1))
    return Graph(rows * columns + 1, rows * columns, edges)


@unittest.skipUnless(os.path.isfile(PAGE), f"{contents.BOARD} is not beside the program: tools/board.py makes it")
@unittest.skipUnless(browser.found(), "no Chromium is installed")
class Board(unittest.TestCase):
    @classmethod
    def setUpClass(cls):
        cls.browser = browser.Browser(browser.found())
        cls.addClassCleanup(cls.browser.close)

    def open(self, address=""):
        self.browser.go(f"file://{os.path.realpath(PAGE)}#{address}")
        self.browser.wait(IS_DONE)

    def tearDown(self):
        """Nothing went wrong, and nothing was asked for but the page's own worker and files."""
        complaints = self.browser.complaints()
        asked = [it["params"].get("request", {}).get("url", "") for it in complaints]
        self.assertEqual([it for it, url in zip(complaints, asked) if not url.startswith("blob:")], [])

    def chips(self):
        return [int(it) for it in self.browser.value("Array.from(chips)")]

    def after(self, action):
        """Does something in the page, waits until it has ended, and returns what the page says then."""
        self.browser.value(f"(() => {{ {action}; }})()")
        self.browser.wait(IS_DONE)
        return self.browser.value(STATUS)

    def wanted(self, rows, columns, chips):
        return stabilize_all(grid_of(rows, columns), [chips])[2][0]

    def test_a_heap_is_stabilized(self):
        self.open("rows=31&columns=21&fill=heap&amount=3000")
        start = [0] * (31 * 21 + 1)
        start[21 * 15 + 10] = 3000
        self.assertEqual(self.chips(), start)
        said = self.after("document.getElementById('stabilize').click()")
        ends, fired, _ = self.wanted(31, 21, start)
        self.assertEqual(self.chips(), ends)
        self.assertTrue(said.startswith(f"{sum(fired):,} firings in "), said)
        self.assertTrue(said.endswith(f" s; {ends[-1]:,} chips left the board."), said)

    def test_a_play_that_is_watched_ends_so_too(self):
        self.open("rows=15&columns=15&fill=uniform&amount=7")
        for pace in (1, 10):
            self.after("document.querySelector('#chips button').click()")
            self.browser.value(f"document.getElementById('pace').value = {pace}")
            said = self.after("document.getElementById('watch').click()")
            ends, fired, _ = self.wanted(15, 15, [7] * 225 + [0])
            self.assertEqual(self.chips(), ends)
            self.assertTrue(said.startswith(f"{sum(fired):,} firings in "), said)

    def test_drops_light_what_fired(self):
        self.open("rows=5&columns=5&fill=uniform&amount=3")
        chips = self.chips()
        for number in range(1, 4):
            said = self.after("document.getElementById('one').click()")
            row, column = map(int, said.partition(":")[0].split(" ", 1)[1].split(", "))
            square = 5 * (row - 1) + column - 1
            chips[square] += 1
            chips, fired, *_ = stepped(grid_of(5, 5), chips, LARGEST)
            self.assertEqual(self.chips(), chips)
            self.assertEqual(self.browser.value("Array.from(lit)"), [int(it > 0) for it in fired])
            self.assertIn(f" {sum(fired):,} firing", said)
            self.assertTrue(said.endswith(f"; {number} drop{'s' * (number > 1)}."), said)
        bars = "[...document.querySelectorAll('#bars li span:last-child')]"
        counts = self.browser.value(f"{bars}.map((it) => it.textContent)")
        self.assertEqual(sum(map(int, counts)), 3)

    def test_chips_by_hand(self):
        self.open("rows=4&columns=6&fill=uniform&amount=0")
        self.browser.value("document.getElementById('brush').value = 5")
        for action, square in (("", 15), ("ArrowRight", 16), ("ArrowDown", 22)):
            self.browser.value("document.getElementById('board').focus()")
            for key in filter(None, (action, "Enter")):
                event = f"new KeyboardEvent('keydown', {{key: '{key}', bubbles: true}})"
                self.browser.value(f"document.activeElement.dispatchEvent({event})")
            self.assertEqual(self.chips()[square], 5)
        box = self.browser.value(f"(({{x, y, width, height}}) => [x, y, width, height])({BOX})")
        places = [(box[0] + box[2] * (column + 0.5) / 6, box[1] + box[3] * 0.5 / 4) for column in (0, 3)]
        for kind, (x, y) in zip(("mousePressed", "mouseMoved", "mouseReleased"), (places[0], places[1], places[1])):
            self.browser.ask("Input.dispatchMouseEvent", type=kind, x=x, y=y, button="left", buttons=1, clickCount=1)
        self.assertEqual(self.chips()[:6], [5, 5, 5, 5, 0, 0])

    def test_the_identity_and_a_recurrent_configuration(self):
        """The identity of the group of 3 by 3 squares, by hand: twice it is itself again."""
        self.open("rows=3&columns=3&fill=identity")
        self.assertEqual(self.chips(), [2, 1, 2, 1, 0, 1, 2, 1, 2, 0])
        self.open("rows=9&columns=9&fill=recurrent&seed=5")
        chips = self.chips()
        burnt = [it + (4 - len(self.beside(at))) for at, it in enumerate(chips[:-1])]
        ends, fired, *_ = stepped(grid_of(9, 9), [*burnt, 0], LARGEST)
        self.assertEqual((ends[:-1], fired[:-1]), (chips[:-1], [1] * 81))

    def beside(self, square):
        return [head for tail, head, _ in grid_of(9, 9).edges if tail == square and head != 81]

    def test_lattices_and_borders(self):
        for lattice in ("square", "triangular", "hexagonal"):
            for borders in ("open", "sides", "all"):
                self.open(f"rows=8&columns=6&lattice={lattice}&borders={borders}&fill=uniform&amount=9")
                said = self.after("document.getElementById('stabilize').click()")
                self.assertRegex(said, r"^[\d,]+ firings in ", (lattice, borders))
                self.assertEqual(sum(self.chips()), 9 * 48)
                degree = {"square": 4, "triangular": 6, "hexagonal": 3}[lattice] + (borders == "all")
                self.assertLess(max(self.chips()[:-1]), degree)

    def test_a_game_is_saved_and_opened(self):
        with tempfile.TemporaryDirectory(prefix="chipfire-board-") as folder:
            self.browser.ask("Browser.setDownloadBehavior", behavior="allow", downloadPath=folder)
            self.open("rows=6&columns=4&lattice=hexagonal&borders=sides&fill=random&amount=5&seed=9")
            chips = self.chips()
            self.after("document.getElementById('save-game').click()")
            self.browser.value("document.getElementById('save-picture').click()")
            files = [f"{folder}/{it}" for it in ("graph.json", "chips.csv", "sandpile.png")]
            until = time.monotonic() + 20
            while not all(map(os.path.isfile, files)) or glob.glob(f"{folder}/*.crdownload"):
                self.assertLess(time.monotonic(), until, os.listdir(folder))
                time.sleep(0.05)
            with open(files[0], encoding="ascii") as file:
                graph = json.load(file)
            self.assertEqual([graph[it] for it in ("sink", "version", "vertices")], [24, 1, 25])
            self.open("rows=3&columns=3")
            node = self.browser.ask("Runtime.evaluate", expression="document.getElementById('files')")["result"]
            self.browser.ask("DOM.setFileInputFiles", files=files[:2], objectId=node["objectId"])
            self.browser.wait(f"{STATUS}.includes('6 by 4') && {IS_DONE}")
            self.assertEqual(self.chips(), chips)
            shown = self.browser.value("[board.rows, board.columns, board.lattice, board.borders]")
            self.assertEqual(shown, [6, 4, "hexagonal", "sides"])

    def test_an_address_has_the_board_again(self):
        self.open("rows=7&columns=9&fill=uniform&amount=1")
        self.browser.value("put(3, 40)")
        chips = self.chips()
        self.browser.value("copy()")
        address = self.browser.value("location.hash.slice(1)")
        self.open("rows=2&columns=2")
        self.open(address)
        self.assertEqual(self.chips(), chips)

    def test_a_long_play_is_stopped(self):
        self.open("rows=1024&columns=1024&fill=heap&amount=100000000")
        self.browser.value("stabilize(), 0")
        said = self.after("setTimeout(stop, 200)")
        self.assertIn("stopped, and the board is as it was before", said)
        self.assertEqual(sum(self.browser.value("[...chips].filter(Boolean)")), 100000000)
        self.open("rows=5&columns=5&fill=uniform&amount=4")
        self.assertRegex(self.after("stabilize()"), r"^[\d,]+ firings in ")

    def test_how_it_looks(self):
        """It fits a phone and a screen, in the light and in the dark, and its words can be read."""
        for name, size in SIZES.items():
            for theme in ("light", "dark"):
                self.browser.resize(*size)
                self.browser.media(theme)
                self.open("rows=101&columns=101&fill=heap&amount=20000")
                self.after("document.getElementById('stabilize').click()")
                self.after("document.getElementById('one').click()")
                self.assertTrue(self.browser.value("document.documentElement.scrollWidth <= innerWidth"))
                self.assertEqual(self.browser.value(FAINT), [], (name, theme))
                if PICTURES:
                    self.browser.picture(f"{PICTURES}/board-{name}-{theme}.png", whole=True)
        self.browser.media()
        self.browser.resize(*SIZES["screen"])


class Command(Room):
    """`python3 -m chipfire board`."""

    def started(self, program):
        words = [sys.executable, "-m", "chipfire", "board", "--no-browser", "--program", program]
        return library.run(*words, env={**os.environ, "PYTHONPATH": f"{ROOT}/python"})

    def test_it_says_where_the_page_is(self):
        os.makedirs(f"{self.room}/{contents.WEB}")
        page = f"{os.path.realpath(self.room)}/{contents.WEB}/{contents.BOARD}"
        for name in (page, f"{self.room}/chipfire"):
            with open(name, "w", encoding="ascii"):
                pass
        ran = self.started(f"{self.room}/chipfire")
        self.assertEqual((ran.returncode, ran.stdout, ran.stderr), (0, f"{page}\n", ""))
        os.chmod(page, 0o666)
        ran = self.started(f"{self.room}/chipfire")
        self.assertEqual((ran.returncode, ran.stdout), (1, ""))
        self.assertIn(" is not opened, since ", ran.stderr)

    def test_without_a_page_it_says_what_makes_one(self):
        ran = self.started(f"{self.room}/chipfire")
        self.assertEqual((ran.returncode, ran.stdout), (1, ""))
        self.assertIn("tools/webassembly.py and tools/board.py of the repository make it", ran.stderr)


if __name__ == "__main__":
    unittest.main()
