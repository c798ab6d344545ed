"""Pages of runs in a browser: what is shown after each event is what the program's books say, and the plain rules.

The books are the lines of `simulate --books`, taken from the program here and not from the package; chips, cells and
the rest come from `chipfire.model`. Where no Chromium is installed these tests are skipped. Where the environment
variable CHIPFIRE_PICTURES names a folder, pictures of the pages are left there to look at.
"""
import collections
import os
import random
import re
import subprocess
import tempfile
import unittest

import browser
import chipfire
from chipfire.lab.schedules import opened
from test_pages import DETECTOR, EXAMPLES, TRIANGLE, detector

#: Reads off the page what its tables and its drawing show.
SHOWN = """(() => {
    const text = (node) => node.firstChild && node.firstChild.nodeType === Node.TEXT_NODE ? node.firstChild.data : "";
    const rows = (kind) => [...document.querySelectorAll(`#${kind} tbody tr`)].map(
        (row) => [Number(row.id.split("-")[1]), [...row.querySelectorAll("td")].map(text)]);
    const drawn = (selector) => [...document.querySelectorAll(selector)];
    return {
        root: rows("root")[0][1],
        vertices: Object.fromEntries(rows("vertices")),
        edges: Object.fromEntries(rows("edges")),
        marked: drawn("td.changed").map((cell) => cell.closest("tr").id),
        chips: drawn(".vertex .chips").map((node) => node.textContent),
        engaged: drawn(".vertex.engaged").length,
        tree: drawn(".edge.parent").length,
        halted: drawn(".vertex.halted").length,
        sealed: drawn(".edge.sealed").length,
        messages: drawn(".message text").map((node) => node.textContent).sort(),
        claimed: drawn(".claimed").length,
        pending: drawn(".pending").length,
        unseen: drawn(".answer text").map((node) => node.textContent.replace(/\D+/, "")),
        rootNode: document.getElementById("root-node").textContent,
        event: document.getElementById("event").textContent,
        reply: document.getElementById("reply").textContent,
        selected: [...document.querySelectorAll("[aria-selected=true]")].map((row) => row.id),
        counter: document.getElementById("counter").textContent,
    };
})()"""
COUNTER = "document.getElementById('counter').textContent"
EVENT = "document.getElementById('event').textContent"
REPLY = "document.getElementById('reply').textContent"
PLAY = "document.getElementById('play').textContent"
END = "(({hidden, className, textContent}) => [hidden, className, textContent])(document.getElementById('end'))"
SCORE = "document.getElementById('score').textContent"
REASONS = "[...document.querySelectorAll('#reasons button')].map((it) => it.textContent)"
#: The labels, boxes and vertices of the drawing that lie on each other by more than a hair.
OVERLAPS = """(() => {
    const all = [...document.querySelectorAll("#drawing :is(.tag, .name, .number, .message, .claimed, .pending, .body)")];
    const boxes = all.map((it) => [it.textContent || it.tagName, it.getBoundingClientRect()]);
    const found = [];
    boxes.forEach(([one, a], i) => boxes.slice(0, i).forEach(([other, b]) => {
        const across = Math.min(a.right, b.right) - Math.max(a.left, b.left);
        const down = Math.min(a.bottom, b.bottom) - Math.max(a.top, b.top);
        if (across > 3 && down > 3) found.push(`${one} on ${other}`);
    }));
    return found;
})()"""
AT = "Number(document.getElementById('slider').value)"


def books_of(simulation):
    """The lines of the books after each reply, as the program writes them."""
    setting = simulation.setting
    with tempfile.TemporaryDirectory(prefix="chipfire-python-") as folder:
        setting.graph.write(f"{folder}/graph.json")
        chipfire.write_chips(f"{folder}/chips.csv", setting.graph, setting.chips)
        chipfire.write_schedule(f"{folder}/schedule.csv", simulation.schedule)
        words = [chipfire.find_program(), "simulate", "graph.json", "chips.csv", "schedule.csv", "--books"]
        words += [f"--limit={setting.limit}", f"--ring={setting.ring}", *(["--fed"] if setting.fed else [])]
        text = subprocess.run(words, cwd=folder, capture_output=True, encoding="utf-8").stdout
    books = []
    for line in text.splitlines():
        if not line.startswith(" "):
            books.append([])
        else:
            books[-1].append(line)
    return books[:len(simulation.schedule)]


def books_shown(shown, graph):
    """The same lines, from what the tables of the page show."""
    heads = [*(head for _, head, _ in graph.edges), *range(graph.vertices)]
    owes = {}
    for edge, cells in sorted((int(edge), cells) for edge, cells in shown["edges"].items()):
        if cells[5]:
            owes.setdefault(heads[edge], []).append(f" {edge}:{cells[5]}")
    lines = [f"  root deficit {shown['root'][0]}"]
    for vertex, (_, _, parent, deficit, _) in sorted((int(row), cells) for row, cells in shown["vertices"].items()):
        if parent:
            lines.append(f"  vertex {vertex} parent {parent.split()[1]} deficit {deficit} owes{''.join(owes[vertex])}")
    return lines


def vertices_by_plain_rules(core):
    """The rows of the table of vertices."""
    halts = {None: "", "sealed": "seal", "over": "limit"}
    return {
        str(number): [
            str(it.chips), str(it.fired), "" if it.parent is None else f"edge {it.parent}",
            str(core.deficit(core.outs(number))), halts[it.halt],
        ]
        for number, it in enumerate(core.vertices)
    }


def edge_by_plain_rules(edge):
    """A row of the table of edges."""
    def some(count):
        return str(count) if count else ""

    flags = ["yes" if flag else "" for flag in (edge.clear, edge.sealed, edge.refused)]
    cells = "; ".join(f"{place}: {edge.sent[place]}" for place in range(edge.delivered, edge.put))
    counts = [len(edge.sent), edge.delivered, some(edge.delivered - edge.acked), edge.acked, edge.settled]
    counts.append(some(edge.acked - edge.settled))
    return [some(edge.pending), some(sum(edge.sent[edge.put:])), cells, *map(str, counts), *flags]


@unittest.skipUnless(browser.found(), "no Chromium is installed: apt-get install chromium")
class InBrowser(unittest.TestCase):
    """A page in a browser."""

    @classmethod
    def setUpClass(cls):
        cls.browser = browser.Browser(browser.found())
        cls.addClassCleanup(cls.browser.close)
        room = tempfile.TemporaryDirectory(prefix="chipfire-python-")
        cls.addClassCleanup(room.cleanup)
        cls.folder = room.name

    def open(self, simulation, size=(1280, 720), is_phone=False):
        """Opens the page of a simulation, and returns the simulation that it shows."""
        run = chipfire.lab.pages.spelled_out(simulation)
        self.browser.resize(*size, is_phone)
        chipfire.page(simulation, f"{self.folder}/run.html")
        self.browser.go(f"file://{self.folder}/run.html")
        return run

    def picture(self, name):
        """Leaves a picture for somebody to look at, if one is wanted."""
        if os.environ.get("CHIPFIRE_PICTURES"):
            self.browser.picture(os.path.join(os.environ["CHIPFIRE_PICTURES"], f"{name}.png"))

    def shown(self, core, step):
        """What the page shows, once it is compared with the plain rules."""
        shown = self.browser.value(SHOWN)
        self.assertEqual(shown["vertices"], vertices_by_plain_rules(core))
        edges = {number: edge_by_plain_rules(core.edges[int(number)]) for number in shown["edges"]}
        self.assertEqual(shown["edges"], edges)
        unused = [number for number in range(len(core.edges)) if str(number) not in edges]
        self.assertTrue(all(number >= core.graph_edges and not core.edges[number].sent for number in unused))
        state = "closed" if core.is_closed() else "open"
        deficit = core.deficit(core.edges[core.graph_edges:])
        self.assertEqual(shown["root"], [str(deficit), "no" if core.ended else "perhaps", state])
        self.assertEqual(shown["rootNode"], f"root{state}" + (f"waits for {deficit}" if deficit else ""))
        self.compare_drawing(shown, core)
        self.assertEqual(shown["selected"], [f"event-{step}"])
        return shown

    def compare_drawing(self, shown, core):
        engaged = [vertex for vertex in core.vertices if vertex.parent is not None]
        self.assertEqual((shown["engaged"], shown["tree"]), (len(engaged), len(engaged)))
        self.assertEqual(sorted(shown["chips"]), sorted(str(vertex.chips) for vertex in core.vertices))
        self.assertEqual(shown["halted"], sum(vertex.halt is not None for vertex in core.vertices))
        self.assertEqual(shown["sealed"], sum(edge.sealed for edge in core.edges))
        messages = [str(chips) for edge in core.edges for chips in edge.sent[edge.delivered:edge.put]]
        self.assertEqual(shown["messages"], sorted(messages))
        self.assertEqual(shown["claimed"], sum(edge.put < len(edge.sent) for edge in core.edges))
        self.assertEqual(shown["pending"], sum(edge.pending > 0 for edge in core.edges))
        unseen = [str(edge.acked - edge.settled) for edge in core.edges if edge.acked > edge.settled]
        self.assertEqual(shown["unseen"], unseen)


class EachEvent(InBrowser):
    def test_the_schedules_of_the_examples(self):
        for name in DETECTOR:
            with self.subTest(name):
                run = self.open(detector(name))
                books, core = books_of(run), opened(run.setting)
                self.shown(core, 0)
                for step, (event, reply, lines) in enumerate(zip(run.schedule, run.replies, books), 1):
                    self.assertEqual(core.step(*event), str(reply))
                    self.browser.press("ArrowRight")
                    shown = self.shown(core, step)
                    self.assertEqual(books_shown(shown, run.setting.graph), lines)
                    self.assertEqual(shown["counter"], f"event {step} of {len(run.schedule)}")
                    self.assertEqual(bool(shown["marked"]), self.has_changed(event, reply))
                    if step == len(books) // 2:
                        self.picture(name)
                self.assertEqual(self.browser.complaints(), [])

    @staticmethod
    def has_changed(event, reply):
        """Whether an event changes something that a page shows, by its reply."""
        if event.kind in ("settle", "read"):
            return event.kind == "settle" and reply.numbers != (0,) and reply.is_done
        return reply.kind not in ("not-now", "empty", "full")

    def test_back_to_the_start(self):
        run = self.open(detector("deficit"))
        self.browser.press("End")
        self.assertEqual(self.browser.value(COUNTER), "event 32 of 32")
        cores = [opened(run.setting)]
        for count in range(1, 33):
            cores.append(opened(run.setting))
            for event in run.schedule[:count]:
                cores[-1].step(*event)
        for step in range(32, 0, -1):
            self.shown(cores[step], step)
            self.browser.press("ArrowLeft")
        self.shown(cores[0], 0)

    def test_a_recorded_run_on_a_grid(self):
        files = [f"{EXAMPLES}/grid/graph.json", f"{EXAMPLES}/grid/chips.csv"]
        chipfire.run(*files, workers=4, trace=f"{self.folder}/trace.csv", trace_rows=2**20)
        run = self.open(chipfire.recorded(*files, f"{self.folder}/trace.csv"), size=(1920, 1080))
        self.assertEqual(run.report, chipfire.Report.read(f"{EXAMPLES}/grid/report.json"))
        books, core, looked = books_of(run), opened(run.setting), range(0, len(run.schedule) + 1, 500)
        for step, event in enumerate(run.schedule, 1):
            core.step(*event)
            if step in looked or step == len(run.schedule):
                self.browser.value(f"goTo({step})")
                self.assertEqual(books_shown(self.shown(core, step), run.setting.graph), books[step - 1])
                if step == looked[len(looked) // 3]:
                    self.picture("grid")
        self.assertEqual(self.browser.complaints(), [])


class Controls(InBrowser):
    def at(self, step):
        self.assertEqual(self.browser.value(AT), step)
        self.assertEqual(self.browser.value(COUNTER), f"event {step} of 32")

    def test_keys(self):
        self.open(detector("deficit"))
        # The tree changes with the takes 1, 10, 13 and 25, with the acknowledgements 11, 26, 29 and 31, and at the end.
        for key, step in [("ArrowRight", 1), ("PageDown", 2), ("PageUp", 1), ("ArrowLeft", 0), ("ArrowLeft", 0),
                          ("End", 32), ("ArrowRight", 32), ("[", 31), ("[", 29), ("Home", 0), ("]", 1), ("]", 10),
                          ("]", 11), ("]", 13), ("]", 25), ("]", 26), ("[", 25)]:
            self.browser.press(key)
            self.at(step)

    def test_buttons_and_the_slider(self):
        self.open(detector("deficit"))
        for button, step in [("#forward", 1), ("#forward", 2), ("#back", 1), ("#last", 32), ("#first", 0)]:
            self.browser.click(button)
            self.at(step)
        self.browser.value("document.getElementById('slider').focus()")
        self.browser.press("ArrowRight")
        self.at(1)

    def test_a_click_in_the_list_goes_there(self):
        self.open(detector("deficit"))
        self.browser.click("#event-3")
        self.at(3)
        self.assertEqual(self.browser.value("document.getElementById('event').textContent.slice(0, 2)"), "3.")
        self.browser.value("document.getElementById('events').focus()")
        self.browser.press("ArrowDown")
        self.at(4)
        self.browser.press("ArrowUp")
        self.at(3)

    def test_the_list_shows_where_the_page_is(self):
        self.open(detector("deficit"))
        for step in (0, 20, 32, 5):
            self.browser.value(f"goTo({step})")
            inside = f"""(() => {{
                const list = document.getElementById("events").getBoundingClientRect();
                const row = document.getElementById("event-{step}").getBoundingClientRect();
                return row.top >= list.top - 1 && row.bottom <= list.bottom + 1;
            }})()"""
            self.assertTrue(self.browser.value(inside), step)

    def test_the_list_can_be_scrolled_through(self):
        self.open(detector("deficit"))
        self.browser.value("document.getElementById('events').scrollTop = 1e6")
        self.browser.wait("document.getElementById('event-32') !== null")
        self.at(0)
        self.browser.click("#event-31")
        self.at(31)

    def test_play_and_pause(self):
        self.open(detector("deficit"))
        self.browser.value("(() => { const pace = document.getElementById('pace'); pace.value = '40'; })()")
        self.browser.press(" ")
        self.browser.wait(f"{AT} >= 3")
        self.browser.press(" ")
        stopped = self.browser.value(AT)
        self.browser.value("new Promise((done) => setTimeout(done, 300))")
        self.at(stopped)
        self.browser.click("#play")
        self.browser.wait(f"{AT} === 32")
        self.assertEqual(self.browser.value("document.getElementById('play').textContent"), "Play")

    def test_space_plays_wherever_the_focus_is(self):
        self.open(detector("deficit"))
        for name in ("slider", "forward", "events", "predict"):
            self.browser.value(f"goTo(0); document.getElementById('{name}').focus()")
            self.browser.press(" ")
            self.assertEqual(self.browser.value(f"{PLAY} + {AT} + scrollY"), "Pause00", name)
            self.browser.press(" ")
            self.assertEqual(self.browser.value(PLAY), "Play", name)

    def test_the_keys_are_listed(self):
        self.open(detector("deficit"))
        for _ in range(2):
            self.browser.press("?")
            self.assertTrue(self.browser.value("document.getElementById('keys').open"))
            self.browser.press("ArrowRight")
            self.at(0)
            self.browser.press("?")
            self.assertFalse(self.browser.value("document.getElementById('keys').open"))
        said = self.browser.value("[...document.querySelectorAll('#keys th')].map((it) => it.textContent).join(' ')")
        for key in ("page down", "space bar", "[ and ]", "p", "y, n", "s", "d", "?"):
            self.assertIn(key, said)

    def test_whole_sends(self):
        # 32 events with four sends of three, of which the first ends with event 5.
        self.open(detector("deficit"))
        self.browser.press("s")
        for step in (1, 2, 5, 8, 9):
            self.browser.press("ArrowRight")
            self.at(step)
            if step == 5:
                self.assertEqual(self.browser.value(EVENT), "5. Vertex 0 sends 2 chips to vertex 1 (edge 0).")
                changed = self.browser.value("[...document.querySelectorAll('#changes li')].map((it) => it.textContent)")
                self.assertIn("edge 0: 1 message sent", changed)
                self.assertIn("edge 0: 2 chips at place 0 in its cells", changed)
        self.browser.press("ArrowLeft")
        self.at(8)
        self.assertEqual(self.browser.value("stops.length"), 32 - 4 * 2 + 1)
        self.browser.press("s")
        self.browser.press("ArrowLeft")
        self.at(7)

    def test_an_address_with_an_event(self):
        self.open(detector("deficit"))
        self.browser.go(f"file://{self.folder}/run.html#7")
        self.at(7)


class Choices(InBrowser):
    """Pages on which one picks each event."""

    #: What the page says now: the events that may happen, the last event with its reply, and the verdict.
    NOW = """(() => ({
        possible: [...document.querySelectorAll("#possible button")].map((it) => it.textContent),
        picked: [...document.querySelectorAll("#possible button")].findIndex((it) => it.ariaPressed === "true"),
        event: document.getElementById("event").textContent, reply: document.getElementById("reply").textContent,
        end: document.getElementById("end").textContent,
    }))()"""

    def open(self, name, **options):
        self.browser.resize(1280, 900)
        chipfire.choice_page(name, f"{self.folder}/choices.html", **options)
        self.browser.go(f"file://{self.folder}/choices.html")

    @staticmethod
    def events_of(event):
        """What one pick is: a send is three events."""
        kinds = ("clear", "claim", "put") if event[0] == "clear" else (event[0],)
        return [chipfire.Event(kind, event[1], event[2]) for kind in kinds]

    def possible(self, core, words):
        """What may happen, in words."""
        for kind, at, count in core.enabled():
            if kind == "clear":
                yield words.send(chipfire.Event("put", at), core.edges[at].pending)
            else:
                yield words.event(chipfire.Event(kind, at, count))

    def pick(self, core, words, place, done):
        """Picks an event, and compares what the page says with the model."""
        before = self.browser.value(self.NOW)
        said = list(self.possible(core, words))
        self.assertEqual(before["possible"], said)
        events = self.events_of(core.enabled()[place])
        made = self.browser.value(f"document.querySelectorAll('#possible button')[{place}].click(), {self.NOW}")
        *_, reply = [core.step(*event) for event in events]
        kind, *numbers = reply.split()
        reply = words.reply(events[-1], chipfire.Reply(kind, tuple(map(int, numbers))))
        self.assertEqual((made["event"], made["reply"]), (f"{done + len(events)}. {said[place]}", reply))
        return done + len(events)

    def test_random_paths(self):
        ways, found = set(), collections.Counter()
        for name, paths in [("right", 30), ("without-deficit", 10), ("at-once", 10)]:
            setting = chipfire.Setting(TRIANGLE, (4 if name == "right" else 3, 0, 0))
            self.open(name, setting=setting)
            words = chipfire.lab.sentences.Sentences(setting.graph)
            for seed in range(paths):
                self.browser.value("leap(0)")
                draw, core, done, picks = random.Random(f"{name} {seed}"), opened(setting, name), 0, []
                early = []
                while core.enabled():
                    picks.append(draw.randrange(len(core.enabled())))
                    done = self.pick(core, words, picks[-1], done)
                    early += [done] * chipfire.lab.schedules.is_early(core)
                now = self.browser.value(self.NOW)
                self.assertEqual((now["possible"], self.browser.value("at")), ([], done))
                end = "The root is closed: all is over." if core.is_closed() else "The root is open, and nothing can happen any more."
                self.assertEqual(now["end"], f"The root was closed too early, after event {early[0]}." if early else end)
                found[name, bool(early)] += 1
                self.shown(core, done)
                ways.add((name, *picks))
            self.assertEqual(self.browser.complaints(), [])
        self.assertEqual((len(ways), found["right", True]), (50, 0))
        self.assertGreater(min(found["without-deficit", True], found["without-deficit", False]), 0, found)

    def test_what_was_possible_before_is_shown_and_can_be_picked_instead(self):
        self.open("right")
        for key in "121":
            self.browser.press(key)
        self.assertEqual(self.browser.value("at"), 5)
        self.browser.press("ArrowLeft")
        self.assertEqual(self.browser.value(AT), 2)
        now = self.browser.value(self.NOW)
        self.assertEqual((now["possible"], now["picked"]), (["Vertex 0 sends 2 chips to vertex 1 (edge 0).",
                                                             "Vertex 0 sends 2 chips to the sink 2 (edge 1)."], 0))
        self.picture("choices")
        self.browser.click("#possible li:nth-child(2) button")
        self.assertEqual(self.browser.value(EVENT), "5. Vertex 0 sends 2 chips to the sink 2 (edge 1).")
        self.browser.press("ArrowLeft")
        self.assertEqual(self.browser.value(self.NOW)["picked"], 1)
        self.browser.press("ArrowRight")
        self.assertEqual(self.browser.value("[AT, last]".replace("AT", AT)), [5, 5])
        # (the slider stands at starts and ends of sends alone)
        self.assertEqual(self.browser.value("[leap(4), at, leap(3), at]"), [None, 2, None, 5])
        self.browser.value("document.querySelector('#possible button').focus(); document.activeElement.click()")
        self.assertEqual(self.browser.value("document.activeElement.closest('#possible') !== null"), True)

    def test_a_root_that_is_closed_too_early(self):
        self.open("at-once", setting=chipfire.Setting(TRIANGLE, (3, 0, 0)))
        for said in ("Vertex 0 takes", "Vertex 0 acknowledges", "The root reads"):
            self.browser.value(f"[...document.querySelectorAll('#possible button')].find("
                               f"(it) => it.textContent.startsWith('{said}')).click()")
        self.assertEqual(self.browser.value(END), [False, "wrong", "The root is closed; vertex 0 can still fire."])
        self.assertEqual(self.browser.value(self.NOW)["possible"], ["Vertex 0 fires once."])
        # (it stays so, and before it was closed nothing is said)
        while self.browser.value(self.NOW)["possible"]:
            self.browser.press("1")
        self.assertEqual(self.browser.value(END), [False, "wrong", "The root was closed too early, after event 3."])
        self.assertEqual(self.browser.value(f"[leap(2), ...{END}]")[1:], [True, "", ""])
        self.assertEqual(self.browser.value(f"[leap(3), ...{END}]")[3], "The root is closed; vertex 0 can still fire.")
        # (and is forgotten if another way is picked before it)
        self.browser.value("leap(1)")
        self.browser.press("2")
        self.assertEqual(self.browser.value(END), [True, "", ""])


class Screens(InBrowser):
    """The page on a projector and a phone, and by those who see few differences of colours."""

    SIZES = {"projector": ((1024, 768), False), "wide": ((1920, 1080), False), "phone": ((375, 812), True)}

    def test_nothing_sticks_out(self):
        for name in DETECTOR:
            for screen, (size, is_phone) in self.SIZES.items():
                with self.subTest(name, screen=screen):
                    self.open(detector(name), size, is_phone)
                    self.browser.value("goTo(11)")
                    width = self.browser.value("document.documentElement.scrollWidth")
                    self.assertLessEqual(width, size[0])
                    bottom = self.browser.value("document.getElementById('drawing').getBoundingClientRect().bottom")
                    self.assertLessEqual(bottom, size[1])
                    if name == "deficit":
                        self.picture(screen)

    def test_a_wide_table_can_be_scrolled_on_a_phone(self):
        self.open(detector("deficit"), *self.SIZES["phone"])
        moved = """(() => {
            const room = document.getElementById("edges").parentElement;
            room.scrollIntoView();
            room.style.contentVisibility = "visible";
            const place = document.getElementById("edges").getBoundingClientRect().left;
            room.scrollLeft = 60;
            return place - document.getElementById("edges").getBoundingClientRect().left;
        })()"""
        self.assertEqual(self.browser.value(moved), 60)
        style = "getComputedStyle(document.getElementById('edges').parentElement).overflowX"
        self.assertEqual(self.browser.value(style), "auto")

    def test_all_controls_are_reached_by_the_keyboard(self):
        self.open(detector("deficit"))
        self.browser.press("ArrowRight")
        reached = []
        for _ in range(15):
            self.browser.press("Tab")
            reached.append(self.browser.value("document.activeElement.id"))
        self.assertEqual(
            [name for name in reached if name],
            ["first", "back", "play", "forward", "last", "pace", "slider", "predict", "coarse", "view", "tree-back",
             "tree-on", "help", "events"],
        )

    def test_the_address_names_a_whole_event(self):
        self.open(detector("deficit"))
        self.browser.go(f"file://{self.folder}/run.html#9.7")
        self.assertEqual(self.browser.value(COUNTER), "event 9 of 32")

    def test_tables_and_controls_have_names(self):
        self.open(detector("deficit"))
        self.browser.press("p")
        self.browser.press("ArrowRight")
        roles = ("button", "table", "slider", "listbox", "combobox", "image", "toolbar", "region")
        named = [(role, name) for role, name in self.browser.names() if role in roles]
        self.assertEqual([it for it in named if not re.search("[A-Za-z]{2}", it[1])], [])
        self.assertLessEqual({("table", "Root"), ("table", "Vertices"), ("table", "Edges"), ("button", "To the start"),
                              ("button", "To the end"), ("button", "All keys")}, {*named})


class Legible(InBrowser):
    """The pages of a lecture, on a projector, on a low screen and on a phone, in the light, in the dark and in forced
    colours."""

    SIZES = {"large": ((1400, 900), False), "low": ((1366, 600), False), "phone": ((390, 844), True)}
    THEMES = {"light": {}, "dark": {"theme": "dark"}, "forced": {"forced": "active"}}
    RUNS = ("small-run", "engaged-twice", "deficit")
    WRONG = ("at-once", "without-deficit")
    #: The least height of the letters that are drawn, and of all others.
    LETTERS = """(() => {
        const seen = [...document.querySelectorAll("svg text")].filter((it) => it.textContent && it.checkVisibility());
        const drawn = seen.map((it) => parseFloat(getComputedStyle(it).fontSize) * Math.abs(it.getScreenCTM().a));
        const others = [...document.querySelectorAll("main *, header *")].filter((it) => !it.closest("svg"));
        return [Math.min(...drawn), Math.min(...others.map((it) => parseFloat(getComputedStyle(it).fontSize)))];
    })()"""
    #: The contrast of each text to what lies under it, if it is below 4.5.
    FAINT = """(() => {
        const canvas = new OffscreenCanvas(1, 1).getContext("2d", { willReadFrequently: true });
        const light = (colour) => {
            canvas.fillStyle = colour;
            canvas.fillRect(0, 0, 1, 1);
            const [r, g, b] = [...canvas.getImageData(0, 0, 1, 1).data].map((it) => it / 255).map(
                (it) => (it <= 0.04045 ? it / 12.92 : ((it + 0.055) / 1.055) ** 2.4));
            return 0.2126 * r + 0.7152 * g + 0.0722 * b;
        };
        const shown = (colour) => colour && colour !== "none" && !/^rgba.*, 0\\)$/.test(colour);
        const under = (it) => {
            const group = it.closest("svg") && it.parentElement.tagName === "g" ? it.parentElement : null;
            const shape = group && (group.querySelector(":scope > .body") ?? group.querySelector(":scope > rect"));
            if (shape && !it.classList.contains("number") && !/name|halt|deficit/.test(it.getAttribute("class"))) {
                const { fill } = getComputedStyle(shape);
                if (shown(fill)) return fill;
            }
            for (let node = it; node; node = node.parentElement) {
                const { backgroundColor } = getComputedStyle(node);
                if (shown(backgroundColor)) return backgroundColor;
            }
            return "white";
        };
        const own = (it) => [...it.childNodes].some((node) => node.nodeType === Node.TEXT_NODE && node.data.trim());
        const all = [...document.querySelectorAll("header *, main *")].filter(
            (it) => own(it) && it.checkVisibility() && !it.disabled && !it.closest(".later, option, title"));
        return all.map((it) => {
            const style = getComputedStyle(it);
            const [a, b] = [light(it.closest("svg") ? style.fill : style.color), light(under(it))].sort((a, b) => b - a);
            return [it.textContent, it.getAttribute("class"), Math.round(10 * (a + 0.05) / (b + 0.05)) / 10];
        }).filter(([, , contrast]) => contrast < 4.5);
    })()"""

    def tearDown(self):
        self.browser.media()

    def pages(self, wrong=True):
        """Opens each page of the lecture on each screen."""
        for screen, (size, is_phone) in self.SIZES.items():
            for name in self.RUNS + self.WRONG * wrong:
                if name in self.RUNS:
                    self.open(detector(name), size, is_phone)
                else:
                    self.browser.resize(*size, is_phone=is_phone)
                    chipfire.wrong_page(name, f"{self.folder}/run.html")
                    self.browser.go(f"file://{self.folder}/run.html")
                yield screen, name

    def test_all_letters_can_be_read(self):
        for screen, name in self.pages():
            for step in (0, 3, 9, 14, 99):
                self.browser.value(f"goTo({step})")
                drawn, others = self.browser.value(self.LETTERS)
                self.assertGreaterEqual(drawn, 9, (screen, name, step))
                self.assertGreaterEqual(others, 12, (screen, name, step))
            width = self.browser.value("[document.documentElement.scrollWidth, innerWidth]")
            self.assertLessEqual(width[0], width[1])
            self.picture(f"{name}-{screen}")
            self.browser.press("d")
            self.assertGreaterEqual(self.browser.value(self.LETTERS)[0], 9, (screen, name))
            self.assertEqual(self.browser.complaints(), [])

    def test_no_label_lies_on_another(self):
        for screen, name in self.pages():
            for step in range(self.browser.value("last") + 1):
                self.browser.value(f"goTo({step})")
                self.assertEqual(self.browser.value(OVERLAPS), [], (screen, name, step))

    def test_contrast(self):
        for theme, media in self.THEMES.items():
            for name in ("deficit", "without-deficit", "grid"):
                with self.subTest(theme=theme, name=name):
                    self.browser.media(**media)
                    self.browser.resize(1400, 900)
                    if name == "without-deficit":
                        chipfire.wrong_page(name, f"{self.folder}/run.html")
                        self.browser.go(f"file://{self.folder}/run.html")
                    else:
                        grid = chipfire.simulate(chipfire.grid(4, 4), {5: 20}, [], rounds=9)
                        self.open(detector(name) if name == "deficit" else grid, (1400, 900))
                    for step in (9, 99):
                        self.browser.value(f"goTo({step})")
                        self.assertEqual(self.browser.value(self.FAINT), [])
                        self.picture(f"{name}-{theme}-{step}")
                    self.browser.press("d")
                    self.assertEqual(self.browser.value(self.FAINT), [])
                    self.picture(f"{name}-{theme}-diagram")

    def test_the_focus_is_seen(self):
        for theme, media in self.THEMES.items():
            self.browser.media(**media)
            self.open(detector("deficit"), (1400, 900))
            reached = set()
            for _ in range(15):
                self.browser.press("Tab")
                name, style, width = self.browser.value(
                    "(({id}, {outlineStyle, outlineWidth}) => [id, outlineStyle, parseFloat(outlineWidth)])"
                    "(document.activeElement, getComputedStyle(document.activeElement))")
                reached.add(name)
                if name:
                    self.assertEqual((style, width >= 2), ("solid", True), (theme, name))
            self.assertGreaterEqual(len(reached), 12)

    def test_what_is_pressed_or_selected_is_seen_in_each_theme(self):
        colours = "[...document.querySelectorAll('#predict, #coarse, #event-3, #event-2')].map(" \
                  "(it) => getComputedStyle(it).backgroundColor)"
        for theme, media in self.THEMES.items():
            self.browser.media(**media)
            self.open(detector("deficit"), (1400, 900))
            self.browser.value("goTo(3)")
            self.browser.press("p")
            pressed, other, *rows = self.browser.value(colours)
            self.assertNotEqual(pressed, other, theme)
            self.assertNotEqual(*rows, theme)

    def test_colours_differ_in_light_alone(self):
        # Relative luminance and contrast, as the WCAG define them; 3 is what they ask of what is no text.
        for theme in ("light", "dark"):
            self.browser.media(theme)
            self.open(detector("deficit"))
            names = self.browser.value(
                "['--paper', '--engaged', '--changed', '--ink', '--band'].map("
                "(name) => getComputedStyle(document.documentElement).getPropertyValue(name).trim())"
            )
            paper, engaged, changed, ink, band = map(luminance, names)
            for one, other in [(paper, engaged), (paper, changed), (changed, engaged), (paper, ink), (paper, band)]:
                self.assertGreaterEqual((max(one, other) + 0.05) / (min(one, other) + 0.05), 3)

    def test_both_detectors_are_seen_by_a_swipe(self):
        self.browser.resize(390, 844, is_phone=True)
        chipfire.wrong_page("at-once", f"{self.folder}/wrong.html")
        self.browser.go(f"file://{self.folder}/wrong.html#2")
        sides = "['drawing', 'drawing-beside'].map((name) => document.getElementById(name).getBoundingClientRect())" \
                ".map(({left, right, top, bottom}) => left >= 0 && right <= innerWidth && top >= 0 && bottom <= innerHeight)"
        self.assertEqual(self.browser.value(sides), [True, False])
        self.browser.value("document.getElementById('pair').scrollLeft = 400")
        self.assertEqual(self.browser.value(sides), [False, True])

    def test_no_line_leads_through_a_vertex(self):
        through = """(() => {
            const found = [];
            for (const [edge, { group }] of drawings[0].edges) {
                const line = group.querySelector(".line");
                const points = [...Array(60).keys()].map((i) => line.getPointAtLength((line.getTotalLength() * i) / 59));
                run.names.forEach((name, vertex) => {
                    if (run.edges[edge].slice(0, 2).includes(vertex) || isFramed(vertex)) return;
                    const { x, y } = placeOf(vertex);
                    if (points.some((it) => Math.hypot(it.x - x, it.y - y) < radius)) found.push([edge, name]);
                });
            }
            return found;
        })()"""
        over = """[...document.querySelectorAll("#drawing :is(.message, .claimed, .pending, .tag)")].filter((it) => {
            const a = it.getBoundingClientRect();
            return [...document.querySelectorAll("#drawing .vertex .chips")].some((node) => {
                const b = node.getBoundingClientRect();
                return Math.min(a.right, b.right) > Math.max(a.left, b.left) + 1
                    && Math.min(a.bottom, b.bottom) > Math.max(a.top, b.top) + 1;
            });
        }).length"""
        for graph in (chipfire.complete(6), chipfire.complete(7), chipfire.wheel(9), chipfire.torus(4, 4), chipfire.cycle(15)):
            run = self.open(chipfire.simulate(graph, {1: 4 * len(graph.edges) // 3}, [], rounds=9, limit=2), (1400, 900))
            self.assertGreater(len(graph.edges), 20)
            self.assertEqual(self.browser.value(through), [])
            for step in range(0, len(run.schedule), 1 + len(run.schedule) // 40):
                self.browser.value(f"goTo({step})")
                self.assertEqual(self.browser.value(over), 0, step)
            self.picture(f"lines-{len(graph.edges)}")

    def test_a_band_ends_now(self):
        self.open(detector("deficit"), (1400, 900))
        self.browser.press("d")
        bands = "[...document.querySelectorAll('.band:not(.later)')].map((it) => it.getBoundingClientRect().bottom)"
        now = "document.querySelector('.now').getBoundingClientRect().bottom"
        for step in range(1, 33):
            self.browser.value(f"goTo({step})")
            self.assertTrue(all(bottom <= self.browser.value(now) + 1 for bottom in self.browser.value(bands)), step)

    def test_messages_that_are_not_taken_are_seen_in_the_diagram(self):
        chipfire.wrong_page("without-deficit", f"{self.folder}/wrong.html")
        self.browser.resize(1400, 900)
        self.browser.go(f"file://{self.folder}/wrong.html#10")
        self.browser.press("d")
        self.assertTrue(self.browser.value("document.getElementById('reply-beside').checkVisibility()"))
        boxes = "[...document.querySelectorAll('#diagram .flight')].map((it) => [it.textContent, it.getBBox().height > 20])"
        self.assertEqual(self.browser.value(boxes), [["2", True], ["2", True]])
        for step, count in [(0, 1), (1, 0), (5, 1), (8, 2)]:
            self.browser.value(f"goTo({step})")
            self.assertEqual(len(self.browser.value(boxes)), count, step)

    def test_the_diagram_of_a_large_graph_shows_the_parts_of_the_window(self):
        run = self.open(chipfire.simulate(chipfire.grid(8, 8), {27: 40}, [], rounds=100), (1400, 900))
        self.browser.press("d")
        parts = "[...document.querySelectorAll('#diagram .life')].length"
        for step in range(0, len(run.schedule), 40):
            self.browser.value(f"goTo({step})")
            self.assertLessEqual(self.browser.value(parts), 20)
            self.assertGreaterEqual(self.browser.value(self.LETTERS)[0], 9, step)
            self.assertTrue(self.browser.value("document.querySelectorAll('.dot').length > 5"))


class Lessons(InBrowser):
    """What a class does with a page."""

    def says(self, *wanted):
        """Compares the event, the reply, the score and where the page is."""
        self.assertEqual(tuple(map(self.browser.value, (EVENT, REPLY, SCORE, AT))), wanted)

    def test_predicting(self):
        self.open(detector("deficit"))
        self.browser.press("p")
        self.browser.press("ArrowRight")
        asked = "1. Is there a message from the root that vertex 0 can take (edge 4)?"
        self.says(asked, "", "Right: 0 of 0; forbidden: 0 of 0; why: 0 of 0", 0)
        self.browser.press("y")
        self.says("1. Vertex 0 takes the next message from the root (edge 4).",
                  "Right: there is one. Got the message with place 0: 4 chips.",
                  "Right: 1 of 1; forbidden: 0 of 0; why: 0 of 0", 1)
        self.browser.value("goTo(8)")
        self.assertFalse(self.browser.value("document.getElementById('event-9') !== null"))
        self.browser.press("PageDown")
        self.assertEqual(self.browser.value(EVENT), "9. May vertex 0 acknowledge to the root (edge 4)?")
        self.picture("predict")
        self.browser.click("#yes")
        self.says("9. May vertex 0 acknowledge to the root (edge 4)?", "Wrong: it may not. Why?",
                  "Right: 1 of 2; forbidden: 0 of 1; why: 0 of 0", 8)
        self.assertEqual(self.browser.value(REASONS), ["it is not passive (1)", "it waits for acknowledgements (2)",
                                                       "it owes one on another edge (3)", "it owes nothing on this edge (4)"])
        self.picture("why")
        self.browser.press("2")
        refused = ("Refused, by rule 15: it still waits for 2 acknowledgements (from vertex 1 and the sink 2). "
                   "Nothing was done.")
        score = "Right: 1 of 2; forbidden: 0 of 1; why: 1 of 1"
        event = "9. Vertex 0 tries to acknowledge to the root (edge 4)."
        self.says(event, f"Right: it waits for acknowledgements. {refused}", score, 9)
        # Whoever asks once more goes on without an answer; a second answer to the same event does not count.
        self.browser.press("ArrowRight")
        self.browser.press("ArrowRight")
        self.assertEqual(self.browser.value(f"{SCORE} + {AT}"), f"{score}10")
        self.browser.value("goTo(8)")
        for key in ("ArrowRight", "n", "1"):
            self.browser.press(key)
        self.says(event, f"Wrong: it waits for acknowledgements. {refused}", score, 9)
        self.browser.press("r")
        self.assertEqual(self.browser.value(SCORE), "Right: 0 of 0; forbidden: 0 of 0; why: 0 of 0")
        self.browser.press("p")
        self.browser.wait("document.getElementById('event-10') !== null")
        hidden = "['score', 'acks', 'reset', 'answers', 'reasons'].every((name) => document.getElementById(name).hidden)"
        self.assertTrue(self.browser.value(hidden))
        self.assertEqual(self.browser.complaints(), [])

    def test_predicting_acknowledgements_alone(self):
        run = self.open(detector("deficit"))
        self.browser.press("p")
        self.browser.press("a")
        asked = []
        for _ in range(2 * len(run.schedule)):
            self.browser.press("ArrowRight")
            asked.append(self.browser.value("asked"))
        acks = [step for step, event in enumerate(run.schedule, 1) if event.kind == "ack"]
        self.assertEqual([step for step in asked if step], acks)

    def test_predicting_what_a_wrong_detector_does(self):
        # The question is what the rule allows, and the answer that it does not is right, whatever this detector does.
        chipfire.wrong_page("at-once", f"{self.folder}/wrong.html")
        for key, said in [("n", "Right"), ("y", "Wrong")]:
            self.browser.go(f"file://{self.folder}/wrong.html#1")
            self.browser.press("p")
            self.browser.press("ArrowRight")
            self.assertEqual(self.browser.value(EVENT), "2. May vertex 0 acknowledge to the root (edge 4)?")
            self.browser.press(key)
            self.assertEqual(self.browser.value(REPLY), f"{said}: it may not. Why?")
            self.browser.press("1")
            self.assertEqual(self.browser.value(REPLY), "Right: it is not passive. This detector does it all the same. "
                                                        "Done: 1 message acknowledged.")
            count = int(said == "Right")
            score = f"Right: {count} of 1; forbidden: {count} of 1; why: 1 of 1"
            self.assertEqual(self.browser.value(SCORE), score)

    def test_the_focus_stays_on_a_control(self):
        self.open(detector("deficit"))
        self.browser.value("goTo(8)")
        self.browser.press("p")
        self.browser.press("ArrowRight")
        for button, left in [("document.getElementById('no')", "it is not passive (1)"),
                             ("document.querySelector('#reasons button')", "Forward\u00a0>")]:
            self.browser.value(f"{button}.focus(); document.activeElement.click()")
            self.assertEqual(self.browser.value("document.activeElement.textContent"), left)

    def test_playing_stops_at_a_question(self):
        self.open(detector("deficit"))
        self.browser.value("document.getElementById('pace').value = '40'")
        self.browser.press("p")
        self.browser.press(" ")
        self.browser.wait("asked === 1 && playing === null")

    def test_the_end_is_said_in_large_letters(self):
        for name, said in [("deficit", "The root is closed: all is over."),
                           ("left-open", "The root is open: it waits for 1 acknowledgement.")]:
            self.open(detector(name))
            self.assertEqual(self.browser.value(END)[0], True)
            self.browser.press("End")
            self.assertEqual(self.browser.value(END), [False, "", said])
            size = "parseFloat(getComputedStyle(document.getElementById('{}')).fontSize)"
            self.assertGreater(self.browser.value(size.format("end")), 1.3 * self.browser.value(size.format("event")))

    def test_the_pages_of_wrong_detectors(self):
        steps = {"at-once": 3, "without-passive": 3, "without-deficit": 10, "one-edge": 3}
        left = {"at-once": "vertex 0 can still fire", "without-passive": "vertex 0 can still fire",
                "without-deficit": "edge 0 has 1 message and edge 1 has 1 message", "one-edge": "edge 5 has 1 message"}
        for name, count in steps.items():
            for size, is_phone in ((1024, 768), False), ((375, 812), True):
                with self.subTest(name, size=size):
                    self.browser.resize(*size, is_phone=is_phone)
                    chipfire.wrong_page(name, f"{self.folder}/wrong.html")
                    self.browser.go(f"file://{self.folder}/wrong.html")
                    for _ in range(count):
                        self.assertEqual(self.browser.value(END)[0], True)
                        self.browser.press("ArrowRight")
                    self.assertEqual(self.browser.value(END), [False, "wrong", f"The root is closed; {left[name]}."])
                    red = "getComputedStyle(document.getElementById('end')).color"
                    self.assertEqual(self.browser.value(red), "rgb(176, 0, 32)")
                    nodes = "[...document.querySelectorAll('#root-node, #root-beside')].map((it) => it.textContent)"
                    right = "rootclosed" if name == "nobody" else "rootopenwaits for 1"
                    wrong = "rootclosed" + ("waits for 1" if name == "one-edge" else "")
                    self.assertEqual(self.browser.value(nodes), [wrong, right])
                    self.assertLessEqual(self.browser.value("document.documentElement.scrollWidth"), size[0])
                    self.picture(f"wrong-{name}-{size[0]}")
                    self.assertEqual(self.browser.complaints(), [])

    def test_the_first_other_reply_is_marked(self):
        chipfire.wrong_page("without-deficit", f"{self.folder}/wrong.html")
        self.browser.go(f"file://{self.folder}/wrong.html")
        marked = []
        for step in range(1, 11):
            self.browser.press("ArrowRight")
            if self.browser.value("document.getElementById('reply-beside').className") == "differs":
                marked.append((step, self.browser.value("document.getElementById('reply-beside').textContent")))
        self.assertEqual(marked, [(9, "Refused, by rule 15: it still waits for 2 acknowledgements (from vertex 1 and the "
                                      "sink 2). Nothing was done.")])

    def test_the_space_time_diagram(self):
        run = self.open(detector("deficit"))
        self.browser.press("d")
        for step in (0, 14, 32):
            self.browser.value(f"goTo({step})")
            seen = "['drawing', 'diagram'].map((name) => document.getElementById(name).checkVisibility())"
            self.assertEqual(self.browser.value(seen), [False, True])
            self.picture(f"diagram-{step}")
        # All messages, acknowledgements and spells of engagement, found once more from the replies.
        story = self.browser.value("story")
        core, messages, acks, bands, engaged = opened(run.setting), [[4, 0, 1]], [], [], {}
        cells, given = {4: [messages[0]]}, {}
        for step, event in enumerate(run.schedule, 1):
            before = [vertex.parent for vertex in core.vertices]
            reply = core.step(*event)
            if event.kind == "put":
                messages.append([event.at, step, None])
                cells.setdefault(event.at, []).append(messages[-1])
            elif event.kind == "take" and reply.startswith("got"):
                cells[event.at].pop(0)[2] = step
            elif event.kind == "ack" and reply.startswith("done"):
                acks.append([event.at, step, None])
                given.setdefault(event.at, []).append(acks[-1])
            elif event.kind == "settle":
                for ack in given.pop(event.at, []):
                    ack[2] = step
            for vertex, was in enumerate(before):
                now = core.vertices[vertex].parent
                if was is None and now is not None:
                    engaged[vertex] = [vertex, step, None]
                    bands.append(engaged[vertex])
                elif was is not None and now is None:
                    engaged[vertex][2] = step
        for kind, key, wanted in [("messages", "edge", messages), ("answers", "edge", acks), ("bands", "vertex", bands)]:
            self.assertEqual([[it[key], it["from"], it.get("to")] for it in story[kind]], wanted)
        self.browser.value("goTo(31)")
        self.browser.value("document.querySelector('[data-step=\"29\"]').dispatchEvent(new Event('click', {bubbles: true}))")
        self.assertEqual(self.browser.value(AT), 29)
        self.assertEqual(self.browser.complaints(), [])

    def test_a_vertex_can_be_dragged(self):
        before = chipfire.lab.layout.places_of(chipfire.Graph.read(f"{EXAMPLES}/triangle/graph.json"), [0]).vertices
        place = "(() => {{ const box = document.querySelector('{}').getBoundingClientRect(); " \
                "return [box.x + box.width / 2, box.y + box.height / 2]; }})()".format('[data-vertex="1"] .body')
        for size, is_turned in [((1400, 900), False), ((1366, 600), True)]:
            self.open(detector("deficit"), size)
            self.assertEqual(self.browser.value("isTurned"), is_turned)
            x, y = self.browser.value(place)
            for kind, right in [("mousePressed", 0), ("mouseMoved", 40), ("mouseMoved", 80), ("mouseReleased", 80)]:
                where = {"x": x + right, "y": y - right}
                self.browser.ask("Input.dispatchMouseEvent", type=kind, button="left", clickCount=1, **where)
            rows = self.browser.value("document.getElementById('positions').textContent").splitlines()
            self.assertEqual(rows[0], "vertex,right,down")
            places = [tuple(map(float, row.split(",")[1:])) for row in rows[1:]]
            # (a drawing on its side has to the right what is down)
            self.assertGreater(places[1][is_turned], before[1][is_turned] + 0.2)
            self.assertLess(places[1][not is_turned], before[1][not is_turned] - 0.2)
            for vertex in (0, 2):
                self.assertAlmostEqual(places[vertex][0], before[vertex][0], places=2)
            self.browser.press("ArrowRight")
            self.assertEqual(self.browser.value(AT), 1)
            self.picture("dragged")
            self.assertEqual(self.browser.complaints(), [])

    def test_notes_are_shown_at_their_event(self):
        graph, chips, _ = DETECTOR["deficit"]
        events = chipfire.Schedule().take(4).note("Four chips come.").fire(0, 2)
        self.open(chipfire.simulate(f"{EXAMPLES}/{graph}", f"{EXAMPLES}/{chips}", events))
        self.browser.press("ArrowRight")
        self.assertEqual(self.browser.value("document.getElementById('note').textContent"), "Four chips come.")
        self.assertIn("Four chips come.", self.browser.value("document.getElementById('event-1').textContent"))
        self.browser.press("ArrowRight")
        self.assertEqual(self.browser.value("document.getElementById('note').textContent"), "")

    def test_no_label_lies_on_another(self):
        names = chipfire.Graph(4, 3, [(0, 1), (0, 2), (1, 2), (2, 0), (1, 3), (2, 3)], ["Ann", "Bob", "Cy", "sink"])
        runs = {name: detector(name) for name in DETECTOR}
        runs["cycle"] = chipfire.simulate(chipfire.cycle(6), {2: 3, 4: 2}, [], rounds=100)
        runs["names"] = chipfire.simulate(names, {"Ann": 6, "Bob": 3}, [], rounds=100)
        for name, simulation in runs.items():
            run = self.open(simulation, size=(1280, 900))
            for step in range(len(run.schedule) + 1):
                self.browser.value(f"goTo({step})")
                self.assertEqual(self.browser.value(OVERLAPS), [], (name, step))

    def test_the_edges_of_the_root_lead_round_vertices(self):
        # On a path whose vertices stand below each other the root's edge to the last would lead through all others.
        graph = chipfire.Graph(4, 3, ((0, 1), (1, 2), (2, 3)))
        run = chipfire.simulate(graph, {2: 1}, [])
        chipfire.page(run, f"{self.folder}/run.html", positions={vertex: (0, vertex) for vertex in range(4)})
        self.browser.go(f"file://{self.folder}/run.html")
        near = """(() => {
            const line = document.querySelector(".edge.of-root .line");
            const middles = [0, 1].map((vertex) => placeOf(vertex));
            const points = [...Array(50).keys()].map((i) => line.getPointAtLength(line.getTotalLength() * i / 49));
            return Math.min(...points.flatMap((a) => middles.map((b) => Math.hypot(a.x - b.x, a.y - b.y)))) / radius;
        })()"""
        self.assertGreater(self.browser.value(near), 1.2)


def luminance(colour):
    """The relative luminance of a colour like #12ab9f."""
    parts = [int(colour[i:i + 2], 16) / 255 for i in (1, 3, 5)]
    linear = [part / 12.92 if part <= 0.04045 else ((part + 0.055) / 1.055) ** 2.4 for part in parts]
    return sum(weight * part for weight, part in zip((0.2126, 0.7152, 0.0722), linear))
