"""Pages of detectors with events of their own, and of runs on a phone."""
import json
import tempfile
import unittest

import browser
import chipfire
from chipfire.detectors import DETECTORS, Safra
from chipfire.lab.schedules import opened
from test_pages import detector

#: Where the mark of the token is: the number of the nearest part, the root after the vertices, and how far off it is.
TOKEN = """(() => {
    const mark = document.querySelector("#drawing .told .token");
    if (!mark) return null;
    const { x, y, width, height } = mark.getBBox();
    const parts = [...run.names.keys(), null].map(placeOf);
    const far = parts.map((it) => Math.hypot(it.x - x - width / 2, it.y - y - height / 2) / radius);
    return [far.indexOf(Math.min(...far)), Math.min(...far)];
})()"""
#: After each event the tags that lie on a line of an edge.
ON_LINES = """[...Array(last + 1).keys()].flatMap((step) => {
    goTo(step);
    const points = [...document.querySelectorAll("#drawing .edge .line")].flatMap((line) => {
        const length = line.getTotalLength();
        return [...Array(80).keys()].map((i) => line.getPointAtLength((length * i) / 79));
    });
    return [...document.querySelectorAll("#drawing .tag rect")].filter((it) => {
        const { x, y, width, height } = it.getBBox();
        return points.some((it) => it.x > x + 2 && it.x < x + width - 2 && it.y > y + 2 && it.y < y + height - 2);
    }).map((it) => [step, it.parentNode.textContent]);
})"""
PREDICT = "(({top, bottom}) => [top, bottom])(document.getElementById('predict').getBoundingClientRect())"


class Silent(Safra):
    """A token that does not say where it goes."""

    def tells(self, kind, at):
        raise ValueError("nobody knows")


def data_of(text):
    """What a page has been given."""
    return json.loads(text.partition('<script id="run" type="application/json">')[2].partition("</script>")[0])


def played(make, seed=1):
    """A random run of a detector, with the place of its token after each event."""
    game = DETECTORS["safra"].game
    schedule = chipfire.random_schedule(game, seed, make)
    core = opened(game, make)
    places = [core.own.at]
    for event in schedule:
        core.step(*event)
        places.append(core.own.at)
    return chipfire.play(game, schedule, make), places


class OwnEvents(unittest.TestCase):
    def test_who_sends_to_whom_is_said(self):
        run, places = played(Safra)
        with tempfile.NamedTemporaryFile("r", suffix=".html") as file:
            chipfire.page(run, file.name)
            data = data_of(file.read())
        names = ["vertex 0", "vertex 1", "the sink 2", "the root"]
        passes = 0
        for step, (before, after) in zip(data["steps"], zip(places, places[1:])):
            self.assertEqual(step["kind"] == "pass_on", before != after)
            if before != after:
                self.assertEqual(step["tells"], [[it if it < 3 else None for it in (before, after)]])
                said = f"{names[before]} sends to {names[after]} (pass_on {before})."
                self.assertEqual(data["words"][step["event"]], said[0].upper() + said[1:])
                passes += 1
            else:
                self.assertNotIn("tells", step)
        self.assertGreater(passes, 3)

    def test_an_event_that_does_not_say_it_is_named(self):
        run, _ = played(Silent)
        with tempfile.NamedTemporaryFile("r", suffix=".html") as file:
            chipfire.page(run, file.name)
            data = data_of(file.read())
        said = [data["words"][step["event"]] for step in data["steps"] if step["kind"] == "pass_on"]
        self.assertEqual(said[0], "The detector has an event of its own (pass_on 3).")
        self.assertFalse([step for step in data["steps"] if "tells" in step])


@unittest.skipUnless(browser.found(), "no Chromium is installed: apt-get install chromium")
class Shown(unittest.TestCase):
    @classmethod
    def setUpClass(cls):
        cls.browser = browser.Browser(browser.found())
        cls.folder = tempfile.TemporaryDirectory(prefix="chipfire-pages-")

    @classmethod
    def tearDownClass(cls):
        cls.browser.close()
        cls.folder.cleanup()

    def open(self, run, size, is_phone=False):
        """Writes a page, of a run or of a wrong detector, and opens it."""
        self.browser.resize(*size, is_phone=is_phone)
        file = f"{self.folder.name}/run.html"
        if isinstance(run, str):
            chipfire.wrong_page(run, file)
        else:
            chipfire.page(run, file)
        self.browser.go(f"file://{file}")

    def test_the_token_is_drawn_where_it_is(self):
        run, places = played(Safra)
        for size, is_phone in (((1280, 800), False), ((390, 844), True)):
            self.open(run, size, is_phone)
            found = self.browser.value(f"[...Array(last + 1).keys()].map((step) => {{ goTo(step); return {TOKEN}; }})")
            for step, place in enumerate(places):
                if len({*places[: step + 1]}) > 1:
                    self.assertEqual(found[step][0], place, step)
                    self.assertLess(found[step][1], 1.5)
                else:
                    self.assertIsNone(found[step])
            self.assertEqual(self.browser.complaints(), [])

    def test_what_one_part_says_to_another_is_an_arrow_of_the_diagram(self):
        run, places = played(Safra)
        self.open(run, (1280, 800))
        self.browser.press("d")
        columns = [*range(1, len(set(places))), 0]  # (the root's is the first)
        wanted = [(columns[it], columns[to]) for it, to in zip(places, places[1:]) if it != to]
        arrows = self.browser.value(
            "stops.flatMap((step) => { goTo(step); return story.own.filter((it) => it.from === step)"
            ".map((it) => toldOf(it, windowOf(stopOf(at))).querySelector('line'))"
            ".map((it) => ['x1', 'x2'].map((name) => (Number(it.getAttribute(name)) / SPACE.column) - 0.5)); })"
        )
        self.assertEqual([tuple(it) for it in arrows], wanted)

    def test_predict_is_in_sight_on_a_phone(self):
        for run in (detector("small-run"), detector("engaged-twice"), "without-deficit", "safra-colourless"):
            self.open(run, (390, 844), True)
            for step in (0, 3, 9, 12):
                self.browser.value(f"goTo({step})")
                top, bottom = self.browser.value(PREDICT)
                self.assertGreaterEqual(top, 0)
                self.assertLess(bottom, 300)
            self.assertLessEqual(*self.browser.value("[document.documentElement.scrollWidth, innerWidth]"))

    def test_no_tag_lies_on_a_line(self):
        for name in ("small-run", "engaged-twice", "deficit"):
            run = detector(name)
            for size, is_phone in (((1280, 800), False), ((390, 844), True)):
                self.open(run, size, is_phone)
                self.assertEqual(self.browser.value(ON_LINES), [], (name, size))


if __name__ == "__main__":
    unittest.main()
