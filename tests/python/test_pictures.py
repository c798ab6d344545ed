"""Pictures and animations: what files, notebooks and pages show, against the slow player of examples/play.py.

The files are read here by decoders of their own. Where Pillow, NumPy, Matplotlib or a browser is installed, they read
and show them too.
"""
import base64
import contextlib
import html
import importlib
import io
import json
import math
import os
import random
import re
import tempfile
import unittest
import xml.etree.ElementTree
import zlib
from unittest import mock

import browser
import chipfire
import play
import ways
from chipfire.pictures import raster as rasters
from test_sandpiles import has

COLOURS = ("#ffffff", "#f0c83c", "#286ebe", "#14141e", "#ec7050")
GREYS = ("#ffffff", "#c8c8c8", "#8c8c8c", "#505050", "#000000")
SINK = "#a5d8c2"


def slowly(graph, chips, limit=2**40):
    """The chips that lie there within a limit of firings, and how often each vertex fired, by the slow player."""
    position = list(graph.chips(chips))
    of_file = {"vertices": graph.vertices, "sink": graph.sink, "edges": graph.edges}
    fired = play.play(of_file, position, limit, random.Random(1))
    return position, fired


def rgb(colour):
    return tuple(int(colour[place : place + 2], 16) for place in (1, 3, 5))


def coloured(position, columns, squares, palette=COLOURS):
    """The colours of the first squares, by rows."""
    colours = [rgb(palette[min(count, len(palette) - 1)]) for count in position[:squares]]
    return [colours[start : start + columns] for start in range(0, squares, columns)]


def enlarged(rows, scale):
    return [[it for it in row for _ in range(scale)] for row in rows for _ in range(scale)]


def png_points(data):
    """The colours of the points of a PNG file with a table of colours and a byte for each point, by rows."""
    chunks, at = {}, 8
    while at < len(data):
        size, kind = int.from_bytes(data[at : at + 4], "big"), data[at + 4 : at + 8]
        body = data[at + 8 : at + 8 + size]
        assert zlib.crc32(kind + body) == int.from_bytes(data[at + 8 + size : at + 12 + size], "big")
        chunks[kind] = chunks.get(kind, b"") + body
        at += 12 + size
    assert data[:8] == b"\x89PNG\r\n\x1a\n" and chunks[b"IHDR"][8:] == bytes([8, 3, 0, 0, 0]) and at == len(data)
    width, height = (int.from_bytes(chunks[b"IHDR"][start : start + 4], "big") for start in (0, 4))
    lines, table = zlib.decompress(chunks[b"IDAT"]), chunks[b"PLTE"]
    assert len(lines) == height * (width + 1)
    rows = [lines[start : start + width + 1] for start in range(0, len(lines), width + 1)]
    assert all(row[0] == 0 for row in rows)
    return [[tuple(table[3 * point : 3 * point + 3]) for point in row[1:]] for row in rows]


def svg_squares(text):
    """The colours of the squares of an SVG picture, by rows."""
    tree = xml.etree.ElementTree.fromstring(text)
    _, _, width, height = map(int, tree.get("viewBox").split())
    rows = [[None] * width for _ in range(height)]
    for path in tree.iter("{http://www.w3.org/2000/svg}path"):
        for x, y, length, back in re.findall(r"M(\d+) (\d+)h(\d+)v1h-(\d+)z", path.get("d")):
            assert length == back
            for column in range(int(x), int(x) + int(length)):
                assert rows[int(y)][column] is None
                rows[int(y)][column] = rgb(path.get("fill"))
    return rows


def without_pillow():
    """Files are written by the package itself meanwhile."""
    return mock.patch.object(rasters, "pillow", return_value=None)


class WithFolder(unittest.TestCase):
    """A test that has a folder of its own, and no Pillow."""

    def setUp(self):
        room = tempfile.TemporaryDirectory(prefix="chipfire-python-")
        self.addCleanup(room.cleanup)
        self.folder = room.name
        without = without_pillow()
        without.start()
        self.addCleanup(without.stop)

    def file(self, name):
        return os.path.join(self.folder, name)

    def bytes_of(self, name):
        with open(self.file(name), "rb") as file:
            return file.read()

    def text_of(self, name):
        return self.bytes_of(name).decode()


class Files(WithFolder):
    def setUp(self):
        super().setUp()
        self.grid = chipfire.grid(7, 5)
        self.chips = {17: 120, 3: 9}
        self.report = chipfire.plain(self.grid, self.chips)
        self.position, self.fired = slowly(self.grid, self.chips)

    def test_a_png_file_shows_the_chips(self):
        for scale in (1, 8):
            self.report.image(self.file("a.png"), scale=scale)
            wanted = enlarged(coloured(self.position, 7, 35), scale)
            self.assertEqual(png_points(self.bytes_of("a.png")), wanted)

    def test_an_svg_file_shows_the_chips_and_says_what_it_is(self):
        self.report.image(self.file("a.svg"))
        self.assertEqual(svg_squares(self.text_of("a.svg")), coloured(self.position, 7, 35))
        said = f"<title>{sum(self.fired)} firings, {self.position[35]} chips in the sink</title>"
        self.assertIn(said, self.text_of("a.svg"))
        for scale in (8, 3):
            self.report.image(self.file("a.svg"), scale=scale)
            tree = xml.etree.ElementTree.fromstring(self.text_of("a.svg"))
            self.assertEqual((tree.get("width"), tree.get("height")), (str(7 * scale), str(5 * scale)))

    def test_palettes_by_name_and_by_colours(self):
        mine = ["#000000", "#00FF00", "#ff0000"]
        for palette, colours in [("greys", GREYS), (mine, mine)]:
            self.report.image(self.file("a.png"), palette=palette, scale=1)
            self.assertEqual(png_points(self.bytes_of("a.png")), coloured(self.position, 7, 35, colours))

    def test_many_chips_have_the_last_colour(self):
        report = chipfire.plain(self.grid, self.chips, limit=0)
        self.assertEqual(svg_squares(report.picture().svg()), coloured(self.grid.chips(self.chips), 7, 35))

    def test_the_words_count_the_firings_of_all_stages(self):
        report = chipfire.resume(self.grid, chipfire.plain(self.grid, self.chips, limit=2))
        said = f"{sum(self.fired)} firings, {self.position[35]} chips in the sink"
        self.assertEqual(report.picture().title, said)

    def test_the_words_of_a_play_that_was_stopped(self):
        path = chipfire.path(2)
        limited = chipfire.plain(path, {0: 2}, limit=0).picture()
        self.assertEqual(limited.title, "0 firings, 0 chips in the sink, 1 square could fire once more")
        sealed = chipfire.Report((0, 1, 1), (1, 0, 0), sealed=(0, 1), graph=path).picture()
        self.assertEqual(sealed.title, "1 firing, 1 chip in the sink, 2 squares stopped by a seal")

    def test_a_report_that_does_not_know_its_graph_wants_columns(self):
        self.report.write(self.file("report.json"))
        read = chipfire.Report.read(self.file("report.json"))
        read.image(self.file("a.png"), columns=7, scale=1)
        self.assertEqual(png_points(self.bytes_of("a.png")), coloured(self.position, 7, 35))
        with self.assertRaises(ValueError):
            read.image(self.file("b.png"))

    def test_a_sink_among_the_squares_has_its_own_colour(self):
        torus, chips = chipfire.torus(5, 3), {7: 40}
        position, _ = slowly(torus, chips)
        wanted = coloured(position, 5, 15)
        wanted[0][0] = rgb(SINK)
        picture = chipfire.plain(torus, chips).picture(columns=5)
        self.assertEqual(svg_squares(picture.svg()), wanted)
        self.assertIn("the sink", picture.legend())

    def test_what_is_refused(self):
        ring = chipfire.plain(chipfire.cycle(9), {})
        palettes = ("greens", ["white", "black"], ["#000000"], ["#00000g", "#000000"], ["#000000"] * 256)
        wrong = [{"columns": 6}, {"columns": 0}, *({"palette": palette} for palette in palettes)]
        wrong += [{"scale": 0}, {"scale": -1}, {"scale": "logarithm"}, {"of": "firings"}, {"positions": {}}]
        wrong += [{"points": 0, "scale": "log"}, {"positions": {0: (1, 1), 1: (1.2, 0.9)}}]
        for report, options in [(ring, {}), (ring, {"columns": 4}), *((self.report, it) for it in wrong)]:
            for name in ("a.png", "a.svg"):
                with self.subTest(options), self.assertRaises(ValueError):
                    report.image(self.file(name), **options)
        for name in ("a.png", "a.svg"):
            with self.assertRaisesRegex(TypeError, "the scale is no whole number: 2.5"):
                self.report.image(self.file(name), scale=2.5)
        for name in ("a.bmp", "a.gif"):
            with self.assertRaisesRegex(ValueError, f"{name}: without Pillow"):
                self.report.image(self.file(name))
        self.assertEqual(os.listdir(self.folder), [])


class Odometers(WithFolder):
    """How often each vertex fired, in colours that are spread from none to the most."""

    def setUp(self):
        super().setUp()
        self.grid = chipfire.grid(7, 5)
        self.report = chipfire.plain(self.grid, {17: 300})
        _, fired = slowly(self.grid, {17: 300})
        self.fired = fired[:35]

    def spread(self, value, how):
        """What share of the colours lies below that of a value."""
        return how(value) / how(max(self.fired))

    def test_each_count_has_its_share_of_the_colours(self):
        palette = ["#%02x0000" % it for it in range(100)]
        for scale, how in [("linear", float), ("log", lambda it: math.log(1 + it))]:
            wanted = [int(99 * self.spread(count, how) + 1e-9) for count in self.fired]
            picture = self.report.picture(of="odometer", palette=palette, scale=scale)
            shown = [red for row in svg_squares(picture.svg()) for red, _, _ in row]
            self.assertLessEqual(max(abs(a - b) for a, b in zip(shown, wanted)), 1, scale)
            self.assertEqual((min(shown), max(shown)), (min(wanted), 99))
            self.report.image(self.file("a.png"), of="odometer", palette=palette, scale=scale, points=1)
            points = [red for row in png_points(self.bytes_of("a.png")) for red, _, _ in row]
            self.assertEqual(points, shown)

    def test_the_usual_colours_are_255_from_dark_to_bright(self):
        picture = self.report.picture(of="odometer")
        self.assertEqual((len(picture.palette), picture.palette[0], picture.palette[-2]), (256, "#440154", "#fde725"))
        bright = [sum(rgb(colour)) for colour in chipfire.PALETTES["viridis"]]
        self.assertGreater(len(set(chipfire.PALETTES["viridis"])), 250)
        self.assertLess(max(bright[:64]), min(bright[-64:]))
        self.assertEqual(picture.title, f"{sum(self.fired):,} firings, at most {max(self.fired):,} of a vertex")
        self.assertIn(f"</span> {max(self.fired):,}", picture.legend())
        self.assertEqual(len(str(picture).split()), 5)

    def test_many_chips_in_many_colours(self):
        heap = chipfire.plain(self.grid, {17: 300}, limit=0)
        picture = heap.picture(palette="viridis")
        self.assertEqual(svg_squares(picture.svg())[2][3], rgb(chipfire.PALETTES["viridis"][254]))
        spread = heap.picture(scale="linear", palette=["#000000", "#888888", "#ffffff"])
        self.assertEqual({colour for row in svg_squares(spread.svg()) for colour in row}, {(0, 0, 0), (255, 255, 255)})
        self.assertEqual(chipfire.plain(self.grid, 0).picture(of="odometer").most, 0)
        # (the chips in the sink are more than those of any square, and spread no colours)
        self.assertGreater(self.report.chips[35], 3)
        self.assertEqual(self.report.picture(scale="linear").most, max(self.report.chips[:35]))


class Regions(WithFolder):
    def test_what_lies_outside_has_the_colour_of_the_sink(self):
        tee = chipfire.region([[1, 1, 1], [0, 1, 0]])
        chips = chipfire.Configuration(tee, [[0, 1, 2], [0, 3, 0]])
        white, yellow, blue, black = map(rgb, COLOURS[:4])
        wanted = [[white, yellow, blue], [rgb(SINK), black, rgb(SINK)]]
        chips.image(self.file("a.png"), scale=1)
        self.assertEqual(png_points(self.bytes_of("a.png")), wanted)
        self.assertEqual(svg_squares(chips.picture().svg()), wanted)
        self.assertEqual((str(chips.picture()), chips.picture().title), ("012\n 3 ", "6 chips"))
        self.assertEqual(svg_squares((chips - 3).picture().svg())[0], [white] * 3)
        with self.assertRaisesRegex(ValueError, "no odometer"):
            chips.picture(of="odometer")

    def test_vertices_at_positions(self):
        graph = chipfire.Graph.undirected([("a", "b"), ("b", "c"), ("c", "out")], "out")
        chips = chipfire.Configuration(graph, {"a": 1, "b": 2, "c": 3})
        places = {"a": (0, 0), "b": (1.1, 0), "c": (0.9, 2), "out": (2, 1)}
        away = rgb(SINK)
        yellow, blue, black = map(rgb, COLOURS[1:4])
        wanted = [[yellow, blue, away], [away] * 3, [away, black, away]]
        self.assertEqual(svg_squares(chips.picture(positions=places).svg()), wanted)
        chips.image(self.file("a.png"), positions=places, scale=1)
        self.assertEqual(png_points(self.bytes_of("a.png")), wanted)
        with self.assertRaisesRegex(ValueError, "vertices 'a' and 'b' stand on one square"):
            chips.picture(positions={**places, "b": (0.2, 0.3)})
        with self.assertRaises(KeyError):
            chips.picture(positions={"d": (0, 0)})


class Shapes(WithFolder):
    def read(self, graph):
        graph.write(self.file("graph.json"))
        return chipfire.Graph.read(self.file("graph.json"))

    def test_grids_have_their_shape(self):
        for width, height in [(2, 2), (7, 5), (5, 7), (2, 9), (1, 1), (6, 1)]:
            self.assertEqual(chipfire.grid(width, height).shape, (height, width))
            self.assertEqual(self.read(chipfire.grid(width, height)).shape, (height, width))

    def test_a_single_column_stands_up(self):
        report = chipfire.plain(chipfire.grid(1, 4), {0: 9})
        self.assertEqual([len(row) for row in report.picture().rows], [1, 1, 1, 1])
        self.assertEqual(chipfire.grid(1, 4).shape, (4, 1))

    def test_a_single_line_of_a_file_is_a_row(self):
        for graph in (chipfire.path(6), chipfire.grid(6, 1), chipfire.grid(1, 6)):
            self.assertEqual(self.read(graph).shape, (1, 6))
        self.assertEqual(chipfire.path(6).shape, (1, 6))

    def test_what_is_no_grid_has_none(self):
        round_the_corner = chipfire.Graph(5, 4, [(0, 1), (0, 2), (1, 2), (2, 3), (3, 4)])
        across = chipfire.Graph(5, 4, [(0, 1), (0, 2), (1, 4), (2, 4), (3, 0)])
        others = (self.read(chipfire.torus(3, 3)), chipfire.cycle(5), chipfire.complete(4), chipfire.Graph(1, 0, ()))
        for graph in (round_the_corner, across, *others):
            self.assertIsNone(graph.shape)
            with self.assertRaisesRegex(ValueError, "no grid"):
                chipfire.Report((0,) * graph.vertices, (0,) * graph.vertices, graph=graph).picture()


class Notebooks(unittest.TestCase):
    def setUp(self):
        self.grid = chipfire.grid(4, 3)
        self.report = chipfire.plain(self.grid, {5: 30})
        self.position, _ = slowly(self.grid, {5: 30})

    def test_a_notebook_gets_the_picture_and_what_it_means(self):
        said = self.report._repr_html_()
        self.assertEqual(svg_squares(re.search("<svg.*</svg>", said, re.DOTALL)[0]), coloured(self.position, 4, 12))
        shown = {int(label) for label in re.findall(r"</span> (\d)", said)}
        self.assertEqual(shown, set(self.position[:12]))

    def test_a_large_picture_is_one_of_points_and_not_too_wide(self):
        for width, height, shown in [(101, 3, 707), (1200, 2, 800), (3, 101, 21), (100, 100, None)]:
            grid = chipfire.grid(width, height)
            report = chipfire.plain(grid, {0: 2, 1: 1})
            said = report._repr_html_()
            self.assertFalse(hasattr(report, "_repr_svg_") or hasattr(report.picture(), "_repr_svg_"))
            found = re.search('src="data:image/png;base64,([^"]*)" width="(\\d+)"', said)
            self.assertEqual(("<svg" in said, found is None), (shown is None,) * 2)
            if found:
                squares = width * height
                wanted = coloured([2, 1] + [0] * squares, width, squares)
                self.assertEqual(png_points(base64.b64decode(found[1])), wanted)
                self.assertEqual(int(found[2]), shown)

    def test_a_report_on_another_graph_is_shown_as_its_text(self):
        report = chipfire.plain(chipfire.complete(4), {1: 9})
        self.assertIsNone(report._repr_html_())

    def test_elsewhere_the_picture_is_text(self):
        said = io.StringIO()
        with contextlib.redirect_stdout(said), mock.patch.dict("sys.modules", {"IPython": None}):
            self.report.show()
            chipfire.plain(self.grid, {5: 30, 11: 2}, limit=0).show(palette=COLOURS[:4])
            chipfire.plain(chipfire.cycle(4), {2: 1}).show(columns=4)
        rows = ["".join(map(str, self.position[start : start + 4])) for start in (0, 4, 8)]
        self.assertEqual(said.getvalue().split("\n"), [*rows, "0000", "0300", "0002", " 010", ""])

    def test_in_a_notebook_it_is_displayed(self):
        notebook = mock.Mock()
        with mock.patch.dict("sys.modules", {"IPython": notebook}):
            self.report.show()
        (shown,), _ = notebook.display.display.call_args
        said = re.search("<svg.*</svg>", shown._repr_html_(), re.DOTALL)[0]
        self.assertEqual(svg_squares(said), coloured(self.position, 4, 12))


class Played(WithFolder):
    """A test that has a play at all its limits: by the package, and what it has to be by the slow player."""

    def setUp(self):
        super().setUp()
        self.grid, self.chips = chipfire.grid(6, 4), {8: 60}
        self.frames = chipfire.frames(self.grid, self.chips)
        _, fired = slowly(self.grid, self.chips)
        self.most = max(fired)
        self.plays = [slowly(self.grid, self.chips, limit) for limit in range(self.most + 1)]
        self.wanted = [coloured(position, 6, 24) for position, _ in self.plays]
        self.captions = [self.caption(limit, *played) for limit, played in enumerate(self.plays)]

    def caption(self, limit, position, fired):
        legal = sum(position[square] >= 4 for square in range(24))
        words = [(sum(fired), "firing", ""), (position[24], "chip", " in the sink")]
        words += [(legal, "square", " could fire once more")] if legal else []
        said = (f"{count} {word}{'s' if count != 1 else ''}{more}" for count, word, more in words)
        return f"Limit {limit}: {', '.join(said)}"


class Animations(Played):

    def test_limits_grow_from_the_start_to_the_end(self):
        self.assertLess(self.most, 24)
        self.assertEqual(self.frames.limits, tuple(range(self.most + 1)))
        far = chipfire.frames(chipfire.grid(9, 9), {40: 900})
        steps = {after - before for before, after in zip(far.limits, far.limits[1:])}
        self.assertEqual((len(far), far.limits[0], far.limits[-1]), (24, 0, max(far.reports[-1].fired)))
        self.assertLessEqual(max(steps) - min(steps), 1)
        self.assertTrue(far.reports[-1].closed and not far.reports[-2].closed)

    def test_positions_are_those_of_the_slow_player(self):
        found = [(list(report.chips), list(report.fired)) for report in self.frames.reports]
        self.assertEqual(found, self.plays)

    def test_a_page_has_each_position_and_loads_nothing(self):
        self.frames.save(self.file("play.html"))
        page = self.text_of("play.html")
        frames = json.loads(re.search(r"^const frames = (\[.*\]);$", page, re.MULTILINE)[1])
        self.assertEqual([frame["caption"] for frame in frames], self.captions)
        self.assertEqual([png_points(self.inside(frame["source"], "png")) for frame in frames], self.wanted)
        self.assertNotIn("://", page)
        self.assertNotIn("$", page)
        used = {min(count, 4) for position, _ in self.plays for count in position[:24]}
        self.assertGreater(len(used), len({min(count, 4) for count in self.plays[0][0][:24]}))
        named = {f"{count} or more" if count == 4 else str(count) for count in used}
        self.assertEqual(set(re.findall(r"</span> ([^&<]+)", page)), named)

    def test_a_page_may_load_what_a_page_of_a_run_may_and_its_own_pictures(self):
        run = chipfire.lab.pages.page_text(chipfire.simulate(self.grid, self.chips, [("take", 4)]))
        of_run, of_play = (re.search(r'<meta http-equiv="Content-Security-Policy"\s+content="([^"]*)">', page)[1]
                           for page in (run, self.frames.page()))
        self.assertIn("default-src 'none'; ", of_run)
        self.assertEqual(of_play, f"{of_run}; img-src data:")

    def inside(self, source, kind):
        """The file that an address has inside."""
        head = f"data:image/{kind};base64,"
        self.assertTrue(source.startswith(head))
        return base64.b64decode(source[len(head) :])

    def test_frames_by_chips_that_are_dropped(self):
        graph, counts = chipfire.grid(5, 5), [0, 3, 40, 41, 160]
        found = chipfire.frames_by_chips(graph, 12, counts)
        for count, report, caption in zip(counts, found.reports, found.captions()):
            position, fired = slowly(graph, {12: count})
            self.assertEqual((list(report.chips), list(report.total)), (position, fired))
            lost = f"{position[25]} chip{'s' * (position[25] != 1)} in the sink"
            self.assertEqual(caption, f"Chips {count}: {sum(fired)} firing{'s' * (sum(fired) != 1)}, {lost}")
        for wrong in ([3, 2], [-1], []):
            with self.subTest(wrong), self.assertRaises(ValueError):
                chipfire.frames_by_chips(graph, 12, wrong)
        with self.assertRaises(KeyError):
            chipfire.frames_by_chips(graph, "middle", [1])

    def test_limits_palettes_and_columns_that_are_said(self):
        graph = chipfire.torus(3, 3)
        found = chipfire.frames(graph, {4: 20}, [3, 1], columns=3, palette="greys")
        self.assertEqual([list(it.chips) for it in found.reports], [slowly(graph, {4: 20}, it)[0] for it in (3, 1)])
        wanted = coloured(found.reports[1].chips, 3, 9, GREYS)
        wanted[0][0] = rgb(SINK)
        self.assertEqual(svg_squares(found.pictures[1].svg()), wanted)

    def test_a_notebook_gets_the_page(self):
        source = re.search('srcdoc="([^"]*)"', self.frames._repr_html_())[1]
        self.assertEqual(html.unescape(source), self.frames.page())

    def test_what_is_refused(self):
        for name in ("play.mp4", "play.gif", "play.png"):
            with self.assertRaisesRegex(ValueError, f"{name}: without Pillow"):
                self.frames.save(self.file(name))
        with self.assertRaises(ValueError):
            chipfire.frames(self.grid, self.chips, [])


#: What the page's picture shows, as the browser paints it: the colour of the middle of each square.
PAINTED = """(async () => {
  const picture = document.getElementById("picture");
  await picture.decode();
  const canvas = document.createElement("canvas");
  canvas.width = picture.naturalWidth;
  canvas.height = picture.naturalHeight;
  const context = canvas.getContext("2d");
  context.drawImage(picture, 0, 0);
  return Array.from(context.getImageData(0, 0, canvas.width, canvas.height).data);
})()"""


#: What the browser refuses if the page asks for a picture that does not stand in it.
REFUSED = """new Promise((done) => {
  const picture = new Image();
  picture.onload = picture.onerror = () => setTimeout(() => done("nothing"), 1000);
  document.addEventListener("securitypolicyviolation", (event) => done(event.effectiveDirective));
  picture.src = "picture.png";
})"""


@ways.once
@unittest.skipUnless(browser.found(), "no browser is here: Debian's package chromium has one")
class InABrowser(Played):
    """The page in a real browser, by its buttons, its keys, its slider and its address."""

    @classmethod
    def setUpClass(cls):
        cls.browser = browser.Browser(browser.found())
        cls.addClassCleanup(cls.browser.close)

    def setUp(self):
        super().setUp()
        self.frames.save(self.file("play.html"))
        self.browser.go(f"file://{self.file('play.html')}")

    def check_shown(self, number):
        """Whether the page shows this picture with its words, and the slider stands there."""
        points = self.browser.value(PAINTED)
        colours = [tuple(points[start : start + 3]) for start in range(0, len(points), 4)]
        self.assertEqual([colours[start : start + 6] for start in range(0, 24, 6)], self.wanted[number])
        said = self.browser.value("[at('caption').textContent, at('picture').alt, place.ariaValueText, place.value]")
        self.assertEqual(said, [self.captions[number]] * 3 + [str(number)])

    def test_forward_and_back_by_buttons(self):
        for number in range(self.most + 1):
            self.check_shown(number)
            self.browser.click("#on")
        self.check_shown(self.most)
        self.browser.click("#back")
        self.check_shown(self.most - 1)

    def test_forward_and_back_by_keys(self):
        for key, number in [("ArrowRight", 1), ("ArrowRight", 2), ("ArrowLeft", 1), ("End", self.most), ("Home", 0)]:
            self.browser.press(key)
            self.check_shown(number)

    def test_the_slider_and_the_address(self):
        self.browser.click("#place")
        self.check_shown(int(self.browser.value("place.value")))
        self.assertGreater(int(self.browser.value("place.value")), 0)
        self.browser.value("location.hash = '#3'")
        self.browser.wait("place.value === '3'")
        self.check_shown(3)

    def test_it_plays_to_the_end_and_stops(self):
        self.browser.press("End")
        self.browser.press("ArrowLeft")
        self.browser.press(" ")
        self.assertEqual(self.browser.value("play.textContent"), "Pause")
        self.browser.wait("play.textContent === 'Play'")
        self.check_shown(self.most)
        self.browser.click("#play")
        self.check_shown(0)

    def test_it_loads_nothing_and_complains_of_nothing(self):
        self.browser.click("#on")
        complaints = [event["params"] for event in self.browser.complaints()]
        own = [it for it in complaints if it.get("request", {}).get("url", "").startswith("data:")]
        self.assertEqual(complaints, own)

    def test_it_can_load_nothing(self):
        self.assertEqual(self.browser.value(REFUSED), "img-src")


@unittest.skipUnless(has("PIL"), "Pillow is not here")
class ByPillow(Played):
    def points_of(self, name):
        """The colours of the points of each picture of a file, as Pillow reads it."""
        from PIL import Image

        with Image.open(self.file(name)) as picture:
            for number in range(getattr(picture, "n_frames", 1)):
                picture.seek(number)
                points, width = list(picture.convert("RGB").getdata()), picture.width
                yield [points[start : start + width] for start in range(0, len(points), width)]

    def test_pillow_reads_what_the_package_writes_and_writes_the_same(self):
        from PIL import Image

        self.frames.reports[-1].image(self.file("own.png"))
        mock.patch.stopall()
        with mock.patch.object(rasters, "png", side_effect=AssertionError):
            self.frames.reports[-1].image(self.file("pillow.png"))
        wanted = [enlarged(rows, 8) for rows in self.wanted]
        for name in ("own.png", "pillow.png"):
            self.assertEqual(list(self.points_of(name)), wanted[-1:])
        self.frames.save(self.file("a.gif"), seconds=0.1)
        self.assertEqual(list(self.points_of("a.gif")), wanted)
        with Image.open(self.file("a.gif")) as shown:
            self.assertEqual((shown.info["duration"], shown.info["loop"]), (100, 0))
        self.frames.save(self.file("small.gif"), scale=3)
        self.assertEqual(list(self.points_of("small.gif")), [enlarged(rows, 3) for rows in self.wanted])

    def test_pillow_writes_other_forms_too(self):
        mock.patch.stopall()
        self.frames.reports[-1].image(self.file("a.bmp"))
        self.assertEqual(list(self.points_of("a.bmp")), [enlarged(self.wanted[-1], 8)])


@unittest.skipUnless(has("numpy"), "NumPy is not here")
class Arrays(unittest.TestCase):
    def test_an_array_has_the_chips_by_rows(self):
        grid = chipfire.grid(5, 3)
        position, _ = slowly(grid, {7: 40})
        found = chipfire.plain(grid, {7: 40}).array()
        self.assertEqual(found.tolist(), [position[start : start + 5] for start in (0, 5, 10)])
        self.assertEqual(chipfire.plain(grid, {7: 40}).array(columns=15).shape, (1, 15))


@unittest.skipUnless(has("matplotlib"), "Matplotlib is not here")
class Plots(unittest.TestCase):
    def test_a_plot_has_the_colours_of_the_picture(self):
        import matplotlib

        matplotlib.use("Agg")
        grid = chipfire.grid(5, 3)
        position, _ = slowly(grid, {7: 40})
        axes = chipfire.plain(grid, {7: 40}).plot()
        (drawn,) = axes.get_images()
        points = drawn.to_rgba(drawn.get_array(), bytes=True)[..., :3].tolist()
        self.assertEqual([[tuple(it) for it in row] for row in points], coloured(position, 5, 15))

    def test_a_plot_has_a_scale_and_a_bar_that_shows_it(self):
        pyplot = importlib.import_module("matplotlib.pyplot")
        report = chipfire.plain(chipfire.grid(5, 3), {7: 4000})
        most = f"{max(report.fired):,}"
        for options, wanted in [
            ({}, ["0", "1", "2", "3", "4 or more"]), ({"palette": ["#000000", "#ffffff"]}, ["0", "1 or more"]),
            ({"of": "odometer", "scale": "log"}, ["0", "1", "10", "100", most]),
            ({"of": "odometer"}, ["0", *(f"{max(report.fired) * step // 4:,}" for step in (1, 2, 3)), most]),
        ]:
            axes = report.plot(bar=True, **options)
            (drawn,), bar = axes.get_images(), axes.figure.axes[1]
            marks = dict(zip([label.get_text() for label in bar.get_yticklabels()], bar.get_yticks()))
            picture = report.picture(**options)
            with self.subTest(options):
                self.assertEqual(drawn.get_array().tolist(), [list(row) for row in picture.rows])
                self.assertEqual(sorted(marks, key=marks.get), wanted)
                # (the sink has no colour on the bar)
                self.assertEqual(bar.get_ylim(), (-0.5, len(picture.palette) - 1.5))
        # (a vertex that fired as often as a mark says has the colour of that mark)
        chips = chipfire.Report((0,) * 7, (1, 10, 100, 250, 0, 0, 0), graph=chipfire.grid(3, 2))
        axes = chips.plot(of="odometer", scale="log", bar=True)
        marks = [label.get_text() for label in axes.figure.axes[1].get_yticklabels()]
        at = dict(zip(marks, axes.figure.axes[1].get_yticks()))
        first, second = chips.picture(of="odometer", scale="log").rows
        self.assertEqual([at[it] for it in ("1", "10", "100", "250", "0", "0")], [*first, *second])
        self.assertEqual(len(report.plot().figure.axes), 1)
        pyplot.close("all")


if __name__ == "__main__":
    unittest.main()
