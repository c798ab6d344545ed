"""Games drawn at random with all their files, and what is done to the bytes of a file."""
import json

EVENTS = ["take", "ack", "fire", "clear", "claim", "put", "halt", "settle", "seal", "read", "feed", "end"]
COMMANDS = [
    "check", "plain", "avalanches", "recurrent", "identity", "simulate", "run", "replay", "resume", "verify",
]
NUMBERS = [
    b"0", b"1", b"2", b"3", b"00", b"01", b"-0", b"-1", b"+1", b"1.0", b"1.5", b"1e0", b"1e400", b"4096", b"4097",
    b"65536", b"1048576", b"1048577", b"2097152", b"2097153", b"1099511627776", b"1099511627777", b"1152921504606846976",
    b"1152921504606846977", b"18446744073709551615", b"18446744073709551616", b"99999999999999999999",
    b"100000000000000000000", b"00000000000000000001", b"000000000000000000001",
]
PIECES = NUMBERS + [
    b"[", b"]", b"{", b"}", b",", b":", b'"', b'""', b"\n", b"\r", b"\r\n", b" ", b"\t", b"\0", b"\xff", b"\x0c",
    b"\x1f", b"\x7f", b"\xc3", b"\xc3\xa4", b"\xed\xa0\x80", b"\xef\xbb\xbf", b"{}", b"[]", b"[" * 130, b"[0,1,1],",
    b"null", b"true", b"false", b"NaN", b"Infinity", b"\\u0041", b"\\ud800", b"\\udc00\\ud800", b"\\ud83d\\ude00",
    b'"x":0', b',"version":2', b'"prior":[0]', b'"over":[]', b"vertex,chips\n", b"event,at,count\n",
    b"vertex,kind,edge,count\n", b"vertex,fired\n", b"take", b"fire", b"feed", b"end", b"0,0\n", b"1,5\n",
]


def random_graph(draw):
    """A graph on which every vertex reaches the sink."""
    order = list(range(draw.randint(1, 7)))
    draw.shuffle(order)
    edges = [[tail, draw.choice(order[:at]), draw.randint(1, 3)] for at, tail in enumerate(order) if at]
    for _ in range(draw.randint(0, 6) if len(order) > 1 else 0):
        tail, head = draw.choice(order[1:]), draw.choice(order)
        if tail != head:
            edges.append([tail, head, draw.randint(1, 4)])
    draw.shuffle(edges)
    return {"edges": edges, "sink": order[0], "version": 1, "vertices": len(order)}


def chips_of(graph, draw):
    most = draw.choice([2, 10, 60, 1 << 38 if graph["vertices"] <= 4 else 60])
    return [draw.randint(0, most) for _ in range(graph["vertices"])]


def rows(header, listed):
    return "\n".join([header, *(",".join(str(field) for field in row) for row in listed), ""])


def chips_text(chips, draw):
    listed = [(v, count) for v, count in enumerate(chips) if count or draw.random() < 0.5]
    draw.shuffle(listed)
    return rows("vertex,chips", listed)


def drops_text(graph, draw):
    """Drops on vertices at random, of few chips and of many."""
    most, vertices = draw.choice([1, 1, 3, 60]), range(graph["vertices"])
    return rows("vertex,chips", [(v, draw.randint(0, most)) for v in draw.choices(vertices, k=draw.randint(0, 20))])


def guess_text(graph, chips, draw, played):
    """A guess, of a report or of rows; it may be right."""
    report = json.loads(played(graph, chips)) if draw.random() < 0.5 else {}
    fired = report.get("fired", [draw.choice([0, 1, 9, 1 << 63]) for _ in chips])
    if draw.random() < 0.3:
        fired[draw.randrange(len(fired))] += 1
    if draw.random() < 0.3:
        return report_text(graph, chips, draw)
    return rows("vertex,fired", draw.sample([*enumerate(fired)], len(fired)))


def schedule_text(graph, draw):
    """Events at random, most of them of edges and vertices that are there."""
    edges, vertices = len(graph["edges"]), graph["vertices"]
    listed = []
    for _ in range(draw.randint(0, 40)):
        event = draw.choice(EVENTS + ["take", "fire", "clear", "claim", "put", "feed"])
        bounds = {"fire": vertices, "halt": vertices, "read": vertices, "end": 1 << 20}
        at, count = draw.randrange(bounds.get(event, edges + vertices)), draw.choice([0, 1, 1, 1, 2, 3])
        listed.append((event, at, count))
        if event == "clear" and at >= edges:
            listed += [("feed", at, count), ("put", at, 0)]
    return rows("event,at,count", listed)


def trace_text(graph, chips, draw, replay):
    """The rows of a run that is played at random by a `Replay`, of which some are then changed."""
    played = replay(graph, chips, [[] for _ in chips], 1 << 40)
    listed = []
    for _ in range(draw.randint(0, 60)):
        v = draw.randrange(len(chips))
        takes = [e for e, sent in enumerate(played.messages) if played.head(e) == v and played.taken[e] < len(sent)]
        if takes and draw.random() < 0.6:
            edge = draw.choice(takes)
            row = ("take", edge, played.messages[edge][played.taken[edge]])
        elif v != graph["sink"] and played.chips[v] >= played.degree[v]:
            row = ("fire", 0, draw.randint(1, played.chips[v] // played.degree[v]))
        else:
            continue
        played.traces[v].append(row)
        played.use(v)
        listed.append((v, *row))
    by_vertex = draw.random() < 0.5
    if by_vertex:
        listed.sort(key=lambda row: row[0])
    if listed and draw.random() < 0.4:
        at = draw.randrange(len(listed))
        listed[at] = (*listed[at][:3], listed[at][3] + draw.choice([-1, 1]))
    return rows("vertex,kind,edge,count", listed)


def report_text(graph, chips, draw):
    """A report, of either version, that the program may have written or not."""
    vertices = graph["vertices"]
    numbers = lambda most: [draw.randint(0, most) for _ in range(vertices)]
    halted = [v for v in range(vertices) if draw.random() < 0.3]
    over = [v for v in halted if draw.random() < 0.7]
    said = {"chips": chips, "closed": not halted, "fired": numbers(draw.choice([3, 1 << 40])), "over": over}
    said.update(sealed=[v for v in halted if v not in over], version=1)
    if draw.random() < 0.5:
        said.update(prior=numbers(draw.choice([9, 1 << 60])), version=2)
    return json.dumps(said, separators=(",", ":"), sort_keys=True) + "\n"


def random_files(command, draw, replay, played):
    """The files of a command, as bytes; `run` may have a third one, of feeds, and `plain` one, a guess. `played` returns
    the report of a game."""
    graph = random_graph(draw)
    chips = chips_of(graph, draw)
    texts = [json.dumps(graph, separators=draw.choice([(",", ":"), (", ", ": ")]))]
    if command == "resume":
        texts.append(report_text(graph, chips, draw))
    elif command not in ("check", "identity"):
        texts.append(chips_text(chips, draw))
    if command == "simulate":
        texts.append(schedule_text(graph, draw))
    elif command == "replay":
        texts.append(trace_text(graph, chips, draw, replay))
    elif command == "verify":
        report = played(graph, chips) if draw.random() < 0.5 else None
        texts.append(report or report_text(graph, chips, draw))
    elif command == "avalanches":
        texts.append(drops_text(graph, draw))
    elif command == "plain" and draw.random() < 0.5:
        texts.append(guess_text(graph, chips, draw, played))
    elif command == "run" and draw.random() < 0.6:
        texts.append(chips_text(chips_of(graph, draw), draw))
    return [text.encode() for text in texts]


def digits_of(text):
    """Where the numbers of a text stand."""
    found, start = [], None
    for at, byte in enumerate(text + b" "):
        if 48 <= byte <= 57:
            start = at if start is None else start
        elif start is not None:
            found.append((start, at))
            start = None
    return found


def changed(text, draw):
    """Some bytes with one change at random."""
    at, end = sorted(draw.randint(0, len(text)) for _ in range(2))
    end = min(end, at + draw.choice([1, 2, 8, 64]))
    how = draw.randrange(10)
    if how == 0:
        return text[:at]
    if how == 1:
        return text[:at] + text[end:]
    if how == 2:
        return text[:end] + text[at:]
    if how == 3:
        return text[:at] + draw.choice(PIECES) + text[at:]
    if how == 4:
        return text[:at] + draw.choice(PIECES) + text[end:]
    if how == 5 and text:
        at = draw.randrange(len(text))
        return text[:at] + bytes([text[at] ^ 1 << draw.randrange(8)]) + text[at + 1 :]
    if how >= 6 and digits_of(text):
        at, end = draw.choice(digits_of(text))
        return text[:at] + draw.choice(NUMBERS) + text[end:]
    return text


def mutated(files, draw):
    """Files with up to three changes among them."""
    files = list(files)
    # (a graph that is none hides what is done to the others)
    places = [*range(len(files)), *range(1, len(files)), *range(1, len(files))]
    for _ in range(draw.choice([0, 1, 1, 1, 2, 3])):
        at = draw.choice(places)
        files[at] = changed(files[at], draw)
    return files
