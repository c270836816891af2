"""The lanes of a picture, from top to bottom: times, what came in, the state, ages, silence, what went out."""

from .answers import CLOCK_BACK, GAP
from .drawing import LETTER, Canvas, element, escape, line, polygon, polyline, rectangle, shape, text
from .figures import HALF
from .follow import IDLE, UP, since
from .marks import LEFT, NO_END, STARTING, WIDTH, limit_of, shape_of, state_of
from .messages import parsed_message
from .times import seconds, short_seconds

TIMES = 12  # where the lanes stand: the feet of times,
NAMES = 76  # of the names of records,
MESSAGES = 90  # the middle of marks for messages,
EVENTS = 116  # and for all other records,
FLAGS = 140  # the feet of the words up and down,
BAND, BAND_HEIGHT = 144, 18  # the band of states,
AGES, AGE_LIMIT, OLDEST = 240, 44, 64  # the foot of ages, how high the limit lies above it, and the highest bar,
SILENCES, SILENCE_LIMIT = 312, 44  # the same for silence,
SENT = 334  # and the middle of marks for messages that went out.
HEIGHT = 396
LIMITS = ((AGES - AGE_LIMIT, "age", "A"), (SILENCES - SILENCE_LIMIT, "silence", "R"))
SIZE = 10  # of a mark
LAST = 60  # how far what the last record leads to is drawn
BANDS = {NO_END: "none", IDLE: "idle", STARTING: "starting", UP: "up"}


def drawn(marks):
    """The canvas with all marks on it."""
    canvas = Canvas(WIDTH, int(marks[-1].x // WIDTH) + 1)
    _draw_states(canvas, marks)
    _draw_silences(canvas, marks)
    _draw_limits(canvas, marks)
    _draw_pauses(canvas, marks)
    _draw_times(canvas, marks)
    _draw_names_of_lanes(canvas)
    for mark in marks:
        _draw_flag(canvas, mark)
    for mark in marks:
        canvas.put(mark.x, _record(mark, canvas.inside(mark.x)))
    return canvas


def _spans(canvas, marks):
    """Each mark with the place of the next, to which what it leads to lasts."""
    after_the_last = min(marks[-1].x + LAST, float(len(canvas.cells) * WIDTH))
    return zip(marks, [mark.x for mark in marks[1:]] + [after_the_last])


# ---- The end over time ---------------------------------------------------------------------------

def _draw_states(canvas, marks):
    """The band: one rectangle for each state that lasts, named where there is room."""
    runs = []
    for mark, end in _spans(canvas, marks):
        state = state_of(mark.end())
        anew = mark.moment.event is not None and mark.moment.event.name == "make"
        if runs and runs[-1][0] == state and not anew:
            runs[-1][2] = end
        else:
            runs.append([state, mark.x, end])
    for state, start, end in runs:
        for at, left, right in canvas.pieces(start, end):
            drawing = rectangle(left, BAND, right - left, BAND_HEIGHT, class_=f"band {BANDS[state]}")
            if right - left > len(state) * LETTER + 8:
                drawing += text((left + right) / 2, BAND + 13, state, class_="state")
            canvas.cells[at].append(drawing)


def _draw_silences(canvas, marks):
    """Silence, or the wait of a start, grows until something is heard or the limit is reached."""
    run, kind = [], None
    for mark, following in zip(marks, marks[1:]):
        start, stop = _used_up(mark, mark), _used_up(mark, following)
        if start is None or stop is None:
            continue
        now = "silence" if mark.end().state == UP else "waiting"
        first, last = (mark.x, _top(start)), (following.x, _top(stop))
        if run and (run[-1] != first or kind != now):
            _draw_silence(canvas, run, kind)
            run = []
        run, kind = (run or [first]) + [last], now
    if run:
        _draw_silence(canvas, run, kind)


def _draw_silence(canvas, run, kind):
    for at, points in canvas.strokes(run):
        feet = [(points[-1][0], SILENCES), (points[0][0], SILENCES)]
        canvas.cells[at].append(polygon(points + feet, class_=kind) + polyline(points, class_="slope"))


def _top(part):
    """How high a part of the limit reaches; what is beyond the limit is drawn as a little more."""
    return SILENCES - SILENCE_LIMIT * min(part, 1.15)


def _used_up(mark, at):
    """How much of its limit the end that `mark` left has used up at another mark; None if it has none."""
    end, event = mark.end(), at.moment.event
    if end is None or end.state == IDLE or event is None or event.name == "make" and at is not mark:
        return None
    went_back = at.moment.answer is not None and at.moment.answer.number == CLOCK_BACK
    now = end.reading if went_back else event.reading
    then, limit = (end.heard, "silence") if end.state == UP else (end.waits_since, "wait")
    return None if then is None else since(now, then) / limit_of(end, limit)


def _draw_limits(canvas, marks):
    """The limits of age and silence as dashed lines, named at the left of each cell and where they change."""
    before = None
    for mark, end in _spans(canvas, marks):
        if mark.end() is None:
            continue
        settings = mark.end().settings
        for at, left, right in canvas.pieces(mark.x, end):
            for y, name, letter in LIMITS:
                drawing = line(left, y, right, y, class_=f"limit {name}-limit")
                if left == 0 or settings != before:
                    words = f"{letter} {seconds(settings[name])}"
                    drawing += text(2 if left <= LEFT else left + 2, y - 3, words, class_="limit-name")
                canvas.cells[at].append(drawing)
        before = settings


# ---- Times and lanes -----------------------------------------------------------------------------

def _draw_pauses(canvas, marks):
    """Two strokes where a pause is longer than it is drawn."""
    for before, mark in zip(marks, marks[1:]):
        if not mark.cut:
            continue
        middle = (before.x + mark.x) / 2
        x = canvas.inside(middle)
        strokes = line(x - 4, TIMES + 10, x, TIMES + 2) + line(x, TIMES + 10, x + 4, TIMES + 2)
        canvas.put(middle, element("g", strokes, class_="pause"))


def _draw_times(canvas, marks):
    """Times wherever there is room for one more: in each cell at the first mark, and beyond the time before."""
    taken = 0.0  # up to where the axis is taken
    for mark in marks:
        x, width = canvas.inside(mark.x), len(mark.time.label) * LETTER
        first = x == LEFT
        left = x - 4 if first else x - width / 2
        start = mark.x - x
        if not first and (start + left < taken or left + width > WIDTH):
            continue
        taken = start + left + width + LETTER
        place = {"x": left, "class_": "time first"} if first else {"x": x, "class_": "time"}
        canvas.put(mark.x, line(x, TIMES + 3, x, TIMES + 9, class_="tick")
                   + text(y=TIMES, words=mark.time.label, **place))


def _draw_names_of_lanes(canvas):
    """The axis, the feet of the bars, and the name of each lane at the left."""
    parts = [line(0, y, WIDTH, y, class_=name)
             for y, name in ((TIMES + 6, "axis"), (AGES, "foot"), (SILENCES, "foot"))]
    parts += [text(2, y - 3, name, class_="lane")
              for y, name in ((MESSAGES + 6, "heard"), (EVENTS + 6, "own"), (AGES, "age"), (SILENCES, "silence"),
                              (SENT + 6, "sent"))]
    for cell in canvas.cells:
        cell.append("".join(parts))


def _draw_flag(canvas, mark):
    """A line through all lanes where the link comes up or goes down."""
    answer, x = mark.moment.answer, canvas.inside(mark.x)
    for word in ("up", "down"):
        if answer is not None and answer.has(word):
            canvas.put(mark.x, line(x, EVENTS + 12, x, SENT + 12, class_=f"flag {word}")
                       + text(x + 3, FLAGS, word, class_=f"flag-name {word}"))


# ---- One record ----------------------------------------------------------------------------------

def _record(mark, x):
    """All that belongs to one record, in one group that can be pointed at."""
    event = mark.moment.event
    is_message = event is not None and event.name == "message"
    y = MESSAGES if is_message else EVENTS
    parts = [
        element("title", escape(mark.told())),
        line(x, NAMES - 1, x, y - SIZE, class_="stalk"),
        text(x, NAMES, _name(mark), class_="name", transform=f"rotate(-60 {x:g} {NAMES})"),
        _glyph(mark.shape(), mark.sign(), x, y),
        _age(mark, x),
        _sent(mark, x),
    ]
    classes = f"record {mark.kind()}" + (" differs" if mark.differs else "")
    return element("g", *parts, class_=classes, id=f"r{mark.number}", tabindex=0)


def _name(mark):
    """A record in a word: its name, and for a message its kind and number."""
    event = mark.moment.event
    if event is None:
        return "record"
    if event.name != "message":
        return event.name
    message = parsed_message(event.data)
    return "malformed" if message is None else _short(message)


def _short(message):
    """A message in a word; those of the start are numbered by their names."""
    names = {"train": "train", "life-sign": "life"}
    return f"{names[message.name]} {message.number}" if message.name in names else message.name


def _glyph(form, sign, x, y):
    """A mark with its number. A gap has a ring more than what is simply handled."""
    drawing = shape(form, x, y, SIZE, class_="mark")
    if sign == str(GAP):
        drawing += shape("circle", x, y, SIZE - 3, class_="ring")
    return drawing + text(x, y + 3.5, sign, class_="sign")


def sign_of(number, x, y):
    """The mark of an answer alone, for an explanation."""
    return element("g", _glyph(shape_of(number), str(number), x, y), class_=f"a{number}")


def _age(mark, x):
    """The age as a bar against the limit; one that is far too high is torn off."""
    age = mark.age()
    if age is None:
        return ""
    scaled = age * AGE_LIMIT / limit_of(mark.moment.before, "age")
    height = min(max(scaled, 1.0), float(OLDEST))
    top = AGES - height
    bar = rectangle(x - 6, top, 12, height, class_="bar")
    if scaled > OLDEST:
        bar += polygon([(x - 7, top + 7), (x + 7, top + 1), (x + 7, top + 4), (x - 7, top + 10)], class_="torn")
    words = "ahead" if age >= HALF else short_seconds(age)
    return bar + text(x, top - 2, words, class_="age-name")


def _sent(mark, x):
    sent = mark.moment.answer and mark.moment.answer.bytes_of("send")
    if not sent:
        return ""
    message = parsed_message(sent)
    words = "malformed" if message is None else _short(message)
    arrow = polygon([(x - 5, SENT - 6), (x + 5, SENT - 6), (x + 5, SENT + 1), (x, SENT + 7), (x - 5, SENT + 1)],
                    class_="sent")
    return arrow + text(x - 2, SENT + 17, words, class_="name", transform=f"rotate(60 {x - 2:g} {SENT + 17})")
