"""The desk by its definitions: a plain slow program over the whole list of deliveries.

It shares no code with the desk and keeps no tables. What was accepted of a panel after each beginning of the
list, which commands were applied there, what the priority machine has and what is replied are each computed
from the list by their definitions.
"""
from dataclasses import dataclass, field

from oracle.slow_schedules import WEEKDAYS, local_time, schedule_value, segments

WINDOW = 64
REMEMBERED = 1000
LAST_NUMBER = 10**12
LOWEST_PRIORITY = 16


@dataclass(frozen=True)
class Point:
    name: str
    kind: str
    low: int
    high: int
    default: int

    def admits(self, value):
        return self.low <= value <= self.high


@dataclass(frozen=True)
class Panel:
    name: str
    points: tuple
    priorities: tuple


@dataclass(frozen=True)
class Building:
    points: tuple
    panels: tuple
    zone: str = "UTC0"
    calendars: tuple = ()
    schedules: tuple = ()

    def point(self, name):
        return next((point for point in self.points if point.name == name), None)

    def panel(self, name):
        return next((panel for panel in self.panels if panel.name == name), None)


@dataclass(frozen=True)
class Content:
    point: str
    priority: int
    value: int | None


@dataclass(frozen=True)
class Command:
    panel: str
    number: int
    content: Content


@dataclass(frozen=True)
class Skip:
    panel: str
    upto: int


@dataclass(frozen=True)
class Tick:
    at: int


@dataclass(frozen=True)
class Import:
    """Rows of the name of a calendar and the text of an entry."""

    rows: tuple


# ---- what was accepted of a panel


@dataclass(frozen=True)
class Taken:
    """The accepted commands of a panel under their numbers, and the greatest `upto` of its accepted skips, or 1."""

    keys: dict
    upto: int

    def front(self):
        """The least number that is at least `upto` and no key."""
        number = self.upto
        while number in self.keys:
            number += 1
        return number

    def after(self, delivery):
        front = self.front()
        if isinstance(delivery, Skip):
            accepted = 1 <= delivery.upto <= LAST_NUMBER + 1 and front + 1 <= delivery.upto <= front + WINDOW
            return Taken(self.keys, max(self.upto, delivery.upto)) if accepted else self
        number = delivery.number
        accepted = 1 <= number <= LAST_NUMBER and number not in self.keys and front <= number <= front + WINDOW - 1
        return Taken({**self.keys, number: delivery.content}, self.upto) if accepted else self


def panel_of(delivery):
    """The name of the panel that sent it; none of a tick and of an import."""
    return delivery.panel if isinstance(delivery, (Command, Skip)) else None


def taken_along(building, deliveries, panel):
    """What was accepted of a panel before each delivery of a list, and after the last one."""
    along = [Taken({}, 1)]
    for delivery in deliveries:
        asked = building.panel(panel) is not None and panel_of(delivery) == panel
        along.append(along[-1].after(delivery) if asked else along[-1])
    return along


# ---- the priority machine


def applied(old, new):
    """The numbers that the front passes, with what was accepted under them, by rising number."""
    return [(number, new.keys[number]) for number in range(old.front(), new.front()) if number in new.keys]


def unknown_row(building, delivery):
    """The record of the first row whose calendar the building lacks, the header being 1; or None."""
    names = {each.name for each in building.calendars}
    return next((place for place, (name, _) in enumerate(delivery.rows, 2) if name not in names), None)


def clock_events(building, earlier, delivery):
    """A tick in range that is later than each before it in range; an import."""
    if isinstance(delivery, Import):
        return [] if unknown_row(building, delivery) else [delivery]
    if not isinstance(delivery, Tick) or local_time(building.zone, delivery.at) is None:
        return []
    before = [each.at for each in earlier if isinstance(each, Tick) and local_time(building.zone, each.at) is not None]
    return [delivery] if all(at < delivery.at for at in before) else []


def events_along(building, deliveries):
    """What each delivery of a list has acted on: commands in number order, a tick, or an import."""
    panels = {panel_of(delivery) for delivery in deliveries} - {None}
    along = {panel: taken_along(building, deliveries, panel) for panel in panels}
    reported = []
    for index, delivery in enumerate(deliveries):
        panel = panel_of(delivery)
        if panel is None:
            reported.append(clock_events(building, deliveries[:index], delivery))
            continue
        old, new = along[panel][index : index + 2]
        reported.append([] if new is old else [Command(panel, *entry) for entry in applied(old, new)])
    return along, reported


def rule(building, panel, content):
    """The least rule against a content, each stated by itself."""
    point, granted = building.point(content.point), building.panel(panel)
    conditions = {
        "X1": point is None,
        "X2": content.point not in granted.points,
        "X3": not 1 <= content.priority <= 16,
        "X4": content.priority == 6,
        "X5": content.priority not in granted.priorities,
        "X6": point is not None and content.value is not None and not point.admits(content.value),
    }
    return min((name for name, holds in conditions.items() if holds), default=None)


def present(building, places, name):
    """The value at the least priority of a point, with that priority; else its default, with 0."""
    priorities = [priority for (point, priority) in places if point == name]
    if not priorities:
        return building.point(name).default, 0
    return places[name, min(priorities)], min(priorities)


@dataclass
class Machine:
    """The places with values, the command that gave each its value where one did, the answers of commands, what each
    schedule shows, imported pairs, the last tick."""

    places: dict = field(default_factory=dict)
    givers: dict = field(default_factory=dict)
    answers: dict = field(default_factory=dict)
    shown: dict = field(default_factory=dict)
    imported: set = field(default_factory=set)
    last: int | None = None


def put(state, place, value, giver=None):
    """Puts a value or NULL in a place, for a command or for a schedule."""
    state.places.pop(place, None)
    state.givers.pop(place, None)
    if value is not None:
        state.places[place] = value
        if giver is not None:
            state.givers[place] = giver


def command(building, state, event):
    content, against = event.content, rule(building, event.panel, event.content)
    if against is not None:
        return ("refused", against)
    put(state, (content.point, content.priority), content.value, event)
    return ("done", *present(building, state.places, content.point))


def calendars_now(building, imported):
    """The entries of each calendar, of the file and imported."""
    return {
        each.name: list(each.entries) + [entry for name, entry in imported if name == each.name]
        for each in building.calendars
    }


def settle(building, state, moment):
    """Settles all schedules at a moment, and answers the number of writes."""
    day, now = local_time(building.zone, moment)
    calendars = calendars_now(building, state.imported)
    values = {each.name: schedule_value(each, calendars, day, now) for each in building.schedules}
    active = {each.name for each in building.schedules if each.active(day)}
    due = [each for each in building.schedules if each.name in active and state.shown.get(each.name) != (values[each.name],)]
    leaving = [each for each in building.schedules if each.name not in active and each.releases and each.name in state.shown]
    written = {(target, each.priority): None for each in leaving for target in each.targets}
    written |= {(target, each.priority): values[each.name] for each in due for target in each.targets}
    for place, value in written.items():
        put(state, place, value)
    state.shown = {name: (values[name],) for name in active}
    return sum(len(each.targets) for each in due + leaving)


def import_rows(building, state, rows):
    added = []
    for name, entry in rows:
        known = {*next(each.entries for each in building.calendars if each.name == name)}
        if entry not in known and (name, entry) not in state.imported:
            state.imported = state.imported | {(name, entry)}
            added.append((name, entry))
    writes = 0 if state.last is None else settle(building, state, state.last)
    return len(added), len(rows) - len(added), writes


def act(building, state, event):
    """Acts on one event, and answers a tick or an import."""
    if isinstance(event, Command):
        state.answers[event.panel, event.number] = command(building, state, event)
        return None
    if isinstance(event, Tick):
        writes = settle(building, state, event.at)
        state.last = event.at
        return f'{{"answer":"tick","writes":{writes}}}'
    added, known, writes = import_rows(building, state, event.rows)
    return f'{{"added":{added},"answer":"import","known":{known},"writes":{writes}}}'


def machine(building, events):
    """The machine after the events of a list of deliveries, and the reply to each delivery's last event."""
    state, reported = Machine(), []
    for each in events:
        answers = [act(building, state, event) for event in each]
        reported.append(answers[-1] if answers else None)
    return state, reported


# ---- what is replied and printed


def time_text(now):
    seconds, hundredths = divmod(now, 100)
    return f"{seconds // 3600:02}:{seconds // 60 % 60:02}:{seconds % 60:02}.{hundredths:02}"


def moment_text(building, moment):
    """A moment on the building's clock."""
    shown = local_time(building.zone, moment)
    return str(moment) if shown is None else f"{shown[0].isoformat()} {time_text(shown[1])}"


def answer_text(number, answer):
    if answer[0] == "refused":
        return f'{{"answer":"refused","number":{number},"rule":"{answer[1]}"}}'
    return f'{{"answer":"done","number":{number},"present":{answer[1]},"priority":{answer[2]}}}'


def reply_to_skip(old, new, upto):
    if not 1 <= upto <= LAST_NUMBER + 1:
        return '{"answer":"bad_number"}'
    if upto > old.front() + WINDOW:
        return f'{{"answer":"too_far","next":{old.front()},"number":{upto}}}'
    return f'{{"answer":"skip","next":{new.front()}}}'


def reply_to_clock(building, delivery, reported):
    """The reply to a tick or an import, where its event has this one, or it has none."""
    if reported is not None:
        return reported
    if isinstance(delivery, Import):
        return f'{{"answer":"import_refused","fault":"I3","record":{unknown_row(building, delivery)}}}'
    return '{"answer":"bad_moment"}' if local_time(building.zone, delivery.at) is None else '{"answer":"old","writes":0}'


def reply(building, old, new, delivery, answers):
    """The text of the reply to a delivery, with the machine's answers after it: the first case that holds."""
    if building.panel(delivery.panel) is None:
        return '{"answer":"no_panel"}'
    if isinstance(delivery, Skip):
        return reply_to_skip(old, new, delivery.upto)
    number, next_number = delivery.number, old.front()
    if not 1 <= number <= LAST_NUMBER:
        return '{"answer":"bad_number"}'
    if number < next_number - REMEMBERED:
        return f'{{"answer":"forgotten","number":{number}}}'
    if number in old.keys and old.keys[number] != delivery.content:
        return f'{{"answer":"differs","number":{number}}}'
    if number in old.keys and number > next_number:
        return f'{{"answer":"parked","next":{next_number},"number":{number}}}'
    if number < next_number and number not in old.keys:
        return f'{{"answer":"skipped","number":{number}}}'
    if number >= next_number + WINDOW:
        return f'{{"answer":"too_far","next":{next_number},"number":{number}}}'
    if number > next_number:
        return f'{{"answer":"parked","next":{next_number},"number":{number}}}'
    return answer_text(number, answers[delivery.panel, number])


def point_line(building, places, point):
    value, priority = present(building, places, point.name)
    return f"POINT {point.name:<32}{value:>12} {priority:>2}"


def run_of(building, deliveries):
    """The reply to each delivery, and the machine after the last one. An answer is given once and stays, so those of
    the whole list serve."""
    along, events = events_along(building, deliveries)
    state, reported = machine(building, events)
    replies = [
        reply_to_clock(building, delivery, reported[index])
        if panel_of(delivery) is None
        else reply(building, *along[delivery.panel][index : index + 2], delivery, state.answers)
        for index, delivery in enumerate(deliveries)
    ]
    return replies, state


def printed(building, deliveries):
    """What a replay of the list prints."""
    replies, state = run_of(building, deliveries)
    points = [point_line(building, state.places, point) for point in building.points]
    return "".join(line + "\n" for line in replies + points)


# ---- the straight list


def given_up(old, new):
    """The ends of the runs of numbers without a command that the front passes."""
    passed = range(old.front() + 1, new.front() + 1)
    return [upto for upto in passed if upto - 1 not in new.keys and (upto in new.keys or upto == new.front())]


def straightened_by_panel(panel, old, new):
    """What a command or a skip of a panel tells: by rising number, a skip before the command of its number."""
    reported = [(upto, 0, Skip(panel, upto)) for upto in given_up(old, new)]
    reported += [(number, 1, Command(panel, number, content)) for number, content in applied(old, new)]
    return [each for _, _, each in sorted(reported, key=lambda entry: entry[:2])]


def added_rows(building, earlier, rows):
    """The rows that no calendar of the file has, no import among the earlier events, and no row before."""
    known = {(each.name, entry) for each in building.calendars for entry in each.entries}
    known |= {row for event in earlier if isinstance(event, Import) for row in event.rows}
    return tuple(row for place, row in enumerate(rows) if row not in known and row not in rows[:place])


def parked(panel, taken):
    """The commands of a panel that still wait, by rising number."""
    return [Command(panel, number, taken.keys[number]) for number in sorted(taken.keys) if number > taken.front()]


def straight_list(building, deliveries):
    """What each delivery tells of the straight list, joined; and its last group, the commands that are still parked."""
    along, events = events_along(building, deliveries)
    reported, earlier = [], []
    for index, (delivery, acted) in enumerate(zip(deliveries, events)):
        panel = panel_of(delivery)
        if panel is not None:
            reported += straightened_by_panel(panel, *along[panel][index : index + 2])
        elif isinstance(delivery, Tick):
            reported += acted
        else:
            reported += [Import(rows) for rows in (added_rows(building, earlier, event.rows) for event in acted) if rows]
        earlier += acted
    waiting = [parked(panel.name, along[panel.name][-1]) for panel in building.panels if panel.name in along]
    return reported, sum(waiting, [])


def delivery_line(delivery):
    """The line of a delivery as the desk prints it: compact, with its keys in the order of their bytes."""
    if isinstance(delivery, Tick):
        return f'{{"tick":{delivery.at}}}'
    if isinstance(delivery, Skip):
        return f'{{"panel":"{delivery.panel}","skip":{delivery.upto}}}'
    if isinstance(delivery, Import):
        records = "".join(f"{name},{entry}\\n" for name, entry in delivery.rows)
        return f'{{"import":"calendar,entry\\n{records}"}}'
    content = delivery.content
    members = [f'"number":{delivery.number}', f'"panel":"{delivery.panel}"', f'"point":"{content.point}"']
    members += [f'"priority":{content.priority}', f'"value":{"null" if content.value is None else content.value}']
    return f"{{{','.join(members)}}}"


def straightened(building, deliveries):
    """What a straightening of the list prints."""
    reported, waiting = straight_list(building, deliveries)
    return "".join(delivery_line(each) + "\n" for each in reported + waiting)


# ---- what was overridden


@dataclass(frozen=True)
class Override:
    """A time in which a panel's command gave a point its value. Its moments are those of the last tick then, None before any;
    of one that still stands at the end of the list the second one is the last of all."""

    command: Command
    begun: int | None
    ended: int | None
    stands: bool


def givers_now(building, state):
    """The command that gives each point its value; None where none does."""
    priorities = {point.name: present(building, state.places, point.name)[1] for point in building.points}
    return {name: state.givers.get((name, priority)) for name, priority in priorities.items()}


def looks(building, earlier, deliveries):
    """What is seen before the deliveries and after each of them: what gives each point its value, and the last tick. Of what
    the earlier ones left there nobody knows who put it there."""
    state, seen = Machine(), []
    for count, events in enumerate([[], *events_along(building, [*earlier, *deliveries])[1]]):
        for event in events:
            act(building, state, event)
        if count == len(earlier):
            state.givers.clear()
        if count >= len(earlier):
            seen.append((givers_now(building, state), state.last))
    return seen


def overrides_of(seen, point):
    """The overrides of a point in what is seen, in the order in which they began."""
    overrides = []
    for begin in range(1, len(seen)):
        giver = seen[begin][0][point]
        if giver is None or giver == seen[begin - 1][0][point]:
            continue
        ends = [later for later in range(begin, len(seen)) if seen[later][0][point] != giver]
        overrides.append(Override(giver, seen[begin][1], seen[ends[0] if ends else -1][1], not ends))
    return overrides


def override_line(building, override):
    begun, ended = ("before any tick" if each is None else moment_text(building, each) for each in (override.begun, override.ended))
    lasted = f"since {begun}" if override.stands else f"from {begun} to {ended}"
    if override.begun is not None:
        minutes = (override.ended - override.begun) // 6000
        lasted += f", {minutes // 60} h {minutes % 60:02} min"
    content = override.command.content
    shown = f"{content.point:<32}{content.value:>12} {content.priority:>2}"
    return f"{shown}  panel {override.command.panel} #{override.command.number}, {lasted}"


def overridden(building, earlier, deliveries, since=None):
    """What is printed of the overrides in a list on the base of an earlier one; with a moment, of those that ended later or
    still stand."""
    seen = looks(building, earlier, deliveries)
    overrides = [each for point in building.points for each in overrides_of(seen, point.name)]
    told = [each for each in overrides if since is None or each.stands or each.ended is not None and each.ended > since]
    return "".join(override_line(building, each) + "\n" for each in told)


# ---- what a point and a day have


def point_text(building, places, point):
    """What a point has: its places, and its present value."""
    value, priority = present(building, places, point.name)
    values = [places.get((point.name, place)) for place in range(1, LOWEST_PRIORITY + 1)]
    texts = ",".join("null" if each is None else str(each) for each in values)
    return f'{{"answer":"point","places":[{texts}],"point":"{point.name}","present":{value},"priority":{priority}}}'


def segment_line(time, value):
    return f"{time_text(time)}{'NULL' if value is None else value:>13}"


def report_text(building, day, imported=frozenset(), places=None):
    """The report of a day, after these imported pairs and with these places."""
    calendars = calendars_now(building, imported)
    lines = [f"DAY {day} {WEEKDAYS[day.weekday()]}"]
    for each in building.schedules:
        lines.append(f"SCHEDULE {each.name} {'active' if each.active(day) else 'quiet'}")
        lines += [segment_line(time, value) for time, value in segments(each, calendars, day)]
    lines += [point_line(building, places or {}, point) for point in building.points]
    return "".join(line + "\n" for line in lines)
