"""Tries `desk serve` with many connections at once: beside clients that stall, and with 64 clients that ask side by side.

Behind 500 clients that hold the desk up in one way each of 20 honest ones is answered within a second, and the slow ones
are let go after 5 seconds. Of requests that were made side by side the replies and the tables are those of some order
that keeps each client's, as the plain slow program tells them.
"""
import contextlib
import json
import pathlib
import random
import re
import resource
import socket
import threading
import time

from helpers import databases, tables
from helpers.deliveries import members_of, request_of
from helpers.random_lists import toml_of
from helpers.serving import SECONDS, Server, all_rows, answered, get, post, read_all, response, serving
from helpers.trying import expect, named
from oracle.slow_desk import Building, Command, Content, Panel, Point, point_text, run_of

# What a connection may take, and how much earlier or later a busy machine may see it let go.
LIMIT, EARLIER, GRACE = 5, 0.5, 3
# How many stall, how many are honest, and what an honest one waits at most, in seconds.
STALLED, HONEST, PATIENCE = 500, 20, 1
# How many connections a desk holds at once, and what it takes of memory at most, in kB.
HELD, MEMORY = 512, 64 * 1024
BODY = 262_144
# How many names that there are not are asked for, and how many kB a desk may grow meanwhile.
SOME_NAMES, MANY_NAMES, GROWN = 300, 6_000, 256
NOPE = get("/points/NOPE")
NO_POINT = response(404, b'{"answer":"no_point"}')
IMPORT_HEAD = b"POST /imports HTTP/1.1\r\nContent-Length: %d\r\n\r\n" % BODY


# ---- beside clients that stall

def nothing(client, clock):
    """It sends nothing."""


def part_of_a_head(client, clock):
    if clock == 0:
        client.sendall(b"POST /panels/P1/comm")


def part_of_a_body(client, clock):
    if clock == 0:
        client.sendall(IMPORT_HEAD + b"calendar,entry\n")


def reads_nothing(client, clock):
    """It is refused, and neither reads that nor ends."""
    if clock == 0:
        client.sendall(NOPE)


def byte_a_second(client, clock):
    client.sendall(NOPE[clock:clock + 1])


KINDS = [nothing, part_of_a_head, part_of_a_body, reads_nothing, byte_a_second]


def connected(server, count):
    return [server.connect() for _ in range(count)]


def honest_are_answered(server, count=HONEST):
    """Each of so many honest clients, one after the other, is answered within the time that it may wait."""
    for _ in range(count):
        begun = time.monotonic()
        expect(server.ask(NOPE), NO_POINT)
        waited = time.monotonic() - begun
        if waited > PATIENCE:
            raise AssertionError(f"an honest client waited {waited:.2f} seconds")


def has_ended(client):
    """Whether the desk has let a client go, which may have got a response."""
    client.setblocking(False)
    try:
        while client.recv(65_536):
            pass
    except BlockingIOError:
        return False
    except ConnectionResetError:
        pass
    return True


def beside(program, folder, stalls):
    with serving(program, folder, STALLED + HONEST) as server:
        begun = time.monotonic()
        clients = connected(server, STALLED)
        took = time.monotonic() - begun
        for client in clients:
            stalls(client, 0)
        honest_are_answered(server)
        let_go = refused_let_go if stalls is reads_nothing else stalled_let_go
        let_go(clients, begun, took, stalls)
        server.end()


def stalled_let_go(clients, begun, took, stalls):
    """Each client is let go when its time is over, without an answer."""
    waiting, clock = list(clients), 0
    while waiting and time.monotonic() - begun < took + LIMIT + GRACE:
        if time.monotonic() - begun >= clock + 1:
            clock += 1
            for client in waiting:
                with contextlib.suppress(OSError):
                    stalls(client, clock)
        gone = [client for client in waiting if has_ended(client)]
        if gone and time.monotonic() - begun < LIMIT - EARLIER:
            raise AssertionError(f"{len(gone)} clients were let go after {time.monotonic() - begun:.2f} seconds")
        waiting = [client for client in waiting if client not in gone]
        time.sleep(0.05)
    expect(len(waiting), 0)


def refused_let_go(clients, begun, took, stalls):
    """Each client has got its response, and can send on until its time is over."""
    expect({read_all(client) for client in clients}, {NO_POINT})
    time.sleep(max(0, begun + LIMIT - EARLIER - time.monotonic()))
    expect(len(takers(clients)), len(clients))
    time.sleep(max(0, begun + took + LIMIT + EARLIER - time.monotonic()))
    expect(len(takers(clients)), 0)


def takers(clients):
    """The clients whose bytes the desk takes still."""
    found = clients
    for _ in range(2):
        found = [client for client in found if has_sent(client)]
        time.sleep(0.05)
    return found


def has_sent(client):
    try:
        client.send(b"x")
    except OSError:
        return False
    return True


def honest_ones_are_answered_beside(stalls):
    def test(program, folder):
        beside(program, folder, stalls)
    return named(f"honest_ones_are_answered_beside_{STALLED}_clients_of_the_kind_{stalls.__name__}", test)


# ---- where there is no room

def the_one_taken_first_makes_room(program, folder):
    """Of more clients than are held the first ones are let go at once, and the others are held still."""
    more = 88
    with serving(program, folder, HELD + more + HONEST) as server:
        clients = connected(server, HELD + more)
        honest_are_answered(server)
        first, rest = clients[:more], clients[more:]
        expect([has_ended(client) for client in first], [True] * more)
        # an honest one may have been held for a moment, and then one more made room
        expect(sum(not has_ended(client) for client in rest) >= HELD - HONEST, True)
        for client in rest:
            client.close()
        server.end()


def so_it_does_where_descriptors_end(program, folder):
    """A desk that may open 40 files goes on, and counts no connection that it has not taken."""
    stalled = 100
    with limited(40):
        server = Server(program, folder, stalled + HONEST)
    try:
        clients = connected(server, stalled)
        honest_are_answered(server)
        expect(sum(not has_ended(client) for client in clients) > 10, True)
        for client in clients:
            client.close()
        server.end()
    finally:
        server.stop()


@contextlib.contextmanager
def limited(files):
    """Programs that are begun here may open so many files."""
    usual = resource.getrlimit(resource.RLIMIT_NOFILE)
    resource.setrlimit(resource.RLIMIT_NOFILE, (files, usual[1]))
    try:
        yield
    finally:
        resource.setrlimit(resource.RLIMIT_NOFILE, usual)


def most_memory(server):
    """The most memory that a desk has had, in kB."""
    status = pathlib.Path(f"/proc/{server.ran.pid}/status").read_text()
    return next(int(line.split()[1]) for line in status.splitlines() if line.startswith("VmHWM"))


def bodies_that_are_half_sent_take_little_memory(program, folder):
    with serving(program, folder, STALLED + HONEST) as server:
        clients = connected(server, STALLED)
        for client in clients:
            with contextlib.suppress(OSError):
                client.sendall(IMPORT_HEAD + b"x" * (BODY // 2))
        honest_are_answered(server)
        found = most_memory(server)
        if found >= MEMORY:
            raise AssertionError(f"it took {found} kB of memory")
        held = sum(not has_ended(client) for client in clients)
        if held < 200:
            raise AssertionError(f"only {held} are held")
        for client in clients:
            client.close()
        server.end()


def memory_now(server):
    """The memory that a desk has now, in kB."""
    status = pathlib.Path(f"/proc/{server.ran.pid}/status").read_text()
    return next(int(line.split()[1]) for line in status.splitlines() if line.startswith("VmRSS"))


def asked_for(server, places):
    """A point and a panel of a name of its own for each of these places, which the building lacks."""
    command = b'{"number":1,"point":"R101-SET","priority":8,"value":1}'
    for place in places:
        expect(server.ask(get(f"/points/NOPE-{place}")), NO_POINT)
        expect(server.ask(post(f"/panels/NOPE-{place}/commands", command)), answered('{"answer":"no_panel"}'))


def names_that_the_building_lacks_take_no_memory(program, folder):
    """However many a client asks for."""
    with serving(program, folder, 2 * (SOME_NAMES + MANY_NAMES) + 1) as server:
        asked_for(server, range(SOME_NAMES))
        begun = memory_now(server)
        asked_for(server, range(SOME_NAMES, SOME_NAMES + MANY_NAMES))
        grown = memory_now(server) - begun
        expect(server.ask(NOPE), NO_POINT)
        server.end()
    if grown > GROWN:
        raise AssertionError(f"{grown} kB more after {MANY_NAMES} names of each kind")


def a_long_response_waits_for_who_reads_it(program, folder):
    """Of a response that is longer than the system takes at once nothing is lost, and who reads none of it is let go."""
    points = "".join(f'[[point]]\nname = "A-POINT-WITH-A-LONG-NAME-{place:05}"\nkind = "binary"\ndefault = 0\n' for place in range(1_000))
    (folder / "building.toml").write_text('zone = "UTC0"\n' + points)
    with serving(program, folder, 2 + HONEST) as server:
        begun = time.monotonic()
        clients = [narrow(server) for _ in range(2)]
        for client in clients:
            client.sendall(get("/reports/2025-06-02"))
        honest_are_answered(server)
        head, _, body = read_all(clients[0]).partition(b"\r\n\r\n")
        expect((head[:15], len(body)), (b"HTTP/1.1 200 OK", int(head.partition(b"Content-Length: ")[2].split(b"\r")[0])))
        time.sleep(max(0, begun + LIMIT + EARLIER - time.monotonic()))
        if len(read_all(clients[1])) >= len(head) + 4 + len(body):
            raise AssertionError("the whole response had gone out to a client that read nothing")
        server.end()


def narrow(server):
    """A client to whom the system sends little at once."""
    client = socket.socket()
    client.setsockopt(socket.SOL_SOCKET, socket.SO_RCVBUF, 2_048)
    client.setsockopt(socket.IPPROTO_TCP, socket.TCP_MAXSEG, 536)
    client.settimeout(SECONDS)
    client.connect(("127.0.0.1", server.port))
    return client


def a_tick_comes_as_a_connection_is_taken(program, folder):
    with serving(program, folder, 2, "--clock") as server:
        with server.connect():
            time.sleep(0.3)
            before = int(time.time() * 100)
            (_, _, last), = databases.held(folder)["desk"]
            if not before - 100 <= last < before:
                raise AssertionError(f"the last tick is {before - last} hundredths ago")
            expect(server.ask(NOPE), NO_POINT)
            (_, _, later), = databases.held(folder)["desk"]
            expect(later > last, True)
        server.end()


def requests_are_served_as_they_become_whole(program, folder):
    first, second = (post("/panels/P1/commands", b'{"number":%d,"point":"R101-SET","priority":8,"value":2150}' % number) for number in (1, 2))
    with serving(program, folder, 2) as server, server.connect() as early:
        early.sendall(first[:-1])
        expect(server.ask(second), answered('{"answer":"parked","next":1,"number":2}'))
        early.sendall(first[-1:])
        expect(read_all(early), answered('{"answer":"done","number":1,"present":2150,"priority":8}'))
        server.end()


# ---- clients that ask side by side

CLIENTS, REQUESTS, KILLS = 64, 20_000, 8
# So many panels write to one point, each at a priority of its own, and no value twice.
SHARED = 4
PRIORITIES = (2, 8, 10, 15)


def panel_of(place):
    return f"P{place}"


def point_of(place):
    return f"POINT-{place // SHARED}"


def building_of(places):
    points = tuple(Point(name, "analog", 0, 10**6, 0) for name in dict.fromkeys(map(point_of, places)))
    panels = tuple(Panel(panel_of(place), (point_of(place),), (PRIORITIES[place % SHARED],)) for place in places)
    return Building(points, panels)


class Client(threading.Thread):
    """A panel that sends its commands in order, each again until it is answered, and looks at its point now and then."""

    def __init__(self, place, count, port_now, seed):
        super().__init__(daemon=True)
        self.place, self.count, self.port_now, self.rng = place, count, port_now, random.Random(seed + place)
        # what it asked, a command or none where it looked, and what was answered
        self.reported, self.wrong = [], None

    def run(self):
        number, panel, point, priority = 0, panel_of(self.place), point_of(self.place), PRIORITIES[self.place % SHARED]
        try:
            for _ in range(self.count):
                if self.rng.random() < 0.1:
                    self.reported.append((None, self.ask(get(f"/points/{point}"))))
                else:
                    number += 1
                    asked = Command(panel, number, Content(point, priority, number))
                    self.reported.append((asked, self.ask(request_of(members_of(asked)))))
        except (AssertionError, ValueError) as error:
            self.wrong = f"{panel}: {error}"

    def ask(self, request):
        """The body that is answered to a request, which is made again as long as it gets no whole response."""
        until = time.monotonic() + SECONDS
        while time.monotonic() < until:
            with contextlib.suppress(OSError), socket.create_connection(("127.0.0.1", self.port_now()), timeout=SECONDS) as connection:
                connection.sendall(request)
                head, _, body = read_all(connection).partition(b"\r\n\r\n")
                if body and int(re.search(rb"Content-Length: (\d+)", head)[1]) == len(body):
                    expect(head[:15], b"HTTP/1.1 200 OK")
                    return body.decode()
            time.sleep(0.005)
        raise AssertionError(f"no answer to {request!r}")


class Edges:
    """Which answers come before which others, by what they tell."""

    def __init__(self, clients):
        self.clients, self.later = clients, {}
        self.commands = [[place for place, (asked, _) in enumerate(client.reported) if asked] for client in clients]
        for which, client in enumerate(clients):
            for place, (asked, reported) in enumerate(client.reported):
                if place:
                    self.add((which, place - 1), (which, place))
                self.add_of(which, place, asked, json.loads(reported))

    def add(self, earlier, later):
        self.later.setdefault(earlier, []).append(later)

    def add_of(self, which, place, asked, reported):
        """A look tells the place of each client, and the answer to a command those of the higher ones, up to the present."""
        if asked is None:
            values = [reported["places"][priority - 1] for priority in PRIORITIES]
        else:
            present = PRIORITIES.index(reported["priority"])
            values = [None] * present + [reported["present"]]
        for other, value in enumerate(values):
            if other != which:
                self.add_sees((which, place), other, value or 0)

    def add_sees(self, node, other, value):
        """A client's commands have the values 1, 2 and so on: the last before the node has this one, or none came."""
        commands = self.commands[other]
        if value:
            self.add((other, commands[value - 1]), node)
        if value < len(commands):
            self.add(node, (other, commands[value]))

    def order(self):
        """All answers, each after those that come before it."""
        waits = {(which, place): 0 for which, client in enumerate(self.clients) for place in range(len(client.reported))}
        for each in self.later.values():
            for later in each:
                waits[later] += 1
        ready, found = [node for node, count in waits.items() if count == 0], []
        while ready:
            node = ready.pop()
            found.append(node)
            for later in self.later.get(node, ()):
                waits[later] -= 1
                if waits[later] == 0:
                    ready.append(later)
        if len(found) < len(waits):
            raise AssertionError(f"{len(waits) - len(found)} answers have no order")
        return [self.clients[which].reported[place] for which, place in found]


def expect_some_order(clients, held):
    """The answers to the clients of one point are those of some order, as are the rows of their panels and places."""
    building, order = building_of([client.place for client in clients]), Edges(clients).order()
    replies, state = run_of(building, [asked for asked, _ in order if asked])
    wanted, places, (point,) = iter(replies), {}, building.points
    for asked, reported in order:
        if asked is None:
            expect(reported, point_text(building, places, point))
        else:
            places[point.name, asked.content.priority] = asked.content.value
            expect(reported, next(wanted))
    for name, value in tables_of(building, state).items():
        expect((name, [row for row in held[name] if mine(building, row)]), (name, value))


def mine(building, row):
    return row[0] in {each.name for each in (*building.points, *building.panels)}


def tables_of(building, state):
    """The rows that are wanted of the commands of a building, all of which were carried out."""
    numbers = {panel.name: max((number for name, number in state.answers if name == panel.name), default=0) for panel in building.panels}
    answers = sorted((*key, answer[1:]) for key, answer in state.answers.items())
    panels = {panel.name: panel for panel in building.panels}
    return {
        "place": sorted((*key, value) for key, value in state.places.items()),
        "panel": sorted((name, number + 1) for name, number in numbers.items() if number),
        "command": [(name, number, panels[name].points[0], panels[name].priorities[0], number, 1, *reported) for name, number, reported in answers],
    }


def asked_side_by_side(port_now, while_they_ask):
    """All clients, once each has been answered all that it asked."""
    seed = random.randrange(10**9)
    counts = [REQUESTS // CLIENTS + (place < REQUESTS % CLIENTS) for place in range(CLIENTS)]
    clients = [Client(place, count, port_now, seed) for place, count in enumerate(counts)]
    for client in clients:
        client.start()
    while_they_ask(clients)
    for client in clients:
        client.join(SECONDS)
    expect([client.wrong for client in clients if client.wrong or client.is_alive()], [])
    return clients


def expect_orders(clients, folder):
    """The answers of each point's clients, and the rows that a desk that has ended has left, are those of some order."""
    held = all_rows(folder)
    for first in range(0, CLIENTS, SHARED):
        expect_some_order(clients[first:first + SHARED], held)


def clients_that_ask_side_by_side_get_what_some_order_gets(program, folder):
    (folder / "building.toml").write_text(toml_of(building_of(range(CLIENTS))))
    with serving(program, folder, REQUESTS) as server:
        clients = asked_side_by_side(lambda: server.port, lambda clients: server.end())
        expect_orders(clients, folder)


class Restarted:
    """A desk that is killed now and then, and started anew."""

    def __init__(self, program, folder):
        self.start = lambda: Server(program, folder, 10**6)
        self.server = self.start()

    def kill_among(self, clients):
        for kill in range(1, KILLS + 1):
            wanted = kill * REQUESTS // (KILLS + 1) + random.randrange(100)
            while sum(len(client.reported) for client in clients) < wanted and any(client.is_alive() for client in clients):
                time.sleep(random.random() / 100)
            self.server.stop()
            self.server = self.start()


def kills_among_them_lose_nothing(program, folder):
    (folder / "building.toml").write_text(toml_of(building_of(range(CLIENTS))))
    desk = Restarted(program, folder)
    try:
        clients = asked_side_by_side(lambda: desk.server.port, desk.kill_among)
    finally:
        desk.server.stop()
    expect_orders(clients, folder)


TESTS = [tables.in_worked(test) for test in (
    requests_are_served_as_they_become_whole,
    the_one_taken_first_makes_room,
    so_it_does_where_descriptors_end,
    bodies_that_are_half_sent_take_little_memory,
    names_that_the_building_lacks_take_no_memory,
    a_tick_comes_as_a_connection_is_taken,
    a_long_response_waits_for_who_reads_it,
    clients_that_ask_side_by_side_get_what_some_order_gets,
    kills_among_them_lose_nothing,
    *map(honest_ones_are_answered_beside, KINDS),
)]
