"""Tries the page in a real browser: headless Chromium, with nginx and a desk behind it, over the loopback.

What is wanted are the values, bars and texts of worked days, as the documents have them; the clock of the browser is
set, and it looks again each third of a second in place of each 30 seconds.
"""
import contextlib
import functools
import http.client
import json
import ssl
import subprocess
import time

from helpers import browser, clocks, page_serving, tables
from helpers.serving import post, serving
from helpers.trying import expect

# Monday 2025-06-02, 08:30 on the building's clock, in milliseconds; and how much earlier 07:30 is.
MORNING, HOUR = 1_748_845_800_000, 3_600_000
CONNECTIONS = 1_000_000
COMMAND = b'{"number":1,"point":"R101-SET","priority":8,"value":2150}'
# Sets the clock of a page, and lets it look sooner.
SET_CLOCK = """
const shift = %d - Date.now(), now = Date.now, every = window.setInterval;
Date.now = () => now() + shift;
window.setInterval = (act, time) => every(act, time === 30000 ? 300 : time);
"""
ROWS = "return [...document.querySelectorAll('#points tr')].map(row => [...row.cells].map(cell => cell.textContent))"
BARS = "return [...document.querySelectorAll('.schedule')].map(row => [row.dataset.schedule, row.classList.contains('quiet'),\
 [...row.querySelectorAll('.segment')].map(bar => [bar.textContent, Math.round(parseFloat(bar.style.left) * 10) / 10,\
 Math.round(parseFloat(bar.style.width) * 10) / 10])])"
LINES = "return [...document.querySelectorAll('.line')].map(line => Math.round(parseFloat(line.style.left) * 10) / 10)"
PLACES = "return [...document.querySelectorAll('#places-rows tr')].map(row => [...row.cells].map(cell => cell.textContent))"
DAY = "R101-DAY"
MORNING_BARS = [[DAY, False, [["00:00 16.00", 0, 33.3], ["08:00 21.00", 33.3, 66.7]]]]
AT_REST = [["R101-SET", "21.00", "15 Available", "none today"], ["LIGHT", "off", "relinquish default", "no schedule"]]
BY_HAND = [["R101-SET", "21.50", "8 Manual Operator", "none today"], ["LIGHT", "off", "relinquish default", "no schedule"]]


class Opened:
    """A browser at the page of a desk, on the morning of the worked day or at another moment."""

    def __init__(self, program, folder, shown, description=None, moment=MORNING):
        self.server = serving(program, folder, CONNECTIONS)
        self.desk = self.server.__enter__()
        page_serving.describe(program, folder)
        if description:
            (folder / "description.json").write_text(json.dumps(description))
        self.page = page_serving.page_of(self.desk, folder)
        self.address = self.page.__enter__()
        self.shown, self.moment = shown, moment

    def open(self):
        script = self.shown.devtools("Page.addScriptToEvaluateOnNewDocument", source=SET_CLOCK % self.moment)
        self.shown.open(self.address)
        self.shown.devtools("Page.removeScriptToEvaluateOnNewDocument", **script)

    def __enter__(self):
        return self

    def __exit__(self, *_):
        self.shown.open("about:blank")
        self.page.__exit__(None, None, None)
        self.server.__exit__(None, None, None)

    def deliver(self, *requests):
        for target, body in requests:
            self.desk.ask(post(target, body))


TICK = ("/tick", b'{"at":174884400000}')
SENT = ("/panels/P1/commands", COMMAND)


# ---- what it shows

def the_points_and_the_day_are_those_of_the_report(program, folder, shown):
    with Opened(program, folder, shown) as page:
        page.deliver(TICK)
        page.open()
        shown.shows(ROWS, AT_REST)
        shown.shows(BARS, MORNING_BARS)
        shown.shows(LINES, [35.4])
        shown.shows("return document.getElementById('now').textContent", "2025-06-02 08:30, the building's time")


def the_next_change_of_the_day_is_reported(program, folder, shown):
    with Opened(program, folder, shown, moment=MORNING - HOUR) as page:
        page.open()
        shown.shows(ROWS, [["R101-SET", "18.00", "relinquish default", f"08:00 to 21.00 ({DAY})"], AT_REST[1]])
        shown.shows(LINES, [31.3])


def another_day_is_shown(program, folder, shown):
    with Opened(program, folder, shown) as page:
        page.open()
        shown.shows(BARS, MORNING_BARS)
        choose(shown, "date", "2025-12-25", "change")
        shown.shows(BARS, [[DAY, False, [["00:00 15.00", 0, 100]]]])
        shown.shows(LINES, [])
        shown.click("#today")
        shown.shows(BARS, MORNING_BARS)
        shown.shows(LINES, [35.4])


def a_quiet_schedule_is_pale(program, folder, shown):
    named = 'name = "R101-DAY"\n'
    (folder / "building.toml").write_text(tables.WORKED.replace(named, named + 'period = "2025-07-01..2025-07-31"\n'))
    with Opened(program, folder, shown) as page:
        page.open()
        shown.shows(BARS, [[DAY, True, MORNING_BARS[0][2]]])
        shown.shows("return getComputedStyle(document.querySelector('.bar')).opacity", "0.4")


def a_change_by_a_panel_shows_at_the_next_look(program, folder, shown):
    with Opened(program, folder, shown) as page:
        page.deliver(TICK)
        page.open()
        shown.shows(ROWS, AT_REST)
        page.deliver(SENT)
        shown.shows(ROWS, BY_HAND)
        shown.shows("return [...document.querySelectorAll('.hand')].map(cell => cell.textContent)", ["8 Manual Operator"])
        shown.shows("return document.getElementById('counted').textContent", "2 of 2 points; 1 overridden by hand")


def points_are_filtered(program, folder, shown):
    with Opened(program, folder, shown) as page:
        page.deliver(TICK, SENT)
        page.open()
        shown.shows(ROWS, BY_HAND)
        for field, value, wanted in (("by-priority", "overridden", BY_HAND[:1]), ("by-priority", "default", BY_HAND[1:]),
                                     ("by-priority", "automatic", []), ("by-priority", "all", BY_HAND),
                                     ("by-panel", "P2", BY_HAND[:1]), ("by-panel", "", BY_HAND), ("by-name", "ligh", BY_HAND[1:])):
            choose(shown, field, value, "input")
            shown.shows(ROWS, wanted)


def the_places_of_a_point_are_reported_with_who_may_write_them(program, folder, shown):
    with Opened(program, folder, shown) as page:
        page.deliver(TICK, SENT)
        page.open()
        shown.shows(ROWS, BY_HAND)
        shown.click("#points tr:first-child button")
        writers = {8: "panel P1", 9: "panel P2", 10: "panel P1", 15: f"panel P2, schedule {DAY}"}
        uses = {1: "Manual-Life Safety", 2: "Automatic-Life Safety", 5: "Critical Equipment Control", 6: "Minimum On/Off",
                8: "Manual Operator"}
        values = {8: "21.50", 15: "21.00"}
        shown.shows(PLACES, [[str(priority), uses.get(priority, "Available"), values.get(priority, "–"), writers.get(priority, "")]
                             for priority in range(1, 17)])
        shown.shows("return document.getElementById('places-value').textContent",
                    "21.50, given by 8 Manual Operator; the default is 18.00")


# ---- who looks, and what may go wrong

def it_works_by_keyboard(program, folder, shown):
    with Opened(program, folder, shown) as page:
        page.open()
        shown.shows(BARS, MORNING_BARS)
        is_open = "return document.getElementById('places').open"
        shown.run("document.getElementById('by-panel').focus()")
        shown.keys("\ue004")
        shown.shows("return document.activeElement.textContent", "R101-SET")
        shown.run("window.pressed = document.activeElement")
        shown.keys("\ue007")
        shown.shows(is_open, True)
        # A look that comes while the dialog is open puts another button in the place of the one that opened it.
        shown.shows("return window.pressed.isConnected", False)
        shown.keys("\ue00c")
        shown.shows(is_open, False)
        shown.shows("return document.activeElement.textContent", "R101-SET")


def it_fits_a_phone_and_the_dark(program, folder, shown):
    with Opened(program, folder, shown) as page:
        shown.devtools("Emulation.setDeviceMetricsOverride", width=360, height=740, deviceScaleFactor=1, mobile=True)
        page.open()
        shown.shows(BARS, MORNING_BARS)
        shown.shows("return document.documentElement.scrollWidth <= 360", True)
        ground = "return getComputedStyle(document.body).backgroundColor"
        for scheme, wanted in (("dark", "rgb(21, 25, 29)"), ("light", "rgb(255, 255, 255)")):
            shown.devtools("Emulation.setEmulatedMedia", features=[{"name": "prefers-color-scheme", "value": scheme}])
            shown.shows(ground, wanted)
        shown.devtools("Emulation.setEmulatedMedia", features=[])
        shown.devtools("Emulation.clearDeviceMetricsOverride")


def odd_names_are_shown_as_text(program, folder, shown):
    odd = "R-1.0_x..--"
    (folder / "building.toml").write_text(tables.WORKED.replace("R101-SET", odd))
    with Opened(program, folder, shown) as page:
        page.open()
        shown.shows("return [...document.querySelectorAll('#points .name')].map(name => name.textContent)", [odd, "LIGHT"])
        shown.click("#points tr:first-child button")
        shown.shows("return document.querySelectorAll('#places-rows tr').length", 16)


def a_hostile_description_is_shown_as_text(program, folder, shown):
    hostile = "<img src=x onerror='window.hit=1'>"
    described = json.loads(page_serving.describe(program, folder))
    described["panels"][0]["name"] = hostile
    described["schedules"][0]["targets"] = ["R101-SET", hostile]
    described["points"].append({"name": hostile, "kind": hostile, "default": 0})
    with Opened(program, folder, shown, description=described) as page:
        page.open()
        shown.shows("return [...document.querySelectorAll('#by-panel option')].map(option => option.textContent)", ["any", hostile, "P2"])
        shown.shows("return document.querySelector('.schedule small').textContent", f"at 15 to R101-SET, {hostile}")
        shown.shows("return [document.images.length, window.hit === undefined]", [0, True])


def the_end_of_the_desk_is_reported_and_the_values_stay(program, folder, shown):
    with Opened(program, folder, shown) as page:
        page.deliver(TICK)
        page.open()
        shown.shows(ROWS, AT_REST)
        page.desk.stop()
        shown.shows("return document.getElementById('trouble').textContent.replace(/to .*?\\./, '..')",
                    "The desk answered 502 .. The values are old.")
        shown.shows(ROWS, AT_REST)
        shown.shows("return document.body.classList.contains('old')", True)


def a_page_without_a_proxy_tells_it(program, folder, shown):
    with Opened(program, folder, shown) as page:
        page.open()
        shown.shows(BARS, MORNING_BARS)
        shown.devtools("Network.enable")
        shown.devtools("Network.emulateNetworkConditions", offline=True, latency=0, downloadThroughput=0, uploadThroughput=0)
        shown.shows("return document.getElementById('trouble').textContent", "The desk can't be reached. The values are old.")
        shown.devtools("Network.emulateNetworkConditions", offline=False, latency=0, downloadThroughput=-1, uploadThroughput=-1)
        shown.shows("return document.getElementById('trouble').hidden", True)


# Rules of both halves of the globe, with days written in each way, and with none.
RULES = (clocks.CENTRAL_EUROPE, clocks.EASTERN_AMERICA, "AEST-10AEDT,M10.1.0,M4.1.0/3", "<-03>3<-02>,M3.5.0/-2,M10.5.0/-1",
         "IST-5:30", "<+1245>-12:45<+1345>,M9.5.0/2:45,M4.1.0/3:45", "XXX2YYY1,J60/1,J300/4", "XXX-2YYY,59/0,299/3:30:15")


def the_building_s_clock_is_that_of_its_rule(program, folder, shown):
    """As the C library tells the same rule, at each third hour of four years and around each change."""
    moments = [1_704_067_200 + 10_800 * step for step in range(8 * 1_461)]
    with Opened(program, folder, shown) as page:
        page.open()
        for rule in RULES:
            with clocks.clock_of(rule):
                wanted = [time.strftime("%Y-%m-%d %H:%M:%S", time.localtime(moment)) for moment in moments]
            expect(shown.run(CLOCK, rule, moments), wanted)


CLOCK = """return (async (rule, moments) => {
    const { clockAt, parseRule } = await import("/building_time.js"), parsed = parseRule(rule);
    const two = (number) => String(number).padStart(2, "0");
    return moments.map((moment) => {
        const { day, second } = clockAt(parsed, moment * 1000);
        return `${day} ${two(Math.floor(second / 3600))}:${two(Math.floor(second / 60) % 60)}:${two(second % 60)}`;
    });
})(...arguments)"""


# ---- the proxy that knows who asks

def certificate(folder, name):
    """A certificate of its own for a name, with its key."""
    words = [browser.OPENSSL, "req", "-x509", "-newkey", "rsa:2048", "-nodes", "-days", "2", "-subj", f"/CN={name}",
             "-keyout", str(folder / f"{name}.key"), "-out", str(folder / f"{name}.pem")]
    subprocess.run(words, check=True, capture_output=True, timeout=browser.SECONDS)
    return (folder / f"{name}.pem").read_text()


def status_for(folder, port, who, method, path, body=None):
    """The status that who has this certificate gets, or who has none."""
    context = ssl.create_default_context(cafile=folder / "server.pem")
    context.check_hostname = False
    if who:
        context.load_cert_chain(folder / f"{who}.pem", folder / f"{who}.key")
    connection = http.client.HTTPSConnection("127.0.0.1", port, context=context, timeout=browser.SECONDS)
    with contextlib.closing(connection):
        connection.request(method, path, body)
        return connection.getresponse().status


def the_proxy_serves_the_page_to_staff_alone(program, folder, shown):
    (folder / "clients.pem").write_text(certificate(folder, "facility") + certificate(folder, "P1"))
    certificate(folder, "server")
    page_serving.describe(program, folder)
    own, other = "/panels/P1/commands", "/panels/P2/commands"
    asked = [(None, "GET", "/", None, 400), (None, "GET", "/points/LIGHT", None, 400), ("P1", "POST", own, COMMAND, 200),
             ("P1", "POST", other, COMMAND, 403), ("facility", "POST", own, COMMAND, 403), ("facility", "POST", "/tick", TICK[1], 404)]
    for path in ("/", "/index.html", "/desk.js", "/building_time.js", "/desk.css", "/description.json", "/points/LIGHT", "/reports/2025-06-02"):
        asked += [("facility", "GET", path, None, 200), ("P1", "GET", path, None, 403)]
    with serving(program, folder, CONNECTIONS) as desk, page_serving.deployed_page_of(desk, folder) as port:
        for who, method, path, body, wanted in asked:
            expect((who, path, status_for(folder, port, who, method, path, body)), (who, path, wanted))
    log = [json.loads(line) for line in (folder / "desk.log").read_text().splitlines()]
    expect([(line["who"], line["request"], line["status"]) for line in log],
           [(f"CN={who}" if who else "", f"{method} {path} HTTP/1.1", wanted) for who, method, path, _, wanted in asked])
    expect([line["body"] for line in log if line["body"]], [COMMAND.decode()])


def choose(shown, field, value, event):
    shown.run("const [id, value, event] = arguments; const field = document.getElementById(id); field.value = value;"
              "field.dispatchEvent(new Event(event, { bubbles: true }))", field, value, event)


def in_browser(test):
    """The test of a browser as one of a program and a folder."""
    @functools.wraps(test)
    def tried(program, folder):
        test(program, folder, browser.session())
    return tables.in_worked(tried)


TESTS = [in_browser(test) for test in (
    the_points_and_the_day_are_those_of_the_report,
    the_next_change_of_the_day_is_reported,
    another_day_is_shown,
    a_quiet_schedule_is_pale,
    a_change_by_a_panel_shows_at_the_next_look,
    points_are_filtered,
    the_places_of_a_point_are_reported_with_who_may_write_them,
    it_works_by_keyboard,
    it_fits_a_phone_and_the_dark,
    odd_names_are_shown_as_text,
    a_hostile_description_is_shown_as_text,
    the_end_of_the_desk_is_reported_and_the_values_stay,
    a_page_without_a_proxy_tells_it,
    the_building_s_clock_is_that_of_its_rule,
    the_proxy_serves_the_page_to_staff_alone,
)]
