// The page of a building: what each point has now, and a day of its schedules. It asks the desk for the report of a
// day and for the places of a point, and reads what the building has from description.json (`desk describe`). All that
// comes is shown as text.
import { clockAt, parseRule } from "./building_time.js";

const EVERY = 30_000;
const SECONDS_OF_A_DAY = 86_400;
const BY_HAND = 8;
const USES = {
  1: "Manual-Life Safety", 2: "Automatic-Life Safety", 5: "Critical Equipment Control",
  6: "Minimum On/Off", 8: "Manual Operator",
};

const state = { building: null, rule: null, today: null, shownDay: null, dayReport: null, looked: null, trouble: null };
const at = (id) => document.getElementById(id);

/** An element with a text, or with other elements in it. */
function element(name, content, className) {
  const made = document.createElement(name);
  made.append(...(Array.isArray(content) ? content : [content ?? ""]));
  if (className) {
    made.className = className;
  }
  return made;
}

// ---- what the desk says

async function ask(path) {
  let response;
  try {
    response = await fetch(path, { cache: "no-store", signal: AbortSignal.timeout(10_000) });
  } catch {
    throw new Error("The desk can't be reached.");
  }
  if (!response.ok) {
    throw new Error(`The desk answered ${response.status} to ${path}.`);
  }
  return response.text();
}

/** The schedules of a report with their segments, and the points with what they present. */
function parseReport(text) {
  const report = { schedules: new Map(), points: new Map() };
  let segments = [];
  for (const line of text.split("\n")) {
    const words = line.trim().split(/ +/);
    if (words[0] === "SCHEDULE") {
      segments = [];
      report.schedules.set(words[1], { active: words[2] === "active", segments });
    } else if (words[0] === "POINT") {
      report.points.set(words[1], { present: Number(words[2]), priority: Number(words[3]) });
    } else if (/^\d\d:/.test(words[0])) {
      segments.push({ from: secondOf(words[0]), time: words[0], value: words[1] === "NULL" ? null : Number(words[1]) });
    }
  }
  return report;
}

function secondOf(time) {
  const [hours, minutes, seconds] = time.split(":").map(Number);
  return hours * 3600 + minutes * 60 + seconds;
}

// ---- how things are said

/** A value in the form of its point: 21.50, on or off, or a state. */
function valueText(point, value) {
  if (value === null) {
    return "NULL";
  }
  switch (point?.kind) {
    case "analog": return (value / 100).toFixed(2);
    case "binary": return value === 1 ? "on" : "off";
    case "multi": return `state ${value}`;
    default: return String(value);
  }
}

function useOf(priority) {
  return USES[priority] ?? "Available";
}

function givenBy(priority) {
  return priority === 0 ? "relinquish default" : `${priority} ${useOf(priority)}`;
}

/** `08:00`, or with seconds where there are some. */
function shortTime(time) {
  return time.replace(/(:00)?\.00$/, "");
}

function agoText(milliseconds) {
  const seconds = Math.round(milliseconds / 1000);
  return seconds < 60 ? `${seconds} s ago` : `${Math.floor(seconds / 60)} min ago`;
}

const named = (list, name) => list.find((item) => item.name === name);
const schedulesOf = (name) => state.building.schedules.filter((schedule) => schedule.targets.includes(name));

/** The next change today of the schedules that write to a point. */
function nextChange(point, second) {
  const coming = [];
  for (const schedule of schedulesOf(point.name)) {
    const day = state.today.schedules.get(schedule.name);
    const next = day?.active && day.segments.find((segment) => segment.from > second);
    if (next) {
      coming.push({ ...next, schedule: schedule.name });
    }
  }
  coming.sort((one, other) => one.from - other.from);
  if (coming.length === 0) {
    return schedulesOf(point.name).length ? "none today" : "no schedule";
  }
  const [first] = coming;
  return `${shortTime(first.time)} to ${valueText(point, first.value)} (${first.schedule})`;
}

// ---- the points

function isShown(point, now) {
  const name = at("by-name").value.trim().toLowerCase();
  const panel = at("by-panel").value;
  const fits = {
    all: true,
    overridden: now.priority >= 1 && now.priority <= BY_HAND,
    automatic: now.priority > BY_HAND,
    default: now.priority === 0,
  };
  return point.name.toLowerCase().includes(name) && fits[at("by-priority").value]
    && (panel === "" || named(state.building.panels, panel)?.points.includes(point.name));
}

function pointRow(point, now, second) {
  const name = element("button", point.name, "name");
  name.type = "button";
  name.addEventListener("click", () => showPlaces(point));
  const byHand = now.priority >= 1 && now.priority <= BY_HAND;
  const row = element("tr", [
    element("td", [name]), element("td", valueText(point, now.present), "number"),
    element("td", givenBy(now.priority), byHand ? "hand" : ""), element("td", nextChange(point, second)),
  ]);
  row.dataset.point = point.name;
  return row;
}

function showPoints() {
  const { second } = clockAt(state.rule, Date.now());
  const all = state.building.points.map((point) => [point, state.today.points.get(point.name)]).filter(([, now]) => now);
  const shown = all.filter(([point, now]) => isShown(point, now));
  const focused = document.activeElement?.closest?.("tr")?.dataset.point;
  at("points").replaceChildren(...shown.map(([point, now]) => pointRow(point, now, second)));
  const hands = all.filter(([, now]) => now.priority >= 1 && now.priority <= BY_HAND).length;
  at("counted").textContent = `${shown.length} of ${all.length} points; ${hands} overridden by hand`;
  focusPoint(focused);
}

function focusPoint(name) {
  [...at("points").rows].find((row) => row.dataset.point === name)?.querySelector("button").focus();
}

// ---- the places of a point

function writersOf(point, priority) {
  const panels = state.building.panels.filter((panel) => panel.points.includes(point.name) && panel.priorities.includes(priority));
  const schedules = schedulesOf(point.name).filter((schedule) => schedule.priority === priority);
  return [...panels.map((panel) => `panel ${panel.name}`), ...schedules.map((schedule) => `schedule ${schedule.name}`)].join(", ");
}

async function showPlaces(point) {
  at("places-title").textContent = point.name;
  at("places-value").textContent = "Asking the desk …";
  at("places-rows").replaceChildren();
  at("places").showModal();
  let told;
  try {
    told = JSON.parse(await ask(`/points/${encodeURIComponent(point.name)}`));
  } catch (error) {
    at("places-value").textContent = error.message;
    return;
  }
  at("places-value").textContent =
    `${valueText(point, told.present)}, given by ${givenBy(told.priority)}; the default is ${valueText(point, point.default)}`;
  at("places-rows").replaceChildren(...told.places.map((value, index) => {
    const priority = index + 1;
    return element("tr", [
      element("td", String(priority), "number"), element("td", useOf(priority)),
      element("td", value === null ? "–" : valueText(point, value), "number"), element("td", writersOf(point, priority)),
    ], priority === told.priority ? "gives" : "");
  }));
}

// ---- the day

function segmentBar(segment, until, point) {
  const bar = element("span", `${shortTime(segment.time)} ${valueText(point, segment.value)}`, "segment");
  bar.classList.toggle("null", segment.value === null);
  bar.style.left = `${(segment.from / SECONDS_OF_A_DAY) * 100}%`;
  bar.style.width = `${((until - segment.from) / SECONDS_OF_A_DAY) * 100}%`;
  bar.title = `from ${segment.time}: ${valueText(point, segment.value)}`;
  return bar;
}

function scheduleRow(schedule, day, second) {
  const point = named(state.building.points, schedule.targets[0]);
  const ends = [...day.segments.slice(1).map((segment) => segment.from), SECONDS_OF_A_DAY];
  const bar = element("div", day.segments.map((segment, index) => segmentBar(segment, ends[index], point)), "bar");
  if (second !== null) {
    const line = element("span", "", "line");
    line.style.left = `${(second / SECONDS_OF_A_DAY) * 100}%`;
    bar.append(line);
  }
  const said = `${day.active ? "" : "quiet; "}at ${schedule.priority} to ${schedule.targets.join(", ") || "nothing"}`;
  const title = element("h3", [`${schedule.name} `, element("small", said)]);
  const row = element("div", [title, bar], day.active ? "schedule" : "schedule quiet");
  row.dataset.schedule = schedule.name;
  return row;
}

function showDay() {
  const now = clockAt(state.rule, Date.now());
  const second = state.shownDay === now.day ? now.second : null;
  const rows = state.building.schedules.map((schedule) => [schedule, state.dayReport.schedules.get(schedule.name)])
    .filter(([, day]) => day).map(([schedule, day]) => scheduleRow(schedule, day, second));
  const hours = element("div", ["00:00", "06:00", "12:00", "18:00", "24:00"].map((hour) => element("span", hour)), "hours");
  at("day").replaceChildren(...(rows.length ? [...rows, hours] : [element("p", "The building has no schedule.")]));
}

// ---- looking

function showState() {
  if (state.rule) {
    const now = clockAt(state.rule, Date.now());
    at("now").textContent = `${now.day} ${now.time}, the building's time`;
  }
  at("looked").textContent = state.looked === null ? "" : `Looked at ${agoText(Date.now() - state.looked)}`;
  at("trouble").hidden = state.trouble === null;
  at("trouble").textContent = state.trouble === null ? "" : `${state.trouble} ${state.looked === null ? "" : "The values are old."}`;
  document.body.classList.toggle("old", state.trouble !== null && state.looked !== null);
}

async function readBuilding() {
  const building = JSON.parse(await ask("description.json"));
  state.rule = parseRule(building.zone);
  if (!state.rule) {
    throw new Error(`The zone ${building.zone} can't be read.`);
  }
  state.building = building;
  at("by-panel").append(...building.panels.map((panel) => new Option(panel.name, panel.name)));
}

async function look() {
  try {
    if (!state.building) {
      await readBuilding();
    }
    const { day } = clockAt(state.rule, Date.now());
    const followsToday = state.shownDay === null || state.shownDay === state.day;
    state.today = parseReport(await ask(`/reports/${day}`));
    state.day = day;
    state.shownDay = followsToday ? day : state.shownDay;
    state.dayReport = followsToday ? state.today : parseReport(await ask(`/reports/${state.shownDay}`));
    at("date").value = state.shownDay;
    state.looked = Date.now();
    state.trouble = null;
    showPoints();
    showDay();
  } catch (error) {
    state.trouble = error.message;
  }
  showState();
}

function showAnotherDay(day) {
  if (day) {
    state.shownDay = day;
    look();
  }
}

at("filters").addEventListener("input", () => state.today && showPoints());
at("filters").addEventListener("submit", (event) => event.preventDefault());
at("which-day").addEventListener("submit", (event) => event.preventDefault());
at("date").addEventListener("change", (event) => showAnotherDay(event.target.value));
at("today").addEventListener("click", () => showAnotherDay(state.day));
// A look may have replaced the button that opened the dialog, to which the browser would go back.
at("places").addEventListener("close", () => focusPoint(at("places-title").textContent));
setInterval(showState, 1_000);
setInterval(look, EVERY);
look();
