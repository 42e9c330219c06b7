// The time of a building's clock, by the POSIX rule of its time zone, as the desk itself reads it.

const HOUR = 3600;
const DAY = 24 * HOUR;
const RULE = /^(<[^>]+>|[A-Za-z]+)([+-]?[\d:]+)(?:(<[^>]+>|[A-Za-z]+)([+-]?[\d:]+)?,([^,]+),([^,]+))?$/;

/** Seconds of `[+-]H[:MM[:SS]]`. */
function seconds(text) {
  const [hours, minutes = 0, rest = 0] = text.replace(/^[+-]/, "").split(":").map(Number);
  return (text.startsWith("-") ? -1 : 1) * (hours * HOUR + minutes * 60 + rest);
}

/** What a rule says: how far its clock is ahead of UTC, in seconds, and when it changes. */
export function parseRule(text) {
  const found = RULE.exec(text);
  if (!found) {
    return null;
  }
  const standard = -seconds(found[2]);
  if (!found[3]) {
    return { standard, daylight: null };
  }
  const ahead = found[4] ? -seconds(found[4]) : standard + HOUR;
  return { standard, daylight: { ahead, start: found[5], end: found[6] } };
}

/** The second of the year's clock at which a change is made, counted from 1970. */
function changeIn(year, text) {
  const [day, time = "2"] = text.split("/");
  const first = Date.UTC(year, 0, 1) / 1000;
  const leap = new Date(Date.UTC(year, 1, 29)).getUTCMonth() === 1;
  let days;
  if (day.startsWith("M")) {
    const [month, week, weekday] = day.slice(1).split(".").map(Number);
    const start = Date.UTC(year, month - 1, 1) / (DAY * 1000);
    const length = Date.UTC(year, month, 1) / (DAY * 1000) - start;
    let offset = (weekday - ((start + 4) % 7) + 7) % 7 + 7 * (week - 1);
    while (offset >= length) {
      offset -= 7;
    }
    days = start + offset - first / DAY;
  } else if (day.startsWith("J")) {
    const number = Number(day.slice(1));
    days = number - 1 + (leap && number > 59 ? 1 : 0);
  } else {
    days = Number(day);
  }
  return first + days * DAY + seconds(time);
}

/** How far the building's clock is ahead of UTC at a moment, in seconds since 1970. */
function ahead(rule, moment) {
  if (!rule.daylight) {
    return rule.standard;
  }
  const year = new Date((moment + rule.standard) * 1000).getUTCFullYear();
  const start = changeIn(year, rule.daylight.start) - rule.standard;
  const end = changeIn(year, rule.daylight.end) - rule.daylight.ahead;
  const inside = start < end ? start <= moment && moment < end : moment < end || start <= moment;
  return inside ? rule.daylight.ahead : rule.standard;
}

/** The building's day, `YYYY-MM-DD`, and the second of that day, at a moment in milliseconds since 1970. */
export function clockAt(rule, milliseconds) {
  const moment = Math.floor(milliseconds / 1000);
  const shown = new Date((moment + ahead(rule, moment)) * 1000).toISOString();
  const [hours, minutes, rest] = shown.slice(11, 19).split(":").map(Number);
  return { day: shown.slice(0, 10), second: hours * HOUR + minutes * 60 + rest, time: shown.slice(11, 16) };
}
