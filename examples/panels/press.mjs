// Presses one command, and repeats it until the desk has said its last word on it.
//
// Usage: node press.mjs http://127.0.0.1:8080 P1 p1.state R101-SET 8 2150
//
// The value `null` relinquishes. The file has the command that was pressed last, before it is sent; what a stop left
// without an answer is sent again first. Without the file the numbers go on behind all that were used. Last words go
// to the standard output, all else to the standard error. The status is that of this command:
//
// 0 done                       5 differs
// 1 a file or the disk failed  6 another run has the file
// 2 the words                  7 the file is another panel's, or damaged
// 3 refused                    8 the desk has no such panel, or can't read the request
// 4 skipped, forgotten         9 the panel's numbers are used up
import { spawnSync } from "node:child_process";
import { closeSync, existsSync, fsyncSync, openSync, readFileSync, renameSync, writeFileSync } from "node:fs";
import { dirname } from "node:path";
import { setTimeout as sleep } from "node:timers/promises";

const LAST_NUMBER = 1_000_000_000_000;
const WINDOW = 64;
const STATUSES = { done: 0, refused: 3, H6: 3, skipped: 4, forgotten: 4, differs: 5 };
const ANSWERS = [...Object.keys(STATUSES), "parked", "too_far"];
// These end the run, and the command stays in the file. H1 to H5 tell of what stands before the desk.
const FAULTS = ["no_panel", "no_route", "bad_number", "H1", "H2", "H4", "H5"];
const NAME = "[A-Za-z0-9_.-]{1,32}";
const COMMAND = `${NAME} (?:[1-9]|1[0-6]) (?:null|0|-?[1-9][0-9]{0,18})`;
const RULES = "names are 1 to 32 of A-Z a-z 0-9 - _ ., the priority 1 to 16, the value whole in 64 bits or null";
const STATE = new RegExp(`^(${NAME}) ([1-9][0-9]{0,12}) (waits|answered|behind) (${COMMAND})\n$`);

const [address, panel, file, ...words] = process.argv.slice(2);
let told = "";

// Tells a line, but not the same again and again.
function tell(line) {
    if (line !== told) {
        console.error(`press: ${line}`);
        told = line;
    }
}

function endUnless(holds, status, line) {
    if (!holds) {
        console.error(`press: ${line}`);
        process.exit(status);
    }
}

function checkWords() {
    endUnless(words.length === 3, 2, "usage: node press.mjs ADDRESS PANEL FILE POINT PRIORITY VALUE");
    endUnless(/^https?:\/\//.test(address) && URL.canParse(address), 2, `${address} is no http:// or https:// address`);
    const named = [panel, ...words].join(" ");
    const value = words[2];
    const isFormed = new RegExp(`^${NAME} ${COMMAND}$`).test(named);
    const isRight = isFormed && (value === "null" || BigInt(value) === BigInt.asIntN(64, BigInt(value)));
    endUnless(isRight, 2, `${named}: ${RULES}`);
}

// Node locks no files, so `flock` does it, to one that this process has open: the lock goes with it, killed or not.
function lock() {
    const opened = openSync(`${file}.lock`, "w");
    const { status, error } = spawnSync("flock", ["-n", "3"], { stdio: ["ignore", "ignore", "inherit", opened] });
    endUnless(!error, 1, error?.message);
    endUnless(status === 0, 6, `another run has ${file}`);
}

function load() {
    if (!existsSync(file)) {
        return { state: "behind" };
    }
    const [, owner, number, state, command] = readFileSync(file, "utf8").match(STATE) ?? [];
    const isWhole = owner && Number(number) <= LAST_NUMBER;
    endUnless(isWhole, 7, `${file} is damaged: remove it, and the numbers go on behind all that were used`);
    endUnless(owner === panel, 7, `${file} is panel ${owner}'s`);
    return { number: Number(number), state, command };
}

function keep({ number, state, command }) {
    const written = openSync(`${file}.new`, "w");
    writeFileSync(written, `${panel} ${number} ${state} ${command}\n`);
    fsyncSync(written);
    closeSync(written);
    renameSync(`${file}.new`, file);
    const folder = openSync(dirname(file), "r");
    fsyncSync(folder);
    closeSync(folder);
}

// What came back, with the word that it says; or why nothing came.
async function post(route, body) {
    const target = `${address.replace(/\/+$/, "")}/panels/${panel}/${route}`;
    try {
        const sent = { method: "POST", body, redirect: "manual", signal: AbortSignal.timeout(6_000) };
        const text = (await (await fetch(target, sent)).text()).trim();
        const { fault, answer, next } = JSON.parse(text);
        return { word: fault ?? answer, next, text };
    } catch (error) {
        return { text: error.cause?.code ?? error.cause?.message ?? error.message };
    }
}

// Posts a delivery until one of the wanted answers comes.
async function ask(route, body, wanted) {
    for (let pause = 100; ; pause = Math.min(2 * pause, 6_000)) {
        const reply = await post(route, body);
        if (wanted.includes(reply.word)) {
            return reply;
        }
        endUnless(!FAULTS.includes(reply.word), 8, `${address} answers ${reply.text}`);
        tell(`no answer from ${address}, which is asked again: ${reply.text}`);
        await sleep(pause);
    }
}

// Gives up what the desk, whose next number is told, has no command for below a number.
async function giveUp(below, next) {
    while (next < below) {
        ({ next } = await ask("skip", `{"upto":${Math.min(below, next + WINDOW)}}`, ["skip", "too_far"]));
    }
}

// The first number behind all that may have been used. Under the last number of all the desk says `too_far` and changes
// nothing; where it is near enough to be taken, priority 6 is refused.
async function begin() {
    const body = `{"number":${LAST_NUMBER},"point":"${panel}","priority":6,"value":null}`;
    const { word, next } = await ask("commands", body, ANSWERS);
    const first = word === "too_far" ? next + WINDOW : LAST_NUMBER + 1;
    endUnless(first <= LAST_NUMBER, 9, "the panel's numbers are used up");
    await giveUp(first, next);
    return first;
}

// Sends a command until its last word has come, and answers the status of that.
async function finish(pressed) {
    const { number, command } = pressed;
    const [point, priority, value] = command.split(" ");
    const body = `{"number":${number},"point":"${point}","priority":${priority},"value":${value}}`;
    let reply = await ask("commands", body, ANSWERS);
    while (!(reply.word in STATUSES)) {
        // No older number is in flight.
        tell("the desk waits for older numbers, as one that was restored from a backup: they are given up");
        await giveUp(number, reply.next);
        await sleep(1_000);
        reply = await ask("commands", body, ANSWERS);
    }
    console.log(reply.text);
    if (reply.word === "H6") {
        tell("the desk can't read this command, so its number is given up");
        await giveUp(number + 1, number);
    }
    // A number that was used or given up before tells of an older file that was put back: so may the next one be.
    const status = STATUSES[reply.word];
    pressed.state = status <= STATUSES.refused ? "answered" : "behind";
    keep(pressed);
    if (status !== 0) {
        const wasUsed = "had been used for another command, or given up: press it again";
        tell(`number ${number} (${command}) ${pressed.state === "behind" ? wasUsed : "was refused"}`);
    }
    return status;
}

async function press() {
    checkWords();
    lock();
    const pressed = load();
    if (pressed.state === "waits") {
        await finish(pressed);
    }
    pressed.number = pressed.state === "behind" ? await begin() : pressed.number + 1;
    endUnless(pressed.number <= LAST_NUMBER, 9, "the panel's numbers are used up");
    pressed.state = "waits";
    pressed.command = words.join(" ");
    keep(pressed);
    process.exit(await finish(pressed));
}

press().catch((error) => endUnless(false, 1, error.message));
