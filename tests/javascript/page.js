"use strict";
/**
 * The page clients/web/verify.html in headless Chromium: proofs are dropped on it and chosen, maps
 * are asked by their addresses, and verdict, tables, picture and saved files are read from it and
 * compared. Of examples/vectors it takes all joins.
 *
 * usage: node page.js PROGRAM [PICTURE]     With a PICTURE nothing more is tested than the sample,
 *     of which the page is put into that file.
 */

const crypto = require("crypto");
const fs = require("fs");
const os = require("os");
const path = require("path");
const { pathToFileURL } = require("url");
const { EXAMPLES, WEB, Bench } = require("./bench.js");
const { Browser, find, pause } = require("./chromium.js");
const { Server, send } = require("./server.js");
const { Chance, Program, madeAtlas } = require("./maps.js");
const { linesOf, put } = require("./spelled.js");
const client = require(path.join(WEB, "mrtree_check.js"));

const PLACES = "b136e9ea66645cc4c87feaf0addfecbc0d52bd619bc06f05e004ff35cbfaff04";
const WINDOW = "window:133700000,525100000,133800000,525200000";
const NEAREST = "nearest:133777000,525163000,2";
const POINTS = "94f0cf13ea902a3c351f1c6ad540cf8917c2f9b63f400144e03cdb1dda1daf4c";
// The map of the one record `7 0 0 0 0 5 -` of version 2: its root digest, and a proof on it.
const ROOT_LAYERED = "18765610245298873ffa8adca444b11a93de409d6eaa79f942de550e226b03f7";
const LAYERED = `4d52564f0257${"0".repeat(30)}01004c01${"0".repeat(15)}7${"0".repeat(32)}0500`;
// The map of the 2,000 points of docs/FORMATS.md in version 2: its root digest.
const ROOT_POINTS = "c7a73721c314b72b6b01110486ea947d1a52c4af606454bfe0a7ebea24a12064";
const ROWS = [
    "101 133777000 525163000 133777000 525163000 Brandenburger Tor",
    "102 133761000 525186000 133761000 525186000 Reichstag",
];
const GEOJSON = `{"type":"FeatureCollection","features":[
${[
    [101, "Brandenburger Tor", "13.3777,52.5163"],
    [102, "Reichstag", "13.3761,52.5186"],
]
    .map(
        ([id, name, place]) =>
            `{"type":"Feature","id":${id},"properties":{"name": "${name}"},` +
            `"geometry":{"type":"Point","coordinates":[${place}]}}`
    )
    .join(",\n")}
]}
`;

/** What the page shows: state and line of the verdict, the rows of the table, what is drawn. */
const SEEN = `(() => {
    const at = (one) => [...document.querySelectorAll(one)];
    const isShown = !document.querySelector("#result").hidden;
    const texts = (row) => [...row.cells].map((cell) => cell.textContent).join(" ");
    const verdict = document.querySelector("#verdict");
    return {
        state: verdict.dataset.state, line: verdict.textContent,
        means: document.querySelector("#means").textContent,
        rows: isShown ? at("#answer tbody tr").map(texts) : null,
        pairs: isShown ? at("#pairs tbody tr").map(texts) : null,
        drawn: isShown ? ["inner", "leaf", "pruned", "answer", "other", "region"].map(
            (kind) => at("#near ." + kind).length).join(" ") : null,
        shown: isShown ? document.querySelector("#shown").textContent : null,
    };
})()`;

/** What the page shows once it has a verdict on what is given. */
async function seen(browser) {
    await browser.until("document.getElementById('verdict').dataset.state !== 'waiting'");
    return browser.value(SEEN);
}

/** What the page shows once it says what is still to be given. */
async function wanted(browser) {
    await browser.until("!at('verdict').textContent.startsWith('Checking')");
    return browser.value(SEEN);
}

/** Holds that what is shown of the page is what belongs to such a proof. */
async function partsHold(bench, browser, kind) {
    const told = await browser.value(`(() => {
        const parts = [...document.querySelectorAll("[data-of]")];
        const isAsRight = (one) => one.hidden !== one.dataset.of.split(" ").includes("${kind}");
        return parts.length + " " + parts.every(isAsRight);
    })()`);
    bench.equal(told, "16 true", `the parts of the page that are shown: ${kind}`);
}

/** Gives a file by a drop, root and query; answers what the page then shows. */
async function given(browser, root, query, file) {
    await browser.drop(file);
    await browser.until("!document.querySelector('#query').closest('[data-of]').hidden");
    await browser.type("#root", root);
    await browser.type("#query", query);
    return seen(browser);
}

/** A file with a proof of the map of one record with this payload; answers its root digest. */
function oneRecord(file, payload) {
    const rect = Buffer.from("00000001000000020000000100000002", "hex");
    const front = Buffer.from("4c010000000000000007", "hex");
    const leaf = Buffer.concat([front, rect, Buffer.from([payload.length]), payload]);
    const sha = (bytes) => crypto.createHash("sha256").update(bytes).digest();
    const counts = Buffer.from("0000000000000000000000000000000100", "hex");
    fs.writeFileSync(file, Buffer.concat([Buffer.from("MRVO\x01W"), counts, leaf]));
    return sha(Buffer.concat([Buffer.from("R\x01"), counts, rect, sha(leaf)])).toString("hex");
}

/** The sample, dropped and chosen. */
async function sampleHolds(bench, browser) {
    const file = path.join(EXAMPLES, "places-window.proof");
    const dropped = await given(browser, PLACES, WINDOW, file);
    bench.equal(dropped.state, "accepted", "the sample, dropped");
    bench.equal(dropped.line, "accepted: 2 of the map's 4 records, at batch 0", "its line");
    bench.equal(String(dropped.rows), String(ROWS), "its table");
    bench.equal(dropped.drawn, "0 1 0 2 2 1", "its picture");
    bench.equal(dropped.shown, "nodes opened: 1; parts pruned: 0", "what is told of it");
    await browser.type("#query", NEAREST);
    const other = await seen(browser);
    bench.equal(other.line, "refused WrongKind at 5", "the same file for another query");
    bench.holds(other.rows === null && other.drawn === null, "an answer stands beside a refusal");
    await browser.choose("#proof", path.join(EXAMPLES, "places-nearest.proof"));
    const chosen = await seen(browser);
    bench.equal(chosen.state, "accepted", "the nearest, chosen");
    bench.equal(String(chosen.rows), String(ROWS), "their table");
    await browser.type("#root", PLACES.slice(1));
    const wanting = await browser.value(SEEN);
    const isCleared = wanting.state === "waiting" && wanting.rows === null;
    bench.holds(isCleared, "a verdict stands beside half a root");
}

/** Proofs that are refused: as the program says it, and nothing of them is shown. */
async function refusalsHold(bench, browser, room) {
    const proof = fs.readFileSync(path.join(EXAMPLES, "places-window.proof"));
    const file = path.join(room, "bent.proof");
    for (const [place, length] of [[50, 172], [0, 172], [30, 172], [171, 171], [0, 0]]) {
        const bent = Buffer.from(proof.subarray(0, length));
        bent[place] ^= 1; // not where it is cut off
        fs.writeFileSync(file, bent);
        const meant = client.refusalOf(await client.check(PLACES, WINDOW, new Uint8Array(bent)));
        const told = await given(browser, PLACES, WINDOW, file);
        bench.equal(told.line, meant, `byte ${place} of ${length}`);
        const isNone = told.state === "refused" && told.rows === null && told.drawn === null;
        bench.holds(isNone, `what is shown of byte ${place}`);
        bench.holds(told.means.length > 20, "what it means");
    }
}

/** A map of three levels, one without records, and a payload that tries to be more than a text. */
async function othersHold(bench, browser, room) {
    const level = path.join(EXAMPLES, "vectors", "level-2-window.proof");
    const query = "window:100,100,150,120";
    const { records } = await client.check(POINTS, query, new Uint8Array(fs.readFileSync(level)));
    const points = await given(browser, POINTS, query, level);
    const rows = records.map((one) => client.lineOf(one).slice(0, -1));
    bench.equal(String(points.rows), String(rows), "the table of a map of three levels");
    bench.equal(points.shown, "nodes opened: 3; parts pruned: 62", "what is told of it");
    const pruned = await browser.value("document.querySelectorAll('#map .pruned').length");
    bench.equal(pruned, 62, "the whole map");
    const file = path.join(room, "one.proof");
    const text = "<img src=x onerror=alert(1)>";
    const root = oneRecord(file, Buffer.from(text));
    const one = await given(browser, root, "window:0,0,9,9", file);
    bench.equal(String(one.rows), `7 1 2 1 2 ${text}`, "a payload of HTML");
    bench.equal(await browser.value("document.images.length"), 0, "images");
    const other = oneRecord(file, Buffer.from("ff00", "hex"));
    const bytes = await given(browser, other, "window:0,0,9,9", file);
    bench.equal(String(bytes.rows), "7 1 2 1 2 0xff00", "a payload that is no text");
    fs.writeFileSync(file, Buffer.from(LAYERED, "hex"));
    const layered = await given(browser, ROOT_LAYERED, "window:0,0,0,0/0000000000000020", file);
    bench.equal(String(layered.rows), "7 0 0 0 0 5 ", "a record on a layer");
    bench.equal(layered.drawn, "0 1 0 1 0 1", "its picture");
    const beside = await given(browser, ROOT_LAYERED, "window:0,0,0,0/0000000000000001", file);
    bench.equal(beside.line, "refused Needless at 50", "another layer");
    fs.writeFileSync(file, Buffer.from("4d52564f015700000000000000000000000000000000", "hex"));
    const empty = "3192817fd1840eb7f63b1b289a173abad1772411a7b2a52117cfe44a09df8c30";
    const none = await given(browser, empty, "window:0,0,9,9", file);
    bench.equal(none.line, "accepted: 0 of the map's 0 records, at batch 0", "an empty map");
    fs.writeFileSync(file, Buffer.concat([Buffer.from("MRMP\x01"), Buffer.alloc(4091)]));
    const map = await given(browser, empty, "window:0,0,9,9", file);
    const isTold = map.line === "refused BadMagic at 0" && map.means.includes("give its address");
    bench.holds(isTold && map.rows === null, `a map file: ${map.line} ${map.means}`);
}

/** A count proof: how many are inside, and of what; no records and no GeoJSON beside it. */
async function countsHold(bench, browser) {
    const file = path.join(EXAMPLES, "vectors", "level-2-count.proof");
    const count = await given(browser, ROOT_POINTS, "window:200,200,800,600", file);
    const line = "accepted: 447 of the map's 2000 records lie inside, at batch 0";
    bench.equal(count.line, line, "a count");
    bench.equal(count.drawn, "3 22 85 159 193 1", "its picture");
    bench.equal(count.shown, "nodes opened: 25; parts inside: 18, apart: 85", "what is told of it");
    await partsHold(bench, browser, "count");
    const wholes = "document.querySelectorAll('#near .whole').length";
    bench.equal(await browser.value(wholes), 18, "the parts that are inside");
    const other = await given(browser, ROOT_POINTS, "window:200,200,800,601", file);
    bench.equal(other.line, "refused Needless at 13040", "a count for another window");
    await browser.type("#query", "nearest:0,0,1");
    const nearest = await seen(browser);
    bench.equal(nearest.line, "refused WrongKind at 5", "a count of nearest records");
    const sample = path.join(EXAMPLES, "places-window.proof");
    const again = await given(browser, PLACES, WINDOW, sample);
    bench.equal(String(again.rows), String(ROWS), "records behind a count");
    await partsHold(bench, browser, "records");
}

/** Gives a file by a drop, and both roots. */
async function giveJoin(browser, root, root2, file) {
    await browser.drop(file);
    await browser.until("!document.querySelector('#root2').closest('[data-of]').hidden");
    await browser.type("#root", root);
    await browser.type("#root2", root2);
}

/** The same; answers what the page then shows. */
async function givenJoin(browser, ...words) {
    await giveJoin(browser, ...words);
    return seen(browser);
}

/** Letters, a batch of 0 and a count. */
function frontOf(letters, count) {
    const numbers = Buffer.alloc(16);
    numbers.writeBigUInt64BE(BigInt(count), 8);
    return Buffer.concat([Buffer.from(letters), numbers]);
}

/**
 * The part of a join that opens all of a map of `leaves` times 16 records on one point, whose
 * numbers rise by one from `first` on; and the map's root digest.
 */
function partOf(first, leaves) {
    const sha = (bytes) => crypto.createHash("sha256").update(bytes).digest();
    const number = (value) => {
        const bytes = Buffer.alloc(8);
        bytes.writeBigUInt64BE(BigInt(value));
        return bytes;
    };
    const [count, rect, bare] = [16 * leaves, Buffer.alloc(16), Buffer.alloc(18)];
    const items = Array.from({ length: leaves }, (_, leaf) => {
        const records = Array.from({ length: 16 }, (_, at) => number(first + 16 * leaf + at));
        return Buffer.concat([Buffer.from("L\x10"), ...records.flatMap((one) => [one, bare])]);
    });
    const entries = items.map((item) => Buffer.concat([rect, number(1), number(16), sha(item)]));
    const node = Buffer.concat([Buffer.from([0x4e, 1, leaves]), ...entries]);
    const root = [frontOf("R\x02", count), Buffer.from([1]), rect, number(1), sha(node)];
    const opened = [Buffer.from([1, 0x4e, leaves]), ...items];
    const proof = Buffer.concat([frontOf("MRVO\x02J", count), ...opened]);
    return { proof, root: sha(Buffer.concat(root)).toString("hex") };
}

/** A join of two maps of which the first has 48 records and the second 640, in a file. */
function joinOfPoints(file) {
    const [one, other] = [partOf(5, 3), partOf(1000, 40)];
    const front = Buffer.from(`4d524a4e01${"00".repeat(20)}`, "hex");
    front.writeUInt32BE(one.proof.length, 21);
    fs.writeFileSync(file, Buffer.concat([front, one.proof, other.proof]));
    return [one.root, other.root];
}

/** A join of two maps: roots, names and pairs, and what of it is saved. */
async function joinsHold(bench, browser, room) {
    const [file, saved] = [path.join(room, "join.proof"), path.join(room, "pairs.txt")];
    const [root, root2] = joinOfPoints(file);
    await browser.drop(file);
    await browser.type("#root", root);
    await browser.until("document.querySelector('#verdict').textContent.startsWith('Give')");
    await partsHold(bench, browser, "join");
    const wanting = await browser.value(SEEN);
    const isTold = wanting.line.startsWith("Give the second root digest.");
    bench.holds(isTold && wanting.state === "waiting", `a join of one root: ${wanting.line}`);
    const told = await givenJoin(browser, root, root2, file);
    const line = "accepted: 30720 pairs of the first map's 48 records, at batch 0, and the " +
        "second's 640 records, at batch 0";
    bench.equal(told.line, line, "a join");
    const rows = Array.from({ length: 1000 }, (_, at) => [5 + Math.floor(at / 640), at % 640]);
    const meant = rows.map(([first, second]) => `${first} ${1000 + second}`);
    bench.equal(String(told.pairs), String(meant), "the first of its pairs");
    const paired = await browser.value("document.querySelector('#paired').textContent");
    bench.equal(paired, "the first 1000 of 30720 pairs", "what is told of them");
    const heads = "[...document.querySelectorAll('#pairs th')].map((th) => th.textContent).join()";
    bench.equal(await browser.value(heads), "first map,second map", "maps without names");
    await browser.type("#name1", "<b>plots</b>");
    await browser.type("#name2", "zones");
    bench.equal(await browser.value(heads), "<b>plots</b>,zones", "the names of both maps");
    bench.equal((await browser.value(SEEN)).line, line, "the verdict behind the names");
    await browser.value("document.querySelector('#keep').click()");
    const [status, lines] = await client.run(["check-join", root, root2, file]);
    const text = lines.map((pair) => `${pair}\n`).join("");
    bench.equal(status, 0, "the same join in Node");
    bench.holds((await savedText(saved)) === text, "the pairs that are saved");
    await noJoinsHold(bench, browser, [root, root2, file]);
    await vectorsHold(bench, browser, room);
}

/** Maps in the other order; and an answer behind a join. */
async function noJoinsHold(bench, browser, [root, root2, file]) {
    const turned = await givenJoin(browser, root2, root, file);
    bench.holds(turned.line.startsWith("refused first WrongRoot at "), `turned: ${turned.line}`);
    const isCleared = turned.pairs === null && turned.means.includes("in the other order");
    bench.holds(isCleared, `what a join of turned maps means: ${turned.means}`);
    const sample = path.join(EXAMPLES, "places-window.proof");
    const answer = await given(browser, PLACES, WINDOW, sample);
    bench.equal(String(answer.rows), String(ROWS), "an answer behind a join");
    await partsHold(bench, browser, "records");
}

/** All joins of the vectors: the page says what is said there, or waits where a word is bad. */
async function vectorsHold(bench, browser, room) {
    const before = process.cwd();
    process.chdir(room); // where the vectors' files are written
    let count = 0;
    for (const vector of linesOf("vectors.tsv")) {
        const [command, root, root2, name] = vector.words;
        put(vector.files, "=");
        if (command === "check-join" && vector.words.length === 4 && fs.existsSync(name)) {
            if (fs.readFileSync(name).subarray(0, 4).toString() === "MRJN") {
                count += 1;
                await giveJoin(browser, root, root2, path.join(room, name));
                const told = await (vector.status === 1 ? browser.value(SEEN) : seen(browser));
                vectorHolds(bench, vector, told);
            } else {
                const frame = /^refused frame (BadMagic|Short) at 0\n$/;
                const isBad = vector.status === 1 || frame.test(vector.text);
                bench.holds(isBad, `line ${vector.number} has a proof that is not taken as a join`);
            }
        }
        put(vector.files, ">");
    }
    process.chdir(before);
    bench.holds(count >= 100, `only ${count} joins are given to the page`);
}

/** What the page shows of a join is what a vector says. */
function vectorHolds(bench, { number, status, text }, told) {
    const where = `the join of line ${number}`;
    bench.equal(told.state, { 0: "accepted", 1: "waiting", 2: "refused" }[status], where);
    if (status === 0) {
        const pairs = told.pairs ?? [];
        bench.equal(pairs.map((pair) => `pair ${pair}\n`).join(""), text, `${where}: the pairs`);
        const found = pairs.length === 1 ? "1 pair" : `${pairs.length} pairs`;
        bench.holds(told.line.startsWith(`accepted: ${found}`), `${where}: ${told.line}`);
    } else {
        bench.equal(told.pairs, null, `${where}: pairs without an accepted proof`);
        bench.holds(status === 1 || `${told.line}\n` === text, `${where}: ${told.line}`);
    }
}

/** The text of a file that the browser saves, once it is there. */
async function savedText(file) {
    for (let turn = 0; turn < 100 && !fs.existsSync(file); turn++) {
        await pause(100);
    }
    return fs.existsSync(file) ? fs.readFileSync(file, "utf8") : "";
}

/** The answer as GeoJSON, as it is saved. */
async function geojsonHolds(bench, browser, room) {
    const file = path.join(room, "answer.geojson");
    await given(browser, PLACES, WINDOW, path.join(EXAMPLES, "places-window.proof"));
    await browser.type("#unit", "1e-7");
    await browser.type("#property", "name");
    await browser.value("document.querySelector('#save').click()");
    bench.equal(await savedText(file), GEOJSON, "the GeoJSON");
    const told = await browser.value(`
        [[-5, "10"], [15, "0.1"], [-1, "2.5e-3"], [0, "1e3"], [0, "0"], [0, "x"]].map(
            ([units, unit]) => [units, readUnit(unit)]).map(
            ([units, unit]) => unit === null ? "none" : scaled(units, unit)).join(" ")`);
    bench.equal(told, "-50 1.5 -0.0025 0 none none", "coordinates in a unit");
}

/** Windows in degrees and in metres. */
async function unitsHold(bench, browser) {
    const file = path.join(EXAMPLES, "places-window.proof");
    await browser.type("#unit", "1e-7");
    await browser.value("at('measure').value = 'degrees'");
    const rows = [
        ["13.37 52.51 13.38 52.52", "accepted", WINDOW],
        ["window 13.37, 52.51, 13.38, 52.52", "accepted", WINDOW],
        ["13.3700000001 52.51 13.38 52.52", "accepted", WINDOW],
        ["13.37 52.51 13.38000001 52.52", "accepted", WINDOW.replace("133800000", "133800001")],
        ["13.3777 52.5163 2", "refused", NEAREST],
        ["13.38 52.51 13.37 52.52", "waiting", "", "x0 is above x1"],
        ["13.37 52.51 13.38", "waiting", "", "from 1 to 1024"],
        ["13.37 52.51 13.38 5e9", "waiting", "", "beyond the coordinates"],
    ];
    for (const [text, state, word, fault = ""] of rows) {
        const wait = state === "waiting" ? browser.until("word === null") : null;
        await browser.drop(file);
        await browser.type("#root", PLACES);
        await browser.type("#query", text);
        await wait;
        const told = await (state === "waiting" ? wanted : seen)(browser);
        const isSo = told.state === state && told.line.includes(fault);
        bench.holds(isSo, `the query ${text}: ${told.line}`);
        const meant = word === "" ? "" : `that is ${word}, in map units of 1e-7 degrees`;
        bench.equal(await browser.value("at('word').textContent"), meant, `the word of ${text}`);
    }
    await browser.type("#query", "133700000 525100000 133800000 525200000");
    await browser.type("#unit", "1");
    bench.equal((await seen(browser)).state, "accepted", "a window in map units");
    const line = `that is ${WINDOW}, in map units of 1 degree`;
    bench.equal(await browser.value("at('word').textContent"), line, "its word");
    await browser.type("#unit", "none");
    const none = await wanted(browser);
    const isNone = none.state === "waiting" && none.line.startsWith("A map unit is a number above");
    bench.holds(isNone, `a unit that is none: ${none.line}`);
    await browser.type("#unit", "1");
    await seen(browser);
    await browser.value("at('measure').value = 'units'");
    await browser.type("#query", "13.37 52.51 13.38 52.52");
    await browser.type("#url", "http://127.0.0.1:1/m");
    await browser.value("at('ask').click()");
    const fractions = await wanted(browser);
    const isAsked = fractions.line.startsWith("These numbers have fractions, and a map unit is 1.");
    bench.holds(isAsked && fractions.state === "waiting", `degrees without: ${fractions.line}`);
    await browser.type("#query", "0 0 9 9");
    const plain = await browser.value("at('word').textContent");
    bench.equal(plain, "that is window:0,0,9,9, in map units", "a window without a measure");
}

/** Gives an address and asks it; answers what the page then shows. */
async function askedOf(browser, root, query, url, isCount = false) {
    const fields = { "#root": root, "#query": query, "#url": url };
    for (const [field, word] of Object.entries(fields)) {
        await browser.type(field, word);
    }
    await browser.value(`at("counting").checked = ${isCount}`);
    await browser.value("at('ask').click()");
    return seen(browser);
}

/** Makes a map of 60,000 records of version 2; answers its root digest and their rectangles. */
function largeMap(program) {
    program.lines("make", "60000", "1", "made.txt");
    const made = fs.readFileSync("made.txt", "utf8").replace(/ ([0-9a-f]+|-)\n/g, " 7 $1\n");
    fs.writeFileSync("made.txt", made);
    const root = program.lines("build2", "made.map", "made.txt").trim();
    const rectOf = (line) => line.split(" ").slice(1, 5).map(Number);
    return { root, rects: made.split("\n").slice(0, -1).map(rectOf) };
}

/** Maps that are asked by their addresses, of another origin than the page. */
async function addressesHold(bench, browser, program, server, room) {
    const before = process.cwd();
    process.chdir(room);
    fs.copyFileSync(path.join(EXAMPLES, "places.txt"), "places.txt");
    program.lines("build", "places.map", "places.txt");
    const { root, rects } = largeMap(program);
    process.chdir(before);
    const [places, large] = ["places.map", "made.map"].map((name) => {
        return server.put(name, fs.readFileSync(path.join(room, name)));
    });
    const sample = await askedOf(browser, PLACES, WINDOW, places);
    bench.equal(String(sample.rows), String(ROWS), `the sample by its address: ${sample.line}`);
    bench.equal(sample.drawn, "0 1 0 2 2 1", "its picture");
    const cost = await browser.value("at('cost').textContent");
    bench.equal(cost, "1 request, 8 KB; the proof has 172 bytes", "what it has cost");
    await browser.value("at('proved').click()");
    await savedText(path.join(room, "answer.proof"));
    const files = [path.join(room, "answer.proof"), path.join(EXAMPLES, "places-window.proof")];
    const [kept, meant] = files.map((file) => fs.readFileSync(file));
    bench.holds(kept.equals(meant), "the proof that is saved");
    const near = await askedOf(browser, PLACES, NEAREST, places);
    bench.equal(String(near.rows), String(ROWS), "the nearest by an address");
    const window = "window:-500000,-500000,400000,300000";
    const count = await askedOf(browser, root, window, large, true);
    const inside = client.readQuery(window).rect;
    const found = rects.filter((rect) => client.within(rect, inside)).length;
    const line = `accepted: ${found} of the map's 60000 records lie inside, at batch 0`;
    bench.equal(count.line, line, "a count by an address");
    await partsHold(bench, browser, "count");
    await atlasAsked(bench, browser, program, server, room);
    await refusedHold(bench, browser, server, [places, large, root]);
    await longHolds(bench, browser, program, root, room);
}

/** Whether a file is an atlas proof, and shows a count where the words ask for one. */
function isOfAtlas(bytes, command) {
    const letters = bytes.subarray(0, 6).toString("latin1");
    return letters.startsWith("MRAT") && (letters[5] === "C") === (command === "check-atlas-count");
}

/** What the page says of the proofs of atlases among the vectors, each fourth and the first. */
async function atlasesHold(bench, browser, room) {
    let count = 0;
    const before = process.cwd();
    process.chdir(room); // where the vectors' files are written
    for (const { number, words, files, status, text } of linesOf("atlas.tsv")) {
        put(files, "=");
        const [command, root, query, name] = words;
        const isFit = fs.existsSync(name) && isOfAtlas(fs.readFileSync(name), command);
        if (![0, 2].includes(status) || !isFit || (count++ % 4 > 0 && number > 40)) {
            continue;
        }
        const file = path.join(room, `atlas-${number}.proof`);
        fs.copyFileSync(name, file);
        const told = await given(browser, root, query, file);
        const lines = text.split("\n").slice(0, -1);
        const found = command === "check-atlas" ? lines.length : Number(text.split(" ")[1]);
        const records = `accepted: ${found} ${found === 1 ? "record" : "records"} of an atlas, at batch`;
        const isSo = status === 2 ? told.line === lines[0] : told.line.startsWith(records);
        bench.holds(isSo, `atlas.tsv line ${number}: ${told.line}`);
        const numbers = (rows) => rows.map((row) => row.split(" ")[0]).join(" ");
        const isShown = status === 0 && command === "check-atlas";
        bench.equal(numbers(isShown ? told.rows : []), numbers(isShown ? lines : []), "its table");
        bench.holds((told.rows === null) === (status === 2), `atlas.tsv line ${number}: a table`);
    }
    process.chdir(before);
    bench.holds(count > 60, `${count} proofs of atlases`);
}

/** An atlas that is asked by its address. */
async function atlasAsked(bench, browser, program, server, room) {
    const chance = new Chance(13);
    const lines = Array.from({ length: 300 }, (_, at) => {
        const [x, y] = [chance.below(1000), chance.below(1000)];
        return `${at + 1} ${x} ${y} ${x + 3} ${y + 2} ${at % 2} -`;
    });
    const before = process.cwd();
    process.chdir(room);
    const atlas = madeAtlas(program, lines, 40, 2);
    process.chdir(before);
    atlas.files.forEach((bytes, name) => server.put(`at/${name}`, bytes));
    const rect = [100, 100, 600, 700];
    const found = atlas.records.filter((one) => client.meet(one.rect, rect)).length;
    const url = `${server.url}at/`;
    const told = await askedOf(browser, atlas.root, `window:${rect}`, url);
    bench.equal(told.line, `accepted: ${found} records of an atlas, at batch 0`, "an atlas asked");
    const inside = atlas.records.filter((one) => client.within(one.rect, rect)).length;
    const count = await askedOf(browser, atlas.root, `window:${rect}`, url, true);
    const line = `accepted: ${inside} records of an atlas, at batch 0, lie inside`;
    bench.equal(count.line, line, "a count of an atlas asked");
    const near = await askedOf(browser, atlas.root, "nearest:500,500,7", url);
    bench.equal(near.line, "accepted: 7 records of an atlas, at batch 0", "nearest of an atlas");
    const none = await askedOf(browser, PLACES, WINDOW, url);
    const meant = `failed Status ${url}sheets/${PLACES}: status 404`;
    bench.equal(none.line, meant, "an atlas that is not there");
}

/** Maps and servers that are refused, and one that does not answer. */
async function refusedHold(bench, browser, server, [places, large, root]) {
    const rows = [
        [WINDOW, large, `refused map page 0 WrongRoot found ${root}`],
        [WINDOW, `${server.url}none`, `failed Status ${server.url}none: status 404`],
        [`${WINDOW}/0000000000000001`, places, "needs version 2"],
    ];
    for (const [query, url, line] of rows) {
        const told = await askedOf(browser, PLACES, query, url);
        const isNone = told.state === "refused" && told.rows === null;
        bench.holds(isNone && told.line === line, `${url}: ${told.line}`);
    }
    server.trick = (response, { bytes }) => (send(response, 200, bytes), true);
    const whole = await askedOf(browser, PLACES, WINDOW, places);
    const isWhole = whole.line.startsWith("failed NoRanges ");
    bench.holds(isWhole, `a server without ranges: ${whole.line}`);
    server.trick = () => true; // no answer comes
    await browser.value("at('ask').click()");
    await browser.until("!at('stop').hidden");
    await stopHolds(bench, browser, /^Asking \.\. 1 request, 0 bytes$/, "a question");
    server.trick = null;
}

/** What is under way tells how far it is, and is stopped. */
async function stopHolds(bench, browser, line, where) {
    const told = (await browser.value(SEEN)).line;
    bench.holds(line.test(told), `${where} on its way: ${told}`);
    await browser.value("at('stop').click()");
    await pause(300);
    const { line: stopped, rows, state } = await browser.value(SEEN);
    const isSo = stopped.startsWith("Stopped") && rows === null && state === "waiting";
    const isHidden = await browser.value("at('stop').hidden");
    bench.holds(isSo && isHidden, `${where} is stopped: ${stopped}`);
}

/** A long proof: it is told how far it is checked, and may be stopped. */
async function longHolds(bench, browser, program, root, room) {
    const file = path.join(room, "long.proof");
    const query = "window:-2000000,-2000000,2000000,2000000";
    program.lines("prove", path.join(room, "made.map"), query, file);
    await browser.call("Emulation.setCPUThrottlingRate", { rate: 20 });
    await browser.type("#root", root);
    await browser.type("#query", query);
    await browser.drop(file);
    await browser.until("!at('stop').hidden");
    await stopHolds(bench, browser, /^Checking \.\. [0-9]+ % of [0-9,]+ KB$/, "a long proof");
    await browser.call("Emulation.setCPUThrottlingRate", { rate: 1 });
    const told = await given(browser, root, query, file);
    const line = "accepted: 60000 of the map's 60000 records, at batch 0";
    bench.equal(told.line, line, "a long proof that is not stopped");
}

/** At 360 pixels nothing is wider than the page; dark and light. */
async function narrowHolds(bench, browser) {
    for (const [scheme, ground] of [["dark", "rgb(20, 23, 28)"], ["light", "rgb(255, 255, 255)"]]) {
        await browser.show(360, 740, scheme);
        await given(browser, PLACES, WINDOW, path.join(EXAMPLES, "places-window.proof"));
        const wide = await browser.value("document.documentElement.scrollWidth");
        bench.holds(wide <= 360, `the page is ${wide} pixels wide`);
        const told = await browser.value("getComputedStyle(document.body).backgroundColor");
        bench.equal(told, ground, `the ${scheme} page`);
    }
    await browser.show(1000, 1200);
}

/** Query, unit and address come with the page's address, and a root digest does not. */
async function addressHolds(bench, browser, page) {
    const more = "unit=1e-7&of=degrees&map=https://example.org/m";
    await browser.go(`${page}?again#root=${PLACES}&query=${NEAREST}&${more}`);
    const ids = "['root', 'query', 'unit', 'measure', 'url']";
    const fields = `${ids}.map((id) => at(id).value).join(" ")`;
    const meant = ` ${NEAREST} 1e-7 degrees https://example.org/m`;
    bench.equal(await browser.value(fields), meant, "what comes with the address");
    await browser.type("#root", PLACES);
    await browser.drop(path.join(EXAMPLES, "places-nearest.proof"));
    bench.equal((await seen(browser)).state, "accepted", "the query of the address");
}

/** The page says so where a browser gives it no SHA-256. */
async function limitsHold(bench, browser, page) {
    const without = "Object.defineProperty(Crypto.prototype, 'subtle', { get: () => undefined })";
    await browser.go(`${page}?without`, without);
    const trouble = await browser.value("document.getElementById('trouble').innerText");
    bench.holds(/^This browser gives SHA-256 to no page/.test(trouble), `no SHA-256: ${trouble}`);
}

async function main([name, picture]) {
    const bench = new Bench("the page in Chromium");
    const program = new Program(path.resolve(name));
    const room = fs.mkdtempSync(path.join(os.tmpdir(), "web-page-"));
    const server = await new Server().start();
    server.headers = { "access-control-allow-origin": "*" };
    const browser = new Browser(find(), path.join(room, "profile"));
    try {
        const page = pathToFileURL(path.join(WEB, "verify.html")).href;
        await browser.open(page);
        await browser.call("Page.setDownloadBehavior", { behavior: "allow", downloadPath: room });
        await partsHold(bench, browser, "records");
        await sampleHolds(bench, browser);
        if (picture !== undefined) {
            await given(browser, PLACES, WINDOW, path.join(EXAMPLES, "places-window.proof"));
            await browser.shoot(picture, true);
            return;
        }
        await refusalsHold(bench, browser, room);
        await othersHold(bench, browser, room);
        await countsHold(bench, browser);
        await joinsHold(bench, browser, room);
        await atlasesHold(bench, browser, room);
        await geojsonHolds(bench, browser, room);
        await unitsHold(bench, browser);
        const elsewhere = browser.asked.filter((url) => !/^(file|blob):/.test(url));
        bench.equal(String(elsewhere), "", "addresses that the page asks for");
        await addressesHold(bench, browser, program, server, room);
        const others = browser.asked.filter((url) => !/^(file|blob):/.test(url));
        const areMaps = others.length > 0 && others.every((url) => url.startsWith(server.url));
        bench.holds(areMaps, `addresses that are asked for: ${others}`);
        await narrowHolds(bench, browser);
        const isSeen = browser.asked.some((url) => url.endsWith("/mrtree_check.js"));
        bench.holds(isSeen, "what is asked for is seen");
        bench.equal(String(browser.told), "", "failures in the page");
        await addressHolds(bench, browser, page);
        await limitsHold(bench, browser, page);
    } finally {
        await browser.close();
        await server.stop();
        fs.rmSync(room, { recursive: true, force: true, maxRetries: 20, retryDelay: 250 });
    }
    bench.end();
}

main(process.argv.slice(2));
