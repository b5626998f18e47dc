"use strict";
/** The client in clients/web as a module: what its calls take; no bytes make them throw. */

const crypto = require("crypto");
const fs = require("fs");
const path = require("path");
const { EXAMPLES, WEB, Bench, cut } = require("./bench.js");
const client = require(path.join(WEB, "mrtree_check.js"));
const page = require(path.join(WEB, "mrtree_page.js"));

const PLACES = "b136e9ea66645cc4c87feaf0addfecbc0d52bd619bc06f05e004ff35cbfaff04";
const WINDOW = "window:133700000,525100000,133800000,525200000";
const POINTS = "94f0cf13ea902a3c351f1c6ad540cf8917c2f9b63f400144e03cdb1dda1daf4c";
const FILE = path.join(EXAMPLES, "places-window.proof");
const PROOF = new Uint8Array(fs.readFileSync(FILE));
// The map of the one record `7 0 0 0 0 5 -` of version 2: its root digest, and a proof on it.
const ROOT_LAYERED = "18765610245298873ffa8adca444b11a93de409d6eaa79f942de550e226b03f7";
const LAYERED = `4d52564f0257${"0".repeat(30)}01004c01${"0".repeat(15)}7${"0".repeat(32)}0500`;
// The map of the 2,000 points of docs/FORMATS.md in version 2: its root digest, and a count proof.
const ROOT_POINTS = "c7a73721c314b72b6b01110486ea947d1a52c4af606454bfe0a7ebea24a12064";
const COUNTED = "window:200,200,800,600";
const COUNT_FILE = path.join(EXAMPLES, "vectors", "level-2-count.proof");
const COUNT = new Uint8Array(fs.readFileSync(COUNT_FILE));
// The join of a map of the record 7, a point, and one of the record 9, a square, in version 2.
const ROOT_SEVEN = "aa17a0a3d81136d8e8993b421c14507454da6354d55f9b1abbc4104af9ebab34";
const ROOT_NINE = "de9972e981495e9f2a740138ca5caaf8f0fd1bb232bc96f7c6635ff3b7079f5b";
const ROOT_NONE = "10896f7117fa69b8930dc9bb47d24a8103b853237ece5e99e2d9c5f41da74593";
const PART_FRONT = `4d52564f024a${"0".repeat(30)}01004c01${"0".repeat(15)}`;
const SQUARE = `${"0".repeat(16)}${"00000001".repeat(2)}`;
const PARTS = [`${PART_FRONT}7${"0".repeat(36)}`, `${PART_FRONT}9${SQUARE}0000`];
const JOIN = bytesOf(`4d524a4e01${SQUARE}00000033${PARTS.join("")}`);
const JOIN_NONE = bytesOf(`4d524a4e004d52564f024a${"0".repeat(32)}`);
const ROUNDS = 3000; // strings of random bytes
const ROOTS = ["", PLACES.slice(1), PLACES.toUpperCase(), `${PLACES}\n`, `${PLACES}0`, null, 7];
const QUERIES = [
    ...["", "window", "window:", "window:0,0,0", "window:0,0,0,0,0", "window:1,0,0,0"],
    ...["window:0,1,0,0", "window:00,0,0,0", "window:-0,0,0,0", "window:+1,0,1,1"],
    ...["window:0,0,0,2147483648", "window:0,0,0,0 ", "window:0,0,0,0\n", "Window:0,0,0,0"],
    ...["nearest:0,0,0", "nearest:0,0,1025", "nearest:0,0,-1", "nearest:0,0", "nearest:0,0,1,1"],
    ...["window:0,0,0,1e1", "window:0,0,0,\u0663", "window:NaN,0,0,0", undefined, null, 7],
    ...["window:0,0,0,0/", "window:0,0,0,0/000000000000002", "window:0,0,0,0/00000000000000200"],
    ...["window:0,0,0,0/000000000000002A", "window:0,0,0,0/0000000000000020/", "/0000000000000020"],
    ...["window:0,0,0,0/0000000000000020\n", "window:0,0,0/0000000000000020", "nearest:0,0,1//"],
];

/** The bytes of hexadecimal digits. */
function bytesOf(hex) {
    return Uint8Array.from(hex.match(/../g), (digits) => parseInt(digits, 16));
}

/** What a call is ended by: the name of an error, or the numbers of the records. */
async function ended(...words) {
    try {
        const verdict = await client.check(...words);
        const { accepted, records, rule } = verdict;
        return accepted ? records.map(({ number }) => number).join(" ") : rule;
    } catch (error) {
        return error.name;
    }
}

/** A proof comes as bytes or in pieces. */
async function waysHold(bench) {
    const pieces = [PROOF.subarray(0, 30), new Uint8Array(0), PROOF.subarray(30)];
    const stream = fs.createReadStream(FILE);
    const ways = { bytes: PROOF, buffer: PROOF.buffer, pieces, cut: cut(PROOF, 7), stream };
    for (const [name, proof] of Object.entries(ways)) {
        bench.equal(await ended(PLACES, WINDOW, proof), "101 102", `a proof as ${name}`);
    }
}

/** What is no proof, no root or no query is told. */
async function othersHold(bench) {
    const calls = [
        ...[undefined, null, 7, {}, ["ab"], [null]].map((proof) => ["Type", PLACES, WINDOW, proof]),
        ...ROOTS.map((root) => ["Range", root, WINDOW, PROOF]),
        ...QUERIES.map((query) => ["Range", PLACES, query, PROOF]),
    ];
    for (const [kind, ...words] of calls) {
        bench.equal(await ended(...words), `${kind}Error`, `the call ${words}`);
    }
}

/** Proofs of both versions, for queries that name a mask and that name none. */
async function versionsHold(bench) {
    const layered = bytesOf(LAYERED);
    const rows = [
        [ROOT_LAYERED, "window:0,0,0,0", layered, "7"],
        [ROOT_LAYERED, "window:0,0,0,0/0000000000000020", layered, "7"],
        [ROOT_LAYERED, "window:0,0,0,0/ffffffffffffffff", layered, "7"],
        [ROOT_LAYERED, "window:0,0,0,0/0000000000000001", layered, "Needless"],
        [ROOT_LAYERED, "window:0,0,0,0/0000000000000000", layered, "Needless"],
        [PLACES, `${WINDOW}/ffffffffffffffff`, PROOF, "BadVersion"],
        [PLACES, "window:0,0,0,0", layered, "WrongRoot"],
    ];
    for (const [root, query, proof, meant] of rows) {
        bench.equal(await ended(root, query, proof), meant, `the query ${query}`);
    }
    const { records, version } = await client.check(ROOT_LAYERED, "window:0,0,0,0", layered);
    bench.equal(`${version} ${records[0].layer}`, "2 5", "the version and the layer");
    const lines = client.linesOf({ records, version });
    bench.equal(lines.join("\n"), "7 0 0 0 0 5 -", "the lines of version 2");
    bench.equal(client.lineOf(records[0]), "7 0 0 0 0 -", "the line of version 1");
    const { mask } = client.readQuery("nearest:0,0,1/00000000000000ff");
    bench.equal(String(mask), "255", "the mask of a query");
}

/** What a call for a count is ended by: the name of an error, the count or the rule. */
async function counted(...words) {
    try {
        const verdict = await client.checkCount(...words);
        return verdict.accepted ? String(verdict.inside) : verdict.rule;
    } catch (error) {
        return error.name;
    }
}

/** Count proofs, as bytes and in pieces; what is none, and what is seen of one. */
async function countsHold(bench) {
    const ways = { bytes: COUNT, buffer: COUNT.buffer, cut: cut(COUNT, 7) };
    ways.stream = fs.createReadStream(COUNT_FILE);
    for (const [name, proof] of Object.entries(ways)) {
        bench.equal(await counted(ROOT_POINTS, COUNTED, proof), "447", `a count proof as ${name}`);
    }
    const rows = [
        [ROOT_POINTS, `${COUNTED}/0000000000000001`, COUNT, "447"],
        [ROOT_POINTS, `${COUNTED}/ffffffffffffffff`, COUNT, "447"],
        [ROOT_POINTS, "window:200,200,800,601", COUNT, "Needless"],
        [ROOT_POINTS, "window:0,0,0,0", COUNT, "Needless"],
        [ROOT_POINTS, `${COUNTED}/0000000000000002`, COUNT, "Needless"],
        [ROOT_POINTS, COUNTED, COUNT.subarray(0, 9999), "Short"],
        [POINTS, COUNTED, COUNT, "WrongRoot"],
        [PLACES, WINDOW, PROOF, "BadVersion"],
        [PLACES, "nearest:133777000,525163000,2", PROOF, "RangeError"],
        [ROOT_POINTS, COUNTED, null, "TypeError"],
        [ROOT_POINTS, COUNTED, 7, "TypeError"],
        ...ROOTS.map((root) => [root, COUNTED, COUNT, "RangeError"]),
        ...QUERIES.map((query) => [ROOT_POINTS, query, COUNT, "RangeError"]),
    ];
    for (const [root, query, proof, meant] of rows) {
        bench.equal(await counted(root, query, proof), meant, `the count ${query}`);
    }
    const answer = await ended(ROOT_POINTS, COUNTED, COUNT);
    bench.equal(answer, "WrongKind", "a count proof for an answer");
    const layered = bytesOf(LAYERED);
    const other = await counted(ROOT_LAYERED, "window:0,0,0,0", layered);
    bench.equal(other, "WrongKind", "a proof of an answer for a count");
    const seen = [];
    const { count, batch, version } = await client.checkCount(
        ROOT_POINTS, COUNTED, COUNT, ({ tag }) => seen.push(tag)
    );
    bench.equal(`${count} ${batch} ${version}`, "2000 0 2", "what a count proof says of its map");
    const tags = ["W", "P", "L", "N"].map((tag) => seen.filter((one) => one === tag).length);
    bench.equal(tags.join(" "), "18 85 22 3", "the items that are seen of a count");
}

/** What a call for a join is ended by: the name of an error, the pairs, or part and rule. */
async function joined(...words) {
    try {
        const { accepted, pairs, part, rule } = await client.checkJoin(...words);
        return accepted ? pairs.map((pair) => pair.join("-")).join(" ") : `${part} ${rule}`;
    } catch (error) {
        return error.name;
    }
}

/** Join proofs, as bytes and in pieces; what is none; and what is said of both maps. */
async function joinsHold(bench) {
    const pieces = [JOIN.subarray(0, 30), new Uint8Array(0), JOIN.subarray(30)];
    const ways = { bytes: JOIN, buffer: JOIN.buffer, pieces, cut: cut(JOIN, 1) };
    for (const [name, proof] of Object.entries(ways)) {
        bench.equal(await joined(ROOT_SEVEN, ROOT_NINE, proof), "7-9", `a join as ${name}`);
    }
    const rows = [
        [ROOT_SEVEN, ROOT_NONE, JOIN_NONE, ""],
        [PLACES, ROOT_NONE, JOIN_NONE, ""],
        [ROOT_NINE, ROOT_SEVEN, JOIN, "first WrongRoot"],
        [ROOT_SEVEN, ROOT_SEVEN, JOIN, "second WrongRoot"],
        [ROOT_SEVEN, ROOT_NINE, JOIN.subarray(0, 75), "frame Short"],
        [ROOT_SEVEN, ROOT_NINE, JOIN.subarray(0, 126), "second Short"],
        [ROOT_SEVEN, ROOT_NINE, new Uint8Array(0), "frame Short"],
        [PLACES, PLACES, PROOF, "frame BadMagic"],
        ...[undefined, null, 7, {}, ["ab"], [null]].map((proof) => [
            ROOT_SEVEN, ROOT_NINE, proof, "TypeError",
        ]),
        ...ROOTS.map((root) => [root, ROOT_NINE, JOIN, "RangeError"]),
        ...ROOTS.map((root) => [ROOT_SEVEN, root, JOIN, "RangeError"]),
    ];
    for (const [root, root2, proof, meant] of rows) {
        bench.equal(await joined(root, root2, proof), meant, `the join of ${root} and ${root2}`);
    }
    let [asked, isClosed] = [0, false];
    const zeros = (function* () {
        try {
            for (;;) {
                asked += 1;
                yield new Uint8Array(10);
            }
        } finally {
            isClosed = true;
        }
    })();
    const told = await joined(ROOT_SEVEN, ROOT_NINE, zeros);
    bench.equal(`${told} ${asked} ${isClosed}`, "frame BadMagic 1 true", "zeros without an end");
    const { pairs, first, second } = await client.checkJoin(ROOT_SEVEN, ROOT_NINE, JOIN);
    bench.equal(String(pairs.map(client.pairLineOf)), "pair 7 9", "the line of a pair");
    const states = [first, second].map(({ batch, count }) => `${batch} ${count}`);
    bench.equal(String(states), "0 1,0 1", "what a join proof says of both maps");
    const { first: none } = await client.checkJoin(ROOT_SEVEN, ROOT_NONE, JOIN_NONE);
    bench.equal(none, null, "what is said of the first map where the second has no records");
    const answer = await ended(ROOT_SEVEN, "window:0,0,1,1", bytesOf(PARTS[0]));
    bench.equal(answer, "WrongKind", "a part of a join for an answer");
}

/** Words as on a command line: what is a query may be a file's name too. */
async function wordsHold(bench) {
    const rows = [
        [["check", PLACES, WINDOW, WINDOW], 0],
        [[PLACES, WINDOW, "p"], 0],
        [["check", PLACES, WINDOW, ""], 1],
        [["check-all", PLACES, "s", "s"], 1],
        [["check-all", PLACES, "", "s"], 1],
        [["check-all", PLACES, "s", "p"], 3],
        [["prove", PLACES, WINDOW, "p"], 1],
        [["check-count", PLACES, WINDOW, "p"], 2],
        [["check-count", PLACES, "nearest:0,0,1", "p"], 1],
        [["check-count", PLACES, WINDOW, ""], 1],
        [["check-join", PLACES, PLACES, "p"], 2],
        [["check-join", PLACES, PLACES, ""], 1],
        [["check-join", PLACES, WINDOW, "p"], 1],
        [["check-join", PLACES.slice(1), PLACES, "p"], 1],
        [["join", PLACES, PLACES, "p"], 1],
        [["count", PLACES, WINDOW, "p"], 1],
        [["toString", PLACES, WINDOW, "p"], 1],
        [["check", PLACES, WINDOW], 1],
        [["check", PLACES, WINDOW, "p", "p"], 1],
        [[], 1],
    ];
    for (const [words, status] of rows) {
        bench.equal((await client.run(words, () => [PROOF]))[0], status, `the words ${words}`);
    }
}

/** Files that are not there, or are none. */
async function filesHold(bench) {
    for (const name of ["none", path.join("none", "p"), __dirname, "/dev/null", `${FILE}/`]) {
        const [status, lines] = await client.run(["check", PLACES, WINDOW, name]);
        const meant = name.startsWith("none") ? `missing ${name}` : "shelf fault";
        bench.equal(`${status} ${lines}`, `7 ${meant}`, `the file ${name}`);
    }
}

/** Nothing behind the piece with a fault is asked for; items are seen, children first. */
async function judgesHold(bench) {
    let asked = 0;
    const zeros = (function* () {
        for (;;) {
            asked += 1;
            yield new Uint8Array(10);
        }
    })();
    bench.equal(await ended(PLACES, WINDOW, zeros), "BadMagic", "zeros without an end");
    bench.equal(asked, 1, "pieces that are asked for");
    const seen = [];
    const level = fs.readFileSync(path.join(EXAMPLES, "vectors", "level-2-window.proof"));
    const watch = (item) => seen.push(item);
    await client.check(POINTS, "window:100,100,150,120", new Uint8Array(level), watch);
    const tags = seen.map(({ tag }) => tag).join("");
    bench.equal(tags.replace(/P+/g, "P"), "PLPNPN", "the items that are seen");
    bench.equal(seen[seen.length - 1].level, 2, "the level of the last");
    const leaf = seen.find(({ tag }) => tag === "L");
    bench.holds(client.recordsOf(leaf.bytes).length > 0, "the records of a leaf");
    const both = await Promise.all([PROOF, PROOF].map((proof) => ended(PLACES, WINDOW, proof)));
    bench.equal(String(both), "101 102,101 102", "two at once");
}

/** Random bytes behind fronts of a proof: a verdict comes of each, in pieces the same. */
async function bytesHold(bench) {
    for (let round = 0; round < ROUNDS; round++) {
        const front = PROOF.subarray(0, crypto.randomInt(PROOF.length));
        const bytes = Uint8Array.of(...front, ...crypto.randomBytes(crypto.randomInt(300)));
        if (round % 3 === 0 && bytes.length > 4) {
            bytes[4] = 2;
        }
        const end = round % 5 === 0 ? "/00000000000000ff" : "";
        const query = (round % 2 === 0 ? WINDOW : "nearest:133777000,525163000,2") + end;
        const one = await ended(PLACES, query, bytes);
        const other = await ended(PLACES, query, cut(bytes, 1 + crypto.randomInt(9)));
        const isSo = one === other && !one.endsWith("Error");
        bench.holds(isSo, `${one}, ${other}: ${client.hexOf(bytes)}`);
    }
}

/** What the pages tell of texts that mean no query; of a unit that is none first. */
function faultsHold(bench) {
    const rows = [
        ["13.37 52.51 13.38 52.52", "1", "Give the size of a map unit"],
        ["13.3777 52.5163 2", "1.0", "Give the size of a map unit"],
        ["window:13.37,52.51,13.38,52.52", "1", "the numbers alone"],
        ["window:13.37,52.51,13.38,52.52", "1e-7", "the numbers alone"],
        ["window:1, 2, 3, 4", "1e-7", "the numbers alone"],
        ["nearest:01,2,3", "1e-7", "the numbers alone"],
        ["1 2 3 4", "0", "A map unit is a number above 0"],
        ["no query", "none", "A map unit is a number above 0"],
        ["", "", "A map unit is a number above 0"],
        ["", "1", "Give the query."],
        ["13.38 52.51 13.37 52.52", "1e-7", "x0 is above x1"],
        ["0.00000001 0 0 1", "1e-7", "x0 is above x1"],
        ["0 6e-9 1 5.9e-9", "1e-7", "y0 above y1"],
        ["window:5,0,4,1", "1", "x0 is above x1"],
        ["0 0 1 214.7483648", "1e-7", "beyond the coordinates"],
        ["0 0 1 5e9", "1", "beyond the coordinates"],
        ["window:-2147483649,0,0,0", "1", "beyond the coordinates"],
        ["215 0 3", "1e-7", "beyond the coordinates"],
        ["1 2 0", "1", "from 1 to 1024"],
        ["1 2 1025", "1", "from 1 to 1024"],
        ["1 2 2.5", "1e-7", "from 1 to 1024"],
        ["1 2 3 4/1", "1e-7", "a mask"],
        ["window:1,2,3,4/00000000000000001", "1", "a mask"],
        ["nearest:1,2,3/", "1", "a mask"],
        ["1 2", "1", "The query is no window"],
        ["windows 1 2 3 4", "1", "The query is no window"],
        ["window:1,2,3", "1", "The query is no window"],
        ["1 2 3 4/5\n/", "1", "The query is no window"],
    ];
    for (const [text, size, told] of rows) {
        const { word, fault } = page.meaningOf(text, page.readUnit(size));
        bench.equal(word, null, `the query ${text} in ${size}`);
        bench.holds(fault.includes(told), `of ${text} in ${size}: ${fault}`);
    }
    const whole = ["1.0 2 3. 4e0", "12e-1 0 24e-1 1"].map((text, at) => {
        return page.meaningOf(text, page.readUnit(["1", "0.1"][at])).word;
    });
    bench.equal(whole.join(" "), "window:1,2,3,4 window:12,0,24,10", "numbers that are whole");
}

/** What the pages make of sizes, coordinates and windows in a unit. */
function unitsHold(bench) {
    const units = ["1e-7", "0.01", "3", "1.50e1", "x", "0", "-1", "", "1e", "1e-99", "1,5", ".5"];
    const sizes = units.map((word) => page.readUnit(word));
    const meant = "1,7 1,2 3,0 150,1 none none none none none 1,99 none none";
    bench.equal(sizes.map((size) => String(size ?? "none")).join(" "), meant, "sizes of units");
    const unit = page.readUnit("1e-7");
    const sideOf = (side) => page.sideOf(side, unit, "degrees");
    const sides = [0, 1, -1, 133777000, -(2 ** 31)].map(sideOf);
    const told = "0° 0.0000001° \u22120.0000001° 13.3777° \u2212214.7483648°";
    bench.equal(sides.join(" "), told, "coordinates in degrees");
    const numbers = [["1.5", "1"], ["-1.5", "1"], ["7", "3"], ["-7", "3"], ["1e-9", "1e-7"]];
    const ways = [...numbers, ["2", "1e9"]].map(([word, size]) => {
        const number = page.readNumber(word);
        const all = ["down", "nearest", "up"];
        return all.map((way) => page.unitsOf(number, page.readUnit(size), way)).join();
    });
    bench.equal(ways.join(" "), "1,2,2 -2,-1,-1 2,2,3 -3,-2,-2 0,0,1 0,0,1", "numbers in units");
    const mask = "/0000000000000001";
    const rows = [
        [`13.37 52.51 13.38 52.52${mask}`, `window:133700000,525100000,133800000,525200000${mask}`],
        ["window: 13.37, 52.51; 13.38,52.52", "window:133700000,525100000,133800000,525200000"],
        ["-0.00000001 -1 1. 0.00000001", "window:-1,-10000000,10000000,1"],
        [" nearest:0,0,1 ", "nearest:0,0,1"],
        ["nearest 13.3777 52.5163 2", "nearest:133777000,525163000,2"],
        ...["", "1 2", "1 2 0", "1 2 1.5", "1 2 0 3", "1 2 3 x", "1 2 3 300", "1 2 3 4/1"].map(
            (text) => [text, null]
        ),
    ];
    for (const [text, word] of rows) {
        const { word: found, fault } = page.meaningOf(text, unit);
        bench.equal(found, word, `the query ${text}`);
        bench.equal(fault === "", word !== null, `what is told of ${text}: ${fault}`);
    }
    const word = "window:1,2,3,4";
    bench.equal(page.meaningOf(word, null).word, word, "a word without a unit");
    faultsHold(bench);
    const texts = ["", "ab", "\u00e4 \u4e2d", "a\u0007", "a\u2028b"].map((text) => {
        return page.textOf(new TextEncoder().encode(text));
    });
    bench.equal(JSON.stringify(texts), '["","ab","\u00e4 \u4e2d",null,null]', "payloads as texts");
    bench.equal(page.textOf(Uint8Array.of(0xff)), null, "a payload that is no text");
    const words = [page.counted(1, "record"), page.counted(1234, "box", "boxes"), page.sized(1023)];
    words.push(page.sized(1024), page.sized(3 * 2 ** 20));
    bench.equal(words.join("; "), "1 record; 1,234 boxes; 1,023 bytes; 1 KB; 3,072 KB", "numbers");
}

async function main() {
    const bench = new Bench("calls");
    unitsHold(bench);
    await waysHold(bench);
    await othersHold(bench);
    await versionsHold(bench);
    await countsHold(bench);
    await joinsHold(bench);
    await wordsHold(bench);
    await filesHold(bench);
    await judgesHold(bench);
    await bytesHold(bench);
    bench.end();
}

main();
