"use strict";
/**
 * Statements in JavaScript: each line of examples/vectors/statements.tsv, texts that are too large
 * for a table, addresses, and what a statement is compared with. tests/python/statements.py does
 * the same with the module in Python.
 */

const crypto = require("crypto");
const fs = require("fs");
const path = require("path");
const { EXAMPLES, WEB, Bench } = require("./bench.js");
const statements = require(path.join(WEB, "mrtree_statement.js"));

const SIGNS = { n: "\n", t: "\t", r: "\r", "\\": "\\" };
const LEAST = 350; // lines of the table

/** The bytes that a field of a table spells. */
function bytesOf(field) {
    const sign = (_, one) => SIGNS[one] ?? String.fromCharCode(parseInt(one.slice(1), 16));
    return Buffer.from(field.replace(/\\(n|t|r|\\|x[0-9a-f]{2})/g, sign), "latin1");
}

/** The lines of the table: { line, text, told }. */
function rowsOf() {
    const file = path.join(EXAMPLES, "vectors", "statements.tsv");
    const lines = fs.readFileSync(file, "latin1").split("\n");
    return lines.map((line, at) => [line, at + 1]).filter(([line]) => /^[^#]/.test(line)).map(
        ([line, number]) => {
            const [text, told] = line.split("\t").map(bytesOf);
            return { line: number, text, told: told.toString() };
        }
    );
}

/** What comes of a text: what a statement says, as JSON, or the line of the refusal. */
function toldOf(text, read = statements.readStatement) {
    try {
        const { map, root, atlas, version, batch, records, unit, crs, axes, ...more } = read(text);
        const { numbers, keys, payload, payloadName, layers, shapes, address, ...rest } = more;
        const { begins, until, ended } = rest;
        const front = { map, root, atlas, version, batch: String(batch), records, unit, crs, axes };
        const names = { numbers, keys, payload, name: payloadName };
        const files = { layers: Object.fromEntries(layers), shapes, address };
        return JSON.stringify({ ...front, ...names, ...files, begins, until, ended });
    } catch (error) {
        return error.line ?? String(error.stack);
    }
}

/** Each line of the table. */
function tableHolds(bench) {
    const rows = rowsOf();
    bench.holds(rows.length >= LEAST, `the table has ${rows.length} lines`);
    for (const { line, text, told } of rows) {
        bench.equal(toldOf(text), told, `statements.tsv line ${line}`);
    }
    return rows.find(({ told }) => told.startsWith("{")).text;
}

/** Texts that are long, or would take long: each is judged within two seconds. */
function largeHold(bench, text) {
    const roots = Array.from({ length: 980 }, (_, at) => at.toString(16).padStart(64, "0"));
    const rows = [
        [Buffer.concat([text, Buffer.alloc(65536)]), "Long"],
        [Buffer.alloc(65537, "\n"), "bad statement 65537 Long"],
        [Buffer.alloc(65536, "\n"), "bad statement 1 Form"],
        [Buffer.alloc(2 ** 24), "bad statement 1 Long"],
        [Buffer.concat([text, Buffer.from(`address: ${":/".repeat(32000)}\n`)]), "{"],
        [Buffer.concat([text, Buffer.from(`address: ${"://".repeat(9999)}\n`)]), "15 Value address"],
        [String(text).replace(/layers: .*/, `layers: 0 ${"a ".repeat(32000)},`), "11 Value layers"],
        [String(text).replace(/unit: .*/, `unit: ${"1".repeat(64000)}`), "6 Value unit"],
        [String(text).replace(/batch: .*/, `batch: ${"1".repeat(64000)}`), "4 Value batch"],
        [String(text).replace("ended: none", `ended: ${roots.join(" ")}`), "{"],
        [String(text).replace("none", `${roots.join(" ")} ${roots[0]}`), "14 Value ended"],
        [String(text).replace("places of Berlin", "x".repeat(65000)), "{"],
    ];
    for (const [one, meant] of rows) {
        const began = Date.now();
        const told = toldOf(Buffer.from(one));
        const isSoon = Date.now() - began < 2000;
        bench.holds(told.includes(meant) && isSoon, `a large one: ${told.slice(0, 80)}, ${meant}`);
    }
}

/** Where names of files go from; what statements say of time, and of proofs and records. */
async function restHolds(bench, text) {
    const { readStatement, whereOf, toldOfTime, compareStatement } = statements;
    const said = readStatement(text, "https://example.org/maps/a.statement", "a.statement");
    bench.equal(whereOf(said, "b c.map"), "https://example.org/maps/b%20c.map", "a name, beside");
    bench.equal(whereOf(said, "../b.map"), "https://example.org/b.map", "a name, above");
    bench.equal(whereOf(said, "http://a/b"), "http://a/b", "an address");
    bench.equal(whereOf({ place: "" }, "b.map"), null, "a name that goes from nowhere");
    bench.equal(toldOfTime(said, said.until).length, 0, "on its last day");
    bench.equal(toldOfTime(said, "2036-12-02").length, 1, "on the day after");
    bench.equal(toldOfTime(said, "2026-11-30").length, 1, "on the day before");
    const state = { version: said.version, batch: said.batch, count: said.records };
    compareStatement(said, state);
    compareStatement(said, { ...state, batch: Number(state.batch) });
    for (const [name, more] of [["version", 1], ["batch", 9], ["count", 9]]) {
        const rule = `Other${name[0].toUpperCase()}${name.slice(1)}`;
        const line = lineOf(() => compareStatement(said, { ...state, [name]: more }));
        bench.holds(line.startsWith(`refused ${rule} a.statement: `), `another ${name}: ${line}`);
    }
    const ended = { ...said, ended: ["00".repeat(32)] };
    const line = lineOf(() => statements.refuseEnded(ended, "00".repeat(32)));
    bench.holds(line.startsWith("refused EndedRoot a.statement: "), `an ended root: ${line}`);
    statements.refuseEnded(ended, "11".repeat(32));
    await recordsHold(bench, said);
}

/** The line of what is thrown; empty where nothing is. */
function lineOf(work) {
    try {
        work();
        return "";
    } catch (error) {
        return error.line ?? String(error);
    }
}

/** Payloads and numbers, as a statement says them. */
async function recordsHold(bench, said) {
    const digestOf = async (bytes) =>
        new Uint8Array(crypto.createHash("sha256").update(bytes).digest());
    const number = 10356492398083197917n; // of the key DEBE01
    const rows = [
        ["text", "Å", ""], ["text", "", ""], ["text", Buffer.from([255]), "OtherPayload"],
        ["none", "", ""], ["none", "a", "OtherPayload"], ["digest", "a".repeat(32), ""],
        ["digest", "", "OtherPayload"], ["hexadecimal", Buffer.from([255]), ""],
        ["key", "DEBE01", ""], ["key", "DEBE02", "OtherKey"],
        ["key", Buffer.from([255]), "OtherPayload"],
    ];
    for (const [payload, text, rule] of rows) {
        const records = [{ number, payload: new Uint8Array(Buffer.from(text)) }];
        let told = "";
        try {
            await statements.compareRecords({ ...said, payload }, records, digestOf);
        } catch (error) {
            told = error.rule;
        }
        bench.equal(told, rule, `a payload of ${payload}: ${text}`);
    }
    const member = '"crs":{"type":"name","properties":{"name":"urn:ogc:def:crs:EPSG::25833"}},';
    bench.equal(statements.crsMember("EPSG:25833"), member, "the coordinate system in GeoJSON");
    const plain = [null, "", "EPSG:4326", "OGC:CRS84"].map(statements.crsMember).join("");
    bench.equal(plain, "", "plain degrees in GeoJSON");
}

async function main() {
    const bench = new Bench("statements");
    const text = tableHolds(bench);
    largeHold(bench, text);
    await restHolds(bench, text);
    bench.end();
}

if (require.main === module) {
    main();
}

module.exports = { rowsOf };
