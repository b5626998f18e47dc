"use strict";
/** Maps as the program makes them: those of examples/vectors, and others by chance. */

const child = require("child_process");
const fs = require("fs");
const { linesOf, put } = require("./spelled.js");

const MAKES = ["build", "build2", "upgrade", "apply"];

/** Numbers by chance, the same ones for one start. */
class Chance {
    constructor(start) {
        this.state = start >>> 0;
    }

    /** A whole number from 0 to below `most`. */
    below(most) {
        this.state = (this.state + 0x6d2b79f5) >>> 0;
        let mixed = Math.imul(this.state ^ (this.state >>> 15), 1 | this.state);
        mixed = (mixed + Math.imul(mixed ^ (mixed >>> 7), 61 | mixed)) ^ mixed;
        return Math.floor((((mixed ^ (mixed >>> 14)) >>> 0) / 2 ** 32) * most);
    }

    /** A whole number between two, both included. */
    between(least, most) {
        return least + this.below(most - least + 1);
    }

    /** One of some values. */
    of(values) {
        return values[this.below(values.length)];
    }
}

/** The program. */
class Program {
    constructor(path) {
        this.path = path;
    }

    /** What a run prints: { status, text }. */
    run(...words) {
        const ran = child.spawnSync(this.path, words, { maxBuffer: 2 ** 28 });
        return { status: ran.status, text: ran.stdout.toString() };
    }

    /** What a run prints that has to go well. */
    lines(...words) {
        const { status, text } = this.run(...words);
        if (status !== 0) {
            throw new Error(`${words.join(" ")}: ${status} ${text}`);
        }
        return text;
    }

    /** A map of a file in this folder: { name, root, bytes, version, records }. */
    mapOf(file, root) {
        const bytes = fs.readFileSync(file);
        const told = this.lines("list", file).split("\n").slice(0, -1);
        const records = told.map((line) => {
            const fields = line.split(" ");
            const layer = bytes[4] === 2 ? Number(fields[5]) : 0;
            return { line, rect: fields.slice(1, 5).map(Number), layer };
        });
        return { name: file, root, bytes, version: bytes[4], records };
    }

    /** The proofs of queries on the map of a file, those that `prove` writes. */
    proofs(file, queries) {
        fs.writeFileSync("queries", queries.map((query) => `${query}\n`).join(""));
        this.lines("serve", file, "queries", "bundle");
        const bundle = fs.readFileSync("bundle");
        let at = 0;
        return queries.map(() => {
            const length = bundle.readUInt32BE(at);
            at += 4 + length;
            return bundle.subarray(at - length, at);
        });
    }

    /** The proof of a count, or of a join, that is written for these words. */
    proof(...words) {
        this.lines(...words, "proof");
        return fs.readFileSync("proof");
    }
}

/** All maps that lines of the vectors make, each once. */
function vectorMaps(program) {
    const maps = new Map();
    for (const { words, files, status } of linesOf("vectors.tsv")) {
        put(files, "=");
        if (MAKES.includes(words[0]) && status === 0) {
            const root = program.lines(...words).trim();
            const made = words[{ upgrade: 2, apply: 3 }[words[0]] ?? 1];
            const name = `vector-${root.slice(0, 12)}.map`;
            fs.copyFileSync(made, name);
            maps.set(name, program.mapOf(name, root));
        }
        put(files, ">");
    }
    return [...maps.values()];
}

/** A record line: points, lines and areas in clusters, some with payloads, some of one place. */
function recordLine(chance, number, version) {
    const [x, y] = [0, 0].map(() => 10000 * chance.between(-20, 20) + chance.between(-3000, 3000));
    const kind = chance.below(4);
    const wide = kind === 0 ? 0 : chance.below(800);
    const high = kind <= 1 ? 0 : chance.below(500);
    const layer = version === 2 ? ` ${chance.of([0, 1, 1, 2, 5, 63])}` : "";
    const payload = chance.below(3) === 0 ? "-" : "ab".repeat(chance.between(1, 12));
    return `${number} ${x} ${y} ${x + wide} ${y + high}${layer} ${payload}`;
}

/** A map of so many records by chance; where it is changed, a batch takes out a part of them. */
function madeMap(program, chance, size, version, isChanged) {
    const name = `made-${size}-${version}${isChanged ? "-changed" : ""}.map`;
    const records = Array.from({ length: size }, (_, at) => recordLine(chance, at + 1, version));
    fs.writeFileSync("records", records.map((line) => `${line}\n`).join(""));
    const command = version === 2 ? "build2" : "build";
    const root = program.lines(command, name, "records").trim();
    if (!isChanged) {
        return program.mapOf(name, root);
    }
    const gone = records.filter((_, at) => at % 5 < 2).map((line) => `- ${line.split(" ")[0]}\n`);
    const come = Array.from({ length: 1 + (size >> 4) }, (_, at) => size + at + 1);
    const added = come.map((number) => `+ ${recordLine(chance, number, version)}\n`);
    fs.writeFileSync("batch", ["batch 1\n", ...gone, ...added].join(""));
    fs.renameSync(name, "before.map");
    return program.mapOf(name, program.lines("apply", "before.map", "batch", name).trim());
}

/** The least rectangle round the records of a map; a small one where it has none. */
function extentOf({ records }) {
    return records.reduce(
        ([x0, y0, x1, y1], { rect }) => [
            ...[Math.min(x0, rect[0]), Math.min(y0, rect[1])],
            ...[Math.max(x1, rect[2]), Math.max(y1, rect[3])],
        ],
        records.length === 0 ? [0, 0, 9, 9] : records[0].rect
    );
}

/** A window by chance, of one size or another, on a map. */
function windowOn(chance, map) {
    const [x0, y0, x1, y1] = extentOf(map);
    const part = chance.of([0, 0.02, 0.1, 0.1, 0.4, 1.5]);
    const [wide, high] = [x1 - x0, y1 - y0].map((size) => Math.ceil(part * size));
    const x = chance.between(x0 - wide, x1);
    const y = chance.between(y0 - high, y1);
    const clip = (side) => Math.min(Math.max(side, -(2 ** 31)), 2 ** 31 - 1);
    return [x, y, x + wide, y + high].map(clip);
}

/** A mask by chance, and what stands for it behind a query word; most often none. */
function maskFor(chance, { version }) {
    const some = chance.of(["", "", "", 0n, 1n, 2n, 0x26n, 2n ** 63n, 2n ** 64n - 1n]);
    return version === 1 || some === "" ? "" : `/${some.toString(16).padStart(16, "0")}`;
}

/** A query word by chance on a map. */
function queryOn(chance, map) {
    const end = maskFor(chance, map);
    const window = windowOn(chance, map);
    if (chance.below(3) > 0) {
        return `window:${window}${end}`;
    }
    const k = chance.of([1, 2, 5, 10, 100, 1024]);
    return `nearest:${window[0]},${window[1]},${k}${end}`;
}

/**
 * An atlas of records, as their lines of a version, so many in a sheet: { root, version, records,
 * files }, with the bytes of each file by its name. What it makes stands in this folder.
 */
function madeAtlas(program, lines, most, version) {
    const build = version === 2 ? "build2" : "build";
    const [files, entries, records] = [new Map(), [], []];
    const ordered = lines.slice().sort((a, b) => a.split(" ")[1] - b.split(" ")[1]);
    for (let at = 0; at < ordered.length; at += most) {
        fs.writeFileSync("sheet", ordered.slice(at, at + most).map((line) => `${line}\n`).join(""));
        const sheet = program.mapOf("sheet.map", program.lines(build, "sheet.map", "sheet").trim());
        const { root, bytes } = sheet;
        const told = bytes.subarray(30, version === 2 ? 86 : 78);
        const [counts, level] = [bytes.subarray(6, 22), bytes.subarray(5, 6)];
        const front = Buffer.concat([Buffer.from([0x52, version]), counts, level, told]);
        const rect = [30, 34, 38, 42].map((place) => bytes.readInt32BE(place)).join(" ");
        entries.push(`${entries.length + 1} ${rect} ${front.toString("hex")}\n`);
        files.set(`sheets/${root}`, bytes);
        records.push(...sheet.records);
    }
    fs.writeFileSync("index", entries.join(""));
    const root = program.lines("build", "index.map", "index").trim();
    files.set(`sheets/${root}`, fs.readFileSync("index.map"));
    const numberOf = ({ line }) => Number(line.split(" ")[0]);
    records.sort((a, b) => numberOf(a) - numberOf(b));
    return { root, version, records, files };
}

module.exports = {
    ...{ Chance, Program, vectorMaps, madeMap, madeAtlas },
    ...{ extentOf, windowOn, maskFor, queryOn },
};
