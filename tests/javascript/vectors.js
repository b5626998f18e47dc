"use strict";
/**
 * The client in clients/web on the lines of examples/vectors that a client alone can run: those of
 * `check`, `check-count`, `check-join` and `check-all`, and those of atlases. Each is run on a file, in pieces of a byte
 * and in pieces of a gigabyte; some as a process of its own, by a file and by a pipe.
 *
 * usage: node vectors.js short|long          In long, the proofs of a gigabyte too.
 */

const child = require("child_process");
const fs = require("fs");
const os = require("os");
const path = require("path");
const { WEB, Bench, cut } = require("./bench.js");
const { linesOf, put } = require("./spelled.js");
const client = require(path.join(WEB, "mrtree_check.js"));

const KNOWN = ["check", "check-count", "check-join", "check-all", "check-atlas", "check-atlas-count"];
const NAMES = ["vectors.tsv", "atlas.tsv"];
const MOST_IN_BYTES = 10 ** 5; // of a file that is judged byte by byte

/** What the client says of words in one folder, with files in pieces of so many bytes. */
async function said(words, size) {
    const read = size === 0 ? undefined : (name) => cut(fs.readFileSync(name), size);
    const [status, lines] = await client.run(words, read);
    return `${status} ${lines.map((line) => line + "\n").join("")}`;
}

/** What the script says as a process, its last file by a pipe or not. */
function saidByProcess(words, isPiped) {
    const input = isPiped ? fs.readFileSync(words[words.length - 1]) : undefined;
    const given = isPiped ? [...words.slice(0, -1), "-"] : words;
    const script = path.join(WEB, "mrtree_check.js");
    const ran = child.spawnSync(process.execPath, [script, ...given], { input });
    const isLine = /^(mrtree_check\.js: [^\n]{10,300}\n)?$/.test(ran.stderr);
    return `${ran.status} ${ran.stdout}${isLine && (ran.status !== 0 || `${ran.stderr}` === "") ? "" : ran.stderr}`;
}

/** The client says what a vector says, however it is given the file. */
async function holds(bench, vector, where) {
    const { words, number } = vector;
    const meant = `${vector.status} ${vector.text}`;
    bench.equal(await said(words, 0), meant, `${where} on a file`);
    const files = words.slice(2).filter((name) => fs.existsSync(name));
    const size = Math.max(...files.map((name) => fs.statSync(name).size));
    if (vector.status === 7 || size > MOST_IN_BYTES) {
        return;
    }
    bench.equal(await said(words, 1), meant, `${where} in pieces of a byte`);
    bench.equal(await said(words, 2 ** 30), meant, `${where} as a whole`);
    if (number % 5 === 0) {
        bench.equal(saidByProcess(words, false), meant, `${where} as a process`);
        const piped = vector.status === 1 ? meant : saidByProcess(words, true);
        bench.equal(piped, meant, `${where} by a pipe`);
    }
}

/** Each line of a file that a client alone can run; the others leave the files that they spell. */
async function vectorsHold(bench, name) {
    let count = 0;
    for (const vector of linesOf(name)) {
        const isKnown = KNOWN.includes(vector.words[0]);
        if (isKnown || name === "vectors.tsv") {
            put(vector.files, "=");
        }
        if (isKnown) {
            count += 1;
            await holds(bench, vector, `${name} line ${vector.number}`);
        }
        put(vector.files, ">");
    }
    return count;
}

async function main([how]) {
    const room = fs.mkdtempSync(path.join(os.tmpdir(), "web-vectors-"));
    process.chdir(room);
    try {
        for (const name of how === "long" ? [...NAMES, "large.tsv"] : NAMES) {
            const bench = new Bench(name);
            const count = await vectorsHold(bench, name);
            bench.holds(count >= (name === "large.tsv" ? 2 : 100), `only ${count} lines are run`);
            bench.end();
        }
    } finally {
        process.chdir("/");
        fs.rmSync(room, { recursive: true });
    }
}

main(process.argv.slice(2));
