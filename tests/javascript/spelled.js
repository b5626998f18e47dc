"use strict";
/** The lines of examples/vectors: their words, the files that they spell, and what is said. */

const fs = require("fs");
const path = require("path");
const { EXAMPLES } = require("./bench.js");

/** The bytes of hexadecimal digits, in which (PART*N) stands for PART N times in a row. */
function repeated(digits) {
    const open = [[]]; // what stands so far within each bracket, the outermost first
    for (const [, pair, times, bracket] of digits.matchAll(/([0-9a-f]{2})|\*([0-9]+)\)|(\()/g)) {
        if (bracket) {
            open.push([]);
        } else if (pair) {
            open[open.length - 1].push(Buffer.from(pair, "hex"));
        } else {
            const part = Buffer.concat(open.pop());
            open[open.length - 1].push(Buffer.alloc(part.length * times, part));
        }
    }
    return Buffer.concat(open[0]);
}

/** The bytes of one of the parts between `+`. */
function bytesOfPart(part) {
    if (part[0] === '"') {
        return Buffer.from(part.slice(1, -1).replaceAll("\\n", "\n"));
    }
    if (part[0] === "@") {
        const name = part.slice(1);
        return fs.readFileSync(fs.existsSync(name) ? name : path.join(EXAMPLES, name));
    }
    return repeated(part);
}

/** The bytes that are spelled. */
function bytesOf(spelled) {
    const [, parts, most] = /^((?:"[^"]*"|[^"<])*)(?:<([0-9]+))?$/.exec(spelled);
    const found = parts.match(/"[^"]*"|[^+"]+/g) ?? [];
    const bytes = Buffer.concat(found.map(bytesOfPart));
    return most === undefined ? bytes : bytes.subarray(0, Number(most));
}

/** The vectors of a file: { number, words, files, status, text }, files as [name, sign, bytes]. */
function linesOf(name) {
    const lines = fs.readFileSync(path.join(EXAMPLES, "vectors", name), "latin1").split("\n");
    const numbered = lines.map((line, at) => ({ line, number: at + 1 }));
    return numbered.filter(({ line }) => line !== "" && line[0] !== "#").map(({ line, number }) => {
        const [words, spelled, status, text] = line.split("\t");
        const found = spelled.matchAll(/([^ =>]+)([=>])((?:"[^"]*"|[^ "])*)/g);
        const files = spelled === "-" ? [] : Array.from(found, (match) => match.slice(1));
        const meant = text.replaceAll("\\n", "\n");
        return { number, words: words.split(" "), files, status: Number(status), text: meant };
    });
}

/** Puts the files with this sign into the folder. */
function put(files, sign) {
    for (const [name, its, spelled] of files) {
        if (its === sign) {
            fs.writeFileSync(name, bytesOf(spelled));
        }
    }
}

module.exports = { linesOf, put, bytesOf };
