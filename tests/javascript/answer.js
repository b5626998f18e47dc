"use strict";
/**
 * Says what the client in clients/web says of each line of the standard input: a JSON list of
 * [words, size], for the files of this folder in pieces of `size` bytes, or as they are read where
 * that is 0. Behind the word `ask` they are those of mrtree_ask.js. Prints a JSON list of [status,
 * text] for each.
 */

const fs = require("fs");
const path = require("path");
const readline = require("readline");
const { WEB, cut } = require("./bench.js");
const client = require(path.join(WEB, "mrtree_check.js"));
const { runAsk } = require(path.join(WEB, "mrtree_ask.js"));

async function main() {
    for await (const line of readline.createInterface({ input: process.stdin })) {
        const [words, size] = JSON.parse(line);
        const read = size === 0 ? undefined : (name) => cut(fs.readFileSync(name), size);
        const [status, lines] = await (words[0] === "ask" ? runAsk(words.slice(1))
            : client.run(words, read));
        const text = lines.map((one) => one + "\n").join("");
        process.stdout.write(JSON.stringify([status, text]) + "\n");
    }
}

main();
