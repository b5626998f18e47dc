"use strict";
/** What the tests of clients/web share: where things are, and the count of what holds. */

const path = require("path");

const TOP = path.join(__dirname, "..", "..");
const EXAMPLES = path.join(TOP, "examples");
const WEB = path.join(TOP, "clients", "web");
const MOST_SHOWN = 20; // failures that are printed

/** Counts what is to be so, and prints what is not. */
class Bench {
    constructor(name) {
        Object.assign(this, { name, rows: 0, failed: 0 });
    }

    /** Counts one thing that is to be so. */
    holds(isSo, what) {
        this.rows += 1;
        this.failed += isSo ? 0 : 1;
        if (!isSo && this.failed <= MOST_SHOWN) {
            console.log(`FAILED: ${what}`);
        }
    }

    /** The same of two texts that are to be equal. */
    equal(one, other, what) {
        this.holds(one === other, `${what}: ${JSON.stringify(one)} is no ${JSON.stringify(other)}`);
    }

    /** Prints the counts, and leaves an exit status of 1 where something failed. */
    end() {
        console.log(`tests/web: ${this.name}: ${this.rows} rows, ${this.failed} failed`);
        if (this.failed > 0) {
            process.exitCode = 1;
        }
    }
}

/** Bytes in pieces of so many. */
async function* cut(bytes, size) {
    for (let at = 0; at < bytes.length; at += size) {
        yield bytes.subarray(at, at + size);
    }
}

module.exports = { TOP, EXAMPLES, WEB, Bench, cut };
