"use strict";
/**
 * The client, in JavaScript: says whether an answer is that of the map with a root digest. It
 * follows docs/FORMATS.md, and needs nothing but Web Crypto for SHA-256.
 *
 * In a page: <script src="mrtree_check.js"></script> makes the names below known, also in a page
 * that is opened from a disk. In Node, of version 18 or later: require("./mrtree_check.js"), or
 *
 * usage: node mrtree_check.js [check] ROOT QUERY PROOF
 *        node mrtree_check.js check-count ROOT QUERY PROOF
 *        node mrtree_check.js check-join ROOT ROOT2 PROOF
 *        node mrtree_check.js check-all ROOT SCRIPT BUNDLE
 *        node mrtree_check.js check-atlas ROOT QUERY PROOF
 *        node mrtree_check.js check-atlas-count ROOT QUERY PROOF
 *
 * with the lines and exit statuses of the program's commands of these names; a file may be a pipe
 * too, and the name `-` is the standard input. Atlases, maps of maps, the program does not know. It
 * is tested against the program, and not proved.
 *
 * A rectangle is an array [x0, y0, x1, y1] of map units, with x0 <= x1 and y0 <= y1; a point is a
 * rectangle without extent. A mask is a BigInt with a bit for each layer, bit l, worth 2^l, for
 * layer l. Proofs are of version 1, which has no layers, or 2; count and join proofs are of version
 * 2. Places are numbers of bytes. Bytes are a Uint8Array.
 */

const MOST_BYTES = 2 ** 30; // no field of a proof ends behind this place
const MOST_RECORDS = 2 ** 20; // that a proof may count
const MOST_RADIUS = 2n * (2n ** 32n - 1n) ** 2n; // the greatest squared distance
const MOST_LEVEL = 7; // of a root
const MOST_LAYER = 63;
const ALL_LAYERS = 2n ** 64n - 1n; // their mask
const MOST_LINES = 65536; // of a script
const LONGEST_QUERY = 71; // letters of a query word
const PIECE = 65536; // bytes that are judged at once
const EVERYTHING = 2 ** 32 - 1; // half a side of a square round a point with all others in it
const PREIMAGES = [0, 67, 75]; // bytes of the preimage of a map's root, by the version
const [LETTER_C, LETTER_E, LETTER_J, LETTER_K, LETTER_L, LETTER_N, LETTER_P, LETTER_R, LETTER_W] = [
    ..."CEJKLNPRW",
].map((letter) => letter.charCodeAt(0));
/** The ways of a part: pruned with nothing that is asked for; with all that; opened. */
const [SKIP, WHOLE, OPEN] = ["skip", "whole", "open"];
const PAIRS = Array.from({ length: 256 }, (_, byte) => byte.toString(16).padStart(2, "0"));
// What an opened node may hold, and of how many bytes its preimage may be.
const LEAF = { tag: LETTER_L, most: 16, longest: 2 + 16 * 226 };
const INNER = { tag: LETTER_N, most: 64, longest: 3 + 64 * 64 };

/** What it mostly means that a proof is refused, by its rule. */
const MEANS = {
    WrongRoot: "The proof is of another map, or of another state of it; or it was changed.",
    BadMagic: "This file is no proof of an answer, nor of a count.",
    BadVersion: "This file is no proof of a version that is known here; or the query names " +
        "layers, or is for a count, and the proof is of a map that has no layers.",
    Short: "The proof was cut off.",
    Trailing: "There is more in the file than a proof.",
    Hidden: "The proof is for another query, or holds back a part of what was asked for.",
    Needless: "The proof is for another query.",
    WrongKind: "The proof is for another kind of query, or shows a count and not records, or " +
        "the other way round.",
    WrongRadius: "The proof is for another query.",
};
/** The same of a join, whose faults are in its frame or in one of its two parts. */
const MEANS_OF_JOIN = {
    WrongRoot: "This part is of another map than that with the root digest, or of another state " +
        "of it; or it was changed. Or the two root digests stand in the other order.",
    BadMagic: "This file, or this part of it, is no proof of a join.",
    BadVersion: "This part is of no version that is known here, or of a map of version 1, which " +
        "has no joins.",
    Short: MEANS.Short,
    Trailing: MEANS.Trailing,
    Hidden: "This part holds back what may meet a record of the other map; or the other part is " +
        "of another join.",
    Needless: "This part opens what meets no record of the other map; or the other part is of " +
        "another join.",
    WrongKind: "This part shows an answer or a count, and is no part of a join.",
    WrongFlag: "The proof says that the second map has no records, and it has some.",
    WrongRect: "The proof names another rectangle than that of the second map.",
};
/** The same of an atlas, whose faults are in its frame, its index or its sheets. */
const MEANS_OF_ATLAS = {
    ...MEANS,
    WrongRoot: "The index or a sheet is of another state of the atlas than that with the root " +
        "digest, or of another atlas; or it was changed.",
    BadMagic: "This file, or this part of it, is no proof of an atlas.",
    Missing: "The proof was cut off, or a sheet was left out.",
    Form: "A record of the index tells of no sheet: the publisher erred, or the root digest is " +
        "of a map.",
    Rect: "The index says another rectangle than the sheet has: the publisher erred.",
    Repeat: "Two records of the answer have one number: the publisher erred.",
};
/** The same of the frame of a join or an atlas. */
const MEANS_OF_FRAME = {
    ...MEANS_OF_JOIN,
    ...MEANS_OF_ATLAS,
    BadMagic: "This file is no proof of a join, or none of an atlas where that is asked for.",
};
/** What other lines mostly mean with which a command ends, by how they begin. */
const LINES_MEAN = [
    ["missing", "There is no such file, or no such folder on the way to it."],
    ["shelf fault", "It is a folder or a device, or may not be read."],
    ["bad text", "That line of the script is no query, or has no line feed behind it."],
    ["bundle broken", "The bundle was cut off, or has more in it than a proof for each query."],
    ["needs version 2", "The map is of version 1, which has no layers, no counts and no joins."],
];
const VERSION = "1.3.0";
const HELP_OF_CHECK = [
    "The client, in JavaScript: says whether an answer is that of the map with a root digest.",
    "",
    "usage: node mrtree_check.js [check] ROOT QUERY PROOF",
    "       node mrtree_check.js check-count ROOT QUERY PROOF",
    "       node mrtree_check.js check-join ROOT ROOT2 PROOF",
    "       node mrtree_check.js check-all ROOT SCRIPT BUNDLE",
    "       node mrtree_check.js --help | -h | --version",
    "",
    "ROOT is the root digest of a map, 64 hexadecimal digits; QUERY is window:x0,y0,x1,y1 or",
    "nearest:x,y,k, in map units; and PROOF is the file of a proof. Of many queries SCRIPT has one",
    "on each line, and BUNDLE a proof for each. `-` is the standard input. Exit statuses: 0",
    "accepted, 1 the words spell no command, 2 refused, 3 a line of the script is no query, 7 a",
    "file cannot be read, 8 without memory. It is tested, and not proved.",
];

/** Web Crypto's hashes; undefined where the browser gives none, as to a page that came by http. */
const subtle =
    globalThis.crypto?.subtle ??
    (typeof require === "function" ? require("crypto").webcrypto.subtle : undefined);

/** The SHA-256 of bytes, 32 bytes. */
async function digestOf(bytes) {
    return new Uint8Array(await subtle.digest("SHA-256", bytes));
}

/** Bytes as lower-case hexadecimal digits. */
function hexOf(bytes) {
    let digits = "";
    for (const byte of bytes) {
        digits += PAIRS[byte];
    }
    return digits;
}

// ---- rectangles

/** The rectangle in 16 bytes of a DataView. */
function rectAt(view, at) {
    const [x0, y0] = [view.getInt32(at), view.getInt32(at + 4)];
    return [x0, y0, view.getInt32(at + 8), view.getInt32(at + 12)];
}

/** Whether the sides of a rectangle are in order. */
function isInOrder([x0, y0, x1, y1]) {
    return x0 <= x1 && y0 <= y1;
}

/** Whether two rectangles share a point. */
function meet(a, b) {
    return a[0] <= b[2] && b[0] <= a[2] && a[1] <= b[3] && b[1] <= a[3];
}

/** Whether a rectangle lies in a window, sides included. */
function within(rect, window) {
    const isWide = window[0] <= rect[0] && rect[2] <= window[2];
    return isWide && window[1] <= rect[1] && rect[3] <= window[3];
}

/** The least rectangle round two; round null and one it is that one. */
function around(a, b) {
    if (a === null) {
        return b;
    }
    const [x0, y0] = [Math.min(a[0], b[0]), Math.min(a[1], b[1])];
    return [x0, y0, Math.max(a[2], b[2]), Math.max(a[3], b[3])];
}

/** The squared distance of a point to a rectangle, in squared map units: a BigInt of 65 bits. */
function distance(point, rect) {
    const dx = BigInt(Math.max(rect[0] - point[0], point[0] - rect[2], 0));
    const dy = BigInt(Math.max(rect[1] - point[1], point[1] - rect[3], 0));
    return dx * dx + dy * dy;
}

// ---- words

/** The value of a canonical decimal from `least` to `most`; null where the word is none. */
function readDecimal(word, least, most) {
    const value = /^(0|-?[1-9][0-9]{0,9})$/.test(word) ? Number(word) : NaN;
    return least <= value && value <= most ? value : null;
}

/** The 32 bytes that 64 lower-case hexadecimal digits spell; null where the word is no such. */
function readRoot(word) {
    if (!/^[0-9a-f]{64}$/.test(word)) {
        return null;
    }
    return Uint8Array.from(word.match(/../g), (digits) => parseInt(digits, 16));
}

/** The mask that the end of a query word spells; null for none, undefined for a bad one. */
function readMask(end) {
    if (end === undefined) {
        return null;
    }
    return /^[0-9a-f]{16}$/.test(end) ? BigInt(`0x${end}`) : undefined;
}

/**
 * The query that a word spells: { rect, k, mask }, with k 0 for a window, and else the number of
 * the nearest records to the point `rect`, and mask null where it names none. Null where the word
 * is no query.
 */
function readQuery(word) {
    const [, kind, rest, , end] = /^(window|nearest):([^/]*)(\/(.*))?$/.exec(word) ?? [];
    const mask = readMask(end);
    const parts = (rest ?? "").split(",");
    if (parts.length !== (kind === "window" ? 4 : 3)) {
        return null;
    }
    const k = kind === "nearest" ? readDecimal(parts.pop(), 1, 1024) : 0;
    const sides = parts.map((part) => readDecimal(part, -(2 ** 31), 2 ** 31 - 1));
    const rect = k === 0 ? sides : [...sides, ...sides];
    const isBad = k === null || mask === undefined || sides.includes(null) || !isInOrder(rect);
    return isBad ? null : { rect, k, mask };
}

/** The query of a word that is one for a window; null of any other. */
function readWindow(word) {
    const query = readQuery(word);
    return query === null || query.k > 0 ? null : query;
}

/**
 * The queries of a script's bytes, a line each: { queries, fault }. The fault is the line that
 * tells the first broken rule, and null where there is none.
 */
function readScript(bytes) {
    const queries = [];
    for (let at = 0; at < bytes.length; ) {
        const found = bytes.indexOf(10, at);
        const end = found < 0 ? bytes.length : found;
        const line = bytes.subarray(at, Math.min(end, at + LONGEST_QUERY + 1));
        const query = readQuery(String.fromCharCode(...line));
        const rules = [
            queries.length === MOST_LINES && "TooMany",
            found < 0 && "NoEnd",
            query === null && "Query",
        ].filter(Boolean);
        if (rules.length > 0) {
            return { queries, fault: `bad text line ${queries.length + 1} ${rules[0]}` };
        }
        queries.push(query);
        at = end + 1;
    }
    return { queries, fault: null };
}

// ---- records

/**
 * The record whose bytes of a version begin at a place: { number, rect, layer, payload }. The
 * number is a BigInt, the layer 0 in version 1, the payload 0 to 200 bytes.
 */
function recordAt(bytes, at, version) {
    const view = new DataView(bytes.buffer, bytes.byteOffset, bytes.length);
    const layer = version === 2 ? bytes[at + 24] : 0;
    const begin = at + 24 + version;
    const payload = bytes.slice(begin, begin + bytes[begin - 1]);
    return { number: view.getBigUint64(at), rect: rectAt(view, at + 8), layer, payload };
}

/** The record line of a record, without its line feed: that of version 1 unless it is said. */
function lineOf({ number, rect, layer, payload }, version = 1) {
    const sides = version === 2 ? [...rect, layer] : rect;
    return `${number} ${sides.join(" ")} ${hexOf(payload) || "-"}`;
}

/** The records of an opened leaf, in its order, from the bytes of its item. */
function recordsOf(item, version = 1) {
    const records = [];
    const bare = 24 + version; // bytes of a record without a payload
    for (let at = 2; at < item.length; at += bare + item[at + bare - 1]) {
        records.push(recordAt(item, at, version));
    }
    return records;
}

/** Records as their bytes, one behind another: little memory also where a proof shows millions. */
class Kept {
    constructor() {
        this.version = 1; // of which they are
        this.bytes = new Uint8Array(4096);
        this.starts = new Uint32Array(128);
        this.used = 0;
        this.count = 0;
    }

    /** Puts the bytes of a record behind the others. */
    add(record) {
        if (this.used + record.length > this.bytes.length) {
            this.bytes = grown(this.bytes);
        }
        if (this.count === this.starts.length) {
            this.starts = grown(this.starts);
        }
        this.bytes.set(record, this.used);
        this.starts[this.count++] = this.used;
        this.used += record.length;
    }

    /** The records, in the order in which they came. */
    records() {
        return Array.from({ length: this.count }, (_, at) => this.record(at));
    }

    /** The record at a position. */
    record(at) {
        return recordAt(this.bytes, this.starts[at], this.version);
    }
}

/** An array with its values, and room for as many more. */
function grown(values) {
    const larger = new values.constructor(2 * values.length);
    larger.set(values);
    return larger;
}

/** Below 0, 0 or above 0: how two numbers compare. */
function compare(a, b) {
    return a < b ? -1 : a > b ? 1 : 0;
}

// ---- the judge of a proof

/** A number below 2^64, a BigInt, as 8 bytes. */
function numberBytes(number) {
    const bytes = new Uint8Array(8);
    new DataView(bytes.buffer).setBigUint64(0, number);
    return bytes;
}

/** What preimages have of the rectangle and, in version 2, the mask of a node. */
function toldOf({ rect, mask }, version) {
    const bytes = new Uint8Array(version === 2 ? 24 : 16);
    const view = new DataView(bytes.buffer);
    rect.forEach((side, at) => view.setInt32(4 * at, side));
    if (version === 2) {
        view.setBigUint64(16, mask);
    }
    return bytes;
}

/**
 * An opened node, of which parts are still to come: its level, how many parts are left, and its
 * preimage so far; of those that came the rectangle round them, their mask and the count of their
 * records. Of an inner node the preimage lacks the digests of its children, which are promised:
 * `digests` has them, with their places. In version 1 a mask is of all layers, and a count is 0.
 */
class Opened {
    constructor(level, count) {
        const kind = level === 0 ? LEAF : INNER;
        Object.assign(this, { level, left: count, rect: null, used: 0, digests: [] });
        Object.assign(this, { mask: 0n, tally: 0 });
        this.preimage = new Uint8Array(kind.longest);
        this.append(level === 0 ? [kind.tag, count] : [kind.tag, level, count]);
    }

    /** Puts bytes at the end of the preimage. */
    append(bytes) {
        this.preimage.set(bytes, this.used);
        this.used += bytes.length;
    }

    /** Takes in an item of the level below: what is seen of it, and its promised digest. */
    adopt(item, version) {
        this.append(toldOf(item, version));
        if (version === 2) {
            this.append(numberBytes(BigInt(item.tally)));
        }
        this.digests.push([this.used, item.digest]);
        this.used += 32;
        this.see(item.rect, item.mask, item.tally);
    }

    /** Counts a part that came. */
    see(rect, mask, tally) {
        this.rect = around(this.rect, rect);
        this.mask |= mask;
        this.tally += tally;
        this.left -= 1;
    }

    /** The preimage, once all digests in it are known. */
    async whole() {
        for (const [at, digest] of this.digests) {
            this.preimage.set(await digest, at);
        }
        return this.preimage.subarray(0, this.used);
    }
}

/**
 * Judges a proof as it comes. `push` takes the next bytes and `end` gives the verdict:
 *
 *     { accepted: true, records, batch, count, version }    count: of the map's records
 *     { accepted: false, rule, place, found }    found: the root digest, of WrongRoot alone
 *
 * `watch`, where it is given, is called with each item that has come as a whole, children before
 * their parent: { tag, level, rect, bytes, version }, with the item's bytes for an opened leaf (see
 * recordsOf). The tag is P, L or N as in the proof, and W of a pruned node whose way is whole.
 *
 * No bytes make it throw. Its fields are taken one after another: `size` bytes are the next one,
 * and the method `then` judges it.
 */
class Judge {
    constructor(root, query, watch = null) {
        Object.assign(this, { root, query, watch, radius: null, fault: null, item: null });
        Object.assign(this, { place: 0, last: 0, held: 0, record: 0, inside: 0 });
        this.letter = query.k === 0 ? LETTER_W : LETTER_K;
        this.versions = query.mask === null ? [1, 2] : [2]; // that the proof may have
        this.field = new Uint8Array(200);
        this.view = new DataView(this.field.buffer);
        this.open = []; // the root first
        this.hashing = [];
        this.kept = new Kept();
        this.version = 1;
        this.layers = query.mask ?? ALL_LAYERS;
        this.expect(4, this.takeMagic);
    }

    /** Takes the next bytes. Answers whether more are of use: not behind a fault. */
    push(piece) {
        for (let at = 0; at < piece.length && this.fault === null; ) {
            if (this.then === null) {
                this.refuse("Trailing", this.place);
                break;
            }
            const size = Math.min(this.size - this.held, piece.length - at);
            this.field.set(piece.subarray(at, at + size), this.held);
            this.held += size;
            at += size;
            if (this.held === this.size) {
                this.take();
            }
        }
        return this.fault === null;
    }

    /** Waits for the digests that are on their way: so that they do not heap up. */
    async settle() {
        await Promise.all(this.hashing);
        this.hashing = [];
    }

    /** The verdict, once all bytes were pushed, or those up to a fault. */
    async end() {
        if (this.then !== null) {
            this.refuse("Short", this.place);
        }
        const found = this.fault === null ? await this.rootDigest() : null;
        if (found !== null && found.some((byte, at) => byte !== this.root[at])) {
            this.refuse("WrongRoot", this.place, hexOf(found));
        }
        if (this.fault === null && !this.isRadiusRight()) {
            this.refuse("WrongRadius", this.place);
        }
        if (this.fault === null && !this.isTallyRight()) {
            this.refuse("WrongTally", this.place);
        }
        if (this.fault !== null) {
            return { accepted: false, ...this.fault };
        }
        const { batch, count, version } = this;
        return { accepted: true, ...this.shown(), batch, count, version };
    }

    /** Keeps a fault, if it is the first. */
    refuse(rule, place, found = "") {
        this.fault ??= { rule, place, found };
    }

    /** Says which field comes next; it is Long where it would end too far behind. */
    expect(size, then) {
        this.size = size;
        this.then = then;
        if (this.place + size > MOST_BYTES) {
            this.refuse("Long", this.place);
        }
    }

    /** Goes over a field that is whole, and judges it. */
    take() {
        this.last = this.place;
        this.place += this.size;
        this.held = 0;
        this.then();
    }

    /** Whether the region of the proof meets a rectangle. */
    meets(rect) {
        if (this.query.k === 0) {
            return meet(this.query.rect, rect);
        }
        return this.radius === null || distance(this.query.rect, rect) <= this.radius;
    }

    /** The way of a part: open, but where the region misses it, or no layer of it is asked for. */
    way(rect, mask) {
        return (mask & this.layers) === 0n || !this.meets(rect) ? SKIP : OPEN;
    }

    /** What an accepted proof shows besides what it says of its map. */
    shown() {
        return { records: this.answer() };
    }

    // The fields of the head.

    takeMagic() {
        if (this.view.getUint32(0) !== 0x4d52564f) {
            return this.refuse("BadMagic", this.last);
        }
        this.expect(1, this.takeVersion);
    }

    takeVersion() {
        this.version = this.field[0];
        if (!this.versions.includes(this.version)) {
            return this.refuse("BadVersion", this.last);
        }
        this.kept.version = this.version;
        this.expect(1, this.takeKind);
    }

    takeKind() {
        if (this.field[0] !== this.letter) {
            return this.refuse("WrongKind", this.last);
        }
        this.expect(8, this.takeBatch);
    }

    takeBatch() {
        this.batch = this.view.getBigUint64(0);
        this.expect(8, this.takeCount);
    }

    takeCount() {
        this.count = Number(this.view.getBigUint64(0));
        if (this.count > MOST_RECORDS) {
            return this.refuse("BadCount", this.last);
        }
        return this.query.k === 0 ? this.expectRoot() : this.expect(1, this.takeFlag);
    }

    takeFlag() {
        if (this.field[0] > 1) {
            return this.refuse("BadFlag", this.last);
        }
        return this.field[0] === 1 ? this.expect(16, this.takeRadius) : this.expectRoot();
    }

    takeRadius() {
        this.radius = (this.view.getBigUint64(0) << 64n) | this.view.getBigUint64(8);
        if (this.radius > MOST_RADIUS) {
            return this.refuse("BadRadius", this.last);
        }
        this.expectRoot();
    }

    expectRoot() {
        if (this.count === 0) {
            this.then = null;
        } else {
            this.expect(1, this.takeLevel);
        }
    }

    takeLevel() {
        this.level = this.field[0];
        if (this.level > MOST_LEVEL) {
            return this.refuse("BadLevel", this.last);
        }
        this.expect(1, this.takeTag);
    }

    // The fields of an item.

    /** The opened node whose part comes next; undefined where that is the root. */
    parent() {
        return this.open[this.open.length - 1];
    }

    /** The level of the item that comes next. */
    nextLevel() {
        return this.open.length === 0 ? this.level : this.parent().level - 1;
    }

    takeTag() {
        if (this.field[0] === LETTER_P) {
            return this.expect(16, this.takePrunedRect);
        }
        if (this.field[0] !== (this.nextLevel() === 0 ? LETTER_L : LETTER_N)) {
            return this.refuse("BadTag", this.last);
        }
        this.expect(1, this.takeEntries);
    }

    takeEntries() {
        const [level, count] = [this.nextLevel(), this.field[0]];
        if (count === 0 || count > (level === 0 ? LEAF : INNER).most) {
            return this.refuse("BadEntries", this.last);
        }
        this.open.push(new Opened(level, count));
        this.expectPart();
    }

    /** The next part of the node that was opened last, or its end. */
    expectPart() {
        const { left, level } = this.parent();
        if (left === 0) {
            this.close();
        } else if (level === 0) {
            this.expect(8, this.takeNumber);
        } else {
            this.expect(1, this.takeTag);
        }
    }

    takePrunedRect() {
        this.pruned = { rect: rectAt(this.view, 0), mask: ALL_LAYERS, tally: 0 };
        if (!isInOrder(this.pruned.rect)) {
            return this.refuse("BadRect", this.last);
        }
        return this.version === 2 ? this.expect(8, this.takeMask) : this.hide(this.expectDigest);
    }

    takeMask() {
        this.pruned.mask = this.view.getBigUint64(0);
        this.hide(() => this.expect(8, this.takeTally));
    }

    /** Goes on where the pruned item is not to be open. */
    hide(then) {
        this.pruned.way = this.way(this.pruned.rect, this.pruned.mask);
        if (this.pruned.way === OPEN) {
            return this.refuse("Hidden", this.last);
        }
        then.call(this);
    }

    takeTally() {
        this.pruned.tally = Number(this.view.getBigUint64(0));
        if (this.pruned.tally === 0 || this.pruned.tally > MOST_RECORDS) {
            return this.refuse("BadCount", this.last);
        }
        this.expectDigest();
    }

    expectDigest() {
        this.expect(32, this.takePrunedDigest);
    }

    takePrunedDigest() {
        const digest = this.field.slice(0, 32);
        const isWhole = this.pruned.way === WHOLE;
        this.inside += isWhole ? this.pruned.tally : 0;
        this.finish(isWhole ? "W" : "P", this.nextLevel(), { ...this.pruned, digest });
    }

    takeNumber() {
        this.record = this.parent().used;
        this.parent().append(this.field.subarray(0, 8));
        this.expect(16, this.takeRect);
    }

    takeRect() {
        this.rect = rectAt(this.view, 0);
        if (!isInOrder(this.rect)) {
            return this.refuse("BadRect", this.last);
        }
        this.parent().append(this.field.subarray(0, 16));
        this.layer = 0;
        this.expect(1, this.version === 2 ? this.takeLayer : this.takeLength);
    }

    takeLayer() {
        this.layer = this.field[0];
        if (this.layer > MOST_LAYER) {
            return this.refuse("BadLayer", this.last);
        }
        this.parent().append(this.field.subarray(0, 1));
        this.expect(1, this.takeLength);
    }

    takeLength() {
        const length = this.field[0];
        if (length > 200) {
            return this.refuse("BadLength", this.last);
        }
        this.parent().append(this.field.subarray(0, 1));
        return length === 0 ? this.endRecord() : this.expect(length, this.takePayload);
    }

    takePayload() {
        this.parent().append(this.field.subarray(0, this.size));
        this.endRecord();
    }

    /** Keeps a record that has come as a whole, where its way is open. */
    endRecord() {
        const leaf = this.parent();
        const isCounted = this.version === 2;
        const mask = isCounted ? 1n << BigInt(this.layer) : ALL_LAYERS;
        const way = this.way(this.rect, mask);
        this.inside += way === WHOLE ? 1 : 0;
        if (way === OPEN) {
            this.keep(leaf.preimage.subarray(this.record, leaf.used));
        }
        leaf.see(this.rect, mask, isCounted ? 1 : 0);
        this.expectPart();
    }

    /** Keeps the bytes of a record. */
    keep(record) {
        this.kept.add(record);
    }

    /** Ends the node that was opened last. */
    close() {
        const node = this.open.pop();
        const { rect, mask, tally } = node;
        if (this.way(rect, mask) !== OPEN) {
            return this.refuse("Needless", this.last);
        }
        const digest = node.whole().then(digestOf);
        this.hashing.push(digest);
        const item = { rect, mask, tally, digest };
        const bytes = node.level === 0 ? node.preimage.subarray(0, node.used) : null;
        this.finish(node.level === 0 ? "L" : "N", node.level, item, bytes);
    }

    /** Gives an item that is whole to its parent; the root's is the last. */
    finish(tag, level, item, bytes = null) {
        this.watch?.({ tag, level, rect: item.rect, bytes, version: this.version });
        if (this.open.length === 0) {
            this.item = item;
            this.then = null;
        } else {
            this.parent().adopt(item, this.version);
            this.expectPart();
        }
    }

    // The end.

    /** The root digest of the map that the proof speaks of. */
    async rootDigest() {
        const front = new Uint8Array(19);
        const view = new DataView(front.buffer);
        front.set([this.count === 0 ? LETTER_E : LETTER_R, this.version]);
        view.setBigUint64(2, this.batch);
        if (this.count === 0) {
            return digestOf(front.subarray(0, 10));
        }
        view.setBigUint64(10, BigInt(this.count));
        front[18] = this.level;
        const told = toldOf(this.item, this.version);
        return digestOf(Uint8Array.of(...front, ...told, ...(await this.item.digest)));
    }

    /** Whether the count that the proof says is that of its items; in version 1 nothing says it. */
    isTallyRight() {
        return this.version === 1 || this.count === 0 || this.item.tally === this.count;
    }

    /** Whether the squared radius that the proof says is that of k nearest records. */
    isRadiusRight() {
        const { query, radius, kept } = this;
        if (query.k === 0) {
            return true;
        }
        if (radius === null) {
            return kept.count < query.k;
        }
        let nearer = 0;
        for (let at = 0; at < kept.count; at++) {
            nearer += distance(query.rect, kept.record(at).rect) < radius ? 1 : 0;
        }
        return nearer < query.k && query.k <= kept.count;
    }

    /** The records of the answer, in its order; a sort leaves equal ones in that of the proof. */
    answer() {
        const { rect, k } = this.query;
        const records = this.kept.records();
        if (k === 0) {
            return records.sort((a, b) => compare(a.number, b.number));
        }
        const ranked = records.map((record) => ({ ...record, far: distance(rect, record.rect) }));
        ranked.sort((a, b) => compare(a.far, b.far) || compare(a.number, b.number));
        return ranked.slice(0, k).map(({ far, ...record }) => record);
    }
}

/**
 * Judges a count proof as it comes, of a query for a window: as Judge, and of an accepted one the
 * verdict has `inside` in the place of `records`, how many records lie inside.
 */
class CountJudge extends Judge {
    constructor(root, query, watch = null) {
        super(root, query, watch);
        Object.assign(this, { letter: LETTER_C, versions: [2] });
    }

    /** The way of a part: whole, too, where all of it is inside, on layers that are asked for. */
    way(rect, mask) {
        const isInside = within(rect, this.query.rect) && (mask & ~this.layers) === 0n;
        const way = super.way(rect, mask);
        return way === OPEN && isInside ? WHOLE : way;
    }

    /** No record is kept. */
    keep() {}

    shown() {
        return { inside: this.inside };
    }
}

/**
 * Judges a part of a join proof as it comes: as Judge, for what meets one of some rectangles, as
 * `meets` tells it of a rectangle. Of an accepted one the verdict has the records that meet, in the
 * order of the proof, and in `rect` the rectangle of the map, null where that has no records.
 */
class PartJudge extends Judge {
    constructor(root, meets) {
        super(root, { rect: null, k: 0, mask: null });
        Object.assign(this, { letter: LETTER_J, versions: [2], isMet: meets });
    }

    /** The way of a part, whatever its layers. */
    way(rect) {
        return this.isMet(rect) ? OPEN : SKIP;
    }

    shown() {
        return { records: this.kept.records(), rect: this.item?.rect ?? null };
    }
}

/**
 * Between which numbers that of the records is that meet a window, on layers of a mask, by the
 * boxes that meet it: { least, most }. A box that lies in the window, and has no other layers, has
 * all its records there; one that only meets it may have none there. Null where boxes have no
 * counts: in version 1.
 */
function boundsOf({ boxes, version }, window, layers = ALL_LAYERS) {
    if (version === 1) {
        return null;
    }
    let [least, most] = [0, 0];
    for (const { rect, mask, tally } of boxes) {
        if (meet(rect, window) && (mask & layers) !== 0n) {
            most += tally;
            least += within(rect, window) && (mask & ~layers) === 0n ? tally : 0;
        }
    }
    return { least, most };
}

/**
 * Judges a box proof as it comes, of a query for a window: as Judge, but that nothing below the
 * level `floor` is opened, which is at least 1. So all that meets the window is opened down to that
 * level, and below it stands as a box. Of an accepted one the verdict has in place of `records`
 *
 *     boxes: [{ rect, mask, tally, level }]    in the order of the proof; each record lies in one
 *     bounds: { least, most }    as boundsOf: how many records the window meets
 *
 * Where in its box a record lies, nothing says. In version 1 a tally is 0, and bounds are null.
 */
class BoxJudge extends Judge {
    constructor(root, query, floor, watch = null) {
        super(root, query, watch);
        Object.assign(this, { floor, boxes: [] });
    }

    /** The way of a part: skip, too, below the floor. */
    way(rect, mask) {
        return this.nextLevel() < this.floor ? SKIP : super.way(rect, mask);
    }

    /** Keeps the pruned parts that would be open, were there no floor. */
    finish(tag, level, item, bytes = null) {
        const { rect, mask, tally } = item;
        if (level < this.floor && super.way(rect, mask) === OPEN) {
            this.boxes.push({ rect, mask, tally, level });
        }
        super.finish(tag, level, item, bytes);
    }

    shown() {
        const { boxes, query, layers } = this;
        return { boxes, bounds: boundsOf(this, query.rect, layers) };
    }
}

/** Bytes in pieces that are judged at once. */
function* piecesOf(bytes) {
    for (let at = 0; at < bytes.length; at += PIECE) {
        yield bytes.subarray(at, at + PIECE);
    }
}

/** Pieces of bytes, the large ones in several. */
async function* small(pieces) {
    for await (const piece of pieces) {
        yield* piecesOf(piece);
    }
}

/**
 * The verdict on a proof: as of `Judge`. `root` has 32 bytes, `query` is as readQuery gives it,
 * `pieces` is a list of bytes, or comes by and by. No piece behind a fault is asked for.
 */
async function judge(root, query, pieces, watch = null) {
    return judged(new Judge(root, query, watch), pieces);
}

/** The verdict on a count proof, of a query for a window: as of `CountJudge`. */
async function judgeCount(root, query, pieces, watch = null) {
    return judged(new CountJudge(root, query, watch), pieces);
}

/** The verdict of a judge on these pieces. */
async function judged(judge_, pieces) {
    for await (const piece of small(pieces)) {
        if (!judge_.push(piece)) {
            break;
        }
        await judge_.settle();
    }
    return judge_.end();
}

/**
 * The verdict on a proof: as of `Judge`. `root` is a word of 64 lower-case hexadecimal digits,
 * `query` a query word; `proof` is bytes or an ArrayBuffer, or pieces of bytes (a list, a stream).
 * Throws a RangeError where root or query is no such word, and for no proof.
 */
async function check(root, query, proof, watch = null) {
    const [held, asked] = [readRoot(root), readQuery(query)];
    if (held === null || asked === null) {
        throw new RangeError("bad words");
    }
    return judge(held, asked, inPieces(proof), watch);
}

/**
 * The verdict on a count proof, which says how many records lie inside a window: as of
 * `CountJudge`. Throws as `check`, and a RangeError too where the query is no window.
 */
async function checkCount(root, query, proof, watch = null) {
    const [held, asked] = [readRoot(root), readWindow(query)];
    if (held === null || asked === null) {
        throw new RangeError("bad words");
    }
    return judgeCount(held, asked, inPieces(proof), watch);
}

/**
 * The verdict on a join proof, which says which records of two maps meet: as of `judgeJoin`.
 * Throws as `check`.
 */
async function checkJoin(root, root2, proof) {
    const [first, second] = [readRoot(root), readRoot(root2)];
    if (first === null || second === null) {
        throw new RangeError("bad words");
    }
    return judgeJoin(first, second, inPieces(proof));
}

/**
 * The verdict on a box proof, which says in which boxes the records lie that meet a window, and
 * nothing of what is below the level `floor`, from 1 to 8: as of `BoxJudge`. Throws as
 * `checkCount`, and a RangeError too where the floor is none.
 */
async function checkBoxes(root, query, floor, proof, watch = null) {
    const [held, asked] = [readRoot(root), readWindow(query)];
    const isFloor = Number.isInteger(floor) && floor >= 1 && floor <= MOST_LEVEL + 1;
    if (held === null || asked === null || !isFloor) {
        throw new RangeError("bad words");
    }
    return judged(new BoxJudge(held, asked, floor, watch), inPieces(proof));
}

/** A proof as pieces of bytes. */
function inPieces(proof) {
    const bytes = proof instanceof ArrayBuffer ? new Uint8Array(proof) : proof;
    return bytes instanceof Uint8Array ? [bytes] : bytes;
}

/** The line that tells of a proof that is refused, without its line feed. */
function refusalOf({ part, rule, place, found }) {
    const [name, at] = [part === undefined ? "" : `${part} `, place === null ? "" : ` at ${place}`];
    return `refused ${name}${rule}${at}${found === "" ? "" : ` found ${found}`}`;
}

/** The line of a pair of numbers, without its line feed. */
function pairLineOf([one, other]) {
    return `pair ${one} ${other}`;
}

// ---- bundles

/** Bytes that come in pieces, and are taken in parts. */
class Source {
    constructor(pieces) {
        this.pieces = pieces[Symbol.asyncIterator]?.() ?? pieces[Symbol.iterator]();
        this.rest = new Uint8Array(0);
        this.place = 0;
    }

    /** The next bytes, at most so many and at least one; none at the end. */
    async some(most) {
        while (this.rest.length === 0) {
            const { value, done } = await this.pieces.next();
            if (done) {
                return this.rest;
            }
            this.rest = value;
        }
        const taken = this.rest.subarray(0, most);
        this.rest = this.rest.subarray(most);
        this.place += taken.length;
        return taken;
    }

    /** Asks for no more: what the bytes come from is given up. */
    async close() {
        await this.pieces.return?.();
    }

    /** The next `size` bytes in pieces; fewer at the end. */
    async *part(size) {
        const end = this.place + size;
        while (this.place < end) {
            const taken = await this.some(Math.min(end - this.place, PIECE));
            if (taken.length === 0) {
                return;
            }
            yield taken;
        }
    }
}

/** A view of the next `size` bytes, a few; null where they are not there. */
async function take(source, size) {
    const bytes = [];
    for await (const piece of source.part(size)) {
        bytes.push(...piece);
    }
    return bytes.length < size ? null : new DataView(Uint8Array.from(bytes).buffer);
}

/** The verdict of a judge on the next `length` bytes, all of which it takes; null if not there. */
async function judgeWhole(judge_, source, length) {
    const end = source.place + length;
    for await (const piece of source.part(length)) {
        judge_.push(piece);
        await judge_.settle();
    }
    return source.place < end ? null : judge_.end();
}

/** The verdict on the next part of a bundle; null where the part is not whole. */
async function judgePart(root, query, source) {
    const length = await take(source, 4);
    return length && judgeWhole(new Judge(root, query), source, length.getUint32(0));
}

/**
 * Judges a bundle for the queries of a script. Gives each verdict, as of `Judge`, in order to
 * `see`: null where the part is missing. Answers the place where the bundle is broken, or null.
 */
async function judgeBundle(root, queries, pieces, see) {
    const source = new Source(pieces);
    let broken = null;
    for (const query of queries) {
        const start = source.place;
        const verdict = broken === null ? await judgePart(root, query, source) : null;
        broken ??= verdict === null ? start : null;
        see(verdict);
    }
    const end = source.place;
    const isLonger = broken === null && (await source.some(1)).length > 0;
    await source.close();
    return isLonger ? end : broken;
}

// ---- which rectangles meet

/** How many values between two places, which are in rising order there, are at most a bound. */
function countUpTo(values, bound, from, to) {
    let [low, high] = [from, to];
    while (low < high) {
        const middle = (low + high) >>> 1;
        if (values[middle] <= bound) {
            low = middle + 1;
        } else {
            high = middle;
        }
    }
    return low - from;
}

/**
 * Points, each an array [x, y], kept so that to count those that lie low and to the left takes few
 * steps, whatever they are. They stand from left to right. Level k has their heights in blocks of
 * 2^k, each block in rising order.
 */
class Corners {
    constructor(points) {
        points.sort(([a], [b]) => a - b);
        this.xs = Int32Array.from(points, ([x]) => x);
        this.levels = [Int32Array.from(points, ([, y]) => y)];
        for (let size = 2; size <= points.length; size *= 2) {
            const level = this.levels[this.levels.length - 1].slice();
            for (let at = 0; at < level.length; at += size) {
                level.subarray(at, at + size).sort();
            }
            this.levels.push(level);
        }
    }

    /** How many lie at most so far to the right and so high. */
    count(x, y) {
        const left = countUpTo(this.xs, x, 0, this.xs.length);
        let [start, total] = [0, 0];
        for (let power = this.levels.length - 1; power >= 0; power--) {
            const size = 2 ** power;
            if ((left & size) !== 0) {
                total += countUpTo(this.levels[power], y, start, start + size);
                start += size;
            }
        }
        return total;
    }
}

/**
 * Rectangles, kept so that whether one of them meets a rectangle is told in few steps, whatever
 * they are. Along one axis a rectangle meets as many as begin at its end or before, less those that
 * end before it begins. So along both axes four counts of corners tell how many it meets.
 */
class Meets {
    constructor(rects) {
        const corners = (x, y) => new Corners(rects.map((rect) => [rect[x], rect[y]]));
        [this.lowerLeft, this.upperLeft] = [corners(0, 1), corners(0, 3)];
        [this.lowerRight, this.upperRight] = [corners(2, 1), corners(2, 3)];
    }

    /** Whether one of them meets this one. */
    one([x0, y0, x1, y1]) {
        const begun = this.lowerLeft.count(x1, y1) + this.upperRight.count(x0 - 1, y0 - 1);
        const ended = this.upperLeft.count(x1, y0 - 1) + this.lowerRight.count(x0 - 1, y1);
        return ended < begun;
    }
}

/** The numbers [a, b] of each two records that meet, one of each list, in rising order. */
function pairsOf(ones, others) {
    const pairs = begunWithin(ones, others, 0);
    for (const [other, one] of begunWithin(others, ones, 1)) {
        pairs.push([one, other]);
    }
    return pairs.sort(([a, b], [c, d]) => compare(a, c) || compare(b, d));
}

/**
 * The numbers of each two that meet, of which the second begins, from left to right, within the
 * first: at its left side or behind it, or `after` behind it. The seconds are halved from left to
 * right; a first that reaches over all of a half meets those that it meets along y. That takes
 * about n log n steps, whatever the records, and the pairs.
 */
function begunWithin(allSpans, allStarts, after) {
    const pairs = [];
    const allLefts = [...new Set(allStarts.map(({ rect }) => rect[0]))].sort((a, b) => a - b);
    const ranges = allLefts.length === 0 ? [] : [[byY(allSpans), byY(allStarts), allLefts]];
    while (ranges.length > 0) {
        const [spans, starts, lefts] = ranges.pop();
        const [least, most, half] = [lefts[0], lefts[lefts.length - 1], lefts.length >> 1];
        const some = spans.filter(({ rect }) => rect[0] + after <= most && least <= rect[2]);
        const isOverAll = ({ rect }) => rect[0] + after <= least && most <= rect[2];
        const rest = some.filter((span) => !isOverAll(span));
        pushMetAlongY(some.filter(isOverAll), starts, pairs);
        if (rest.length > 0) {
            const isFront = ({ rect }) => rect[0] < lefts[half];
            const back = starts.filter((start) => !isFront(start));
            ranges.push([rest, starts.filter(isFront), lefts.slice(0, half)]);
            ranges.push([rest, back, lefts.slice(half)]);
        }
    }
    return pairs;
}

/** The records in rising order of their lower sides. */
function byY(records) {
    return records.slice().sort((a, b) => a.rect[1] - b.rect[1]);
}

/** Adds the numbers of each two that meet along y, of lists in rising order of lower sides. */
function pushMetAlongY(ones, others, pairs) {
    const lows = others.map(({ rect }) => rect[1]);
    for (const { number, rect } of ones) {
        let at = countUpTo(lows, rect[1] - 1, 0, lows.length);
        for (; at < lows.length && lows[at] <= rect[3]; at++) {
            pairs.push([number, others[at].number]);
        }
    }
    const ownLows = ones.map(({ rect }) => rect[1]);
    for (const { number, rect } of ones.length === 0 ? [] : others) {
        let at = countUpTo(ownLows, rect[1], 0, ownLows.length);
        for (; at < ownLows.length && ownLows[at] <= rect[3]; at++) {
            pairs.push([ones[at].number, number]);
        }
    }
}

// ---- joins

/** A proof of several parts is refused: the fault of its `part`, as `frame`, `first`, `sheet 7`. */
class PartRefused extends Error {
    constructor(part, { rule, place, found = "" }) {
        super(rule);
        this.verdict = { accepted: false, part, rule, place, found };
    }
}

/** The next field of a frame. Throws where it is not there. */
async function takeField(source, size) {
    const place = source.place;
    const field = await take(source, size);
    if (field === null) {
        throw new PartRefused("frame", { rule: "Short", place });
    }
    return field;
}

/**
 * The fields in front of the first part: the rectangle of the second map, null where it has none,
 * and the part's length. Throws at the first fault.
 */
async function readFrame(source) {
    if ((await takeField(source, 4)).getUint32(0) !== 0x4d524a4e) {
        throw new PartRefused("frame", { rule: "BadMagic", place: 0 });
    }
    const flag = (await takeField(source, 1)).getUint8(0);
    if (flag > 1) {
        throw new PartRefused("frame", { rule: "BadFlag", place: 4 });
    }
    if (flag === 0) {
        return { rect: null, length: 0 };
    }
    const rect = rectAt(await takeField(source, 16), 0);
    if (!isInOrder(rect)) {
        throw new PartRefused("frame", { rule: "BadRect", place: 5 });
    }
    return { rect, length: (await takeField(source, 4)).getUint32(0) };
}

/** The verdict on a part that is accepted. Throws where it is refused. */
function acceptedPart(part, verdict) {
    if (!verdict.accepted) {
        throw new PartRefused(part, verdict);
    }
    return verdict;
}

/** The verdict on the first part, for the frame's rectangle. Throws where it is not accepted. */
async function judgeFirst(root, { rect, length }, source) {
    const place = source.place;
    const judge_ = new PartJudge(root, (other) => meet(rect, other));
    const verdict = await judgeWhole(judge_, source, length);
    if (verdict === null) {
        throw new PartRefused("frame", { rule: "Short", place });
    }
    return acceptedPart("first", verdict);
}

/** The verdict on a join proof that is accepted. Throws where it is refused. */
async function acceptedJoin(root, root2, source) {
    const frame = await readFrame(source);
    const first = frame.rect === null ? null : await judgeFirst(root, frame, source);
    const records = first === null ? [] : first.records;
    const meets = new Meets(records.map(({ rect }) => rect));
    const judge_ = new PartJudge(root2, (rect) => meets.one(rect));
    const second = acceptedPart("second", await judged(judge_, source.part(Infinity)));
    if (frame.rect === null && second.count > 0) {
        throw new PartRefused("frame", { rule: "WrongFlag", place: source.place });
    }
    if (frame.rect !== null && String(second.rect) !== String(frame.rect)) {
        throw new PartRefused("frame", { rule: "WrongRect", place: source.place });
    }
    const stateOf = (verdict) => verdict && { batch: verdict.batch, count: verdict.count };
    const pairs = pairsOf(records, second.records);
    return { accepted: true, pairs, first: stateOf(first), second: stateOf(second) };
}

/**
 * The verdict on a join proof, by the root digests of two maps:
 *
 *     { accepted: true, pairs, first, second }    pairs: the numbers [a, b] of records that meet
 *     { accepted: false, part, rule, place, found }    part: `frame`, `first` or `second`
 *
 * `first` and `second` have the batch and the count of each map; the first is null where the second
 * map has no records, since nothing is said of it then. Places in a part count from its beginning.
 */
async function judgeJoin(root, root2, pieces) {
    return verdictOfParts(pieces, (source) => acceptedJoin(root, root2, source));
}

// ---- atlases

/** The points within half a side of a point along each axis, as far as there are coordinates. */
function square([x, y], half) {
    const [low, high] = [-(2 ** 31), 2 ** 31 - 1];
    const [x0, y0] = [Math.max(x - half, low), Math.max(y - half, low)];
    return [x0, y0, Math.min(x + half, high), Math.min(y + half, high)];
}

/**
 * The sheet that a record of an atlas's index tells of: { number, rect, version, batch, count,
 * level, mask, root, name }. The mask of one of version 1 is of all layers; the root has 32 bytes,
 * and the name is bytes of any kind. Throws PartRefused where the record tells of none.
 */
async function readSheet({ number, rect, payload }) {
    const version = payload[0] === LETTER_R ? payload[1] : 0;
    const size = PREIMAGES[version] ?? 0;
    const refused = (rule) => new PartRefused(`entry ${number}`, { rule, place: null });
    if (size === 0 || payload.length < size) {
        throw refused("Form");
    }
    const view = new DataView(payload.buffer, payload.byteOffset, payload.length);
    const [batch, count] = [view.getBigUint64(2), Number(view.getBigUint64(10))];
    const [level, own] = [payload[18], rectAt(view, 19)];
    const mask = version === 2 ? view.getBigUint64(35) : ALL_LAYERS;
    const isCount = count >= 1 && count <= MOST_RECORDS;
    if (!isCount || level > MOST_LEVEL || !isInOrder(own) || mask === 0n) {
        throw refused("Form");
    }
    if (String(own) !== String(rect)) {
        throw refused("Rect");
    }
    const [root, name] = [await digestOf(payload.subarray(0, size)), payload.slice(size)];
    return { number, rect, version, batch, count, level, mask, root, name };
}

/**
 * The way of a sheet for a query: its part is there where that is open. One of version 1 has none
 * in which masks are told: it is open too, and then no part of it is accepted. The judge is one of
 * this query, whatever it is of.
 */
function wayOfSheet({ version, rect, mask }, query, judge_) {
    return version === 1 && query.mask !== null ? OPEN : judge_.way(rect, mask);
}

/** What is in front of the parts of an atlas proof: half a side, 0 but of nearest records. */
async function readAtlasFrame(letter, source) {
    const refused = (rule, place) => new PartRefused("frame", { rule, place });
    if ((await takeField(source, 4)).getUint32(0) !== 0x4d524154) {
        throw refused("BadMagic", 0);
    }
    if ((await takeField(source, 1)).getUint8(0) !== 1) {
        throw refused("BadVersion", 4);
    }
    if ((await takeField(source, 1)).getUint8(0) !== letter) {
        throw refused("WrongKind", 5);
    }
    return letter === LETTER_K ? (await takeField(source, 4)).getUint32(0) : 0;
}

/** The verdict of a judge on the next part, that of this name. Throws where it is not accepted. */
async function judgeNamed(name, judge_, source) {
    const place = source.place;
    const length = await take(source, 4);
    const verdict = length && (await judgeWhole(judge_, source, length.getUint32(0)));
    if (verdict === null) {
        throw new PartRefused(name, { rule: "Missing", place });
    }
    return acceptedPart(name, verdict);
}

/** The index by its part: its batch, and its sheets that meet a window. Throws PartRefused. */
async function judgeIndex(root, rect, source) {
    const judge_ = new Judge(root, { rect, k: 0, mask: null });
    const { batch, records } = await judgeNamed("index", judge_, source);
    const sheets = [];
    for (const record of records) {
        sheets.push(await readSheet(record));
    }
    return { batch, sheets };
}

/** Throws where bytes are left. */
async function refuseRest(source) {
    const place = source.place;
    if ((await source.some(1)).length > 0) {
        throw new PartRefused("frame", { rule: "Trailing", place });
    }
}

/** The verdict on an atlas proof that is accepted. Throws where it is refused. */
async function acceptedAtlas(root, query, source) {
    const half = await readAtlasFrame(query.k === 0 ? LETTER_W : LETTER_K, source);
    const rect = query.k === 0 ? query.rect : square(query.rect, half);
    const window = { rect, k: 0, mask: query.mask };
    const { batch, sheets } = await judgeIndex(root, rect, source);
    const records = [];
    for (const sheet of sheets) {
        const judge_ = new Judge(sheet.root, window);
        if (wayOfSheet(sheet, window, judge_) === OPEN) {
            const own = await judgeNamed(`sheet ${sheet.number}`, judge_, source);
            for (const record of own.records) {
                records.push({ ...record, version: own.version, sheet: sheet.number });
            }
        }
    }
    await refuseRest(source);
    const answer = query.k === 0 ? records.sort((a, b) => compare(a.number, b.number))
        : nearestRecords(query, half, records);
    refuseRepeats(answer);
    return { accepted: true, records: answer, batch, sheets };
}

/** The verdict on an atlas proof of a count that is accepted. Throws where it is refused. */
async function acceptedAtlasCount(root, query, source) {
    await readAtlasFrame(LETTER_C, source);
    const { batch, sheets } = await judgeIndex(root, query.rect, source);
    let inside = 0;
    for (const sheet of sheets) {
        const judge_ = new CountJudge(sheet.root, query);
        const way = wayOfSheet(sheet, query, judge_);
        if (way === OPEN) {
            inside += (await judgeNamed(`sheet ${sheet.number}`, judge_, source)).inside;
        }
        inside += way === WHOLE ? sheet.count : 0;
    }
    await refuseRest(source);
    return { accepted: true, inside, batch, sheets };
}

/**
 * The nearest of the records that a square of this half side gave, in order. Throws where half a
 * side is not the least by which k records are near enough, if there is such below EVERYTHING.
 */
function nearestRecords({ rect, k }, half, records) {
    const ranked = records.map((record) => ({ record, far: distance(rect, record.rect) }));
    ranked.sort((a, b) => compare(a.far, b.far) || compare(a.record.number, b.record.number));
    const upTo = (side) => ranked.filter(({ far }) => far <= BigInt(side) ** 2n).length;
    const near = half === EVERYTHING ? ranked.length : upTo(half);
    const nearer = half === 0 ? 0 : upTo(half - 1);
    if ((half < EVERYTHING && near < k) || nearer >= k) {
        throw new PartRefused("frame", { rule: "WrongRadius", place: 6 });
    }
    return ranked.slice(0, Math.min(near, k)).map(({ record }) => record);
}

/** Throws where two records have one number, at the least such. */
function refuseRepeats(records) {
    const numbers = BigUint64Array.from(records, ({ number }) => number).sort();
    const at = numbers.findIndex((number, place) => place > 0 && numbers[place - 1] === number);
    if (at > 0) {
        throw new PartRefused(`number ${numbers[at]}`, { rule: "Repeat", place: null });
    }
}

/** The verdict on the pieces of a proof: what `accepted` promises of them, or what it refuses. */
async function verdictOfParts(pieces, accepted) {
    const source = new Source(pieces);
    try {
        return await accepted(source);
    } catch (error) {
        if (error instanceof PartRefused) {
            return error.verdict;
        }
        throw error;
    } finally {
        await source.close();
    }
}

/**
 * The verdict on an atlas proof, by the root digest of the atlas:
 *
 *     { accepted: true, records, batch, sheets }    each record with its version and sheet besides
 *     { accepted: false, part, rule, place, found }    part: `frame`, `index`, `sheet 7`, `entry 7`
 *
 * Part may be `number 7` too; of that and an entry the place is null. Batch and sheets are those of
 * the index, sheets as of readSheet: all that meet the window of the proof.
 */
async function judgeAtlas(root, query, pieces) {
    return verdictOfParts(pieces, (source) => acceptedAtlas(root, query, source));
}

/**
 * The verdict on an atlas proof of how many records lie inside a window: as of `judgeAtlas`, and
 * `inside` in the place of `records`.
 */
async function judgeAtlasCount(root, query, pieces) {
    return verdictOfParts(pieces, (source) => acceptedAtlasCount(root, query, source));
}

/** The verdict on an atlas proof: as of `judgeAtlas`. Throws as `check`. */
async function checkAtlas(root, query, proof) {
    const [held, asked] = [readRoot(root), readQuery(query)];
    if (held === null || asked === null) {
        throw new RangeError("bad words");
    }
    return judgeAtlas(held, asked, inPieces(proof));
}

/** The verdict on an atlas proof of a count: as of `judgeAtlasCount`. Throws as `checkCount`. */
async function checkAtlasCount(root, query, proof) {
    const [held, asked] = [readRoot(root), readWindow(query)];
    if (held === null || asked === null) {
        throw new RangeError("bad words");
    }
    return judgeAtlasCount(held, asked, inPieces(proof));
}

// ---- the commands, in Node

/** A run ends before it has an answer, with this exit status and this line. */
class Ended extends Error {
    constructor(status, line) {
        super(line);
        this.status = status;
    }
}

/** The bytes of a file or pipe in pieces. Throws Ended where it is missing or cannot be read. */
async function* readPieces(name) {
    const fs = require("fs");
    try {
        const about = name === "-" ? null : fs.statSync(name);
        if (about && !(about.isFile() || about.isFIFO() || about.isSocket())) {
            throw new Ended(7, "shelf fault");
        }
        const options = { highWaterMark: PIECE };
        yield* name === "-" ? process.stdin : fs.createReadStream(name, options);
    } catch (error) {
        throw new Ended(7, error.code === "ENOENT" ? `missing ${name}` : "shelf fault");
    }
}

/** The record lines of a proof that is accepted, those of its version. */
function linesOf({ records, version }) {
    return records.map((record) => lineOf(record, version));
}

/** Status and lines of `check` of the proof in these pieces. */
async function checkLines(root, query, pieces) {
    const verdict = await judge(root, query, pieces);
    return verdict.accepted ? [0, linesOf(verdict)] : [2, [refusalOf(verdict)]];
}

/** Status and lines of `check-count` of the proof in these pieces. */
async function checkCountLines(root, query, pieces) {
    const verdict = await judgeCount(root, query, pieces);
    return verdict.accepted ? [0, [`count ${verdict.inside}`]] : [2, [refusalOf(verdict)]];
}

/** Status and lines of `check-join` of the proof in these pieces. */
async function checkJoinLines(root, root2, pieces) {
    const verdict = await judgeJoin(root, root2, pieces);
    if (!verdict.accepted) {
        return [2, [refusalOf(verdict)]];
    }
    return [0, verdict.pairs.map(pairLineOf)];
}

/** The record lines of an atlas proof that is accepted, each of its sheet's version. */
function linesOfAtlas({ records }) {
    return records.map((record) => lineOf(record, record.version));
}

/** Status and lines of `check-atlas` of the proof in these pieces. */
async function checkAtlasLines(root, query, pieces) {
    const verdict = await judgeAtlas(root, query, pieces);
    return verdict.accepted ? [0, linesOfAtlas(verdict)] : [2, [refusalOf(verdict)]];
}

/** Status and lines of `check-atlas-count` of the proof in these pieces. */
async function checkAtlasCountLines(root, query, pieces) {
    const verdict = await judgeAtlasCount(root, query, pieces);
    return verdict.accepted ? [0, [`count ${verdict.inside}`]] : [2, [refusalOf(verdict)]];
}

/** Status and lines of `check-all` of a script's bytes and the bundle in these pieces. */
async function checkAllLines(root, script, pieces) {
    const { queries, fault } = readScript(script);
    if (fault !== null) {
        return [3, [fault]];
    }
    const lines = [];
    const counts = { accepted: 0, refused: 0, missing: 0 };
    let number = 0;
    const broken = await judgeBundle(root, queries, pieces, (verdict) => {
        number += 1;
        const way = verdict === null ? "missing" : verdict.accepted ? "accepted" : "refused";
        counts[way] += 1;
        if (way === "accepted") {
            lines.push([`query ${number} ok ${verdict.records.length}`]);
            lines.push(linesOf(verdict));
        } else {
            lines.push([`query ${number} ${way === "missing" ? way : refusalOf(verdict)}`]);
        }
    });
    const { accepted, refused, missing } = counts;
    lines.push([`accepted ${accepted} refused ${refused} missing ${missing}`]);
    if (broken !== null) {
        lines.push([`bundle broken at ${broken}`]);
    }
    return [accepted === queries.length && broken === null ? 0 : 2, lines.flat()];
}

/** Of each command of one proof what reads the second word behind it, and what gives its lines. */
const COMMANDS = new Map([
    ["check", [readQuery, checkLines]],
    ["check-count", [readWindow, checkCountLines]],
    ["check-join", [readRoot, checkJoinLines]],
    ["check-atlas", [readQuery, checkAtlasLines]],
    ["check-atlas-count", [readWindow, checkAtlasCountLines]],
]);

/** Exit status and lines of the words behind the script's name; `read` gives a file in pieces. */
async function run(words, read = readPieces) {
    const [command, rootWord, asked, name] = words.length === 4 ? words : ["check", ...words];
    const isAll = command === "check-all";
    const root = readRoot(rootWord ?? "");
    const [readAsked, linesOfProof] = COMMANDS.get(command) ?? [() => null];
    const value = readAsked(asked ?? "");
    const isRight = isAll ? asked !== "" && asked !== name : value !== null;
    if (![3, 4].includes(words.length) || root === null || !isRight || name === "") {
        return [1, ["bad words"]];
    }
    try {
        if (!isAll) {
            return await linesOfProof(root, value, read(name));
        }
        const pieces = [];
        for await (const piece of read(asked)) {
            pieces.push(piece);
        }
        return await checkAllLines(root, Buffer.concat(pieces), read(name));
    } catch (error) {
        if (error instanceof RangeError) {
            return [8, []]; // memory ran out
        }
        if (error instanceof Ended) {
            return [error.status, [error.message]];
        }
        throw error;
    }
}

/** What the lines of a run mostly mean that did not end with 0; nothing where that is not known. */
function refusalMeans(lines) {
    const isFault = /^query [0-9]+ (refused|missing)|^bundle broken/;
    const line = lines.find((one) => isFault.test(one)) ?? lines[0] ?? "";
    const [, front = "", rest] = /^(query [0-9]+ )?(.*)$/.exec(line);
    if (front !== "" && rest === "missing") {
        return `${front.trim()}: The bundle ends before it.`;
    }
    const [, part, rule] = /^refused ([a-z]+ )?(?:[0-9]+ )?([A-Z]\w+)/.exec(rest) ?? [];
    const other = "What the server gave was not taken: it is not right and whole.";
    const tables = { "first ": MEANS_OF_JOIN, "second ": MEANS_OF_JOIN, "frame ": MEANS_OF_FRAME };
    const table = part === undefined ? MEANS : tables[part] ?? MEANS_OF_ATLAS;
    const known = table[rule] ?? other;
    const means = rule !== undefined ? known
        : (LINES_MEAN.find(([begins]) => rest.startsWith(begins)) ?? ["", ""])[1];
    return means === "" || front === "" ? means : `${front.trim()}: ${means}`;
}

/** Why words spell no command. */
function whyBadWords(words) {
    const [command, root, asked] = words.length === 4 ? words : ["check", ...words];
    if (![3, 4].includes(words.length) || words.includes("") ||
        !(COMMANDS.has(command) || command === "check-all")) {
        return "usage: node mrtree_check.js [check | check-count | check-atlas | " +
            "check-atlas-count] ROOT QUERY PROOF, or: check-join ROOT ROOT2 PROOF, or: check-all " +
            "ROOT SCRIPT BUNDLE";
    }
    const isNoRoot = readRoot(root) === null || command === "check-join" && readRoot(asked) === null;
    return isNoRoot ? "the root digest is not 64 lower-case hexadecimal digits"
        : command === "check-all" ? "the script and the bundle have one name"
        : readQuery(asked) !== null ? "a count is of the records inside a window, and this query " +
            "is for nearest records"
        : "the query is no window:x0,y0,x1,y1 and no nearest:x,y,k, in whole map units, with x0 " +
            "at most x1, y0 at most y1, k from 1 to 1024, and behind it / and a mask or nothing";
}

/** Says in a line on standard error what the lines of a run mostly mean; nothing of status 0. */
function explain(script, status, lines, why = refusalMeans(lines)) {
    if (status !== 0 && why !== "") {
        process.stderr.on("error", () => {}); // whether anybody reads it changes no status
        process.stderr.write(`${script}: ${why}\n`);
    }
}

/** Prints lines; answers whether all went out. */
async function printLines(lines) {
    for (let at = 0; at < lines.length; at += 1000) {
        const text = lines.slice(at, at + 1000).join("\n") + "\n";
        const error = await new Promise((done) => process.stdout.write(text, done));
        if (error) {
            return false;
        }
    }
    return true;
}

/** Runs the words of the command line; what they mean is said on standard error. */
async function main() {
    const words = process.argv.slice(2);
    const first = { "-h": HELP_OF_CHECK, "--help": HELP_OF_CHECK };
    first["--version"] = [`mrtree_check.js ${VERSION}`];
    const isOwn = Object.hasOwn(first, words[0] ?? "");
    const [status, lines] = isOwn ? [0, first[words[0]]] : await run(words);
    process.stdout.on("error", () => {}); // printLines tells of it
    process.exitCode = (await printLines(lines)) ? status : 7;
    explain("mrtree_check.js", status, lines, status === 1 ? whyBadWords(words) : undefined);
}

if (typeof module === "object") {
    const words = { readRoot, readQuery, readWindow, readScript };
    const judges = { Judge, CountJudge, PartJudge, BoxJudge };
    const judging = { judge, judgeCount, judgeJoin, judgeBundle };
    const verdicts = { check, checkCount, checkJoin, checkBoxes, refusalOf, pairLineOf };
    const atlases = { judgeAtlas, judgeAtlasCount, checkAtlas, checkAtlasCount, linesOfAtlas };
    const sheets = { readSheet, square, wayOfSheet, PartRefused, EVERYTHING };
    const shown = { recordsOf, recordAt, lineOf, linesOf, hexOf, boundsOf };
    const geometry = { rectAt, isInOrder, meet, within, distance, Meets };
    const limits = { ALL_LAYERS, MOST_RECORDS, MOST_LEVEL, MOST_LAYER };
    const rest = { digestOf, printLines, run, explain, refusalMeans, VERSION };
    module.exports = {
        ...{ ...words, ...judges, ...judging, ...verdicts, ...atlases, ...sheets },
        ...{ ...shown, ...geometry, ...limits, ...rest },
    };
    if (require.main === module) {
        main();
    }
}
