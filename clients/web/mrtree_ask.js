"use strict";
/**
 * Asks a map by its root digest, where its file lies on any server that sends parts of files. Of
 * the file the pages are fetched that a query opens, each held against the entry above it. Of these
 * the honest proof is made, and mrtree_check.js judges its bytes as any other's. So what comes out
 * is the very answer of the map, or a refusal; docs/HOSTING.md tells them all.
 *
 * In a page: behind mrtree_check.js. In Node 18 or later: require("./mrtree_ask.js"), or
 *
 * usage: node mrtree_ask.js [OPTIONS] [check | check-count] ROOT QUERY SOURCE
 *        node mrtree_ask.js [OPTIONS] check-join ROOT ROOT2 SOURCE SOURCE2
 *        node mrtree_ask.js --statement FILE [OPTIONS] [check | check-count] QUERY [SOURCE]
 *        node mrtree_ask.js --statement FILE --statement2 FILE [OPTIONS] check-join
 *            [SOURCE SOURCE2]
 *
 * SOURCE is an address that begins with http:// or https://, or the name of a map file. A SOURCE
 * that ends with a slash, or is a folder, is an atlas, a map of maps; joins are not of atlases. The
 * lines are those of mrtree_check.js, and the options
 *
 *     --proof FILE        keeps the proof in a file, once it is accepted
 *     --most BYTES        fetches at most so many bytes in all, else 1073741824
 *     --requests NUMBER   sends at most so many requests in all, else 10000
 *     --seconds NUMBER    takes at most so long for them, else 600
 *     --statement FILE    takes root and address from the publisher's statement, a file or an
 *                         address, and compares what it says; who signed it is not checked
 *     --statement2 FILE   the same of the second map of a join
 *     --help, -h          prints the usage, where it stands first
 *
 * Nodes are kept by digest, and never by page: no digest covers the numbers of pages, so that by
 * pages a file may send its reader in a circle. It is tested, and not proved.
 */

/** The judge of proofs; in a page its names are known already. */
const client =
    typeof module === "object"
        ? require("./mrtree_check.js")
        : {
              ...{ Judge, CountJudge, PartJudge, Meets, check, checkCount, checkJoin, checkBoxes },
              ...{ judge, checkAtlas, checkAtlasCount, readSheet, square, wayOfSheet, PartRefused },
              ...{ readRoot, readQuery, readWindow, recordsOf, rectAt, isInOrder, EVERYTHING },
              ...{ hexOf, meet, distance, digestOf, refusalOf, linesOfAtlas, boundsOf },
              ...{ ALL_LAYERS, MOST_RECORDS, MOST_LEVEL, MOST_LAYER },
          };

const FRONT = 16384; // bytes that are asked for first: page 0, and the root's where build puts it
const MOST_FILE = 2 ** 20; // pages of a file
const WIDE = 6; // requests at once: as many as a browser makes of one server by HTTP/1.1
const GAP = 2; // pages between two others that are read along with them, by one request
const MOST_PAGES = 64; // of a request
const MOST_KEPT = 20000; // nodes
const MOST_SHEETS = 64; // of an atlas, that are kept
const MOST_LED = 5; // times that a server may lead on to another address
const LED = [301, 302, 303, 307, 308]; // the statuses by which it does
const CLOSED = ["ECONNRESET", "EPIPE", "UND_ERR_SOCKET"]; // what Node says of such a connection
const MOST_TOLD = 200; // letters of what is told of a fault, some of which a server may have chosen

/** What a question may cost, and how large a view may be. */
const LIMITS = {
    ...{ bytes: 2 ** 30, requests: 10000, seconds: 600 },
    patience: 30, // seconds without a byte, after which a server is taken for dead
    ...{ leaves: 128, inner: 64, sheets: 16 }, // of one level that a view opens
    margin: 8, // nodes to wait for, where a view shows what it has before
};

/** What it means that a map's file is refused, by the rule of the page. */
const MAP_MEANS = {
    Size: "The file ends before its first page does: it is no map file.",
    Unsealed: "The file is no map file, or was not written to its end.",
    Header: "The file is no map file of a version that is known here.",
    WrongRoot: "The file is of another map than the one with this root digest, or of another " +
        "state of it.",
    Outside: "The file has no such page: it was cut off, or changed.",
    Page: "The page has no such node: the file was changed.",
    Digest: "The page has another node than the one that belongs there: the file was changed.",
    Twice: "A node stands at two places: the root digest is of no map.",
};
/** What it means that a file cannot be had, by its name. */
const FAILED_MEANS = {
    NoAnswer: "The server may be down, may have no such file, or may not let other sites read it " +
        "(Access-Control-Allow-Origin).",
    NoRanges: "This server sends whole files alone, and a map is read by parts.",
    Redirect: "It is not followed there.",
};

/** A page of a map's file does not fit the root digest: the rule that it breaks. */
class MapRefused extends Error {
    constructor(rule, page, found = "") {
        super(rule);
        Object.assign(this, { rule, page, found, part: "", status: 2 });
    }

    /** The line that tells of it, without its line feed; of a join or an atlas with the map. */
    get line() {
        const part = this.part === "" ? "" : `${this.part} `;
        const found = this.found === "" ? "" : ` found ${this.found}`;
        return `refused ${part}map page ${this.page} ${this.rule}${found}`;
    }

    get means() {
        return MAP_MEANS[this.rule];
    }
}

/** A file cannot be had, or not within the limits: by which name, where, and what is told of it. */
class Failed extends Error {
    constructor(name, source, words) {
        const shown = words.trim().replace(/\s+/g, " ").replace(/(?! )[\p{C}\p{Z}]/gu, "?");
        super(Array.from(shown).slice(0, MOST_TOLD).join(""));
        Object.assign(this, { rule: name, source, status: 7 });
    }

    get line() {
        return `failed ${this.rule} ${this.source}: ${this.message}`;
    }

    get means() {
        return FAILED_MEANS[this.rule] ?? "";
    }
}

/** A query names layers, or is for a count or a join, and the map is of version 1. */
class NeedsVersion2 extends Error {
    constructor() {
        super("needs version 2");
        Object.assign(this, { line: this.message, status: 10 });
        this.means = "The map is of version 1, which has no layers, no counts and no joins.";
    }
}

/** The judge refuses what was made of pages that fit: the root digest is of no map, or no atlas. */
class ProofRefused extends Error {
    constructor(verdict) {
        super(client.refusalOf(verdict));
        Object.assign(this, { rule: verdict.rule, line: this.message, status: 2 });
        this.means = verdict.part === undefined
            ? "The tree with this root digest is that of no map."
            : "The maps with these root digests are those of no atlas.";
    }
}

/** Nobody waits for the answer any more. */
class Overtaken extends Error {}

/** What was asked for, and what is left of what may be. Several files may have one meter. */
class Meter {
    constructor({ bytes, requests, seconds }, signal = null) {
        Object.assign(this, { most: { bytes, requests, seconds }, signal, bytes: 0, requests: 0 });
        this.end = Date.now() + 1000 * seconds;
    }

    /** Counts a request for so many bytes. Throws before it is sent, where it may not be. */
    spend(bytes, source) {
        if (this.signal?.aborted) {
            throw new Overtaken();
        }
        this.left(source);
        if (this.requests === this.most.requests) {
            throw new Failed("MostRequests", source, `more than ${this.requests} requests`);
        }
        if (this.bytes + bytes > this.most.bytes) {
            throw new Failed("MostBytes", source, `more than ${this.most.bytes} bytes`);
        }
        this.requests += 1;
        this.bytes += bytes;
    }

    /** How many milliseconds are left. Throws where none is. */
    left(source) {
        const left = this.end - Date.now();
        if (left <= 0) {
            throw new Failed("MostSeconds", source, `more than ${this.most.seconds} seconds`);
        }
        return left;
    }
}

// ---- where the bytes come from

/** Whether a word is meant as an address, and not as the name of a file. */
function isAddress(word) {
    return /^[A-Za-z][A-Za-z0-9+.-]*:\/\//.test(word);
}

/** The address of no user that a word spells, seen from another one; null where it is none. */
function addressOf(word, from = undefined) {
    try {
        const address = new URL(word, from);
        return address.username === "" && address.password === "" ? address : null;
    } catch {
        return null;
    }
}

/** Whether a word spells an address: of letters of ASCII, by http or https, and of no user. */
function isSource(word) {
    const isSo = ["http:", "https:"].includes(addressOf(word)?.protocol) && /^[!-~]+$/.test(word);
    return isAddress(word) ? isSo : word !== "";
}

/** A file on a server, by ranges. */
class OnServer {
    constructor(name, patience) {
        Object.assign(this, { name, patience: 1000 * patience });
    }

    failed(name, words) {
        return new Failed(name, this.name, words);
    }

    /** The bytes of a range, fewer where the file ends. Throws Failed. */
    async read(start, end, meter) {
        const clock = new Clock(this.patience, meter.left(this.name));
        try {
            const answer = await this.sent(`bytes=${start}-${end - 1}`, clock, meter);
            return answer.status === 416 || (await this.isEmpty(answer)) ? new Uint8Array(0)
                : await this.body(answer, this.sizeOf(answer, start, end), end - start, clock);
        } catch (error) {
            if (error instanceof Failed || error instanceof Overtaken) {
                throw error;
            }
            meter.left(this.name);
            const told = error.cause?.message || error.message || error.name;
            const words = `no answer for ${this.patience / 1000} seconds`;
            throw this.failed("NoAnswer", clock.isOver ? words : told);
        } finally {
            clock.stop(); // what is not read is not sent
        }
    }

    /**
     * The answer to a request. Nothing is taken from a cache, nor put there: Chromium would hold
     * the cache's lock on the address, and make one request of it at a time. All that is of use is
     * kept by its digest.
     */
    async sent(range, clock, meter) {
        const privacy = { credentials: "omit", referrerPolicy: "no-referrer" };
        // A page is not told where it is led: there the browser goes by itself.
        const redirect = typeof document === "object" ? "follow" : "manual";
        const how = { headers: { range }, signal: clock.signal, cache: "no-store", redirect };
        let url = this.name;
        for (let times = 0; times <= MOST_LED; times++) {
            const answer = await this.fetched(url, { ...how, ...privacy });
            const isLed = LED.includes(answer.status);
            const word = isLed ? answer.headers.get("location") : answer.url || url;
            if (!word) {
                throw this.failed("Redirect", "led to no address");
            }
            const place = addressOf(word, url);
            if (place?.protocol !== new URL(this.name).protocol) {
                throw this.failed("Redirect", `led to ${place?.href ?? word}`);
            }
            if (!isLed) {
                return answer;
            }
            await answer.body?.cancel();
            url = place.href;
            meter.spend(0, this.name);
        }
        throw this.failed("Redirect", `led to ${url}`);
    }

    /**
     * The answer to one request. Each connection that is kept may have been closed meanwhile; so in
     * Node a request is made anew as often as there may be such. Browsers do so by themselves.
     */
    async fetched(url, how) {
        for (let left = typeof document === "object" ? 0 : WIDE; ; left--) {
            try {
                return await fetch(url, how);
            } catch (error) {
                if (left === 0 || how.signal.aborted || !CLOSED.includes(error.cause?.code)) {
                    throw error;
                }
            }
        }
    }

    /**
     * How many bytes an answer says that it has; null where a page cannot see it. Throws Failed
     * where it is no answer to a request for this range.
     */
    sizeOf({ status, headers }, start, end) {
        if (status === 200) {
            throw this.failed("NoRanges", "the server gives no ranges");
        }
        if (status !== 206) {
            throw this.failed("Status", `status ${status}`);
        }
        const encoding = headers.get("content-encoding") ?? "";
        if (!["", "identity"].includes(encoding.trim().toLowerCase())) {
            throw this.failed("Encoded", `the answer is encoded: ${encoding}`);
        }
        const told = headers.get("content-range");
        if (told === null && typeof document === "object") {
            return null; // other sites see it only where the server says that they may
        }
        const form = /^bytes ([0-9]{1,15})-([0-9]{1,15})\/([0-9]{1,15}|\*)$/i;
        const said = form.exec(told ?? "") ?? [];
        const [first, last, total] = said.slice(1).map(Number);
        const isCut = last === total - 1 && first <= last && last < end - 1;
        if (first !== start || !(last === end - 1 || isCut)) {
            const words = `another range than was asked for: ${told ?? "none is told"}`;
            throw this.failed("OtherRange", words);
        }
        return last + 1 - first;
    }

    /** Whether an answer is a whole file without bytes: there every range begins behind the end. */
    async isEmpty({ status, headers, body }) {
        if (status !== 200 || Number(headers.get("content-length") ?? 0) > 0) {
            return false;
        }
        return body === null || (await body.getReader().read()).done;
    }

    /** The bytes of an answer, of which no more are taken than may be. Throws Failed. */
    async body({ body }, size, most, clock) {
        const bytes = new Uint8Array(size ?? most);
        const reader = body.getReader();
        for (let at = 0; ; ) {
            const { value, done } = await reader.read();
            if (done && size !== null && at < size) {
                throw this.failed("Shorter", "the answer is shorter than its range");
            }
            if (done) {
                return bytes.subarray(0, at);
            }
            if (at + value.length > bytes.length) {
                throw this.failed("Longer", "the answer is longer than its range");
            }
            clock.wind();
            bytes.set(value, at);
            at += value.length;
        }
    }
}

/** A small file on a server, which may be handed out as a whole where a range is asked for. */
class Whole extends OnServer {
    sizeOf(answer, start, end) {
        const encoding = answer.headers.get("content-encoding") ?? "identity";
        return answer.status === 200 && encoding === "identity" ? null
            : super.sizeOf(answer, start, end);
    }

    async body(answer, size, most, clock) {
        if (size !== null) {
            return super.body(answer, size, most, clock);
        }
        const [parts, reader] = [[], answer.body.getReader()];
        for (let left = most; left > 0; left -= parts.at(-1).length) {
            const { value, done } = await reader.read();
            if (done) {
                break;
            }
            clock.wind();
            parts.push(value.subarray(0, left));
        }
        return joined(parts);
    }
}

/** Aborts what goes by its signal: milliseconds after it was wound, or once none is left. */
class Clock {
    constructor(patience, left) {
        const stop = new AbortController();
        Object.assign(this, { stopping: stop, signal: stop.signal, isOver: false, patience });
        this.last = setTimeout(() => this.ring(), left);
        this.wind();
    }

    ring() {
        this.isOver = true;
        this.stopping.abort();
    }

    wind() {
        clearTimeout(this.next);
        this.next = setTimeout(() => this.ring(), this.patience);
    }

    stop() {
        clearTimeout(this.next);
        clearTimeout(this.last);
        this.stopping.abort();
    }
}

/** A file on the disk, by ranges, in Node. */
class OnDisk {
    constructor(name) {
        this.name = name;
    }

    /** As of OnServer. */
    async read(start, end) {
        const { stat, open } = require("fs").promises;
        let file = null;
        try {
            if (!(await stat(this.name)).isFile()) {
                throw new Failed("NoFile", this.name, "it is no file with bytes of its own");
            }
            file = await open(this.name);
            const bytes = new Uint8Array(end - start);
            const { bytesRead } = await file.read(bytes, 0, end - start, start);
            return bytes.subarray(0, bytesRead);
        } catch (error) {
            throw error instanceof Failed ? error : noFile(this.name, error);
        } finally {
            await file?.close();
        }
    }
}

/** The fault of a file that cannot be read, or not written. */
function noFile(name, { code, message }) {
    return new Failed("NoFile", name, code === "ENOENT" ? "missing" : message);
}

// ---- a map

/** Bytes one behind another. */
function joined(parts) {
    const all = new Uint8Array(parts.reduce((length, part) => length + part.length, 0));
    let at = 0;
    for (const part of parts) {
        all.set(part, at);
        at += part.length;
    }
    return all;
}

/** Whether all bytes are 0. */
function isZero(bytes) {
    let at = 0;
    while (at < bytes.length && bytes[at] === 0) {
        at += 1;
    }
    return at === bytes.length;
}

/** The bytes of a text of letters. */
function lettersOf(text) {
    return Array.from(text, (letter) => letter.charCodeAt(0));
}

/**
 * What tasks give, in their order: so many at once. Throws what the first of those throws that
 * fail, once all that are under way have ended, and begins no other behind a fault.
 */
async function sideBySide(tasks, most) {
    const given = new Array(tasks.length);
    let next = 0;
    const work = async () => {
        while (next < tasks.length) {
            const at = next++;
            given[at] = await tasks[at]();
        }
    };
    const stopAll = (error) => {
        next = tasks.length;
        throw error;
    };
    const length = Math.min(most, tasks.length);
    const workers = Array.from({ length }, () => work().catch(stopAll));
    const ended = await Promise.allSettled(workers);
    const failed = ended.find(({ status }) => status === "rejected");
    if (failed !== undefined) {
        throw failed.reason;
    }
    return given;
}

/** Lets so many pass at once, and the others wait. */
class Gate {
    constructor(most) {
        Object.assign(this, { left: most, waiting: [] });
    }

    /** What a call promises, once it may pass. */
    async pass(call) {
        if (this.left === 0) {
            await new Promise((go) => this.waiting.push(go));
        } else {
            this.left -= 1;
        }
        try {
            return await call();
        } finally {
            const go = this.waiting.shift();
            if (go === undefined) {
                this.left += 1;
            } else {
                go();
            }
        }
    }
}

/** What is nearest first: values, each with how far it is. */
class Nearest {
    constructor() {
        this.heap = [];
    }

    /** How many there are. */
    get size() {
        return this.heap.length;
    }

    /** Whether one place of the heap is nearer than another. */
    isNearer(one, other) {
        return this.heap[one].far < this.heap[other].far;
    }

    swap(one, other) {
        [this.heap[one], this.heap[other]] = [this.heap[other], this.heap[one]];
    }

    push(far, value) {
        let at = this.heap.push({ far, value }) - 1;
        for (let up = (at - 1) >> 1; at > 0 && this.isNearer(at, up); up = (at - 1) >> 1) {
            this.swap(at, up);
            at = up;
        }
    }

    /** Takes out the nearest: { far, value }. */
    pop() {
        const [first] = this.heap;
        const last = this.heap.pop();
        if (this.heap.length > 0) {
            this.heap[0] = last;
            this.sink();
        }
        return first;
    }

    /** The nearest ones, at most so many, so long as their level is that of an entry. */
    likely({ level }, most) {
        const taken = [];
        while (taken.length < most && this.size > 0 && this.heap[0].value.level === level) {
            taken.push(this.pop());
        }
        taken.forEach(({ far, value }) => this.push(far, value));
        return taken.map(({ value }) => value);
    }

    /** Puts the first one where it belongs. */
    sink() {
        for (let at = 0; ; ) {
            let least = at;
            for (const down of [2 * at + 1, 2 * at + 2]) {
                least = down < this.heap.length && this.isNearer(down, least) ? down : least;
            }
            if (least === at) {
                return;
            }
            this.swap(at, least);
            at = least;
        }
    }
}

/**
 * A map with a root digest, in a file elsewhere: of it pages are fetched as questions open them. An
 * entry is what stands of a node above it, and its page is a hint, and no more:
 *
 *     { page, level, rect, mask, bytes, key }    bytes: as in preimages; key: the digest's digits
 *
 * A node is { level, children, preimage }, with the preimage of a leaf alone. `requests` and
 * `bytes` count all that was asked for. Where there is no answer, MapRefused is thrown, or Failed,
 * NeedsVersion2, ProofRefused, and RangeError for a word that is none.
 */
class FarMap {
    constructor(source, limits = {}, gate = new Gate(Infinity)) {
        Object.assign(this, { limits: { ...LIMITS, ...limits }, gate });
        const { patience } = this.limits;
        this.file = isAddress(source) ? new OnServer(source, patience) : new OnDisk(source);
        Object.assign(this, { source, requests: 0, bytes: 0, root: null });
        this.nodes = new Map(); // by digest, the one that was used last behind the others
        this.coming = new Map(); // by digest, what fetches it
    }

    /** A meter for one question. */
    meter(signal = null) {
        return new Meter(this.limits, signal);
    }

    /** Bytes of the file. */
    async read(start, end, meter) {
        return this.gate.pass(async () => {
            meter.spend(end - start, this.source);
            this.requests += 1;
            const bytes = await this.file.read(start, end, meter);
            this.bytes += bytes.length;
            return bytes;
        });
    }

    /** Reads page 0, and holds it against the root digest, a word. Answers the map. */
    async open(word, meter = this.meter()) {
        const root = client.readRoot(word);
        if (root === null) {
            throw new RangeError("bad words");
        }
        this.word = word;
        this.front = await this.read(0, FRONT, meter);
        this.version = this.front[4] === 2 ? 2 : 1;
        this.size = 4096 * this.version;
        const page = this.front.subarray(0, this.size);
        if (page.length < this.size) {
            throw new MapRefused("Size", 0);
        }
        if (page.subarray(-4).some((byte, at) => byte !== lettersOf("SEAL")[at])) {
            throw new MapRefused("Unsealed", 0);
        }
        this.readHeader(page);
        const found = client.hexOf(await client.digestOf(this.rootPreimage));
        if (found !== word) {
            throw new MapRefused("WrongRoot", 0, found);
        }
        return this;
    }

    /** Reads what page 0 says. Throws where it is none. */
    readHeader(page) {
        const view = new DataView(page.buffer, page.byteOffset, page.length);
        const told = this.version === 2 ? 54 : 46; // bytes in front of the root's digest
        Object.assign(this, { head: page.slice(6, 22), level: page[5], pages: view.getUint32(22) });
        Object.assign(this, { batch: view.getBigUint64(6), count: Number(view.getBigUint64(14)) });
        const isFront = view.getUint32(0) === 0x4d524d50 && page[4] === this.version;
        const isWithin = this.level <= client.MOST_LEVEL && this.count <= client.MOST_RECORDS;
        const arePages = this.pages >= 1 && this.pages <= MOST_FILE;
        const isEnd = isZero(page.subarray(told + 36, -4));
        if (!isFront || !isWithin || !arePages || !isEnd) {
            throw new MapRefused("Header", 0);
        }
        const [rectAndMask, digest] = [page.slice(30, told), page.slice(told, told + 32)];
        const [letter, batch] = [this.count === 0 ? "E" : "R", this.head.slice(0, 8)];
        const rest = [this.head.slice(8), [this.level], rectAndMask, digest];
        const parts = [lettersOf(letter), [this.version], batch, ...(this.count === 0 ? [] : rest)];
        this.rootPreimage = joined(parts);
        if (this.count === 0) {
            if (this.level > 0 || !isZero(page.subarray(26, told + 32))) {
                throw new MapRefused("Header", 0);
            }
            return;
        }
        const count = this.version === 2 ? this.head.slice(8) : [];
        const entry = joined([rectAndMask, count, digest]);
        this.root = this.entryOf(entry, view.getUint32(26), this.level);
        if (this.root === null || this.root.page === 0) {
            throw new MapRefused("Header", 0);
        }
    }

    /** The entry of these bytes; null where they are none. */
    entryOf(bytes, page, level) {
        const view = new DataView(bytes.buffer, bytes.byteOffset, bytes.length);
        const isTwo = this.version === 2;
        const rect = client.rectAt(view, 0);
        const mask = isTwo ? view.getBigUint64(16) : client.ALL_LAYERS;
        const count = isTwo ? Number(view.getBigUint64(24)) : 1;
        const isEntry = mask !== 0n && count >= 1 && count <= client.MOST_RECORDS;
        const key = client.hexOf(bytes.subarray(-32));
        return isEntry && client.isInOrder(rect) ? { page, level, rect, mask, bytes, key } : null;
    }

    // Nodes.

    /**
     * Puts the nodes of entries into `held`, by digest. What is not kept is fetched: six requests
     * at a time, and pages that are near one another by one.
     */
    async get(entries, held, meter) {
        const missing = new Map(entries.map((entry) => [entry.key, entry]));
        const away = [...missing.values()].filter((entry) => !this.holdKept(entry, held));
        const others = away.filter(({ key }) => this.coming.has(key));
        const coming = others.map(({ key }) => this.coming.get(key));
        await this.fetchAll(away.filter((entry) => !others.includes(entry)), held, meter);
        await Promise.allSettled(coming); // where one failed, its nodes are fetched here
        await this.fetchAll(others.filter((entry) => !this.holdKept(entry, held)), held, meter);
    }

    /** Puts the node of an entry into `held`, where it is kept; answers whether it is. */
    holdKept(entry, held) {
        const node = held.get(entry.key) ?? this.nodes.get(entry.key);
        if (node === undefined) {
            return false;
        }
        if (node.level !== entry.level) {
            throw new MapRefused("Page", entry.page);
        }
        this.nodes.delete(entry.key);
        this.nodes.set(entry.key, node);
        held.set(entry.key, node);
        return true;
    }

    /** Fetches the nodes of entries. After a fault nothing more is asked for. */
    async fetchAll(some, held, meter) {
        const entries = some.slice().sort((a, b) => a.page - b.page);
        const outside = entries.find(({ page }) => page === 0 || page >= this.pages);
        if (outside !== undefined) {
            throw new MapRefused("Outside", outside.page);
        }
        const isInFront = ({ page }) => (page + 1) * this.size <= this.front.length;
        for (const entry of entries.filter(isInFront)) {
            await this.keep(entry, this.front, 0, held);
        }
        const groups = this.groupsOf(entries.filter((entry) => !isInFront(entry)));
        const tasks = groups.map((group) => () => this.fetchGroup(group, held, meter));
        await sideBySide(tasks, WIDE);
    }

    /** Entries, in the order of their pages, in groups: one request fetches each. */
    groupsOf(entries) {
        const groups = [];
        for (const entry of entries) {
            const last = groups[groups.length - 1];
            const isNear = last !== undefined && entry.page <= last[last.length - 1].page + GAP + 1;
            if (isNear && entry.page < last[0].page + MOST_PAGES) {
                last.push(entry);
            } else {
                groups.push([entry]);
            }
        }
        return groups;
    }

    /** Fetches the nodes of a group of entries by one request. */
    async fetchGroup(group, held, meter) {
        const [first, last] = [group[0].page, group[group.length - 1].page];
        const fetching = (async () => {
            const bytes = await this.read(first * this.size, (last + 1) * this.size, meter);
            for (const entry of group) {
                await this.keep(entry, bytes, first, held);
            }
        })();
        group.forEach(({ key }) => this.coming.set(key, fetching));
        try {
            await fetching;
        } finally {
            group.forEach(({ key }) => this.coming.delete(key));
        }
    }

    /** Keeps the node of an entry, where its page, among bytes from a page on, holds it. */
    async keep({ page, level, key }, bytes, first, held) {
        const at = (page - first) * this.size;
        if (bytes.length < at + this.size) {
            throw new MapRefused("Outside", page);
        }
        const one = bytes.slice(at, at + this.size);
        const node = level === 0 ? this.leafOf(one) : this.innerOf(one, level);
        if (node === null) {
            throw new MapRefused("Page", page);
        }
        if (client.hexOf(await client.digestOf(node.preimage)) !== key) {
            throw new MapRefused("Digest", page);
        }
        const kept = { ...node, preimage: level === 0 ? node.preimage : null };
        held.set(key, kept);
        this.nodes.set(key, kept);
        if (this.nodes.size > MOST_KEPT) {
            this.nodes.delete(this.nodes.keys().next().value);
        }
    }

    /** The leaf on a page; null where it is none. */
    leafOf(page) {
        const bare = 24 + this.version; // bytes of a record without a payload
        const view = new DataView(page.buffer, page.byteOffset, page.length);
        const count = page[1];
        if (page[0] !== lettersOf("L")[0] || count < 1 || count > 16) {
            return null;
        }
        let at = 2;
        for (let left = count; left > 0; left--) {
            const [layer, length] = [this.version === 2 ? page[at + 24] : 0, page[at + bare - 1]];
            const isRecord = layer <= client.MOST_LAYER && length <= 200;
            if (!isRecord || !client.isInOrder(client.rectAt(view, at + 8))) {
                return null;
            }
            at += bare + length;
        }
        const isLeaf = isZero(page.subarray(at));
        return isLeaf ? { level: 0, children: [], preimage: page.slice(0, at) } : null;
    }

    /** The inner node on a page; null where it is none of this level. */
    innerOf(page, level) {
        const wide = this.version === 2 ? 68 : 52; // bytes of a child, its page in front
        const view = new DataView(page.buffer, page.byteOffset, page.length);
        const count = page[2];
        const isInner = page[0] === lettersOf("N")[0] && page[1] === level;
        if (!isInner || count < 1 || count > 64 || !isZero(page.subarray(3 + wide * count))) {
            return null;
        }
        const children = Array.from({ length: count }, (_, child) => {
            const at = 3 + wide * child;
            return this.entryOf(page.subarray(at + 4, at + wide), view.getUint32(at), level - 1);
        });
        if (children.includes(null)) {
            return null;
        }
        const preimage = joined([page.subarray(0, 3), ...children.map(({ bytes }) => bytes)]);
        return { level, children, preimage };
    }

    // Proofs.

    /** Fetches, level by level, the nodes that are open, as `opens` says it of their entries. */
    async walk(opens, held, meter) {
        const seen = new Set();
        let row = [this.root].filter((root) => root !== null && opens(root));
        while (row.length > 0) {
            row.forEach((entry) => see(entry, seen));
            await this.get(row, held, meter);
            row = row.flatMap(({ key }) => held.get(key).children).filter(opens);
        }
    }

    /** The proof of a kind, a letter, that opens these nodes; of nearest records with a radius. */
    proofOf(letter, opens, held, radius = []) {
        const out = [lettersOf("MRVO"), [this.version], lettersOf(letter), this.head, radius];
        const write = (entry) => {
            if (!opens(entry)) {
                out.push(lettersOf("P"), entry.bytes);
                return;
            }
            const { level, children, preimage } = held.get(entry.key);
            if (level === 0) {
                out.push(preimage);
            } else {
                out.push(lettersOf("N"), [children.length]);
                children.forEach(write);
            }
        };
        if (this.root !== null) {
            out.push([this.level]);
            write(this.root);
        }
        return joined(out);
    }

    /** Throws where the map is of version 1, and something is asked for that it does not have. */
    needTwo(isAsked = true) {
        if (isAsked && this.version === 1) {
            throw new NeedsVersion2();
        }
    }

    /** The proof of a query, as readQuery gives it: that of `prove`. */
    async prove(query, meter = this.meter()) {
        this.needTwo(query.mask !== null);
        const [judge, held] = [new client.Judge(null, query), new Map()];
        judge.radius = query.k === 0 ? null : await this.radiusOf(query, held, meter);
        const opens = ({ rect, mask }) => judge.way(rect, mask) === "open";
        await this.walk(opens, held, meter);
        const front = query.k === 0 ? [] : radiusBytes(judge.radius);
        return this.proofOf(query.k === 0 ? "W" : "K", opens, held, front);
    }

    /** The proof of a count, of a query for a window: that of `count`. */
    async proveCount(query, meter = this.meter()) {
        this.needTwo();
        const [judge, held] = [new client.CountJudge(null, query), new Map()];
        const opens = ({ rect, mask }) => judge.way(rect, mask) === "open";
        await this.walk(opens, held, meter);
        return this.proofOf("C", opens, held);
    }

    /**
     * A part of a join, as `meets` says of a rectangle whether it is open: its proof, and the
     * rectangles of the open records.
     */
    async provePart(meets, meter) {
        this.needTwo();
        const held = new Map();
        const opens = ({ rect }) => meets(rect);
        await this.walk(opens, held, meter);
        const leaves = [...held.values()].filter(({ level }) => level === 0);
        const rects = leaves.flatMap(({ preimage }) =>
            client.recordsOf(preimage, this.version).map(({ rect }) => rect)
        );
        return [this.proofOf("J", opens, held), rects.filter(meets)];
    }

    /** The squared distance of the last of the k nearest records; null where there are fewer. */
    async radiusOf(query, held, meter) {
        const far = await this.distances(query, [], held, meter);
        return far.length === query.k ? far[query.k - 1] : null;
    }

    /**
     * The least squared distances, in rising order, of those that are known and those of records,
     * at most k. Nodes are opened by their distance, and with one a few others that are likely to
     * be wanted.
     */
    async distances({ rect, k, mask }, known, held, meter) {
        const layers = mask ?? client.ALL_LAYERS;
        const [heap, seen] = [new Nearest(), new Set()];
        let best = known; // at most k distances, in rising order
        const push = (entry) => {
            if ((entry.mask & layers) !== 0n) {
                heap.push(client.distance(rect, entry.rect), entry);
            }
        };
        [this.root].filter((root) => root !== null).forEach(push);
        while (heap.size > 0) {
            const { far, value: entry } = heap.pop();
            if (best.length === k && far >= best[k - 1]) {
                break;
            }
            see(entry, seen);
            const most = entry.level === 0 ? 2 + Math.ceil(k / 8) : 1;
            await this.get([entry, ...heap.likely(entry, most)], held, meter);
            const { children, preimage } = held.get(entry.key);
            children.forEach(push);
            if (entry.level === 0) {
                best = nearestOf(best, client.recordsOf(preimage, this.version), rect, k, layers);
            }
        }
        return best;
    }

    /** All records by rising squared distance from a point: { far, record }. */
    async *byDistance(point, meter) {
        const [heap, seen, held] = [new Nearest(), new Set(), new Map()];
        const push = (value) => heap.push(client.distance(point, value.rect), value);
        [this.root].filter((root) => root !== null).forEach(push);
        while (heap.size > 0) {
            const { far, value } = heap.pop();
            if (value.key === undefined) {
                yield { far, record: value };
                continue;
            }
            see(value, seen);
            await this.get([value], held, meter);
            const { level, children, preimage } = held.get(value.key);
            (level === 0 ? client.recordsOf(preimage, this.version) : children).forEach(push);
        }
    }

    // Answers.

    /** The verdict on a query, a word, as of `check`; with the proof. */
    async ask(word, meter = this.meter()) {
        const proof = await this.prove(queryOf(word, client.readQuery), meter);
        return { ...(await client.check(this.word, word, proof)), proof };
    }

    /** The verdict on how many records lie inside a window, as of `checkCount`; with the proof. */
    async askCount(word, meter = this.meter()) {
        const proof = await this.proveCount(queryOf(word, client.readWindow), meter);
        return { ...(await client.checkCount(this.word, word, proof)), proof };
    }

    /**
     * The verdicts on a window, a query word, each better than the one before it: boxes, while what
     * is below them is fetched; and at the end, with `isLast`, the records, or boxes where these
     * are too many. Only what is accepted comes out, with the proof, and in `floor` the level below
     * which nothing is opened, 0 for records. Once `signal` is aborted nothing more is asked for,
     * and Overtaken is thrown.
     */
    async *views(word, signal = null) {
        const query = queryOf(word, client.readWindow);
        this.needTwo(query.mask !== null);
        const [meter, judge, held] = [this.meter(signal), new client.Judge(null, query), new Map()];
        const seen = new Set();
        const opens = ({ rect, mask }) => judge.way(rect, mask) === "open";
        const view = async (floor, isLast) => {
            const isOpen = (entry) => entry.level >= floor && opens(entry);
            const proof = this.proofOf("W", isOpen, held);
            const verdict = await (floor === 0 ? client.check(this.word, word, proof)
                : client.checkBoxes(this.word, word, floor, proof));
            if (!verdict.accepted) {
                throw new ProofRefused(verdict);
            }
            if (signal?.aborted) {
                throw new Overtaken();
            }
            return { ...verdict, query, proof, floor, isLast };
        };
        let row = [this.root].filter((root) => root !== null && opens(root));
        for (let isTop = true; row.length > 0; isTop = false) {
            const [{ level }] = row;
            const { leaves, inner, margin } = this.limits;
            if (!isTop && row.length > (level === 0 ? leaves : inner)) {
                yield view(level + 1, true);
                return;
            }
            if (!isTop && row.filter(({ key }) => !this.nodes.has(key)).length >= margin) {
                yield view(level + 1, false);
            }
            row.forEach((entry) => see(entry, seen));
            await this.get(row, held, meter);
            row = row.flatMap(({ key }) => held.get(key).children).filter(opens);
        }
        yield view(0, true);
    }
}

/** Whether a word is meant as the place of an atlas: it ends with a slash, or is a folder. */
function isAtlas(word) {
    if (word.endsWith("/") || isAddress(word) || typeof document === "object") {
        return word.endsWith("/");
    }
    try {
        return require("fs").statSync(word).isDirectory();
    } catch {
        return false;
    }
}

/** A number below 2^32 as 4 bytes. */
function fourBytes(number) {
    const bytes = new Uint8Array(4);
    new DataView(bytes.buffer).setUint32(0, number);
    return bytes;
}

/** The least whole number whose square is not below a BigInt, as a number. */
function rootAbove(square) {
    let side = BigInt(Math.floor(Math.sqrt(Number(square))));
    while (side * side < square) {
        side += 1n;
    }
    while (side > 0n && (side - 1n) * (side - 1n) >= square) {
        side -= 1n;
    }
    return Number(side);
}

/**
 * An atlas with a root digest, in a folder or below an address: its maps are asked as FarMap asks
 * them, six requests at once in all, and some are kept. What it throws says in `part` of which map
 * it is: `index` or `sheet 7`. Where a record of the index tells of no sheet, ProofRefused comes.
 */
class FarAtlas {
    constructor(place, limits = {}) {
        this.place = place.endsWith("/") ? place : `${place}/`;
        Object.assign(this, { limits: { ...LIMITS, ...limits }, gate: new Gate(WIDE) });
        this.kept = new Map(); // sheets by root digest, the one used last behind the others
        this.spent = { requests: 0, bytes: 0 }; // of those that are kept no more
    }

    meter(signal = null) {
        return new Meter(this.limits, signal);
    }

    /** The map with a root digest, opened. */
    far(word, meter) {
        return new FarMap(`${this.place}sheets/${word}`, this.limits, this.gate).open(word, meter);
    }

    /** Opens the index, by the root digest, a word. Answers the atlas. */
    async open(word, meter = this.meter()) {
        this.word = word;
        this.index = await inPart("index", this.far(word, meter));
        return this;
    }

    get batch() {
        return this.index.batch;
    }

    /** The root node of the index, with its rectangle; null where there are no sheets. */
    get root() {
        return this.index.root;
    }

    /** How many sheets there are. */
    get sheets() {
        return this.index.count;
    }

    get requests() {
        return this.sum("requests");
    }

    get bytes() {
        return this.sum("bytes");
    }

    /** What was spent in all. */
    sum(name) {
        const maps = [this.index, ...this.kept.values()].filter((map) => map !== undefined);
        return maps.reduce((sum, map) => sum + map[name], this.spent[name]);
    }

    /** What is promised by `ask` of the map of a sheet; it is kept. */
    async asked(sheet, meter, ask) {
        const key = client.hexOf(sheet.root);
        const promise = (async () => {
            const map = this.kept.get(key) ?? (await this.far(key, meter));
            this.kept.delete(key);
            this.kept.set(key, map);
            return ask(map);
        })();
        const given = await inPart(`sheet ${sheet.number}`, promise);
        this.forget();
        return given;
    }

    /** Forgets sheets, where there are many, or many nodes of them. */
    forget() {
        const nodes = () => [...this.kept.values()].reduce((sum, map) => sum + map.nodes.size, 0);
        while (this.kept.size > MOST_SHEETS || nodes() > MOST_KEPT) {
            const [key, map] = this.kept.entries().next().value;
            this.spent.requests += map.requests;
            this.spent.bytes += map.bytes;
            this.kept.delete(key);
        }
    }

    /** The sheets that meet a window, by the part of the index: { part, sheets }. */
    async sheetsOn(rect, meter) {
        const window = { rect, k: 0, mask: null };
        const part = await inPart("index", this.index.prove(window, meter));
        const verdict = await client.judge(client.readRoot(this.word), window, [part]);
        if (!verdict.accepted) {
            throw new ProofRefused({ ...verdict, part: "index" });
        }
        const sheets = [];
        for (const record of verdict.records) {
            sheets.push(await sheetOf(record));
        }
        return { part, sheets };
    }

    // Proofs.

    /** The honest proof of a query, as readQuery gives it. */
    async prove(query, meter = this.meter()) {
        const half = query.k === 0 ? 0 : await this.halfSide(query, meter);
        const rect = query.k === 0 ? query.rect : client.square(query.rect, half);
        const window = { rect, k: 0, mask: query.mask };
        const front = [lettersOf(query.k === 0 ? "W" : "K"), query.k === 0 ? [] : fourBytes(half)];
        const judge_ = new client.Judge(null, window);
        return this.proofOf(front, window, judge_, meter, (map) => map.prove(window, meter));
    }

    /** The honest proof of a count, of a query for a window. */
    async proveCount(query, meter = this.meter()) {
        const judge_ = new client.CountJudge(null, query);
        const prove = (map) => map.proveCount(query, meter);
        return this.proofOf([lettersOf("C")], query, judge_, meter, prove);
    }

    /** The proof of these sheets whose way is open; `prove` makes the part of one. */
    async proofOf(front, query, judge_, meter, prove) {
        const { part, sheets } = await this.sheetsOn(query.rect, meter);
        const opened = sheets.filter((one) => client.wayOfSheet(one, query, judge_) === "open");
        const byRoot = new Map(opened.map((sheet) => [client.hexOf(sheet.root), sheet]));
        const tasks = [...byRoot.values()].map((one) => () => this.asked(one, meter, prove));
        const made = await sideBySide(tasks, WIDE);
        const partOf = new Map([...byRoot.keys()].map((key, at) => [key, made[at]]));
        const parts = [part, ...opened.map(({ root }) => partOf.get(client.hexOf(root)))];
        if (parts.reduce((sum, { length }) => sum + length, 0) > this.limits.bytes) {
            // as it never is without a sheet that stands there often
            throw new Failed("MostBytes", this.place, `more than ${this.limits.bytes} bytes`);
        }
        const told = parts.flatMap((one) => [fourBytes(one.length), one]);
        return joined([lettersOf("MRAT"), [1], ...front, ...told]);
    }

    /** Half a side of the square of a query for nearest records, by sheets of rising distance. */
    async halfSide(query, meter) {
        const near = this.index.byDistance(query.rect, meter);
        const layers = query.mask ?? client.ALL_LAYERS;
        let best = [];
        for (;;) {
            const { value, done } = await inPart("index", near.next());
            if (done || (best.length === query.k && value.far >= best[query.k - 1])) {
                break;
            }
            const sheet = await sheetOf(value.record);
            if (sheet.version === 1 && query.mask !== null) {
                throw new NeedsVersion2();
            }
            if ((sheet.mask & layers) !== 0n) {
                const known = best;
                const ask = (map) => map.distances(query, known, new Map(), meter);
                best = await this.asked(sheet, meter, ask);
            }
        }
        const half = best.length === query.k ? rootAbove(best[query.k - 1]) : Infinity;
        return Math.min(half, client.EVERYTHING);
    }

    // Answers.

    /** The verdict on a query, a word, as of `checkAtlas`; with the proof. */
    async ask(word, meter = this.meter()) {
        const proof = await this.prove(queryOf(word, client.readQuery), meter);
        return { ...(await client.checkAtlas(this.word, word, proof)), proof };
    }

    /** The verdict on how many records lie inside a window, as of `checkAtlasCount`. */
    async askCount(word, meter = this.meter()) {
        const proof = await this.proveCount(queryOf(word, client.readWindow), meter);
        return { ...(await client.checkAtlasCount(this.word, word, proof)), proof };
    }

    /**
     * The verdicts on a window, a query word, as of `views` of FarMap. Where too many sheets are in
     * it, boxes of the index come, with `isIndex`: how many records are in one, nothing says. Else
     * sheets come as boxes, and where these are few at the end all records, or boxes in sheets.
     */
    async *views(word, signal = null) {
        const query = queryOf(word, client.readWindow);
        const index = await inPart("index", lastOf(this.index.views(plainWindow(query), signal)));
        const front = { accepted: true, batch: index.batch, query, proof: index.proof, floor: 1 };
        if (index.floor > 0) {
            const boxes = index.boxes.map((box) => ({ ...box, tally: 0 }));
            yield { ...front, boxes, bounds: null, version: 1, isIndex: true, isLast: true };
            return;
        }
        const judge_ = new client.Judge(null, query);
        const all = await Promise.all(index.records.map(sheetOf));
        const sheets = all.filter((one) => client.wayOfSheet(one, query, judge_) === "open");
        const isLast = sheets.length > this.limits.sheets;
        if (sheets.length > 0) {
            yield { ...front, ...boxesOf(sheets.map(boxOfSheet), 2, query), isLast };
        }
        if (!isLast) {
            yield { ...front, ...(await this.viewOf(index.proof, sheets, word, query, signal)) };
        }
    }

    /** The last view of a window: records of all sheets, or boxes where these are too many. */
    async viewOf(part, sheets, word, query, signal) {
        const views = await sideBySide(sheets.map((sheet) => () => this.viewOn(sheet, word, signal,
            sheets.length)), WIDE);
        if (views.some(({ floor }) => floor > 0)) {
            const boxes = views.flatMap((view) => view.boxes ?? view.records.map(boxOfRecord));
            const version = views.every((view) => view.version === 2) ? 2 : 1;
            return { ...boxesOf(boxes, version, query), isLast: true };
        }
        const parts = [part, ...views.map(({ proof }) => proof)];
        const told = parts.flatMap((one) => [fourBytes(one.length), one]);
        const proof = joined([lettersOf("MRAT"), [1], lettersOf("W"), ...told]);
        const verdict = await client.checkAtlas(this.word, word, proof);
        if (!verdict.accepted) {
            throw new ProofRefused(verdict);
        }
        const version = verdict.records.some((record) => record.version === 2) ? 2 : 1;
        return { ...verdict, version, proof, floor: 0, isLast: true };
    }

    /** The last view of a window of a sheet, which has its share of what a view may open. */
    viewOn(sheet, word, signal, count) {
        return this.asked(sheet, this.meter(signal), (map) => {
            const share = (most) => Math.max(Math.ceil(most / count), 8);
            const [leaves, inner] = [this.limits.leaves, this.limits.inner].map(share);
            map.limits = { ...this.limits, leaves, inner };
            return lastOf(map.views(word, signal));
        });
    }
}

/** The last one of those that come. */
async function lastOf(views) {
    let last = null;
    for await (const view of views) {
        last = view;
    }
    return last;
}

/** The word of a query's window without its mask. */
function plainWindow({ rect }) {
    return `window:${rect}`;
}

/** A sheet as a box: all its records lie in it. */
function boxOfSheet({ rect, mask, count, level, version }) {
    return { rect, mask: version === 1 ? 1n : mask, tally: count, level };
}

/** A record as a box of its own. */
function boxOfRecord({ rect, layer }) {
    return { rect, mask: 1n << BigInt(layer), tally: 1, level: 0 };
}

/** Boxes that a window meets, with what they say of the number of its records. */
function boxesOf(boxes, version, { rect, mask }) {
    const bounds = client.boundsOf({ boxes, version }, rect, mask ?? client.ALL_LAYERS);
    return { boxes, version, bounds };
}

/** The sheet that a record of an index tells of. Throws ProofRefused. */
async function sheetOf(record) {
    try {
        return await client.readSheet(record);
    } catch (error) {
        throw error instanceof client.PartRefused ? new ProofRefused(error.verdict) : error;
    }
}

/** A node that is opened; no map has one twice. */
function see({ key, page }, seen) {
    if (seen.has(key)) {
        throw new MapRefused("Twice", page);
    }
    seen.add(key);
}

/** The query that a word spells, as `read` reads it. */
function queryOf(word, read) {
    const query = read(word);
    if (query === null) {
        throw new RangeError("bad words");
    }
    return query;
}

/** The k least of distances and those of records on some layers, in rising order. */
function nearestOf(best, records, point, k, layers) {
    const asked = records.filter(({ layer }) => ((layers >> BigInt(layer)) & 1n) === 1n);
    const farthest = best.length === k ? best[k - 1] : null;
    const nearer = asked
        .map(({ rect }) => client.distance(point, rect))
        .filter((far) => farthest === null || far < farthest);
    if (nearer.length === 0) {
        return best;
    }
    return [...best, ...nearer].sort((a, b) => (a < b ? -1 : a > b ? 1 : 0)).slice(0, k);
}

/** The flag and the squared radius of a head. */
function radiusBytes(radius) {
    const bytes = new Uint8Array(radius === null ? 1 : 17);
    if (radius !== null) {
        const view = new DataView(bytes.buffer);
        bytes[0] = 1;
        view.setBigUint64(1, radius >> 64n);
        view.setBigUint64(9, radius & (2n ** 64n - 1n));
    }
    return bytes;
}

/** The verdict on the join of two maps that are open, as of `checkJoin`; with the proof. */
async function askJoin(first, second, meter = first.meter()) {
    first.needTwo();
    second.needTwo();
    const front = [lettersOf("MRJN"), [second.root === null ? 0 : 1]];
    let rects = [];
    if (second.root !== null) {
        const { rect, bytes } = second.root;
        const meets = (other) => client.meet(rect, other);
        const [part, found] = await inPart("first", first.provePart(meets, meter));
        const length = new Uint8Array(4);
        new DataView(length.buffer).setUint32(0, part.length);
        front.push(bytes.subarray(0, 16), length, part);
        rects = found;
    }
    const met = new client.Meets(rects);
    const [part] = await inPart("second", second.provePart((rect) => met.one(rect), meter));
    const proof = joined([...front, part]);
    return { ...(await client.checkJoin(first.word, second.word, proof)), proof };
}

/** What is promised of one of several maps; where that is refused, it is told which one it is. */
async function inPart(part, promise) {
    try {
        return await promise;
    } catch (error) {
        if (error instanceof MapRefused) {
            error.part = part;
        }
        throw error;
    }
}

// ---- the commands, in Node

/** Of each command how many sources it has, what reads its second word, and what it asks. */
const ASKED = new Map([
    ["check", [1, client.readQuery, ([map], word, meter) => map.ask(word, meter)]],
    ["check-count", [1, client.readWindow, ([map], word, meter) => map.askCount(word, meter)]],
    ["check-join", [2, client.readRoot, ([one, other], _, meter) => askJoin(one, other, meter)]],
]);
const NAMED = ["--proof", "--statement", "--statement2"]; // the options that name a file
const OPTIONS = { "--most": "bytes", "--requests": "requests", "--seconds": "seconds" };
const USAGE = "usage: mrtree_ask.js [OPTIONS] [check | check-count] ROOT QUERY SOURCE";
const USAGE_OF_JOIN = "check-join ROOT ROOT2 SOURCE SOURCE2";
const STATED = "mrtree_ask.js --statement FILE";
const HELP = [
    ...[USAGE, `       mrtree_ask.js [OPTIONS] ${USAGE_OF_JOIN}`],
    `       ${STATED} [OPTIONS] [check | check-count] QUERY [SOURCE]`,
    ...[`       ${STATED} --statement2 FILE [OPTIONS] check-join [SOURCE SOURCE2]`, ""],
    "SOURCE is an address that begins with http:// or https://, or the name of a map file.",
    "A SOURCE that ends with a slash, or is a folder, is an atlas.",
    ...["", "--proof FILE        keeps the proof in a file, once it is accepted"],
    "--most BYTES        fetches at most so many bytes in all, else 1073741824",
    "--requests NUMBER   sends at most so many requests in all, else 10000",
    "--seconds NUMBER    takes at most so long for them, else 600",
    "--statement FILE    takes root and address from the publisher's statement, a file or an",
    "                    address, and compares what it says; who signed it is not checked",
    "--statement2 FILE   the same of the second map of a join",
    "--help, -h          prints this, where it stands first",
];

/** Words spell no command: why. */
class BadWords extends Error {}

/** Throws BadWords where something is not so. */
function need(isSo, why) {
    if (!isSo) {
        throw new BadWords(why);
    }
}

/** The options of a command line, and its other words. Throws BadWords. */
function readOptions(words) {
    const [limits, rest, named] = [{}, [], {}];
    for (let at = 0; at < words.length; at++) {
        if (!words[at].startsWith("--")) {
            rest.push(words[at]);
            continue;
        }
        const [option, value] = [words[at], words[++at] ?? ""];
        const limit = Object.hasOwn(OPTIONS, option) ? OPTIONS[option] : undefined;
        const isNew = NAMED.includes(option) ? !(option in named) : limit && !(limit in limits);
        need(isNew && value !== "", `${option} is no option, or stands there twice, or has no value`);
        if (NAMED.includes(option)) {
            named[option] = value;
            continue;
        }
        need(/^(0|[1-9][0-9]{0,18})$/.test(value), `${option} stands before a whole number`);
        limits[limit] = Number(value);
    }
    const [proof = null, first, second] = NAMED.map((option) => named[option]);
    const statements = second ? [first, second] : first ? [first] : [];
    return { limits, proof, statements, rest };
}

/** The words of a command, with an empty one for each that is left out since statements say it. */
function filled(words, isJoin) {
    const missing = isJoin ? { 0: ["", "", "", ""], 2: ["", "", ...words] }
        : { 1: ["", ...words, ""], 2: ["", ...words] };
    return missing[words.length] ?? words;
}

/** Throws BadWords where a word is not what it has to be for this reader of words. */
function needWord(read, word) {
    if (read === client.readRoot) {
        need(read(word) !== null, "the root digest is not 64 lower-case hexadecimal digits");
        return;
    }
    need(client.readQuery(word) !== null, "the query is no window:x0,y0,x1,y1 and no " +
        "nearest:x,y,k, in whole map units, with x0 at most x1, y0 at most y1, k from 1 to 1024, " +
        "and behind it / and a mask of 16 digits or nothing");
    need(read(word) !== null, "a count is of the records inside a window, and this query is for " +
        "nearest records");
}

/** What the words of a command line mean. Throws BadWords where they spell no command. */
function readAsked(words) {
    const { rest: given, proof, limits, statements } = readOptions(words);
    const [command, ...own] = ASKED.has(given[0]) ? given : ["check", ...given];
    const [count, read, ask] = ASKED.get(command);
    const isStated = statements.length > 0;
    need(!isStated || statements.length === count && !statements.includes(undefined),
        "--statement is of the map, and --statement2 of the second map of a join: both are given");
    const rest = isStated ? filled(own, count === 2) : own;
    const [root, asked, ...sources] = rest;
    const areAll = rest.length === 2 + count && own.every((word) => word !== "");
    need(areAll, `${USAGE}, or: ${USAGE_OF_JOIN}`);
    [[client.readRoot, root], [read, asked]].filter(([, word]) => word !== "").forEach(
        (one) => needWord(...one)
    );
    needSources(sources.filter((source) => source !== ""), count === 2);
    [...sources, ...statements].forEach((source) => needOther(proof, source));
    const roots = count === 2 ? [root, asked] : [root];
    return { roots, asked, sources, ask, proof, limits, statements };
}

/** Throws BadWords where a word is no source, or no one of a join. */
function needSources(sources, isJoin) {
    need(!isJoin || !sources.some(isAtlas), "joins are of maps, and not of atlases");
    need(sources.every(isSource), "an address begins with http:// or https://, has no user, and " +
        "is of visible letters of ASCII");
}

/** Throws BadWords where the file of a proof is one that is read. */
function needOther(proof, source) {
    need(!isSameFile(proof, source), `${proof} is to be written, and it is read too: give the ` +
        "output another name");
    need(!isAmongSheets(proof, source), `${proof} is to be written among the sheets of an atlas: ` +
        "give it another name");
}

/** What is asked, with what is left out of it from the statements that are named. Throws. */
async function statedBy(given) {
    const { whereOf, rootOfStatement, toldOfTime } = require("./mrtree_statement.js");
    const said = [];
    for (const name of given.statements) {
        const one = await openStatement(name, given.limits);
        const today = new Date().toISOString().slice(0, 10);
        toldOfTime(one, today).forEach((line) => process.stderr.write(`mrtree_ask.js: ${line}\n`));
        said.push(one);
    }
    const roots = said.map((one, at) => rootOfStatement(one, given.roots[at]));
    const sources = given.sources.map((source, at) => source || placeOf(said[at], whereOf));
    needSources(sources, sources.length === 2);
    sources.forEach((source) => needOther(given.proof, source));
    return { ...given, said, roots, sources };
}

/** The statement in a file or at an address. Throws BadStatement and Failed. */
async function openStatement(name, limits) {
    const { readStatement, MOST_STATEMENT } = require("./mrtree_statement.js");
    if (!isSource(name)) {
        throw new Failed("NoFile", name, "it is no address by http or https");
    }
    const file = isAddress(name) ? new Whole(name, LIMITS.patience) : new OnDisk(name);
    const meter = new Meter({ ...LIMITS, ...limits });
    const bytes = await file.read(0, MOST_STATEMENT + 1, meter);
    try {
        return readStatement(bytes, isAddress(name) ? name : require("path").dirname(name), name);
    } catch (error) {
        const line = `${error.line} ${name}: ${error.means}`;
        throw Object.assign(error, { line, status: 2, told: "" });
    }
}

/** Where the map of a statement is. Throws Failed where it says no address. */
function placeOf(said, whereOf) {
    if (said.address === null) {
        const words = "the statement has no address of the map: name the SOURCE";
        throw new Failed("NoFile", said.name, words);
    }
    const path = require("path");
    const beside = () => (path.isAbsolute(said.address) ? said.address
        : [path.join(said.place, "."), said.address].filter((part) => part !== ".").join("/"));
    return whereOf(said, said.address) ?? beside();
}

/** Throws StatementRefused where a verdict does not go with the statements that are named. */
async function holdTo(said, verdict) {
    const { compareStatement, compareRecords } = require("./mrtree_statement.js");
    const states = said.length === 2 ? [verdict.first, verdict.second] : [verdict];
    for (const [at, one] of said.entries()) {
        if (states[at] !== null) {
            compareStatement(one, { version: 2, ...states[at] });
        }
        await compareRecords(one, verdict.records ?? [], client.digestOf);
    }
}

/** A fault; or of a map that leads to a root which has ended, as a statement says, that. */
function endedBy(said, fault) {
    const { refuseEnded } = require("./mrtree_statement.js");
    try {
        said.forEach((one) => refuseEnded(one, fault.found ?? ""));
        return fault;
    } catch (refused) {
        return refused;
    }
}

/** Whether two names are of one file. */
function isSameFile(one, other) {
    const fs = require("fs");
    try {
        const [first, second] = [one, other].map((name) => fs.statSync(name ?? ""));
        return first.dev === second.dev && first.ino === second.ino;
    } catch {
        return one === other;
    }
}

/** Whether a name is of a file in the folder of an atlas's sheets. */
function isAmongSheets(name, source) {
    if (name === null || isAddress(source) || !isAtlas(source)) {
        return false;
    }
    const path = require("path");
    return isSameFile(path.resolve(name, ".."), path.resolve(source, "sheets"));
}

/** The lines of a verdict that is accepted. */
function linesOfVerdict(verdict) {
    const { records, inside, pairs, sheets } = verdict;
    return records !== undefined ? (sheets ? client.linesOfAtlas : client.linesOf)(verdict)
        : inside !== undefined ? [`count ${inside}`] : pairs.map(client.pairLineOf);
}

/** The proof and the lines of an answer. Throws where there is none. */
async function answerOf({ roots, asked, sources, ask, limits, said = [] }) {
    const meter = new Meter({ ...LIMITS, ...limits });
    const maps = [];
    for (const [at, source] of sources.entries()) {
        const far = new (isAtlas(source) ? FarAtlas : FarMap)(source, limits);
        const opening = far.open(roots[at], meter);
        maps.push(await (roots.length === 1 ? opening : inPart(["first", "second"][at], opening)));
    }
    const { proof, ...verdict } = await ask(maps, asked, meter);
    if (!verdict.accepted) {
        throw new ProofRefused(verdict);
    }
    await holdTo(said, verdict);
    return [proof, linesOfVerdict(verdict)];
}

/** Writes a proof to a file. Throws Failed. */
function keepProof(name, proof) {
    try {
        require("fs").writeFileSync(name, proof);
    } catch (error) {
        throw noFile(name, error);
    }
}

/** Exit status and lines of the words behind the script's name; and why they spell no command. */
async function runAsk(words) {
    if (["-h", "--help"].includes(words[0])) {
        return [0, HELP];
    }
    if (words[0] === "--version") {
        return [0, [`mrtree_ask.js ${client.VERSION}`]];
    }
    let said = [];
    try {
        const given = readAsked(words);
        const all = given.statements.length > 0 ? await statedBy(given) : given;
        said = all.said ?? [];
        const [proof, lines] = await answerOf(all);
        if (given.proof !== null) {
            keepProof(given.proof, proof);
        }
        return [0, lines];
    } catch (fault) {
        const error = endedBy(said, fault);
        if (error instanceof BadWords) {
            return [1, ["bad words"], error.message];
        }
        if (error instanceof RangeError) {
            return [8, []]; // memory ran out
        }
        if (error.line === undefined) {
            throw error;
        }
        return [error.status, [error.line], error.told ?? error.means];
    }
}

/**
 * Runs the words of the command line: what failed goes to standard error, all else is printed. There
 * it is said too why words spell no command, and what a refusal mostly means.
 */
async function mainAsk() {
    const [status, lines, why] = await runAsk(process.argv.slice(2));
    if (status === 7) {
        process.stderr.write(`mrtree_ask.js: ${lines[0]}\n`);
        process.exitCode = status;
        return;
    }
    process.stdout.on("error", () => {}); // printLines tells of it
    process.exitCode = (await client.printLines(lines)) ? status : 7;
    client.explain("mrtree_ask.js", status, lines, why);
}

if (typeof module === "object") {
    const refusals = { MapRefused, Failed, NeedsVersion2, ProofRefused, Overtaken };
    const words = { isAddress, isSource, isAtlas };
    module.exports = { FarMap, FarAtlas, askJoin, runAsk, HELP, ...words, ...refusals };
    if (require.main === module) {
        mainAsk();
    }
}
