"use strict";
/**
 * Reads what a map is, from a text that its publisher signs, in the form that docs/FORMATS.md has
 * at "Statements", and compares it with what proofs say. A text without that form is refused by its
 * first fault, as statement.py does. A signature is not checked here: ssh-keygen does.
 *
 * In a page: by itself. In Node 18 or later: require("./mrtree_statement.js"). It is tested, and
 * not proved.
 */

const MOST_STATEMENT = 65536; // bytes
const MOST_OF_MAP = 2 ** 20; // records
const MOST_OF_ATLAS = 2 ** 40; // records
const IN_DEGREES = ["EPSG:4326", "OGC:CRS84"]; // plain longitude and latitude in GeoJSON

/** Each key, in the order in which a statement is written, and what its value has to be. */
const STATEMENT_KEYS = new Map([
    ["map", "words that say what the map is"],
    ["root", "64 digits of 0 to 9 and a to f, lower case"],
    ["atlas", "yes, or the line is left out"],
    ["version", "1 or 2"],
    ["batch", "a whole number from 0 and below 2^64, in plain digits"],
    ["records", "a whole number from 0 to 2^40, in plain digits"],
    ["unit", "a number from 1e-30 to 1e30, as 1e-7 or 0.01"],
    ["crs", "an authority and a code, as EPSG:4326, or none"],
    ["axes", "longitude latitude, or east north, or x y"],
    ["numbers", "words that say what the numbers are"],
    ["keys", "the name of the property that has the key"],
    ["payload", "none, digest, key, hexadecimal, or text and the name of a property"],
    [
        "layers",
        "numbers from 0 to 63 in rising order, each with its name, as: 0 buildings, 1 roads",
    ],
    ["shapes", "the name of a file, or an address that begins with http:// or https://"],
    ["address", "the name of a file or folder, or an address that begins with http:// or https://"],
    ["from", "a day, as 2026-12-01"],
    ["until", "a day, as 2026-12-31"],
    ["ended", "none, or root digests with a space between, each once"],
]);
const MAY_MISS = ["atlas", "numbers", "keys", "layers", "shapes", "address"];
const STATEMENT_MEANS = {
    Utf8: "the line is not UTF-8",
    Long: `a statement has at most ${MOST_STATEMENT} bytes`,
    NoEnd: "the last line has no line feed: part of the statement may be missing",
    Form: "a line is a key in lower case, a colon, a space and a value, without anything round " +
        "them",
    Key: "no statement has this key",
    Twice: "KEYS stands there twice",
    Value: "KEYS has to be: FORM",
    Missing: "the line KEYS is missing",
    Clash: "the lines KEYS do not go together",
};
const CONTROL_SIGN = /[\0-\x1f\x7f-\x9f\u2028-\u202e\u2066-\u2069\ufeff]/u;
const STATEMENT_LINE = /^([a-z]+): ([^ ]|[^ ].*[^ ])$/su;
const STATEMENT_FORMS = {
    root: /^[0-9a-f]{64}$/u,
    atlas: /^yes$/u,
    version: /^[12]$/u,
    crs: /^(?:none|[A-Z][A-Z0-9_]{0,19}:[A-Za-z0-9_.]{1,40})$/u,
    axes: /^(?:longitude latitude|east north|x y)$/u,
    payload: /^(?:none|digest|key|hexadecimal|text [^ ].*)$/u,
    layers: /^[0-9]{1,2} [^, ](?:[^,]*[^, ])?(?:, [0-9]{1,2} [^, ](?:[^,]*[^, ])?)*$/u,
    shapes: /^(?:https?:\/\/[!-~]+|(?!.*:\/\/).+)$/u,
    address: /^(?:https?:\/\/[!-~]+|(?!.*:\/\/).+)$/u,
    ended: /^(?:none|[0-9a-f]{64}(?: [0-9a-f]{64})*)$/u,
};
const SIZE_OF_UNIT = /^([0-9]{1,40})(?:\.([0-9]{1,40}))?(?:e([+-]?[0-9]{1,2}))?$/u;
const WHOLE_NUMBER = /^(?:0|[1-9][0-9]{0,19})$/u;

/** A text is no statement: the line of its first fault, the rule, and its key if it has one. */
class BadStatement extends Error {
    constructor(number, rule) {
        super(`bad statement ${number} ${rule}`);
        Object.assign(this, { number, rule, line: this.message, status: 2 });
    }

    /** What the rule says, in words. */
    get means() {
        const [name, ...keys] = this.rule.split(" ");
        const form = STATEMENT_KEYS.get(keys[0]) ?? "";
        return STATEMENT_MEANS[name].replace("KEYS", keys.join(" and ")).replace("FORM", form);
    }
}

/** A statement does not hold, or not of what came: by which rule, and what is told of it. */
class StatementRefused extends Error {
    constructor(rule, name, words) {
        super(words);
        Object.assign(this, { rule, status: 2, means: "" });
        this.line = `refused ${rule} ${name}: ${words}`;
    }
}

/** The values of a statement's lines, by their keys. Throws BadStatement. */
function linesOfStatement(bytes) {
    if (bytes.length > MOST_STATEMENT) {
        const held = bytes.subarray(0, MOST_STATEMENT);
        throw new BadStatement(1 + held.filter((byte) => byte === 10).length, "Long");
    }
    const values = new Map();
    let [start, number] = [0, 1];
    for (; start < bytes.length; number++) {
        const end = bytes.indexOf(10, start);
        if (end < 0) {
            throw new BadStatement(number, "NoEnd");
        }
        const [key, value] = lineOfStatement(bytes.subarray(start, end), number);
        if (values.has(key)) {
            throw new BadStatement(number, `Twice ${key}`);
        }
        if (!isValue(key, value)) {
            throw new BadStatement(number, `Value ${key}`);
        }
        values.set(key, value);
        start = end + 1;
    }
    refuseMissing(values, number);
    return values;
}

/** Key and value of a line. Throws BadStatement. */
function lineOfStatement(bytes, number) {
    let text = "";
    try {
        text = new TextDecoder("utf-8", { fatal: true, ignoreBOM: true }).decode(bytes);
    } catch {
        throw new BadStatement(number, "Utf8");
    }
    const [, key, value] = STATEMENT_LINE.exec(text) ?? [];
    if (key === undefined || CONTROL_SIGN.test(text)) {
        throw new BadStatement(number, "Form");
    }
    if (!STATEMENT_KEYS.has(key)) {
        throw new BadStatement(number, "Key");
    }
    return [key, value];
}

/** Whether a value has the form that its key asks for. */
function isValue(key, value) {
    if (Object.hasOwn(STATEMENT_FORMS, key) && !STATEMENT_FORMS[key].test(value)) {
        return false;
    }
    const others = {
        batch: () => WHOLE_NUMBER.test(value) && BigInt(value) < 2n ** 64n,
        records: () => WHOLE_NUMBER.test(value) && BigInt(value) <= BigInt(MOST_OF_ATLAS),
        unit: () => isSizeOfUnit(value),
        layers: () => layersOfStatement(value) !== null,
        from: () => isDay(value),
        until: () => isDay(value),
        ended: () => new Set(value.split(" ")).size === value.split(" ").length,
    };
    return !Object.hasOwn(others, key) || others[key]();
}

/** Whether a word is a number from 1e-30 to 1e30. */
function isSizeOfUnit(word) {
    const [, whole, fraction = "", power = "0"] = SIZE_OF_UNIT.exec(word) ?? [];
    if (whole === undefined) {
        return false;
    }
    const tens = Number(power) - fraction.length + 140; // at least 1
    const value = BigInt(whole + fraction) * 10n ** BigInt(tens);
    return value >= 10n ** 110n && value <= 10n ** 170n;
}

/** Whether a word is a day of the calendar, from the year 1 on. */
function isDay(word) {
    const [, year, month, day] = /^([0-9]{4})-([0-9]{2})-([0-9]{2})$/u.exec(word) ?? [];
    const date = new Date(0);
    date.setUTCFullYear(Number(year), Number(month) - 1, Number(day));
    return Number(year) >= 1 && date.getUTCMonth() === Number(month) - 1 &&
        date.getUTCDate() === Number(day);
}

/** The names of layers, by their numbers; null where those do not rise, or a name stands twice. */
function layersOfStatement(value) {
    const layers = new Map();
    const names = new Set();
    let last = -1;
    for (const part of value.split(", ")) {
        const [word] = part.split(" ", 1);
        const [number, name] = [Number(word), part.slice(word.length + 1)];
        if (!WHOLE_NUMBER.test(word) || number <= last || number > 63 || names.has(name)) {
            return null;
        }
        layers.set(number, name);
        names.add(name);
        last = number;
    }
    return layers;
}

/** Throws BadStatement where a line is missing, or lines do not go together. */
function refuseMissing(values, number) {
    const mayMiss = (key) => MAY_MISS.includes(key) &&
        (key !== "numbers" || values.has("keys"));
    const missing = [...STATEMENT_KEYS.keys()].find((key) => !values.has(key) && !mayMiss(key));
    if (missing !== undefined) {
        throw new BadStatement(number, `Missing ${missing}`);
    }
    const value = (key) => values.get(key);
    const clashes = {
        "records atlas": !values.has("atlas") && Number(value("records")) > MOST_OF_MAP,
        "crs axes": IN_DEGREES.includes(value("crs")) && value("axes") !== "longitude latitude",
        "numbers keys": values.has("numbers") && values.has("keys"),
        "keys payload": value("payload") === "key" && !values.has("keys"),
        "version layers": values.has("layers") && value("version") === "1",
        "payload shapes": values.has("shapes") && value("payload") !== "digest",
        "from until": value("until") < value("from"),
        "root ended": value("ended").split(" ").includes(value("root")),
    };
    const clash = Object.keys(clashes).find((keys) => clashes[keys]);
    if (clash !== undefined) {
        throw new BadStatement(number, `Clash ${clash}`);
    }
}

/**
 * The statement that bytes are; `place` is the address that relative names in it go from, and
 * `name` what it is called. Batch is a BigInt, unit the word as it stands, and `layers` a Map of
 * names by numbers. Throws BadStatement.
 */
function readStatement(bytes, place = "", name = "statement") {
    const values = linesOfStatement(bytes);
    const get = (key) => values.get(key) ?? null;
    const [payload] = get("payload").split(" ", 1);
    return {
        ...{ map: get("map"), root: get("root"), atlas: values.has("atlas") },
        ...{ version: Number(get("version")), batch: BigInt(get("batch")) },
        ...{ records: Number(get("records")), unit: get("unit") },
        ...{ crs: get("crs") === "none" ? null : get("crs"), axes: get("axes") },
        ...{ numbers: get("numbers"), keys: get("keys"), payload },
        payloadName: payload === "text" ? get("payload").slice(5) : null,
        layers: values.has("layers") ? layersOfStatement(get("layers")) : new Map(),
        ...{ shapes: get("shapes"), address: get("address") },
        ...{ begins: get("from"), until: get("until") },
        ended: get("ended") === "none" ? [] : get("ended").split(" "),
        ...{ place, name, values },
    };
}

/** The address that is meant by a name in a statement; null where it stands at none itself. */
function whereOf({ place }, name) {
    if (/^https?:\/\//.test(name)) {
        return name;
    }
    return /^https?:\/\//i.test(place) ? new URL(name, place).href : null;
}

/** Whether x is the longitude and y the latitude, in degrees as GeoJSON has them. */
function isInDegrees({ axes, crs }) {
    return axes === "longitude latitude" || IN_DEGREES.includes(crs);
}

/** What is to be said aloud of the time of a statement, on a day such as 2026-12-01. */
function toldOfTime({ name, begins, until }, today) {
    const told = [];
    if (until < today) {
        told.push(`${name}: the next statement was to come until ${until}: ask for it, since the ` +
            "map may have changed");
    }
    if (today < begins) {
        told.push(`${name}: it is for the time from ${begins} on`);
    }
    return told;
}

/**
 * Throws StatementRefused where a map is of another version, batch or count of records; or where of
 * an atlas the index is of another batch, or a sheet of another version, or sheets have more.
 */
function compareStatement(statement, { version, batch, count, sheets }) {
    const isOfAtlas = sheets !== undefined;
    if (statement.atlas !== isOfAtlas) {
        const kinds = isOfAtlas ? ["a map", "an atlas"] : ["an atlas", "a map"];
        const words = `it is of ${kinds[0]}, and the proof of ${kinds[1]}`;
        throw new StatementRefused("OtherKind", statement.name, words);
    }
    const shown = Array.isArray(sheets) ? sheets : [];
    const other = shown.find((sheet) => sheet.version !== statement.version);
    const least = shown.reduce((sum, sheet) => sum + sheet.count, 0);
    const [own, all] = isOfAtlas
        ? [other?.version ?? statement.version, Math.max(least, statement.records)]
        : [version, Number(count)];
    const pairs = [
        ["Version", "version", statement.version, own],
        ["Batch", "batch", statement.batch, BigInt(batch)],
        ["Count", "count of records", statement.records, all],
    ];
    for (const [rule, name, said, found] of pairs) {
        if (said !== found) {
            const words = `its ${name} is ${said}, and that of the proof is ${found}`;
            throw new StatementRefused(`Other${rule}`, statement.name, words);
        }
    }
}

/** What is wrong with a payload by a statement, but for its key; empty where nothing is. */
function misfitOf({ payload: kind }, payload) {
    if (kind === "digest" && payload.length !== 32) {
        return "is no digest";
    }
    if (kind === "text" || kind === "key") {
        try {
            new TextDecoder("utf-8", { fatal: true }).decode(payload);
        } catch {
            return "is no text";
        }
    }
    return kind === "none" && payload.length > 0 ? "is there, and there is to be none" : "";
}

/**
 * Throws StatementRefused where the payload of a record is not what a statement says, or its number
 * of no key. `digestOf` promises the SHA-256 of bytes.
 */
async function compareRecords(statement, records, digestOf) {
    for (const { number, payload } of records) {
        const words = misfitOf(statement, payload);
        if (words !== "") {
            const told = `the payload of record ${number} ${words}`;
            throw new StatementRefused("OtherPayload", statement.name, told);
        }
        if (statement.payload === "key") {
            const digest = await digestOf(payload);
            if (new DataView(digest.buffer, digest.byteOffset).getBigUint64(0) !== BigInt(number)) {
                const told = `the payload of record ${number} is not the key that its number ` +
                    "stands for";
                throw new StatementRefused("OtherKey", statement.name, told);
            }
        }
    }
}

/** The member of GeoJSON that says a coordinate system; empty of plain longitude and latitude. */
function crsMember(crs) {
    if (crs === null || crs === "" || IN_DEGREES.includes(crs)) {
        return "";
    }
    const name = `urn:ogc:def:crs:${crs.replace(":", "::")}`;
    return `"crs":${JSON.stringify({ type: "name", properties: { name } })},`;
}

/** Whether a word names a coordinate system, as a statement does. */
function isCrs(word) {
    return isValue("crs", word);
}

/** Throws StatementRefused where a root digest, 64 digits, is one that has ended. */
function refuseEnded({ ended, name }, root) {
    if (ended.includes(root)) {
        throw new StatementRefused("EndedRoot", name, `it says that the root ${root} has ended`);
    }
}

/**
 * The root digest that proofs are judged by, where one may be given besides; else it is empty.
 * Throws StatementRefused where that is another one, or has ended.
 */
function rootOfStatement(statement, given) {
    const { root, name } = statement;
    if (given !== "" && given !== root) {
        refuseEnded(statement, given);
        const words = `its root is ${root}, and another one was given`;
        throw new StatementRefused("OtherRoot", name, words);
    }
    return root;
}

if (typeof module === "object") {
    const refusals = { BadStatement, StatementRefused, refuseEnded, rootOfStatement };
    const comparing = { compareStatement, compareRecords, misfitOf };
    const said = { whereOf, isInDegrees, toldOfTime, crsMember, isCrs, STATEMENT_KEYS };
    module.exports = { readStatement, MOST_STATEMENT, ...said, ...comparing, ...refusals };
}
