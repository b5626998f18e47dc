"use strict";
/**
 * What the pages share: sizes of map units, windows in a unit, texts, and files that are given out.
 * In a page: behind mrtree_check.js. In Node: require("./mrtree_page.js"). Tested, and not proved.
 *
 * A number without rounding is [digits, places]: a BigInt, and how many of its digits are behind
 * the point, which may be below 0.
 */

const known = typeof module === "object" ? require("./mrtree_check.js") : { readQuery };

/** What a map unit may be a part of, and what stands behind such a number. */
const MEASURES = { degrees: "°", metres: " m", units: "" };

// ---- numbers and units

/** The number that a decimal spells; null where the word is none. */
function readNumber(word) {
    const decimal = /^([+-]?)([0-9]{1,30})(?:\.([0-9]{0,30}))?(?:[eE]([+-]?[0-9]{1,2}))?$/;
    const [, sign, whole, fraction = "", power = "0"] = decimal.exec(word) ?? [];
    if (whole === undefined) {
        return null;
    }
    const digits = BigInt(whole + fraction);
    return [sign === "-" ? -digits : digits, fraction.length - Number(power)];
}

/** The size of a map unit that a word spells; null where it is none. */
function readUnit(word) {
    const unit = readNumber(word);
    return unit === null || unit[0] <= 0n ? null : unit;
}

/** A coordinate times the size of a map unit, without rounding: a number of JSON. */
function scaled(units, [digits, places]) {
    const whole = (BigInt(units) * digits).toString();
    const [sign, all] = whole[0] === "-" ? ["-", whole.slice(1)] : ["", whole];
    if (places <= 0) {
        return all === "0" ? "0" : sign + all + "0".repeat(-places);
    }
    const padded = all.padStart(places + 1, "0");
    const fraction = padded.slice(-places).replace(/0+$/, "");
    return sign + padded.slice(0, -places) + (fraction === "" ? "" : `.${fraction}`);
}

/** A power of ten, and 1 for one below 0. */
function tenTo(power) {
    return 10n ** BigInt(Math.max(power, 0));
}

/** A number in map units, rounded down, or up, or to the nearest one (a half up): a BigInt. */
function unitsOf([digits, places], [size, sizePlaces], way) {
    const over = digits * tenTo(sizePlaces - places);
    const under = size * tenTo(places - sizePlaces);
    const floor = (above, below) => above / below - (above % below < 0n ? 1n : 0n);
    const ways = {
        down: () => floor(over, under),
        up: () => -floor(-over, under),
        nearest: () => floor(2n * over + under, 2n * under),
    };
    return ways[way]();
}

/** A coordinate for people: without rounding, and with its measure. */
function sideOf(units, unit, measure) {
    return `${scaled(units, unit).replace("-", "\u2212")}${MEASURES[measure]}`;
}

// ---- queries

/** What is told of a text that means no query, by what is wrong. */
const QUERY_FAULTS = {
    unit: "A map unit is a number above 0, as 1e-7.",
    none: "Give the query.",
    form: "The query is no window:x0,y0,x1,y1 and no nearest:x,y,k, and no numbers x0 y0 x1 y1 " +
        "or x y k in the unit.",
    word: "Behind window: and nearest: stand whole map units without spaces. In the unit, give " +
        "the numbers alone.",
    size: "These numbers have fractions, and a map unit is 1. Give the size of a map unit, as " +
        "1e-7, or whole numbers.",
    order: "The window's sides are out of order: x0 is above x1, or y0 above y1.",
    beyond: "That is beyond the coordinates of maps, which go from \u22122147483648 to " +
        "2147483647 map units.",
    k: "How many nearest records are asked for is a whole number from 1 to 1024.",
    mask: "Behind / stands a mask, 16 digits of 0 to 9 and a to f.",
};

/** Whether one number is above another. */
function isAbove([digits, places], [other, otherPlaces]) {
    return digits * tenTo(otherPlaces - places) > other * tenTo(places - otherPlaces);
}

/**
 * The query that a text means: a word itself; or in the unit four numbers, the sides of a window, x
 * before y, rounded outwards; or two numbers and k, the nearest to a point. A mask may stand behind
 * it, as behind a word. Answers { word, fault }: the word is null where it is none, and the fault
 * is then what is told of it.
 */
function meaningOf(text, unit) {
    const whole = text.trim();
    if (known.readQuery(whole) !== null) {
        return { word: whole, fault: "" };
    }
    const no = (fault) => ({ word: null, fault: QUERY_FAULTS[fault] });
    if (unit === null || whole === "") {
        return no(unit === null ? "unit" : "none");
    }
    const form = /^((?:window|nearest):?)?([^/]*)(\/.*)?$/;
    const [, front = "", numbers, end = ""] = form.exec(whole) ?? [, "", whole];
    const isWord = front.endsWith(":") && /^\S/.test(numbers); // it is to be one in map units
    const words = numbers.split(/[\s,;]+/).filter((one) => one !== "");
    const [values, size] = [words.map(readNumber), isWord ? [1n, 0] : unit];
    const fault = faultOf(values, words[2], size, isWord);
    if (fault !== "") {
        return no(fault);
    }
    const sides = sidesOf(values, size);
    const meant = values.length === 3 ? `nearest:${sides},${words[2]}` : `window:${sides}`;
    if (known.readQuery(meant + end) === null) {
        return no("mask");
    }
    if (isWord) {
        return no(meant.startsWith(front) ? "word" : "form");
    }
    return { word: meant + end, fault: "" };
}

/** The sides of a window, or of a point, in map units. */
function sidesOf(values, unit) {
    const ways = values.length === 3 ? ["nearest", "nearest"] : ["down", "down", "up", "up"];
    return ways.map((way, at) => unitsOf(values[at], unit, way));
}

/** What is wrong with the numbers of a query, by its name; empty where nothing is. */
function faultOf(values, k, unit, isWord) {
    if (values.includes(null) || ![3, 4].includes(values.length)) {
        return "form";
    }
    const [x0, y0, x1, y1] = values;
    const isPoint = values.length === 3;
    const hasFraction = (isPoint ? [x0, y0] : values).some((one) => scaled(1, one).includes("."));
    if (hasFraction && scaled(1, unit) === "1") {
        return isWord ? "word" : "size";
    }
    if (!isPoint && (isAbove(x0, x1) || isAbove(y0, y1))) {
        return "order";
    }
    if (sidesOf(values, unit).some((side) => side < -(2n ** 31n) || side >= 2n ** 31n)) {
        return "beyond";
    }
    return isPoint && !(/^[1-9][0-9]{0,3}$/.test(k) && Number(k) <= 1024) ? "k" : "";
}

// ---- texts

/** A whole number for people. */
function grouped(number) {
    return number.toLocaleString("en");
}

/** A number of things for people. */
function counted(number, one, more = `${one}s`) {
    return `${grouped(number)} ${number === 1 ? one : more}`;
}

/** A number of bytes for people. */
function sized(bytes) {
    return bytes < 1024 ? counted(bytes, "byte") : `${grouped(Math.round(bytes / 1024))} KB`;
}

/** The payload as a text; null where it is no UTF-8. */
function decoded(payload) {
    try {
        return new TextDecoder("utf-8", { fatal: true, ignoreBOM: true }).decode(payload);
    } catch {
        return null;
    }
}

/** The payload as a text that can be shown; null where it is none. */
function textOf(payload) {
    const text = decoded(payload) ?? "\0";
    return /[\p{C}\u2028\u2029]/u.test(text) ? null : text;
}

// ---- the page

/** The element with a name. */
function at(id) {
    return document.getElementById(id);
}

/** The statement in a file that was chosen, null where none was. Throws BadStatement. */
async function statementIn(file) {
    if (file === undefined) {
        return null;
    }
    const bytes = await file.slice(0, MOST_STATEMENT + 1).arrayBuffer();
    return readStatement(new Uint8Array(bytes), "", file.name);
}

/** Fills the fields that a statement says, and keeps them so as long as it is there. */
function fillBy(said) {
    ["root", "unit"].forEach((id) => (at(id).readOnly = said !== null));
    at("measure").disabled = said !== null;
    at("forget").hidden = at("statement").files.length === 0;
    if (said !== null) {
        const measure = isInDegrees(said) ? "degrees" : said.axes === "x y" ? "units" : "metres";
        Object.assign(at("root"), { value: said.root });
        Object.assign(at("unit"), { value: said.unit });
        Object.assign(at("measure"), { value: measure });
        const url = said.address === null ? null : whereOf(said, said.address);
        at("url").value = url ?? at("url").value;
    }
}

/** Tells of a statement, or why it is none; what is amiss with its time in words of its own. */
function tellStatement(said, bent) {
    at("said").dataset.file = at("statement").files[0]?.name ?? "";
    const today = new Date().toISOString().slice(0, 10);
    const lines = bent !== null ? [`${bent.line ?? bent.message} (${bent.means ?? ""})`]
        : said === null ? [] : [
            `${said.map}: ${counted(said.records, "record")} at batch ${said.batch}, ` +
                `${said.crs ?? "no coordinate system"}, from ${said.begins} until ${said.until}. ` +
                "Who signed it is not checked here: ssh-keygen does.",
            ...toldOfTime(said, today),
        ];
    at("said").replaceChildren(...lines.map((line, place) => {
        const made = document.createElement("p");
        made.textContent = line;
        made.className = bent !== null || place > 0 ? "amiss" : "note";
        return made;
    }));
}

/** Gives out texts or bytes, one behind another, as a file. */
function giveOut(parts, type, name) {
    const link = document.createElement("a");
    link.href = URL.createObjectURL(new Blob(parts, { type }));
    link.download = name;
    link.click();
    setTimeout(() => URL.revokeObjectURL(link.href), 60000);
}

/** Says so where the browser gives no SHA-256, and answers whether it does. */
function hasHashes() {
    if (!subtle) {
        at("trouble").textContent = "This browser gives SHA-256 to no page that came this way, " +
            "so nothing can be checked here. Save the page and its scripts in one folder, and " +
            "open it from there.";
        at("trouble").hidden = false;
    }
    return Boolean(subtle);
}

if (typeof module === "object") {
    const numbers = { MEASURES, readNumber, readUnit, scaled, unitsOf, sideOf };
    module.exports = { ...numbers, meaningOf, grouped, counted, sized, decoded, textOf };
}
