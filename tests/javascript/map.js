"use strict";
/**
 * The page clients/web/map.html in headless Chromium, on maps of another origin: it is opened,
 * panned and zoomed by mouse, keys and touch, and what it shows is compared with a scan of the
 * records. Then come maps and servers that are refused; and nginx, where there is one.
 *
 * usage: node map.js PROGRAM [NGINX [FOLDER]]     NGINX is its program, empty where there is none.
 *     With a FOLDER nothing is tested: two pictures of the page come there, map.png and
 *     map-boxes.png.
 */

const child = require("child_process");
const fs = require("fs");
const os = require("os");
const path = require("path");
const { pathToFileURL } = require("url");
const { WEB, Bench } = require("./bench.js");
const { Browser, find, pause } = require("./chromium.js");
const { Server, send } = require("./server.js");
const { Chance, Program, madeAtlas, extentOf } = require("./maps.js");
const client = require(path.join(WEB, "mrtree_check.js"));
const { FarMap } = require(path.join(WEB, "mrtree_ask.js"));

const UNIT = "1e-7";
const SIZE = [800, 640]; // of the page
const PATIENT = 500; // milliseconds that a slow server waits

/** Names of places. */
function nameOf(chance) {
    const front = chance.of(["Lin", "Berg", "Ost", "Neu", "Alt", "Hain", "Rod", "Stein", "Wald"]);
    return front + chance.of(["dorf", "feld", "au", "hausen", "tal", "bach", "see", "hof"]);
}

/** Record lines of towns: houses, plots, streets and parks, each kind on a layer. */
function townLines(chance, count) {
    const towns = Array.from({ length: 220 }, () => {
        const place = [60000000 + chance.below(90000000), 480000000 + chance.below(60000000)];
        const size = chance.of([60000, 150000, 300000, 900000]);
        return { place, size, name: nameOf(chance) };
    });
    return Array.from({ length: count }, (_, at) => {
        const { place, size, name } = chance.of(towns);
        const near = () => chance.below(size) + chance.below(size) + chance.below(size);
        const [x, y] = [place[0] + near(), place[1] + near()];
        const layer = chance.of([0, 0, 0, 1, 1, 2, 3]);
        const [wide, high] = [[0, 0], [3000, 2000], [20000, 0], [16000, 12000]][layer];
        const house = `${name} ${chance.between(1, 99)}`;
        const text = [house, `plot ${at + 1}`, `${name} street`, `park of ${name}`];
        const payload = Buffer.from(text[layer]).toString("hex");
        return `${at + 1} ${x} ${y} ${x + wide} ${y + high} ${layer} ${payload}`;
    });
}

/** A map of towns in a version. */
function townMap(program, count, version) {
    const lines = townLines(new Chance(11), count);
    const cut = (line) => line.replace(/ [0-9]+ ([0-9a-f]+)$/, " $1");
    const own = version === 2 ? lines : lines.map(cut);
    fs.writeFileSync("towns", own.map((line) => `${line}\n`).join(""));
    const name = `towns-${version}.map`;
    const command = version === 2 ? "build2" : "build";
    return program.mapOf(name, program.lines(command, name, "towns").trim());
}

/** Waits until the page has a verdict on what is seen. */
async function settled(browser) {
    await pause(60);
    const isSo = "timer === null && asked === null && at('status').dataset.state !== 'waiting'";
    await browser.until(isSo);
}

/** Opens the page, and in it a map. */
async function openMap(browser, page, url, root, unit = UNIT) {
    await browser.go(`${page}?${Math.random()}#unit=${unit}&of=degrees`);
    await browser.type("#root", root);
    await browser.type("#url", url);
    await browser.value("at('open').click()");
    await settled(browser);
}

/** What the page shows. */
const SEEN = `(() => {
    const { picture } = now;
    const lines = picture?.records?.map((one) => lineOf(one, picture.version));
    return {
        state: at("status").dataset.state, line: at("line").textContent,
        cost: at("cost").textContent, window: picture?.window, view: windowOf(0), lines,
        boxes: picture?.boxes?.map(({ rect }) => rect), isRefused: !at("refusal").hidden,
        refusal: at("refusal").innerText, isNone: picture === null,
    };
})()`;

/** Atlases: few sheets and many, in both versions; and one with a sheet that is another map. */
async function atlasesHold(bench, browser, page, server, program) {
    const lines = townLines(new Chance(12), 4000);
    const cut = (line) => line.replace(/ [0-9]+ ([0-9a-f]+)$/, " $1");
    for (const [version, most] of [[2, 700], [1, 700], [2, 100]]) {
        const own = version === 2 ? lines : lines.map(cut);
        const atlas = madeAtlas(program, own, most, version);
        atlas.files.forEach((bytes, name) => server.put(`at/${name}`, bytes));
        const where = `an atlas of version ${version}, ${most} records in a sheet`;
        await openMap(browser, page, `${server.url}at/`, atlas.root);
        const which = await browser.value("at('which').textContent");
        const meant = `an atlas of ${atlas.files.size - 1} sheets · batch 0`;
        bench.holds(which.endsWith(meant), `${where}: ${which}`);
        const whole = await scanHolds(bench, browser, atlas, where);
        bench.holds(whole.boxes !== undefined, `${where}: no boxes`);
        await zoomToRecords(browser);
        const near = await scanHolds(bench, browser, atlas, `${where}, zoomed`);
        bench.holds(near.line.includes(` of an atlas of `), `${where}: ${near.line}`);
        const isSaved = await browser.value("!at('save').disabled");
        bench.holds(isSaved, `${where}: its proof may be saved`);
        const [other, one] = [...atlas.files.keys()];
        server.put(`at/${one}`, atlas.files.get(other));
        await openMap(browser, page, `${server.url}at/`, atlas.root);
        if (most === 700) {
            const line = "refused sheet 2 map page 0 WrongRoot ";
            await refusedHolds(bench, browser, line, `${where}, another sheet`);
        }
    }
}

/** The page shows of a map what a scan finds: records, or boxes round them and their number. */
async function scanHolds(bench, browser, map, where) {
    const told = await browser.value(SEEN);
    bench.equal(told.state, "accepted", `${where}: ${told.line}`);
    const within = (window) => map.records.filter(({ rect }) => client.meet(rect, window));
    const [found, inView] = [within(told.window), within(told.view).length];
    const [, least, most = least] = /([0-9]+)(?: to ([0-9]+))? records? /.exec(
        told.line.replace(/,(?=[0-9])/g, "").replace(/^[0-9]+ box(es)? in view: checked; /, "")
    ) ?? [];
    if (told.lines) {
        const meant = found.map(({ line }) => line).join("\n");
        bench.equal(told.lines.join("\n"), meant, `${where}: the records of the picture`);
        bench.equal(Number(least), inView, `${where}: ${told.line}`);
    } else {
        const isIn = ({ rect }) => told.boxes.some((box) => client.within(rect, box));
        bench.holds(found.every(isIn), `${where}: a record in no box`);
        const areBounds = Number(least) <= inView && inView <= Number(most);
        const isTold = map.version === 1 ? told.line.includes("no counts") : areBounds;
        bench.holds(isTold, `${where}: ${inView} by a scan, and told: ${told.line}`);
    }
    return told;
}

/** Turns the wheel over the middle until records are shown. */
async function zoomToRecords(browser) {
    const [x, y] = await browser.value("[now.wide * 0.55, now.high / 2 + canvas.offsetTop]");
    const top = await browser.value("canvas.getBoundingClientRect().top");
    for (let turn = 0; turn < 40; turn++) {
        if (await browser.value("now.picture?.records?.length > 0")) {
            return;
        }
        await browser.mouse("mouseWheel", [x, y + top], { deltaX: 0, deltaY: -240 });
        await settled(browser);
        // What is looked for lies where the records are.
        await browser.value(`(() => {
            const { boxes } = now.picture;
            const inView = boxes && seen(boxes)[0];
            inView && Object.assign(now, {
                x: (inView.rect[0] + inView.rect[2]) / 2, y: (inView.rect[1] + inView.rect[3]) / 2,
            });
            moved();
        })()`);
        await settled(browser);
    }
}

/** The page on a map: the whole, zoomed by the wheel, dragged; a click; what it has cost. */
async function tourHolds(bench, browser, page, server, map) {
    const where = `version ${map.version}`;
    await openMap(browser, page, server.put(map.name, map.bytes), map.root);
    const whole = await scanHolds(bench, browser, map, `${where}, the whole map`);
    bench.holds(whole.boxes?.length > 100, `${where}: boxes of the whole map`);
    const cost = / this view [0-9,]+ requests?, [0-9,]+ KB · in all [0-9,]+ requests, [0-9,]+ KB$/;
    bench.holds(cost.test(whole.cost), `${where}: ${whole.cost}`);
    await zoomToRecords(browser);
    await scanHolds(bench, browser, map, `${where}, zoomed by the wheel`);
    const [wide, high, top] = await browser.value(
        "[now.wide, now.high, canvas.getBoundingClientRect().top]"
    );
    for (const [dx, dy] of [[-0.3, 0], [0.4, 0.2]]) {
        const from = [wide * 0.5, top + high * 0.5];
        await browser.drag(from, [from[0] + dx * wide, from[1] + dy * high]);
        await settled(browser);
        await scanHolds(bench, browser, map, `${where}, dragged by ${dx} ${dy}`);
    }
    await zoomToRecords(browser);
    await clickHolds(bench, browser, map, top);
}

/** A click tells of a record what its line says. */
async function clickHolds(bench, browser, map, top) {
    await browser.value(`(() => {
        const [one] = now.picture.records;
        fit(one.rect.map((side, at) => side + (at < 2 ? -4000 : 4000)));
    })()`);
    await settled(browser);
    const { number, place } = await browser.value(`(() => {
        const [one] = seen(now.picture.records);
        const [x, y, wide, high] = boxOf(one.rect);
        return { number: String(one.number), place: [x + wide / 2, y + high / 2] };
    })()`);
    const shown = [];
    for (let turn = 0; turn < 6; turn++) { // at the same place the next one is told
        await browser.click([place[0], place[1] + top]);
        shown.push(await browser.value("at('shown').innerText"));
        if (shown[shown.length - 1].startsWith(`record ${number}\n`)) {
            break;
        }
    }
    const { line } = map.records.find((one) => one.line.startsWith(`${number} `));
    const fields = line.split(" ");
    const text = Buffer.from(fields[fields.length - 1], "hex").toString();
    const degrees = [1, 2].map((at) => `${Number(fields[at]) / 1e7}°`);
    const told = shown[shown.length - 1];
    const parts = [`record ${number}`, text, ...degrees];
    const isTold = parts.every((part) => told.includes(part));
    bench.holds(isTold && told.includes("layer") === (map.version === 2), `a click: ${told}`);
    await browser.value("canvas.focus()");
    await browser.key("Escape");
    bench.holds(await browser.value("at('shown').hidden"), "Escape shuts what is told");
}

/** Keys move and zoom; Enter tells of what is in the middle. */
async function keysHold(bench, browser, map) {
    await browser.value("canvas.focus()");
    const view = () => browser.value("[now.x, now.y, now.scale]");
    const press = async (key) => {
        await browser.key(key);
        await settled(browser);
        return view();
    };
    const [whole, right] = [await press("0"), await press("ArrowRight")];
    const up = await press("ArrowUp");
    const isMoved = right[0] > whole[0] && right[1] === whole[1] && up[1] > right[1];
    bench.holds(isMoved, "arrows move the map");
    const back = [await press("ArrowLeft"), await press("ArrowDown")][1];
    bench.holds(back.every((one, at) => Math.abs(one - whole[at]) < 1), "and back");
    for (let turn = 0; turn < 5; turn++) {
        await press("+");
    }
    const near = await view();
    bench.holds(near[2] > 10 * whole[2], "plus zooms");
    await scanHolds(bench, browser, map, "zoomed by keys");
    const before = await browser.value("now.map.requests");
    await press("-");
    await press("+");
    const after = await browser.value("now.map.requests");
    bench.equal(after, before, "requests of minus and plus");
    await press("0");
    bench.equal(String(await view()), String(whole), "0 shows the whole map");
    const [{ line, rect }] = map.records;
    await browser.value(`fit([${rect}])`);
    await settled(browser);
    const told = [];
    for (let turn = 0; turn < 9; turn++) {
        await press("Enter");
        told.push((await browser.value("at('shown').innerText")).split("\n")[0]);
    }
    bench.holds(told.includes(`record ${line.split(" ")[0]}`), `Enter: ${told}`);
}

/** At 360 pixels, dark: fingers move and zoom, and nothing is wider than the page. */
async function touchHolds(bench, browser, map) {
    await browser.show(360, 740, "dark");
    await browser.value("choose(null), fitAll()");
    await settled(browser);
    await scanHolds(bench, browser, map, "at 360 pixels");
    const isNarrow = "document.documentElement.scrollWidth <= 360";
    bench.holds(await browser.value(isNarrow), "the page is no wider than 360 pixels");
    const ground = "getComputedStyle(document.body).backgroundColor";
    bench.equal(await browser.value(ground), "rgb(20, 23, 28)", "the dark page");
    const view = () => browser.value("[now.x, now.y, now.scale]");
    const top = await browser.value("canvas.getBoundingClientRect().top");
    const before = await view();
    await browser.touch([[[250, top + 200], [100, top + 200]]]);
    await settled(browser);
    const moved = await view();
    bench.holds(moved[0] > before[0] && moved[2] === before[2], "a finger moves the map");
    const fingers = [[[150, top + 250], [70, top + 250]], [[200, top + 250], [280, top + 250]]];
    await browser.touch(fingers);
    await settled(browser);
    const pinched = await view();
    bench.holds(pinched[2] > 2 * moved[2], `two fingers zoom: ${pinched[2] / moved[2]}`);
    await scanHolds(bench, browser, map, "zoomed by fingers");
    await browser.value("choose((now.picture.records ?? now.picture.boxes)[0])");
    bench.holds(await browser.value(isNarrow), "with a card no wider than 360 pixels");
    const areHidden = await browser.value(`["layers", "shade"].every((id) => {
        at(id).hidden = false;
        return getComputedStyle(at(id)).display === "none";
    })`);
    bench.holds(areHidden, "no key lies over the card at 360 pixels");
    await browser.value("at('given').open = true");
    await settled(browser);
    bench.holds(await browser.value(isNarrow), "with the form no wider than 360 pixels");
    await browser.show(...SIZE);
    await settled(browser);
}

/** How many pixels of the canvas are not hatched, in a part of it: [left, top, right, bottom]. */
function drawnIn(part) {
    return `(() => {
        const bare = document.createElement("canvas");
        Object.assign(bare, { width: canvas.width, height: canvas.height });
        const brush = bare.getContext("2d");
        for (const fill of [colours.veil, colours.hatch]) {
            brush.fillStyle = fill;
            brush.fillRect(0, 0, bare.width, bare.height);
        }
        const [x0, y0, x1, y1] = (${part}).map((side, at) =>
            Math.round(Math.min(Math.max(side, 0), at % 2 === 0 ? bare.width : bare.height)));
        if (x0 >= x1 || y0 >= y1) {
            return -1;
        }
        const [one, other] = [pen, brush].map((some) =>
            some.getImageData(x0, y0, x1 - x0, y1 - y0).data);
        return one.filter((byte, at) => byte !== other[at]).length;
    })()`;
}
const ALL_DRAWN = drawnIn("[0, 0, canvas.width, canvas.height]");

/** While a view is fetched, what is outside the checked window is hatched, records too. */
async function clipHolds(bench, browser, page, server, map) {
    await openMap(browser, page, server.put(map.name, map.bytes), map.root);
    await zoomToRecords(browser);
    // A window whose right side cuts through a record, and a view that has it in its middle.
    const { rect: [x0, y0, x1] } = map.records.find(({ rect }) => rect[2] - rect[0] > 10000);
    await browser.value(`(() => {
        Object.assign(now, { picture: null, scale: 0.01, y: ${y0} });
        now.x = ${(x0 + x1) / 2} - (now.wide / now.scale) * (0.5 + SLACK);
        moved();
    })()`);
    await settled(browser);
    const isCut = await browser.value(`(() => {
        const { records, window } = now.picture;
        return records.some(({ rect }) => rect[0] < window[2] && window[2] < rect[2]);
    })()`);
    bench.holds(isCut, "no record is cut by the side of a window");
    server.trick = (response, given) => {
        if (given.isLate) {
            return false;
        }
        setTimeout(() => server.take(given.request, response, true), PATIENT);
        return true;
    };
    const before = await browser.value("String(now.picture.window)");
    // The window ends in the middle of the view: what was cut begins to the left of it.
    await browser.value("pan(-now.wide * 0.5, 0)");
    await pause(100);
    const right = "boxOf(now.picture.window)";
    const outside = drawnIn(`[${right}[0] + ${right}[2] + 2, 0, now.wide, now.high - 24]`);
    bench.equal(await browser.value("String(now.picture.window)"), before, "the older window");
    bench.equal(await browser.value(outside), 0, "what is drawn outside the checked window");
    const inside = drawnIn(`[0, 0, ${right}[0] + ${right}[2] - 2, now.high - 24]`);
    bench.holds((await browser.value(inside)) > 0, "what is drawn inside it");
    // And back before the answer came: the older window is what is shown.
    await browser.value("pan(now.wide * 0.5, 0)");
    await pause(400);
    server.trick = null;
    await settled(browser);
    await scanHolds(bench, browser, map, "back before an answer came");
    await browser.value("pan(-now.wide * 0.5, 0)");
    await settled(browser);
    await scanHolds(bench, browser, map, "behind a slow answer");
}

/** Bytes of a map of which all inner nodes have their children on the root's page. */
function circleOf({ bytes, version }) {
    const [size, wide] = version === 2 ? [8192, 68] : [4096, 52];
    const out = Buffer.from(bytes);
    for (let at = size; at < out.length; at += size) {
        for (let child = 0; out[at] === 0x4e && child < out[at + 2]; child++) {
            bytes.copy(out, at + 3 + child * wide, 26, 30);
        }
    }
    return out;
}

/** Bytes of a map with a node changed: the page of a child of the root, or of a leaf. */
function bentIn(map, level) {
    const [size, wide] = map.version === 2 ? [8192, 68] : [4096, 52];
    const bytes = Buffer.from(map.bytes);
    const childOf = (page) => bytes.readUInt32BE(page * size + 3 + wide);
    let page = bytes.readUInt32BE(26);
    for (let above = bytes[5]; above > level; above--) {
        page = childOf(page);
    }
    bytes[page * size + (level === 0 ? 9 : 2 + wide)] ^= 1; // in a number, or in a digest
    return { bytes, page };
}

/** A refusal stands in the place of the picture: by its line, and nothing else is drawn. */
async function refusedHolds(bench, browser, line, where) {
    const told = await browser.value(SEEN);
    const isLine = told.refusal.startsWith(line) && told.line.startsWith(line);
    bench.holds(told.isRefused && isLine, `${where}: ${told.refusal || told.line}`);
    bench.holds(told.isNone && told.state === "refused", `${where}: a picture beside it`);
    bench.equal(await browser.value(ALL_DRAWN), 0, `${where}: what is drawn beside it`);
    const others = "['shown', 'shade', 'layers'].every((id) => at(id).hidden)";
    const isNothing = await browser.value(`${others} && at("save").disabled`);
    bench.holds(isNothing, `${where}: what is told beside it`);
}

/** Files and servers that are refused as a map is opened, or later. */
async function refusalsHold(bench, browser, page, server, map, other) {
    const url = server.put(map.name, map.bytes);
    const inner = bentIn(map, map.bytes[5] - 1);
    const bent = server.put("inner", inner.bytes);
    const text = server.put("text", Buffer.alloc(20000, 65));
    const circle = server.put("circle", circleOf(map));
    const root = map.bytes.readUInt32BE(26);
    const rows = [
        ["another map", url, other.root, `refused map page 0 WrongRoot found ${map.root}`],
        ["no such file", `${server.url}none`, map.root, "failed Status "],
        ["a text", text, map.root, "refused map page 0 Unsealed"],
        ["nobody", "http://127.0.0.1:1/m", map.root, "failed NoAnswer "],
        ["an inner node", bent, map.root, `refused map page ${inner.page} Digest`],
        ["a circle", circle, map.root, `refused map page ${root} Page`],
    ];
    for (const [where, address, digest, line] of rows) {
        await openMap(browser, page, address, digest);
        await refusedHolds(bench, browser, line, where);
    }
    server.trick = (response, { bytes }) => (send(response, 200, bytes), true);
    await openMap(browser, page, url, map.root);
    await refusedHolds(bench, browser, "failed NoRanges ", "a server without ranges");
    server.trick = null;
    const { headers } = server;
    server.headers = {};
    await openMap(browser, page, url, map.root);
    await refusedHolds(bench, browser, "failed NoAnswer ", "a server that lets no other site read");
    server.headers = headers;
}

/** A map that is refused later: the picture goes, and comes again where all is right. */
async function laterHolds(bench, browser, page, server, map) {
    const url = server.put(map.name, map.bytes);
    await openMap(browser, page, url, map.root);
    await zoomToRecords(browser);
    await browser.value("choose(now.picture.records[0])");
    server.trick = (response) => (send(response, 500, ""), true);
    await browser.value("now.map.nodes.clear(), fit(now.map.root.rect, 0.3)");
    await settled(browser);
    await refusedHolds(bench, browser, "failed Status ", "a server that fails later");
    server.trick = null;
    await browser.value("pan(5, 5)");
    await settled(browser);
    await scanHolds(bench, browser, map, "behind a refusal");
}

/** A hint where the map goes beyond all degrees there are, by the unit that is given. */
async function doubtHolds(bench, browser, page, server, map) {
    await openMap(browser, page, server.put(map.name, map.bytes), map.root, "1");
    await browser.value("at('given').open = true");
    await settled(browser);
    const rows = [
        ["1", "degrees", true], ["1e-7", "degrees", false], ["1e-6", "degrees", true],
        ["1", "metres", false], ["1", "units", false], ["1.8e-7", "degrees", true],
    ];
    for (const [unit, measure, isTold] of rows) {
        await browser.value(`at("measure").value = "${measure}"`);
        await browser.type("#unit", unit);
        const { line, state } = await browser.value(SEEN);
        const isSo = line.includes("Is the unit right?") === isTold && state === "accepted";
        bench.holds(isSo, `a map unit of ${unit} ${measure}: ${line}`);
    }
}

/** On a small page the card of a refusal is no larger than its room. */
async function smallHolds(bench, browser, page, server, map) {
    await browser.show(320, 568);
    await openMap(browser, page, server.put(map.name, map.bytes), "0".repeat(64));
    await refusedHolds(bench, browser, "refused map page 0 WrongRoot", "on a small page");
    const isWithin = await browser.value(`(() => {
        const [card, room] = ["refusal", "main"].map((id) => at(id).getBoundingClientRect());
        return card.top >= room.top && card.bottom <= room.bottom;
    })()`);
    bench.holds(isWithin, "the card of a refusal on a small page");
    await browser.show(...SIZE);
}

/** What is given that is no root digest, no address and no unit. */
async function wantingHolds(bench, browser, page, server, map) {
    const url = server.put(map.name, map.bytes);
    await openMap(browser, page, url, "abc");
    const told = await browser.value(SEEN);
    const isTold = told.state === "waiting" && told.line.startsWith("The root digest is no 64");
    bench.holds(isTold && told.isNone, `half a root: ${told.line}`);
    const wanting = [["#url", "ftp://x/y", "Give the address"], ["#unit", "0", "A map unit is"]];
    await browser.type("#root", map.root);
    for (const [field, word, line] of wanting) {
        await openMap(browser, page, url, map.root);
        await browser.value("at('given').open = true");
        await browser.type(field, word);
        await browser.value("at('open').click()");
        const seen = await browser.value(SEEN);
        bench.holds(seen.line.startsWith(line) && seen.isNone, `${field} ${word}: ${seen.line}`);
    }
}

/** Leaves that are bent: the overview is right, and what is near them is refused. */
async function bentLeavesHold(bench, browser, page, server, map) {
    const { bytes, page: leaf } = bentIn(map, 0);
    await openMap(browser, page, server.put("leaf", bytes), map.root);
    await scanHolds(bench, browser, map, "the whole of a bent map");
    const record = leaf * (map.version === 2 ? 8192 : 4096) + 2;
    const [x, y] = [8, 12].map((side) => map.bytes.readInt32BE(record + side));
    await browser.value(`fit([${x}, ${y}, ${x + 9}, ${y + 9}])`);
    await settled(browser);
    await refusedHolds(bench, browser, `refused map page ${leaf} Digest`, "a bent leaf");
}

/** Maps of few records, of none, and of more that were changed. */
async function littleHolds(bench, browser, page, server, program) {
    for (const count of [0, 1, 17]) {
        const lines = townLines(new Chance(3), count);
        fs.writeFileSync("little", lines.map((line) => `${line}\n`).join(""));
        const root = program.lines("build2", "little.map", "little").trim();
        const map = program.mapOf("little.map", root);
        await openMap(browser, page, server.put("little.map", map.bytes), root);
        await scanHolds(bench, browser, map, `a map of ${count} records`);
        await browser.value("canvas.focus()");
        for (const key of ["+", "ArrowLeft", "-", "Enter", "0"]) {
            await browser.key(key);
            await settled(browser);
        }
        await scanHolds(bench, browser, map, `a map of ${count} records, by keys`);
    }
}

/** From a disk; and what it asks for: its own files, and the address of the map. */
async function addressesHold(bench, browser, server, map, origins) {
    const isKnown = (url) => origins.some((origin) => url.startsWith(origin));
    const others = browser.asked.filter((url) => !isKnown(url) && url !== "http://127.0.0.1:1/m");
    bench.equal(String(others), "", "addresses that the page asks for");
    const asked = server.requests.filter(({ method }) => method !== "GET");
    bench.equal(asked.length, 0, "requests that ask before they ask");
    const disk = pathToFileURL(path.join(WEB, "map.html")).href;
    await openMap(browser, disk, server.url + map.name, map.root);
    await scanHolds(bench, browser, map, "the page from a disk");
    await browser.go(`${disk}?again#map=http://x.example/m&unit=0.01&of=metres&root=${map.root}`);
    const fields = "['url', 'unit', 'measure', 'root'].map((id) => at(id).value).join(' ')";
    const given = await browser.value(fields);
    bench.equal(given, "http://x.example/m 0.01 metres ", "what comes with the address");
    const metres = await browser.value("exact(-12345) + ' ' + rounded(-1234.56, 1)");
    bench.equal(metres, "−123.45 m −1,234.6 m", "coordinates in metres");
    const without = "Object.defineProperty(Crypto.prototype, 'subtle', { get: () => undefined })";
    await browser.go(`${disk}?without`, without);
    const trouble = await browser.value("at('trouble').innerText");
    bench.holds(/^This browser gives SHA-256 to no page/.test(trouble), `no SHA-256: ${trouble}`);
}

// ---- nginx

/** A port that is free. */
async function freePort() {
    const server = await new Server().start();
    const { port } = server.server.address();
    await server.stop();
    return port;
}

/** Starts nginx: for the page; for maps of another origin; and without ranges. */
async function startNginx(nginx, room) {
    const ports = [await freePort(), await freePort(), await freePort()];
    const [page, maps, bare] = ports.map((port) => `listen 127.0.0.1:${port}`);
    const header = "add_header Access-Control-Allow-Origin *";
    const temp = ["client_body", "proxy", "fastcgi", "uwsgi", "scgi"];
    fs.writeFileSync("nginx.conf", `worker_processes 1; daemon off; pid ${room}/nginx.pid;
error_log ${room}/error.log; events { worker_connections 256; }
http {
    types { text/html html; text/javascript js; }
    default_type application/octet-stream;
    access_log off; ${temp.map((one) => `${one}_temp_path ${room}/${one};`).join(" ")}
    server { ${page}; root ${WEB}; }
    server { ${maps}; root ${room}; ${header}; }
    server { ${bare}; root ${room}; ${header}; max_ranges 0; }
}
`);
    const user = process.getuid() === 0 ? ["-g", "user root;"] : [];
    const words = ["-p", room, "-c", path.join(room, "nginx.conf"), ...user];
    const running = child.spawn(nginx, words, { stdio: "ignore" });
    const [pages, there, without] = ports.map((port) => `http://127.0.0.1:${port}/`);
    for (let turn = 0; turn < 100; turn++) {
        if (await fetch(pages).then(() => true, () => false)) {
            break;
        }
        await pause(100);
    }
    return { running, pages, there, without };
}

/** The button saves of the records in view the program's proof, with the window in its name. */
async function savedHolds(bench, browser, program, map) {
    const [proof, name, window] = await browser.value(`(() => {
        const kept = [];
        giveOut = ([bytes], type, file) => kept.push(hexOf(bytes), file);
        at("save").click();
        return [...kept, now.picture.window];
    })()`);
    const isSame = program.proof("prove", map.name, `window:${window}`).toString("hex") === proof;
    const isNamed = name === `window_${window.join("_")}.proof`;
    bench.holds(isSame && isNamed, `the proof that is saved, version ${map.version}: ${name}`);
}

/** In Node, from nginx: proofs of a window, of the nearest and of a count are the program's. */
async function nodeHolds(bench, program, map, url, [x0, y0, x1, y1]) {
    const far = await new FarMap(url).open(map.root);
    const rows = [
        ["prove", `window:${x0},${y0},${x1},${y1}`, (word) => far.ask(word)],
        ["prove", `nearest:${x0},${y1},100`, (word) => far.ask(word)],
        ["count", `window:${x0},${y0},${x1},${y1}`, (word) => far.askCount(word)],
    ];
    for (const [command, word, ask] of rows.slice(0, map.version === 2 ? 3 : 2)) {
        const { accepted, proof } = await ask(word);
        const isSame = program.proof(command, map.name, word).equals(proof);
        const where = `nginx in Node, version ${map.version}: ${command} ${word}`;
        bench.holds(accepted && isSame, where);
    }
}

/** The page from nginx, on maps of other origins there; answers their addresses. */
async function nginxHolds(bench, browser, room, program, maps, nginx) {
    const { running, pages, there, without } = await startNginx(nginx, room);
    try {
        const page = `${pages}map.html`;
        for (const map of maps) {
            fs.writeFileSync(`${map.root}.map`, map.bytes);
            const url = `${there}${map.root}.map`;
            await openMap(browser, page, url, map.root);
            await scanHolds(bench, browser, map, `nginx, version ${map.version}`);
            await zoomToRecords(browser);
            await scanHolds(bench, browser, map, `nginx, version ${map.version}, zoomed`);
            await savedHolds(bench, browser, program, map);
            const top = await browser.value("canvas.getBoundingClientRect().top");
            await browser.drag([400, top + 200], [300, top + 260]);
            await settled(browser);
            const where = `nginx, version ${map.version}, dragged`;
            const { window } = await scanHolds(bench, browser, map, where);
            await nodeHolds(bench, program, map, url, window);
        }
        const [map] = maps;
        const size = map.version === 2 ? 8192 : 4096;
        fs.writeFileSync("cut.map", map.bytes.subarray(0, size));
        await openMap(browser, page, `${there}cut.map`, map.root);
        const root = map.bytes.readUInt32BE(26);
        await refusedHolds(bench, browser, `refused map page ${root} Outside`, "nginx, a cut file");
        await openMap(browser, page, `${without}${map.root}.map`, map.root);
        await refusedHolds(bench, browser, "failed NoRanges ", "nginx without ranges");
        fs.writeFileSync("empty.map", "");
        await openMap(browser, page, `${there}empty.map`, map.root);
        await refusedHolds(bench, browser, "refused map page 0 Size", "nginx, a file without bytes");
        await openMap(browser, page, `${there}none.map`, map.root);
        await refusedHolds(bench, browser, "failed NoAnswer ", "nginx, no such file");
        const { refusal } = await browser.value(SEEN);
        bench.holds(refusal.includes("may have no such file"), `what it means: ${refusal}`);
    } finally {
        running.kill();
    }
    return [pages, there, without];
}

/** Pictures of the page: of a whole map, and of records with one of which is told. */
async function shoot(browser, page, server, program, folder) {
    const map = townMap(program, 60000, 2);
    await browser.show(1000, 640);
    await openMap(browser, page, server.put(`${map.root}.map`, map.bytes), map.root);
    await browser.shoot(path.join(folder, "map-boxes.png"));
    const { rect: [x, y] } = map.records.find(({ layer }) => layer === 3);
    await browser.value(`fit([${[x - 400000, y - 250000, x + 400000, y + 250000]}])`);
    await settled(browser);
    const isIt = `(one) => one.rect[0] === ${x} && one.rect[1] === ${y}`;
    await browser.value(`choose(now.picture.records.find(${isIt}))`);
    await pause(300);
    await browser.shoot(path.join(folder, "map.png"));
}

async function main([name, nginx, folder]) {
    const bench = new Bench("the map in a page");
    const program = new Program(path.resolve(name));
    const room = fs.mkdtempSync(path.join(os.tmpdir(), "web-map-"));
    const [maps, pages] = [await new Server().start(), await new Server().start()];
    maps.headers = { "access-control-allow-origin": "*" };
    const scripts = ["check", "ask", "statement", "page"].map((part) => `mrtree_${part}.js`);
    for (const file of ["map.html", ...scripts]) {
        pages.put(file, fs.readFileSync(path.join(WEB, file)));
    }
    pages.headers = { "content-type": "text/html; charset=utf-8" };
    const page = `${pages.url}map.html`;
    const before = process.cwd();
    process.chdir(room);
    const browser = new Browser(find(), path.join(room, "profile"));
    try {
        await browser.open("about:blank#map");
        await browser.show(...SIZE);
        const [two, one] = [2, 1].map((version) => townMap(program, 8000, version));
        if (folder !== undefined) {
            await shoot(browser, page, maps, program, path.resolve(before, folder));
            return;
        }
        for (const map of [one, two]) {
            await tourHolds(bench, browser, page, maps, map);
        }
        await keysHold(bench, browser, two);
        await touchHolds(bench, browser, two);
        await clipHolds(bench, browser, page, maps, two);
        await littleHolds(bench, browser, page, maps, program);
        await refusalsHold(bench, browser, page, maps, two, one);
        await laterHolds(bench, browser, page, maps, two);
        await wantingHolds(bench, browser, page, maps, two);
        await doubtHolds(bench, browser, page, maps, two);
        await smallHolds(bench, browser, page, maps, two);
        await bentLeavesHold(bench, browser, page, maps, two);
        await atlasesHold(bench, browser, page, maps, program);
        bench.equal(String(browser.told), "", "failures in the page");
        const origins = [maps.url, pages.url, "about:"];
        if (nginx) {
            const all = [two, one];
            origins.push(...(await nginxHolds(bench, browser, room, program, all, nginx)));
        }
        await addressesHold(bench, browser, maps, two, origins);
    } finally {
        await browser.close();
        await Promise.all([maps.stop(), pages.stop()]);
        process.chdir(before);
        fs.rmSync(room, { recursive: true, force: true, maxRetries: 20, retryDelay: 250 });
    }
    bench.end();
}

main(process.argv.slice(2));
