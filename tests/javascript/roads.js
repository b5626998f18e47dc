"use strict";
/**
 * Both pages in headless Chromium on an atlas that stands on a server already: map.html draws in
 * views the records that were foretold, and verify.html lists them.
 *
 * usage: node roads.js ADDRESS ROOT FORETOLD     FORETOLD is a file of JSON: a list of { window,
 *     around, lines }. The view of a window lies in a larger one, `around`, and of all records that
 *     meet that one these are the lines.
 */

const fs = require("fs");
const os = require("os");
const path = require("path");
const { WEB, Bench } = require("./bench.js");
const { Browser, find, pause } = require("./chromium.js");
const { Server } = require("./server.js");
const client = require(path.join(WEB, "mrtree_check.js"));

const SIZE = [800, 640]; // of the page
const MOST_ROWS = 1000; // of the table in verify.html
const PAGES = ["map.html", "verify.html"];
const SCRIPTS = ["check", "ask", "statement", "page"].map((part) => `mrtree_${part}.js`);

/** What map.html shows: of each record its line, and what is painted in its middle. */
const SEEN = `(() => {
    draw();
    const { picture } = now;
    const colour = (x, y) => {
        const place = [x, y].map((side) => Math.floor(side * devicePixelRatio));
        return String(pen.getImageData(...place, 1, 1).data);
    };
    const records = picture?.records?.map((one) => {
        const [x, y, wide, high] = boxOf(one.rect);
        const middle = [Math.min(Math.max(x + wide / 2, 0), now.wide - 1),
            Math.min(Math.max(y + high / 2, 0), now.high - 1)];
        return { line: lineOf(one, picture.version), rect: one.rect, paint: colour(...middle) };
    });
    const bare = document.createElement("canvas").getContext("2d");
    bare.fillStyle = colours.paper;
    bare.fillRect(0, 0, 1, 1);
    return {
        records, window: picture?.window, view: windowOf(0), boxes: picture?.boxes?.length,
        state: at("status").dataset.state, line: at("line").textContent,
        paper: String(bare.getImageData(0, 0, 1, 1).data),
    };
})()`;

/** What verify.html shows. */
const VERDICT = `({ line: at("verdict").textContent,
    numbers: [...at("answer").tBodies[0].rows].map((row) => row.cells[0].textContent) })`;

/** Waits until map.html has a verdict on what is seen. */
async function settled(browser) {
    await pause(60);
    const isSo = "timer === null && asked === null && at('status').dataset.state !== 'waiting'";
    await browser.until(isSo);
}

/** The lines of records that meet a window. */
function meeting(lines, window) {
    return lines.filter((line) => client.meet(line.split(" ").slice(1, 5).map(Number), window));
}

/** How many records there are, in words. */
function counted(count) {
    return `${count} ${count === 1 ? "record" : "records"}`;
}

/** A line without the commas in its numbers. */
function plain(line) {
    return line.replace(/,(?=[0-9])/g, "");
}

/** A view of map.html: records are those foretold, each is painted, and the line tells how many. */
async function viewHolds(bench, browser, { window, around, lines }) {
    const where = `map.html, window:${window}`;
    await browser.value(`fit([${window}])`);
    await settled(browser);
    const told = await browser.value(SEEN);
    bench.equal(told.state, "accepted", `${where}: ${told.line}`);
    bench.holds(client.within(told.window, around), `${where}: foretold is ${around}`);
    const shown = (told.records ?? []).map(({ line }) => line).join("\n");
    bench.equal(shown, meeting(lines, told.window).join("\n"), `${where}: the records`);
    const inView = meeting(lines, told.view).length;
    const count = `${counted(inView)} in view, of an atlas of `;
    bench.holds(plain(told.line).startsWith(count), `${where}: ${told.line}`);
    const painted = (told.records ?? []).filter(({ rect }) => client.within(rect, told.view));
    const isBare = ({ paint }) => paint === told.paper;
    bench.holds(!painted.some(isBare), `${where}: ${painted.filter(isBare).length} not painted`);
    return painted.length;
}

/** The whole atlas in map.html is boxes; then come the views. */
async function mapHolds(bench, browser, page, [address, root], foretold) {
    await browser.go(`${page}#unit=1e-7&of=degrees`);
    await browser.type("#root", root);
    await browser.type("#url", address);
    await browser.value("at('open').click()");
    await settled(browser);
    const { state, boxes, line } = await browser.value(SEEN);
    bench.holds(state === "accepted" && boxes > 0, `map.html, the whole: ${line}`);
    let painted = 0;
    for (const one of foretold) {
        painted += await viewHolds(bench, browser, one);
    }
    bench.holds(painted > 0, "map.html: no record was painted in any view");
    return painted;
}

/** verify.html asks the atlas by its address, and lists what was foretold. */
async function listHolds(bench, browser, page, [address, root], foretold) {
    await browser.go(page);
    for (const { window, lines } of foretold) {
        const fields = { "#root": root, "#query": `window:${window}`, "#url": address };
        for (const [field, word] of Object.entries(fields)) {
            await browser.type(field, word);
        }
        await browser.value("at('ask').click()");
        await browser.until("at('verdict').dataset.state !== 'waiting'");
        const told = await browser.value(VERDICT);
        const meant = meeting(lines, window).map((line) => line.split(" ")[0]);
        const where = `verify.html, window:${window}`;
        const accepted = `accepted: ${counted(meant.length)} of an atlas, at batch `;
        bench.holds(plain(told.line).startsWith(accepted), `${where}: ${told.line}`);
        bench.equal(String(told.numbers), String(meant.slice(0, MOST_ROWS)), `${where}: its table`);
    }
}

async function main([address, root, name]) {
    const bench = new Bench("pages on an atlas");
    const foretold = JSON.parse(fs.readFileSync(name, "utf8"));
    const room = fs.mkdtempSync(path.join(os.tmpdir(), "web-roads-"));
    const pages = await new Server().start();
    for (const file of [...PAGES, ...SCRIPTS]) {
        pages.put(file, fs.readFileSync(path.join(WEB, file)));
    }
    pages.headers = { "content-type": "text/html; charset=utf-8" };
    const browser = new Browser(find(), path.join(room, "profile"));
    try {
        await browser.open("about:blank#roads");
        await browser.show(...SIZE);
        const atlas = [address, root];
        const [map, verify] = PAGES.map((page) => pages.url + page);
        const painted = await mapHolds(bench, browser, map, atlas, foretold);
        await listHolds(bench, browser, verify, atlas, foretold);
        bench.equal(String(browser.told), "", "failures in the pages");
        console.log(`tests/web: ${foretold.length} views, in which ${painted} records are painted`);
    } finally {
        await browser.close();
        await pages.stop();
        fs.rmSync(room, { recursive: true, force: true, maxRetries: 20, retryDelay: 250 });
    }
    bench.end();
}

main(process.argv.slice(2));
