"use strict";
/**
 * The pages clients/web/verify.html and map.html in headless Chromium, with statements: what they
 * take from one, what does not go with it, bent ones, an ended root, and a time that is over.
 *
 * usage: node stated.js PROGRAM
 */

const fs = require("fs");
const os = require("os");
const path = require("path");
const { pathToFileURL } = require("url");
const { EXAMPLES, WEB, Bench } = require("./bench.js");
const { Browser, find, pause } = require("./chromium.js");
const { Server } = require("./server.js");
const { Program } = require("./maps.js");
const { rowsOf } = require("./statements.js");

const WINDOW = "window:133700000,525100000,133800000,525200000";
const PROOF = path.join(EXAMPLES, "places-window.proof");
const PLACES = "b136e9ea66645cc4c87feaf0addfecbc0d52bd619bc06f05e004ff35cbfaff04";
const FIELDS = "['root', 'unit', 'measure', 'url'].map((id) => at(id).value).join(' ')";
const AMISS = "[...document.querySelectorAll('#said .amiss')].map((one) => one.textContent).join()";

/** The text of a statement of the sample, with other values; none of those that are null. */
function textOf(values = {}) {
    const lines = {
        ...{ map: "places of Berlin", root: PLACES, version: 1, batch: 0, records: 4 },
        ...{ unit: "1e-7", crs: "EPSG:4326", axes: "longitude latitude", numbers: "keys" },
        ...{ payload: "text name", from: "2026-12-01", until: "2036-12-01", ended: "none" },
        ...values,
    };
    const there = Object.entries(lines).filter(([, value]) => value !== null);
    return there.map(([key, value]) => `${key}: ${value}\n`).join("");
}

/** Both pages, in one browser. */
class Pages {
    constructor(bench, browser, room) {
        Object.assign(this, { bench, browser, room, count: 0 });
    }

    /** Gives a page a statement with these values, or this text. */
    async state(values, text = textOf(values)) {
        this.count += 1;
        const name = path.join(this.room, `${this.count}.statement`);
        fs.writeFileSync(name, text);
        await this.browser.choose("#statement", name);
        await this.browser.until(`at('said').dataset.file === '${this.count}.statement'`);
    }

    /** The verdict of verify.html, once there is one: { state, line, rows }. */
    async verdict() {
        await this.browser.until("at('verdict').dataset.state !== 'waiting'");
        return this.browser.value(`({ state: at("verdict").dataset.state,
            line: at("verdict").textContent, rows: at("answer").tBodies[0].rows.length,
            isShown: !at("result").hidden })`);
    }

    /** Holds that a statement with these values is refused beside the sample's proof. */
    async refuses(values, start) {
        await this.state(values);
        const { state, line, isShown } = await this.verdict();
        const isSo = state === "refused" && line.startsWith(start) && !isShown;
        this.bench.holds(isSo, `${JSON.stringify(values)}: ${line}`);
    }
}

/** The table of statements, read in the page. */
async function tableHolds({ bench, browser }) {
    const rows = rowsOf();
    const texts = JSON.stringify(rows.map(({ text }) => text.toString("base64")));
    const told = await browser.value(`Promise.all(${texts}.map(async (text) => {
        const bytes = Uint8Array.from(atob(text), (sign) => sign.charCodeAt(0));
        try {
            const one = await statementIn(new File([bytes], "a.statement"));
            return [one.root, one.unit, String(one.batch), one.payload].join();
        } catch (error) {
            return error.line ?? String(error);
        }
    }))`);
    for (const [at, { line, told: meant }] of rows.entries()) {
        const said = meant[0] === "{" ? JSON.parse(meant) : null;
        const short = said && [said.root, said.unit, said.batch, said.payload].join();
        bench.equal(told[at], short ?? meant, `statements.tsv line ${line}, in the page`);
    }
}

/** What the page that checks takes from a statement, and what it refuses beside one. */
async function checksHold(pages) {
    const { bench, browser, room } = pages;
    await pages.state({ address: "https://example.org/maps/places.map" });
    const meant = `${PLACES} 1e-7 degrees https://example.org/maps/places.map`;
    bench.equal(await browser.value(FIELDS), meant, "the fields");
    bench.equal(await browser.value("at('property').value"), "name", "the payload's property");
    bench.equal(await browser.value("at('root').readOnly"), true, "the root may be changed");
    await browser.type("#query", "13.37 52.51 13.38 52.52");
    await browser.drop(PROOF);
    const { state, rows } = await pages.verdict();
    bench.equal(`${state} ${rows}`, "accepted 2", "the sample by a statement");
    await pages.refuses({ batch: 1 }, "refused OtherBatch ");
    await pages.refuses({ version: 2 }, "refused OtherVersion ");
    await pages.refuses({ records: 5 }, "refused OtherCount ");
    await pages.refuses({ payload: "digest" }, "refused OtherPayload ");
    await pages.refuses({ payload: "key", numbers: null, keys: "id" }, "refused OtherKey ");
    await pages.refuses({ root: "00".repeat(32) }, "refused WrongRoot ");
    await pages.refuses({ root: "00".repeat(32), ended: PLACES }, "refused EndedRoot ");
    await pages.refuses({ batch: "x" }, "bad statement 4 Value batch");
    bench.holds((await browser.value(AMISS)).includes("a whole number"), "a bent one is not told");
    await pages.refuses({ map: null }, "bad statement 13 Missing map");
    await pages.state({ from: "2001-01-01", until: "2001-01-02" });
    const late = await pages.verdict();
    const isTold = (await browser.value(AMISS)).includes("was to come until 2001-01-02");
    bench.holds(late.state === "accepted" && isTold, `a time that is over: ${late.line}`);
    await pages.state({ crs: "EPSG:25833", axes: "east north" });
    bench.equal(await browser.value("at('measure').value"), "metres", "a grid is in metres");
    await pages.verdict();
    await browser.value("at('save').click()");
    await savedHolds(bench, path.join(room, "answer.geojson"));
    await browser.value("at('forget').click()");
    await browser.until("at('said').childElementCount === 0");
    bench.equal(await browser.value("at('root').readOnly"), false, "the root without a statement");
}

/** A saved answer says its coordinate system, and has the names of the statement. */
async function savedHolds(bench, file) {
    for (let turn = 0; turn < 100 && !fs.existsSync(file); turn++) {
        await pause(100);
    }
    const { crs, features } = JSON.parse(fs.readFileSync(file, "utf8"));
    bench.equal(crs?.properties.name, "urn:ogc:def:crs:EPSG::25833", "its coordinate system");
    bench.equal(features[1].properties.name, "Reichstag", "its payload");
}

/** What the page that is a map takes from a statement, and what it refuses beside one. */
async function mapHolds(pages, program, server) {
    const { bench, browser, room } = pages;
    const file = path.join(room, "layered.map");
    fs.writeFileSync(path.join(room, "r"), "1 10 10 10 10 0 -\n2 20 20 20 20 7 61\n");
    const root = program.lines("build2", file, path.join(room, "r")).trim();
    const url = server.put("layered.map", fs.readFileSync(file));
    const right = { root, version: 2, records: 2, address: url, layers: "0 houses, 7 roads" };
    const opened = async () => {
        await browser.value("document.querySelector('#open').click()");
        const state = "at('status').dataset.state";
        await browser.until(`${state} !== 'waiting'`);
        return browser.value(`${state} + " " + at("line").textContent`);
    };
    await pages.state(right);
    bench.equal(await browser.value(FIELDS), `${root} 1e-7 degrees ${url}`, "the map's fields");
    const line = await opened();
    bench.holds(line.startsWith("accepted 2 records in view"), `the map by a statement: ${line}`);
    const names = await browser.value("at('layers').textContent");
    bench.equal(names, "housesroads", "the names of layers");
    for (const [values, start] of [
        [{ ...right, batch: 1 }, "refused refused OtherBatch "],
        [{ ...right, records: 3 }, "refused refused OtherCount "],
        [{ ...right, root: PLACES }, "refused refused map page 0 WrongRoot"],
        [{ ...right, root: PLACES, ended: root }, "refused refused EndedRoot "],
    ]) {
        await pages.state(values);
        const told = await opened();
        bench.holds(told.startsWith(start), `${JSON.stringify(values)}: ${told}`);
    }
    await pages.state({ ...right, unit: "x" });
    await browser.value("document.querySelector('#open').click()");
    bench.equal(await browser.value("at('line').textContent"), "The statement is refused.", "bent");
    await pages.state({ ...right, from: "2001-01-01", until: "2001-01-02" });
    const isTold = (await browser.value(AMISS)).includes("was to come until 2001-01-02");
    bench.holds(isTold, "a time that is over is not told by the map");
    await browser.show(360, 740);
    const wide = await browser.value("document.documentElement.scrollWidth");
    bench.holds(wide <= 360, `the map with a statement is ${wide} pixels wide`);
    await browser.show(1000, 1200);
}

async function main([name]) {
    const bench = new Bench("the pages with a statement");
    const program = new Program(path.resolve(name));
    const room = fs.mkdtempSync(path.join(os.tmpdir(), "web-stated-"));
    const server = await new Server().start();
    server.headers = { "access-control-allow-origin": "*" };
    const browser = new Browser(find(), path.join(room, "profile"));
    const pages = new Pages(bench, browser, room);
    try {
        await browser.open(pathToFileURL(path.join(WEB, "verify.html")).href);
        await browser.call("Page.setDownloadBehavior", { behavior: "allow", downloadPath: room });
        await tableHolds(pages);
        await checksHold(pages);
        await browser.go(pathToFileURL(path.join(WEB, "map.html")).href);
        await mapHolds(pages, program, server);
        bench.equal(String(browser.told), "", "failures in the pages");
    } finally {
        await browser.close();
        await server.stop();
        fs.rmSync(room, { recursive: true, force: true, maxRetries: 20, retryDelay: 250 });
    }
    bench.end();
}

main(process.argv.slice(2));
