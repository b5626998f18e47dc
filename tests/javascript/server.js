"use strict";
/** A file server of the tests: files in memory, by ranges, and what a server does that errs. */

const http = require("http");

/**
 * Serves the bytes in `files`, by name; `trick` may answer in its place. `most` is how many requests
 * were under way at once.
 */
class Server {
    constructor() {
        Object.assign(this, { files: new Map(), trick: null, requests: [], headers: {}, url: "" });
        Object.assign(this, { atOnce: 0, most: 0 });
        this.server = http.createServer((request, response) => this.take(request, response));
        this.server.on("clientError", (error, socket) => socket.destroy());
        this.links = new Set();
        this.server.on("connection", (link) => {
            this.links.add(link);
            link.on("close", () => this.links.delete(link));
        });
    }

    /** Listens, at a port of its own; `url` is where the files are. */
    async start() {
        await new Promise((done) => this.server.listen(0, "127.0.0.1", done));
        this.url = `http://127.0.0.1:${this.server.address().port}/`;
        return this;
    }

    /** The address of a file, which has these bytes. */
    put(name, bytes) {
        this.files.set(name, bytes);
        return this.url + name;
    }

    /** Answers a request for a part of a file; a trick may put it off, and then it is late. */
    take(request, response, isLate = false) {
        const name = decodeURIComponent(request.url.slice(1).split("?")[0]);
        const bytes = this.files.get(name);
        const range = /^bytes=([0-9]+)-([0-9]+)$/.exec(request.headers.range ?? "");
        this.requests.push({ name, range: request.headers.range, method: request.method });
        response.on("error", () => {});
        if (!isLate) {
            this.atOnce += 1;
            this.most = Math.max(this.most, this.atOnce);
            response.on("close", () => (this.atOnce -= 1));
        }
        Object.entries(this.headers).forEach(([key, value]) => response.setHeader(key, value));
        const [start, end] = range === null ? [0, Infinity] : [Number(range[1]), Number(range[2])];
        const given = { name, bytes, start, end, request, isLate };
        if (this.trick === null || !this.trick(response, given)) {
            answer(response, given);
        }
    }

    /** Ends, with all that is connected. */
    async stop() {
        const ended = new Promise((done) => this.server.close(done));
        this.links.forEach((link) => link.destroy());
        await ended;
    }
}

/** Answers as a server should. */
function answer(response, { bytes, start, end, request }) {
    if (bytes === undefined) {
        return send(response, 404, "no such file\n");
    }
    if (request.headers.range === undefined) {
        return send(response, 200, bytes);
    }
    if (start >= bytes.length || end < start) {
        return send(response, 416, "", { "content-range": `bytes */${bytes.length}` });
    }
    const part = bytes.subarray(start, end + 1);
    send(response, 206, part, rangeOf(start, part.length, bytes.length));
}

/** The header that tells which part of a file is sent. */
function rangeOf(start, length, total) {
    return { "content-range": `bytes ${start}-${start + length - 1}/${total}` };
}

/** Sends a whole answer. */
function send(response, status, body, headers = {}) {
    response.writeHead(status, { "content-length": Buffer.byteLength(body), ...headers });
    response.end(body);
}

module.exports = { Server, send, rangeOf };
