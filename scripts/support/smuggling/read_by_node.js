// A server of node that answers each request with what it has read, as support/smuggling/readings.py reads it.
// usage: node read_by_node.mjs PORT
import http from "node:http";
import process from "node:process";

const LONGEST_TOLD = 512;

const shortened = (bytes) =>
    bytes.length <= LONGEST_TOLD
        ? bytes
        : Buffer.concat([bytes.subarray(0, LONGEST_TOLD), Buffer.from(`..${bytes.length}`)]);

const server = http.createServer((request, response) => {
    const pieces = [];
    request.on("data", (piece) => pieces.push(piece));
    request.on("end", () => {
        const parts = [Buffer.from(request.method, "latin1"), Buffer.from(request.url, "latin1"), Buffer.concat(pieces)];
        const word = parts.map((part) => shortened(part).toString("hex")).join(".");
        const line = `READ ${word}\n`;
        response.writeHead(200, { "X-Read": word, "Content-Length": line.length });
        response.end(line);
    });
});
server.listen(Number(process.argv[2]), "127.0.0.1");
