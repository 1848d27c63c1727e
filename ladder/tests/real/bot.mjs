// A bot that walks round a square, on Node's own server: bot.mjs PORT HOST
import { createServer } from 'node:http';

const STEPS = ['up', 'left', 'down', 'right'];

createServer((request, response) => {
  const parts = [];
  request.on('data', (part) => parts.push(part));
  request.on('end', () => {
    let body = { apiversion: '1' };
    if (request.url.endsWith('/move')) {
      body = { move: STEPS[JSON.parse(Buffer.concat(parts)).turn % 4] };
    }
    response.writeHead(200, { 'Content-Type': 'application/json' });
    response.end(JSON.stringify(body)); // in chunks, since no length is given
  });
}).listen(Number(process.argv[2]), process.argv[3]);
