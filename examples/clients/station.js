#!/usr/bin/env node
'use strict';

const HELP = `A charging station that loses its connection in the middle of a transaction.

    station.js [--transaction ID] [--start TIME] URL STATION
    station.js --start 2026-03-01T10:00:00Z ws://127.0.0.1:9000/ocpp CS-01

It connects to URL/STATION with the subprotocol ocpp2.0.1, boots, and charges for 70 minutes, with
TransactionEvents ten minutes apart. After the fourth the network fails before the reply is there, and
the next two are queued. On a new connection the one without a reply is sent again, then the queued ones
with \`offline\` set, and the rest as it comes. Every reply is printed as it was received.

Left out, the transaction's id is a new one, and charging began 70 minutes ago. Two connections are made,
so the server is to be started with \`--connections 2\` for each station. It needs the package ws (Debian:
node-ws; a Node that is not Debian's finds it with NODE_PATH=/usr/share/nodejs).`;

const { randomUUID } = require('node:crypto');
const { once } = require('node:events');
const { parseArgs } = require('node:util');
let WebSocket; // The package ws, once the words are read.

// A TransactionEventRequest, ten minutes after the one before, at 7.2 kW (1200 Wh in ten minutes).
function transactionEvent(session, seqNo, eventType, triggerReason, more = {}) {
  const timestamp = new Date(session.start + seqNo * 600_000).toISOString();
  const context = { Started: 'Transaction.Begin', Ended: 'Transaction.End' }[eventType] ?? 'Sample.Periodic';
  const register = { value: 1000 + 1200 * seqNo, context, unitOfMeasure: { unit: 'Wh' },
    measurand: 'Energy.Active.Import.Register' };
  const { info, ...others } = more;
  return { eventType, timestamp, triggerReason, seqNo, offline: false,
    transactionInfo: { transactionId: session.transaction, ...info },
    meterValue: [{ timestamp, sampledValue: [register] }], ...others };
}

async function connect(url) {
  const socket = new WebSocket(url, 'ocpp2.0.1');
  await once(socket, 'open');
  return socket.on('error', () => {}); // A close event follows.
}

// Sends a CALL, and gives its message id; `written` is called when it is on its way.
function send(socket, action, payload, written) {
  const id = randomUUID();
  socket.send(JSON.stringify([2, id, action, payload]), written);
  return id;
}

// Sends a CALL and waits for its reply, which must be a CALLRESULT.
async function call(socket, action, payload) {
  const id = send(socket, action, payload);
  const reply = await new Promise((resolve, reject) => {
    const closed = (code) => reject(new Error(`closed with code ${code}`));
    socket.once('close', closed);
    socket.once('message', (text) => { socket.off('close', closed); resolve(text.toString()); });
  });
  console.log(action, payload.seqNo ?? '', reply);
  const [type, replied] = JSON.parse(reply);
  if (type !== 3 || replied !== id) throw new Error('refused');
}

// Charges once, over two connections.
async function charge(url, session) {
  const idToken = { idToken: '04E1A2B3', type: 'ISO14443' };
  const event = (...parts) => transactionEvent(session, ...parts);
  let socket = await connect(url);
  await call(socket, 'BootNotification',
    { reason: 'PowerUp', chargingStation: { vendorName: 'Example', model: 'One' } });
  await call(socket, 'TransactionEvent', event(0, 'Started', 'Authorized',
    { idToken, evse: { id: 1, connectorId: 1 }, info: { chargingState: 'EVConnected' } }));
  await call(socket, 'TransactionEvent', event(1, 'Updated', 'ChargingStateChanged',
    { info: { chargingState: 'Charging' } }));
  await call(socket, 'TransactionEvent', event(2, 'Updated', 'MeterValuePeriodic'));
  const unanswered = event(3, 'Updated', 'MeterValuePeriodic');
  await new Promise((written) => send(socket, 'TransactionEvent', unanswered, written));
  socket.terminate(); // The network fails.
  const queue = [4, 5].map((seqNo) => event(seqNo, 'Updated', 'MeterValuePeriodic', { offline: true }));
  socket = await connect(url);
  for (const payload of [unanswered, ...queue]) await call(socket, 'TransactionEvent', payload);
  await call(socket, 'TransactionEvent', event(6, 'Updated', 'MeterValuePeriodic'));
  await call(socket, 'TransactionEvent', event(7, 'Ended', 'StopAuthorized',
    { idToken, info: { chargingState: 'EVConnected', stoppedReason: 'Local' } }));
  socket.close(1000);
}

// The words, or what is wrong with them.
function readWords() {
  const options = { help: { type: 'boolean', short: 'h' }, transaction: { type: 'string' }, start: { type: 'string' } };
  const { values, positionals } = parseArgs({ options, allowPositionals: true });
  if (!values.help && positionals.length !== 2) throw new Error('a URL and a station are needed');
  const start = values.start ? Date.parse(values.start) : Date.now() - 70 * 60_000;
  if (Number.isNaN(start)) throw new Error(`--start is no time: ${values.start}`);
  return { help: values.help, url: positionals.join('/'),
    session: { transaction: values.transaction ?? randomUUID(), start } };
}

function end(status, text) {
  console.error(`station.js: ${text}`);
  process.exit(status);
}

function main() {
  let words;
  try {
    words = readWords();
  } catch (fault) {
    end(2, `${fault.message}; station.js --help says more`);
  }
  if (words.help) {
    console.log(HELP);
    return;
  }
  try {
    WebSocket = require('ws');
  } catch {
    end(1, 'there is no package ws (Debian: apt-get install node-ws; elsewhere: npm install ws; a Node that is not ' +
      "Debian's finds Debian's package with NODE_PATH=/usr/share/nodejs)");
  }
  charge(words.url, words.session).catch((fault) => end(1, String(fault)));
}

main();
