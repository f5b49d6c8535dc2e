// A client by VS Code's protocol library, which Debian has as `node-vscode-languageserver-protocol`.
const { spawn } = require('child_process');
const fs = require('fs');
const path = require('path');
const rpc = require('vscode-languageserver-protocol/node');

const PATIENCE = 60000;
// The program, from LSP_SERVER="program argument ..".
const command = (process.env.LSP_SERVER || 'crates/example_toml/out/example_toml').split(' ');

// What VS Code sends to begin with, as a recorded session has it.
const recording = path.join(__dirname, '../../tests/recordings/vscode_gopls016.lsp');
const { params } = JSON.parse(fs.readFileSync(recording, 'utf8').split('\n')[0].slice(3));
params.processId = process.pid;

// Once the server has gone, the library throws at a send.
process.on('uncaughtException', fault => { if (fault.code !== 'EPIPE') throw fault; });
process.on('unhandledRejection', () => {});

const late = (ms, value) => new Promise(give => setTimeout(() => give(value), ms));
const soon = promise => Promise.race([promise, late(PATIENCE, 'late')]);

async function until(holds) {
  for (let waited = 0; waited < PATIENCE && !holds(); waited += 10) await late(10);
  return holds();
}

let good = true;
function note(what, holds) {
  good = good && Boolean(holds);
  console.log(`${what}: ${holds ? 'yes' : 'NO'}`);
}

function ends() {
  console.log(good ? 'as it should be' : 'NOT as it should be');
  process.exit(good ? 0 : 1);
}

// Starts the program with these words behind its own.
function start(words = []) {
  const child = spawn(command[0], [...command.slice(1), ...words], { stdio: 'pipe' });
  const server = { child, said: '' };
  server.end = new Promise(give => child.on('exit', (code, signal) => give(signal || code)));
  child.stdin.on('error', () => {});
  child.stderr.on('data', piece => { server.said += piece; });
  server.streams = [new rpc.StreamMessageReader(child.stdout), new rpc.StreamMessageWriter(child.stdin)];
  return server;
}

// Begins a session over these streams. `answer` gives the result of the server's requests for the configuration.
async function begin(server, answer = items => items.map(() => ({ version: '1.1' }))) {
  Object.assign(server, { marks: new Map(), told: [], errors: [] });
  const connection = server.connection = rpc.createProtocolConnection(...server.streams);
  connection.onError(fault => server.errors.push(fault));
  connection.onNotification(rpc.PublishDiagnosticsNotification.type, told => server.marks.set(told.uri, told.diagnostics));
  connection.onNotification(rpc.LogMessageNotification.type, told => server.told.push(told.message));
  connection.onRequest(rpc.ConfigurationRequest.type, asked => answer(asked.items));
  connection.listen();
  server.result = await soon(Promise.race([connection.sendRequest(rpc.InitializeRequest.type, params), server.end]));
  await connection.sendNotification(rpc.InitializedNotification.type, {});
  return server;
}

module.exports = { rpc, late, soon, until, note, ends, start, begin };
