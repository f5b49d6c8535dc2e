// Starts a server with the words that `vscode-languageclient` gives it: over standard streams, and over a socket or a pipe at which the client
// listens. Each time a session is held, and its status is 0.
//   LSP_SERVER="program argument .." node editors/vscode/starts.js
// Ends in status 1 where it is otherwise. No word of a script such as `tap.py` may stand before the program.
const net = require('net');
const os = require('os');
const path = require('path');
const { rpc, late, soon, note, ends, start, begin } = require('./client.js');

// A place at which the client listens, and the streams of the program that connects there.
async function listen(place) {
  let give;
  const came = new Promise(resolve => { give = resolve; });
  const listener = net.createServer(give);
  await new Promise(done => listener.listen(place, done));
  return { listener, port: listener.address().port, came };
}

async function holds(words, listening) {
  const server = start(words);
  if (listening) {
    const socket = await Promise.race([listening.came, server.end.then(() => null)]);
    if (!socket) return false;
    server.streams = [new rpc.SocketMessageReader(socket), new rpc.SocketMessageWriter(socket)];
  }
  await begin(server);
  await soon(server.connection.sendRequest(rpc.ShutdownRequest.type));
  await server.connection.sendNotification(rpc.ExitNotification.type);
  const status = await soon(server.end);
  if (listening) listening.listener.close();
  return Boolean(server.result.capabilities) && status === 0;
}

async function main() {
  const id = `--clientProcessId=${process.pid}`;
  for (const words of [[], ['--stdio'], ['--stdio', id], [id]]) note(`words \`${words.join(' ')}\``, await holds(words));
  const socket = await listen({ host: '127.0.0.1', port: 0 });
  note('`--socket=PORT`', await holds([`--socket=${socket.port}`], socket));
  const name = path.join(os.tmpdir(), `client.${process.pid}`);
  note('`--pipe=NAME`', await holds([`--pipe=${name}`], await listen(name)));
  const refused = start(['--node-ipc']);
  note('`--node-ipc` is refused, with a line that says why', await soon(refused.end) === 1 && /--node-ipc/.test(refused.said));
  await late(0);
  ends();
}

main();
