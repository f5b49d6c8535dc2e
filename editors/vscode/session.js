// A session as VS Code holds one, with `example_toml`: the configuration is asked for, marks come, a text is edited with one caret and with
// two, requests are cancelled, progress and watched files are told. Then ids that are texts, and the ends of a session.
//   LSP_SERVER="program argument .." node editors/vscode/session.js
// Ends in status 1 where something is otherwise.
const { rpc, late, soon, until, note, ends, start, begin } = require('./client.js');

const uri = 'file:///project/prices.toml';
const textDocument = { uri };
const text = '"größe of one" = 1\r\napple = 3\r\n"größe" = { apple = 3, }\r\n"𝒙" = pear\r\n';
const long = Array.from({ length: 20000 }, (_, number) => `key_${number} = 1\n`).join('');
// Without one of these arguments a pool searches, and a search can be cancelled. With them it may be answered first.
const pooled = !/ (inline|threads)$/.test(process.env.LSP_SERVER || '');
const isRight = outcome => outcome === -32800 || (!pooled && outcome.length === 20000);

// (Behind a method of its own the library takes each argument for a part of the params, an absent token too.)
const ask = (server, method, params, ...token) => soon(server.connection.sendRequest(method, params, ...token).then(it => it, fault => fault.code));
const held = server => ask(server, 'toml/text', { textDocument });
const open = server => server.connection.sendNotification(rpc.DidOpenTextDocumentNotification.type,
  { textDocument: { uri, languageId: 'toml', version: 1, text } });
const change = (server, version, ...contentChanges) => server.connection.sendNotification(rpc.DidChangeTextDocumentNotification.type,
  { textDocument: { uri, version }, contentChanges });

// A place of a text as LSP counts it, where each line ends with `\n` or `\r\n`.
function position(kept, offset) {
  const before = kept.slice(0, offset).split('\n');
  return { line: before.length - 1, character: before[before.length - 1].length };
}

// Two carets, far from one another: VS Code tells the last change of a text first, so that none moves another.
async function twoCarets(server) {
  let kept = text, right = true, version = 10;
  const pieces = ['a', '😀', 'é\r\n', '', '"𝒙" = 1'];
  await change(server, version, { text });
  for (let step = 0; step < 200 && right; step += 1) {
    const lines = kept.split('\r\n');
    const starts = lines.map((_, at) => lines.slice(0, at).join('\r\n').length + (at ? 2 : 0));
    const [first, last] = [step % Math.floor(lines.length / 2), Math.floor(lines.length / 2) + step % Math.ceil(lines.length / 2)];
    const changes = [];
    for (const line of [last, first]) {
      const [start, end] = [starts[line], starts[line] + (/^[a-z ]/.test(lines[line]) ? 1 : 0)];
      const range = { start: position(kept, start), end: position(kept, end) };
      changes.push({ range, rangeLength: end - start, text: pieces[step % pieces.length] });
      kept = kept.slice(0, start) + pieces[step % pieces.length] + kept.slice(end);
    }
    await change(server, version += 1, ...changes);
    right = await held(server) === kept;
  }
  note('the text after each of 200 edits with two carets', right);
  await change(server, version + 1, { text });
}

async function session() {
  const server = await begin(start());
  const { connection } = server;
  note('it begins, and says what it can', server.result.capabilities && server.result.capabilities.hoverProvider);
  await connection.sendNotification('$/setTrace', { value: 'verbose' });
  await connection.sendNotification(rpc.DidChangeConfigurationNotification.type, { settings: { toml: { version: '1.1' } } });
  await open(server);
  note('a mark comes, and the setting allows the other', await until(() => (server.marks.get(uri) || []).length === 1));
  await connection.sendNotification(rpc.DidChangeWatchedFilesNotification.type, { changes: [{ uri, type: 2 }, { uri: uri + '2', type: 3 }] });
  const hover = await ask(server, rpc.HoverRequest.type, { textDocument, position: { line: 2, character: 12 } });
  note('a hover is answered', hover.contents.value === '"größe".apple: integer');
  await change(server, 2, { text: text.replace('pear', '1') });
  note('marks go', await until(() => (server.marks.get(uri) || [1]).length === 0));
  await twoCarets(server);

  const progress = [];
  connection.onProgress(rpc.WorkDoneProgress.type, 'work', value => progress.push(value.kind));
  const found = await ask(server, rpc.WorkspaceSymbolRequest.type, { query: 'one', workDoneToken: 'work', partialResultToken: 'part' });
  note('a key is found', found.length === 1 && found[0].name === '"größe of one"');
  note(`progress, if any, from begin to end (${progress.join(' ')})`, !progress.length || (progress[0] === 'begin' && progress.pop() === 'end'));

  await connection.sendNotification(rpc.DidOpenTextDocumentNotification.type,
    { textDocument: { uri: 'file:///project/long.toml', languageId: 'toml', version: 1, text: long } });
  const outcomes = await Promise.all(Array.from({ length: pooled ? 200 : 3 }, () => {
    const source = new rpc.CancellationTokenSource();
    const asked = ask(server, rpc.WorkspaceSymbolRequest.type, { query: 'key_' }, source.token);
    source.cancel();
    return asked;
  }));
  note(pooled ? '200 long requests that are cancelled get -32800' : '3 long requests are cancelled or answered', outcomes.every(isRight));
  await connection.sendNotification('$/cancelRequest', { id: 99999 });
  note('an unknown method gets -32601', await ask(server, 'demo/unknown', {}) === -32601);
  note('so does one with `$/`', await ask(server, '$/unknown', {}) === -32601);
  await connection.sendNotification(rpc.DidSaveTextDocumentNotification.type, { textDocument, text });
  await connection.sendNotification(rpc.DidCloseTextDocumentNotification.type, { textDocument });
  note('a text that is closed is not held', await held(server) === null);
  note('null to `shutdown`', await ask(server, rpc.ShutdownRequest.type) === null);
  await connection.sendNotification(rpc.ExitNotification.type);
  note('status 0', await soon(server.end) === 0);
  note('the library met no fault', server.errors.length === 0);
}

// The client's answer crosses its `shutdown`.
async function lateAnswer() {
  let give;
  const waits = new Promise(resolve => { give = resolve; });
  const server = await begin(start(), items => waits.then(() => items.map(() => null)));
  await late(200);
  const over = await ask(server, rpc.ShutdownRequest.type);
  give();
  await late(200);
  await server.connection.sendNotification(rpc.ExitNotification.type).catch(() => {});
  note('an answer behind `shutdown`: status 0', over === null && await soon(server.end) === 0);
}

async function badEnds() {
  let server = await begin(start());
  await server.connection.sendNotification(rpc.ExitNotification.type);
  note('`exit` without `shutdown`: status 1', await soon(server.end) === 1);
  server = await begin(start());
  server.connection.dispose();
  server.child.stdin.end();
  note('the input ends: status 1', await soon(server.end) === 1);
  server = await begin(start());
  await ask(server, rpc.ShutdownRequest.type);
  ask(server, 'toml/text', {});
  note('a request behind `shutdown`: status 1', await soon(server.end) === 1);
}

async function textIds() {
  const server = start();
  const [reader, writer] = server.streams;
  const came = [];
  reader.listen(message => came.push(message));
  const send = message => writer.write({ jsonrpc: '2.0', ...message });
  send({ id: 'first', method: 'initialize', params: { processId: null, rootUri: null, capabilities: {} } });
  await until(() => came.length > 0);
  send({ method: 'initialized', params: {} });
  send({ id: '1', method: 'toml/text', params: { textDocument } });
  send({ method: 'textDocument/didOpen', params: { textDocument: { uri, languageId: 'toml', version: 1, text: long } } });
  send({ id: 'größe', method: 'workspace/symbol', params: { query: 'key_' } });
  send({ method: '$/cancelRequest', params: { id: 'größe' } });
  send({ id: 'end', method: 'shutdown' });
  await until(() => came.some(message => message.id === 'end'));
  send({ method: 'exit' });
  const ids = came.filter(message => !message.method).map(message => message.id + (message.error ? ` error ${message.error.code}` : ''));
  note('ids that are texts come back', (ids.join(', ') === 'first, 1, größe error -32800, end' || (!pooled && ids.join(', ') === 'first, 1, größe, end')) && await soon(server.end) === 0);
}

session().then(lateAnswer).then(badEnds).then(textIds).then(ends);
