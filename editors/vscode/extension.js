// VS Code starts a server from an extension: this one, with package.json beside it. docs/EDITORS.md says how to run it. Not tried in VS Code
// itself: session.js and starts.js try the library below it.
const { LanguageClient } = require('vscode-languageclient/node');
let client;
exports.activate = () => {
  client = new LanguageClient('toml', 'TOML', { command: '/path/to/example_toml' },
    { documentSelector: [{ language: 'toml' }], synchronize: { configurationSection: 'toml' } });
  return client.start();
};
exports.deactivate = () => client && client.stop();
