'use strict';
// Starts the language server of nagdrez for TypeScript: that of the workspace's node_modules, or the one that the setting `nagdrez.path` names.
const fs = require('fs');
const path = require('path');
const { window, workspace } = require('vscode');
const { LanguageClient, TransportKind } = require('vscode-languageclient/node');

let client;

/** The command of the server; null where there is none. */
function commandOf() {
  const named = workspace.getConfiguration('nagdrez').get('path');
  if (named) return named;
  const folders = (workspace.workspaceFolders || []).map(({ uri }) => path.join(uri.fsPath, 'node_modules', '.bin', 'nagdrez'));
  return folders.find((each) => fs.existsSync(each)) || null;
}

async function activate() {
  const command = commandOf();
  if (!command) {
    window.showInformationMessage('nagdrez is not installed: npm install --save-dev nagdrez typescript, or set nagdrez.path');
    return;
  }
  const documentSelector = ['typescript', 'typescriptreact'].map((language) => ({ scheme: 'file', language }));
  const synchronize = { configurationSection: 'nagdrez', fileEvents: workspace.createFileSystemWatcher('**/*.{ts,tsx,mts,cts,json,jsonc,yaml}') };
  const { allow, rules } = workspace.getConfiguration('nagdrez');
  client = new LanguageClient('nagdrez', 'nagdrez', { command, args: ['lsp'], transport: TransportKind.stdio }, { documentSelector, synchronize, initializationOptions: { allow, rules } });
  await client.start();
}

function deactivate() {
  return client ? client.stop() : undefined;
}

module.exports = { activate, deactivate };
