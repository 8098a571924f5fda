// The language server of BibTeX, proved, for VS Code. It speaks the protocol itself, so it needs no other package and no build.
"use strict";

const { spawn } = require("child_process");
const vscode = require("vscode");

const LANGUAGES = ["btx-style", "bibtex", "latex", "tex", "btx-aux"];
const SEVERITIES = [vscode.DiagnosticSeverity.Error, vscode.DiagnosticSeverity.Warning, vscode.DiagnosticSeverity.Information, vscode.DiagnosticSeverity.Hint];

// ---- messages ----

class Client {
  constructor(command, onNotice) {
    this.onNotice = onNotice;
    this.waiting = Buffer.alloc(0);
    this.asked = new Map();
    this.number = 0;
    const environment = { ...process.env, PYTHONSAFEPATH: "1" };
    this.server = spawn(command[0], command.slice(1), { env: environment, stdio: ["pipe", "pipe", "ignore"] });
    this.server.stdout.on("data", (data) => this.take(data));
    this.server.stdin.on("error", () => this.end());
    this.server.on("error", (error) => {
      this.end();
      vscode.window.showErrorMessage(`btx: ${command[0]} can't be started: ${error.message}`);
    });
    this.server.on("exit", () => this.end());
  }

  end() {
    this.isEnded = true;
    for (const done of this.asked.values()) {
      done({ result: null });
    }
    this.asked.clear();
  }

  send(message) {
    if (this.isEnded) {
      return;
    }
    const body = Buffer.from(JSON.stringify({ jsonrpc: "2.0", ...message }));
    this.server.stdin.write(Buffer.concat([Buffer.from(`Content-Length: ${body.length}\r\n\r\n`), body]));
  }

  tell(method, params) {
    this.send({ method, params });
  }

  // The result of a request; an error of the server's is thrown.
  async ask(method, params) {
    if (this.isEnded) {
      return null;
    }
    const id = ++this.number;
    const answered = new Promise((done) => this.asked.set(id, done));
    this.send({ id, method, params });
    const answer = await answered;
    if (answer.error) {
      throw new Error(answer.error.message);
    }
    return answer.result;
  }

  take(data) {
    this.waiting = Buffer.concat([this.waiting, data]);
    for (;;) {
      const end = this.waiting.indexOf("\r\n\r\n");
      const length = end < 0 ? 0 : Number(/content-length: *(\d+)/i.exec(this.waiting.toString("latin1", 0, end))[1]);
      if (end < 0 || this.waiting.length < end + 4 + length) {
        return;
      }
      const message = JSON.parse(this.waiting.toString("utf8", end + 4, end + 4 + length));
      this.waiting = this.waiting.subarray(end + 4 + length);
      const done = this.asked.get(message.id);
      this.asked.delete(message.id);
      if (done) {
        done(message);
      } else if (message.method) {
        this.onNotice(message);
      }
    }
  }
}

// ---- what the protocol has, and what VS Code has ----

const placeOf = (position) => ({ line: position.line, character: position.character });
const rangeOf = (range) => ({ start: placeOf(range.start), end: placeOf(range.end) });
const toRange = (range) => new vscode.Range(range.start.line, range.start.character, range.end.line, range.end.character);
const toLocations = (found) => (found || []).map((it) => new vscode.Location(vscode.Uri.parse(it.uri), toRange(it.range)));
const at = (document, position) => ({ textDocument: { uri: document.uri.toString() }, position: placeOf(position) });

function toEdit(edit) {
  const result = new vscode.WorkspaceEdit();
  for (const [uri, changes] of Object.entries(edit.changes)) {
    for (const change of changes) {
      result.replace(vscode.Uri.parse(uri), toRange(change.range), change.newText);
    }
  }
  return result;
}

function toDiagnostic(it) {
  const result = new vscode.Diagnostic(toRange(it.range), it.message, SEVERITIES[it.severity - 1]);
  result.source = it.source;
  result.code = it.code;
  return result;
}

function toAction(it) {
  const result = new vscode.CodeAction(it.title, vscode.CodeActionKind.QuickFix);
  result.edit = toEdit(it.edit);
  return result;
}

// ---- the providers ----

function providers(client) {
  return {
    hover: {
      provideHover: async (document, position) => {
        const found = await client.ask("textDocument/hover", at(document, position));
        return found && new vscode.Hover(new vscode.MarkdownString(found.contents.value), toRange(found.range));
      },
    },
    definition: {
      provideDefinition: async (document, position) => toLocations(await client.ask("textDocument/definition", at(document, position))),
    },
    references: {
      provideReferences: async (document, position, context) =>
        toLocations(await client.ask("textDocument/references", { ...at(document, position), context: { includeDeclaration: context.includeDeclaration } })),
    },
    rename: {
      provideRenameEdits: async (document, position, newName) => {
        const found = await client.ask("textDocument/rename", { ...at(document, position), newName });
        return found && toEdit(found);
      },
    },
    completion: {
      provideCompletionItems: async (document, position) =>
        ((await client.ask("textDocument/completion", at(document, position))) || []).map((it) => {
          const item = new vscode.CompletionItem(it.label, it.kind - 1);
          item.detail = it.detail;
          return item;
        }),
    },
    symbols: {
      provideDocumentSymbols: async (document) =>
        ((await client.ask("textDocument/documentSymbol", { textDocument: { uri: document.uri.toString() } })) || []).map(
          (it) => new vscode.DocumentSymbol(it.name, it.detail, it.kind - 1, toRange(it.range), toRange(it.selectionRange))),
    },
    actions: {
      provideCodeActions: async (document, range) => {
        const params = { textDocument: { uri: document.uri.toString() }, range: rangeOf(range), context: { diagnostics: [] } };
        return ((await client.ask("textDocument/codeAction", params)) || []).map(toAction);
      },
    },
  };
}

// ---- the texts ----

function follow(client, subscriptions) {
  const isOurs = (document) => LANGUAGES.includes(document.languageId);
  const opened = (document) => {
    if (isOurs(document)) {
      const { languageId, version } = document;
      client.tell("textDocument/didOpen", { textDocument: { uri: document.uri.toString(), languageId, version, text: document.getText() } });
    }
  };
  const changed = (event) => {
    if (isOurs(event.document) && event.contentChanges.length) {
      const contentChanges = event.contentChanges.map((it) => ({ range: rangeOf(it.range), text: it.text }));
      client.tell("textDocument/didChange", { textDocument: { uri: event.document.uri.toString(), version: event.document.version }, contentChanges });
    }
  };
  const about = (method) => (document) => isOurs(document) && client.tell(method, { textDocument: { uri: document.uri.toString() } });
  vscode.workspace.textDocuments.forEach(opened);
  subscriptions.push(
    vscode.workspace.onDidOpenTextDocument(opened),
    vscode.workspace.onDidChangeTextDocument(changed),
    vscode.workspace.onDidSaveTextDocument(about("textDocument/didSave")),
    vscode.workspace.onDidCloseTextDocument(about("textDocument/didClose")));
}

let client;

async function activate(context) {
  const shown = vscode.languages.createDiagnosticCollection("btx");
  client = new Client(vscode.workspace.getConfiguration("btx").get("command"), (notice) => {
    if (notice.method === "textDocument/publishDiagnostics") {
      shown.set(vscode.Uri.parse(notice.params.uri), notice.params.diagnostics.map(toDiagnostic));
    }
  });
  await client.ask("initialize", { processId: process.pid, rootUri: null, capabilities: {} });
  client.tell("initialized", {});
  follow(client, context.subscriptions);
  const provided = providers(client);
  const register = vscode.languages;
  context.subscriptions.push(
    shown,
    register.registerHoverProvider(LANGUAGES, provided.hover),
    register.registerDefinitionProvider(LANGUAGES, provided.definition),
    register.registerReferenceProvider(LANGUAGES, provided.references),
    register.registerRenameProvider(LANGUAGES, provided.rename),
    register.registerCompletionItemProvider(LANGUAGES, provided.completion, "@", "=", "#", "{", ",", "'"),
    register.registerDocumentSymbolProvider(LANGUAGES, provided.symbols),
    register.registerCodeActionsProvider(LANGUAGES, provided.actions));
}

async function deactivate() {
  await client.ask("shutdown", null);
  client.tell("exit");
}

module.exports = { activate, deactivate };
