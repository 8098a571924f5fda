// Drives the extension without VS Code: a stand-in has what it calls. `node drive.js FOLDER` opens FOLDER/s.bst and FOLDER/d.bib, edits, asks, and prints what
// came as a line of JSON. python/tests/test_editors.py calls it.
"use strict";

const fs = require("fs");
const Module = require("module");
const path = require("path");
const url = require("url");

const folder = process.argv[2];
const listeners = {};
const providers = {};
const shown = new Map();
const waiting = [];

class Range {
  constructor(line, character, endLine, endCharacter) {
    this.start = { line, character };
    this.end = { line: endLine, character: endCharacter };
  }
}
class Kept {
  constructor(...given) {
    this.given = given;
  }
}
class WorkspaceEdit {
  constructor() {
    this.edits = [];
  }

  replace(uri, range, text) {
    this.edits.push([path.basename(uri.toString()), range.start.line, range.start.character, text]);
  }
}
const listen = (name) => (call) => {
  listeners[name] = call;
  return {};
};
const register = (name) => (languages, provider) => {
  providers[name] = provider;
  return {};
};
const collection = {
  set: (uri, found) => {
    shown.set(path.basename(uri.toString()), found.map((it) => [it.given[1], it.given[2], it.code]));
    waiting.splice(0).forEach((done) => done());
  },
};
const vscode = {
  Range, WorkspaceEdit, Location: Kept, Hover: Kept, MarkdownString: Kept, Diagnostic: Kept, CodeAction: Kept, CompletionItem: Kept, DocumentSymbol: Kept,
  CodeActionKind: { QuickFix: "quickfix" },
  DiagnosticSeverity: { Error: 0, Warning: 1, Information: 2, Hint: 3 },
  Uri: { parse: (text) => ({ toString: () => text }) },
  window: { showErrorMessage: (text) => console.error(text) },
  workspace: {
    textDocuments: [],
    getConfiguration: () => ({ get: () => ["python3", "-m", "btx", "lsp"] }),
    onDidOpenTextDocument: listen("open"), onDidChangeTextDocument: listen("change"), onDidSaveTextDocument: listen("save"), onDidCloseTextDocument: listen("close"),
  },
  languages: {
    createDiagnosticCollection: () => collection,
    registerHoverProvider: register("hover"), registerDefinitionProvider: register("definition"), registerReferenceProvider: register("references"),
    registerRenameProvider: register("rename"), registerCompletionItemProvider: register("completion"), registerDocumentSymbolProvider: register("symbols"),
    registerCodeActionsProvider: register("actions"),
  },
};
const load = Module._load;
Module._load = (name, ...rest) => (name === "vscode" ? vscode : load(name, ...rest));

const document = (name, languageId) => {
  const file = path.join(folder, name);
  return { uri: { toString: () => url.pathToFileURL(file).href }, languageId, version: 1, getText: () => fs.readFileSync(file, "utf8") };
};
const published = () => new Promise((done) => waiting.push(done));

async function main() {
  const extension = require("./extension.js");
  await extension.activate({ subscriptions: [] });
  const [style, base] = [document("s.bst", "btx-style"), document("d.bib", "bibtex")];
  let next = published();
  listeners.open(style);
  await next;
  next = published();
  listeners.open(base);
  await next;
  const result = { diagnostics: Object.fromEntries(shown) };
  const place = { line: 1, character: 21 };
  result.hover = (await providers.hover.provideHover(style, place)).given[0].given[0];
  result.definition = (await providers.definition.provideDefinition(style, { line: 2, character: 18 })).map((it) => it.given[1].start);
  result.references = (await providers.references.provideReferences(style, { line: 2, character: 18 }, { includeDeclaration: true })).length;
  result.rename = (await providers.rename.provideRenameEdits(style, { line: 2, character: 18 }, "put")).edits;
  result.refused = await providers.rename.provideRenameEdits(style, place, "put").catch((error) => error.message);
  result.completion = (await providers.completion.provideCompletionItems(style, place)).length;
  result.symbols = (await providers.symbols.provideDocumentSymbols(base)).map((it) => it.given[0]);
  result.actions = (await providers.actions.provideCodeActions(base, new Range(0, 0, 9, 0))).map((it) => [it.given[0], it.edit.edits]);
  next = published();
  listeners.change({ document: { ...base, version: 2 }, contentChanges: [{ range: new Range(0, 14, 0, 14), text: "= " }] });
  await next;
  result.after = shown.get("d.bib");
  listeners.save(base);
  next = published();
  listeners.close(base);
  await next;
  await extension.deactivate();
  console.log(JSON.stringify(result));
}

main();
