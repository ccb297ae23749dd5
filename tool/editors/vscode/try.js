// The extension in node, with a stand-in for the editor: the second club's routine is opened, refused, repaired by the quick fix, accepted; a loop
// gets its loop facts.
//
//   node try.js COMMAND ROUTINE

const assert = require('assert');
const fs = require('fs');
const Module = require('module');

const [command, routine] = process.argv.slice(2);

// A text that edits change, as the editor keeps it.
class Document {
    constructor(path) {
        this.uri = { toString: () => `file://${path}` };
        this.languageId = 'c';
        this.version = 1;
        this.text = fs.readFileSync(path, 'utf8');
    }

    getText() {
        return this.text;
    }

    offset({ line, character }) {
        return this.text.split('\n').slice(0, line).join('\n').length + (line > 0) + character;
    }

    replace({ start, end }, text) {
        this.text = this.text.slice(0, this.offset(start)) + text + this.text.slice(this.offset(end));
    }
}

const providers = {};
const listeners = {};
const shown = { waiting: [] };
const named = (...names) => class { constructor(...values) { names.forEach((name, number) => { this[name] = values[number]; }); } };
const listen = event => listener => { listeners[event] = listener; return {}; };
const register = kind => (selector, provider) => { providers[kind] = provider; return {}; };
const document = new Document(routine);

class Range {
    constructor(line, character, endLine, endCharacter) {
        this.start = { line, character };
        this.end = { line: endLine, character: endCharacter };
    }
}

const vscode = {
    Range,
    TextEdit: named('range', 'newText'),
    Diagnostic: named('range', 'message', 'severity'),
    DiagnosticRelatedInformation: named('location', 'message'),
    Location: named('uri', 'range'),
    Hover: named('contents'),
    MarkdownString: named('value'),
    CodeAction: named('title', 'kind'),
    CodeActionKind: { QuickFix: 'quickfix', RefactorRewrite: 'refactor.rewrite', Empty: { append: kind => kind } },
    DocumentSymbol: named('name', 'detail', 'kind', 'range', 'selectionRange'),
    WorkspaceEdit: class { set(uri, edits) { this.edits = edits; } },
    Uri: { parse: text => text },
    window: { showErrorMessage: message => { throw new Error(message); } },
    workspace: {
        getConfiguration: () => ({ get: name => ({ command, files: '**/*.c' })[name] }),
        textDocuments: [document],
        onDidOpenTextDocument: listen('open'),
        onDidChangeTextDocument: listen('change'),
        onDidCloseTextDocument: listen('close'),
    },
    languages: {
        match: () => 10,
        createDiagnosticCollection: () => ({ set: (uri, found) => shown.waiting.splice(0).forEach(resolve => resolve(found)) }),
        registerHoverProvider: register('hover'),
        registerCodeActionsProvider: register('actions'),
        registerDocumentFormattingEditProvider: register('formatting'),
        registerDocumentSymbolProvider: register('symbols'),
    },
};

const load = Module._load;
Module._load = (name, ...rest) => (name === 'vscode' ? vscode : load(name, ...rest));
const { activate } = require('./extension');

const diagnostics = () => new Promise(resolve => shown.waiting.push(resolve));

async function main() {
    const context = { subscriptions: [] };
    const first = diagnostics();
    await activate(context);
    const [refused, ...others] = await first;
    assert.deepStrictEqual(others, []);
    assert.deepStrictEqual([refused.code, refused.severity, refused.range.start.line], [8, 0, 7]);
    assert.match(refused.relatedInformation[0].message, /^declared here: row : count\(rows\)/);
    const hover = await providers.hover.provideHover(document, { line: 7, character: 6 });
    assert.match(hover.contents.value, /known: nothing/);
    const outline = await providers.symbols.provideDocumentSymbols(document);
    assert.deepStrictEqual(outline.map(({ name }) => name), ['first', 'second', 'third', 'late']);
    assert.deepStrictEqual(outline[3].children.map(({ name }) => name), ['row', 'rows', 'boat']);
    const [fix] = await providers.actions.provideCodeActions(document, refused.range);
    const changes = [...fix.edit.edits].reverse().map(({ range, newText: text }) => ({ range, text }));
    changes.forEach(({ range, text }) => document.replace(range, text));
    document.version += 1;
    const second = diagnostics();
    listeners.change({ document, contentChanges: changes });
    assert.deepStrictEqual(await second, []);
    const none = await providers.actions.provideCodeActions(document, refused.range);
    assert.deepStrictEqual(none, []);
    const all = { start: { line: 0, character: 0 }, end: { line: 99, character: 0 } };
    const loop = 'void f(array_ptr<unsigned> p : count(n), unsigned n, unsigned i, unsigned x)\n{\n    dynamic_check(p != NULL);\n    i = 0;\n' +
        '    while (i != n) {\n        x = p[i];\n        i = i + 1;\n    }\n}\n';
    document.text = loop;
    document.version += 1;
    const third = diagnostics();
    listeners.change({ document, contentChanges: [{ range: all, text: loop }] });
    assert.deepStrictEqual(await third, []);
    const [rewrite] = await providers.actions.provideCodeActions(document, { start: { line: 4, character: 4 }, end: { line: 4, character: 4 } });
    assert.deepStrictEqual([rewrite.kind, rewrite.edit], ['refactor.rewrite', undefined]);
    (await providers.actions.resolveCodeAction(rewrite)).edit.edits.forEach(({ range, newText }) => document.replace(range, newText));
    assert.match(document.text, /while \(i != n\) where i <= n \{/);
    const closed = diagnostics();
    listeners.close(document);
    assert.deepStrictEqual(await closed, []);
    context.subscriptions.forEach(one => one.dispose?.());
    console.log(`node ${process.version} in place of VS Code: opened, refused, repaired by the quick fix, accepted`);
}

main().catch(error => {
    console.error(error);
    process.exit(1);
});
