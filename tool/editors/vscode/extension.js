// The language server in VS Code, without dependencies: texts to the server, its diagnostics, hovers, quick fixes, formatting and outline back.

const vscode = require('vscode');
const { Server } = require('./server');

const range = ({ start, end }) => new vscode.Range(start.line, start.character, end.line, end.character);
const edit = ({ range: replaced, newText }) => new vscode.TextEdit(range(replaced), newText);
const at = document => ({ textDocument: { uri: document.uri.toString() } });

const capabilities = {
    textDocument: {
        publishDiagnostics: { relatedInformation: true },
        hover: { contentFormat: ['markdown'] },
        documentSymbol: { hierarchicalDocumentSymbolSupport: true },
        codeAction: {
            codeActionLiteralSupport: { codeActionKind: { valueSet: ['quickfix', 'refactor.rewrite'] } },
            resolveSupport: { properties: ['edit'] },
        },
    },
};

function diagnostic(found) {
    // The protocol counts severities from 1, the editor from 0.
    const shown = new vscode.Diagnostic(range(found.range), found.message, found.severity - 1);
    shown.source = found.source;
    shown.code = found.code;
    const note = ({ location, message }) =>
        new vscode.DiagnosticRelatedInformation(new vscode.Location(vscode.Uri.parse(location.uri), range(location.range)), message);
    shown.relatedInformation = (found.relatedInformation || []).map(note);
    return shown;
}

function workspaceEdit(document, { changes }) {
    const edits = new vscode.WorkspaceEdit();
    edits.set(document.uri, Object.values(changes)[0].map(edit));
    return edits;
}

function codeAction(document, offered) {
    const action = new vscode.CodeAction(offered.title, vscode.CodeActionKind.Empty.append(offered.kind));
    action.isPreferred = offered.isPreferred;
    action.diagnostics = (offered.diagnostics || []).map(diagnostic);
    action.edit = offered.edit && workspaceEdit(document, offered.edit);
    // What is needed to ask for the edit once the action is chosen.
    return Object.assign(action, { document, offered });
}

function symbol(found) {
    const { name, detail, kind } = found;
    const shown = new vscode.DocumentSymbol(name, detail, kind - 1, range(found.range), range(found.selectionRange));
    shown.children = (found.children || []).map(symbol);
    return shown;
}

async function activate(context) {
    const settings = vscode.workspace.getConfiguration('mizzengrape');
    const selector = { language: 'c', pattern: settings.get('files') };
    const diagnostics = vscode.languages.createDiagnosticCollection('mizzengrape');
    const server = new Server(settings.get('command'), {
        'textDocument/publishDiagnostics': params =>
            diagnostics.set(vscode.Uri.parse(params.uri), params.diagnostics.map(diagnostic)),
        'window/logMessage': params => console.error(params.message),
    });
    server.onError(error => vscode.window.showErrorMessage(`mizzengrape: ${error.message}`));
    context.subscriptions.push(diagnostics, { dispose: () => server.stop() });
    await server.request('initialize', { processId: process.pid, rootUri: null, capabilities });
    server.notify('initialized', {});

    const isRoutine = document => vscode.languages.match(selector, document) > 0;
    const opened = document => {
        if (isRoutine(document)) {
            const { uri, languageId, version } = document;
            const textDocument = { uri: uri.toString(), languageId, version, text: document.getText() };
            server.notify('textDocument/didOpen', { textDocument });
        }
    };
    const changed = ({ document, contentChanges }) => {
        if (isRoutine(document) && contentChanges.length > 0) {
            const textDocument = { uri: document.uri.toString(), version: document.version };
            const changes = contentChanges.map(({ range: { start, end }, text }) => ({ range: { start, end }, text }));
            server.notify('textDocument/didChange', { textDocument, contentChanges: changes });
        }
    };
    const closed = document => isRoutine(document) && server.notify('textDocument/didClose', at(document));

    vscode.workspace.textDocuments.forEach(opened);
    context.subscriptions.push(
        vscode.workspace.onDidOpenTextDocument(opened),
        vscode.workspace.onDidChangeTextDocument(changed),
        vscode.workspace.onDidCloseTextDocument(closed),
        vscode.languages.registerHoverProvider(selector, {
            async provideHover(document, position) {
                const hover = await server.request('textDocument/hover', { ...at(document), position });
                return hover && new vscode.Hover(new vscode.MarkdownString(hover.contents.value));
            },
        }),
        vscode.languages.registerCodeActionsProvider(selector, {
            async provideCodeActions(document, { start, end }) {
                const params = { ...at(document), range: { start, end }, context: { diagnostics: [] } };
                const offered = await server.request('textDocument/codeAction', params);
                return offered.map(action => codeAction(document, action));
            },
            async resolveCodeAction(action) {
                if (!action.edit) {
                    const { edit: edits } = await server.request('codeAction/resolve', action.offered);
                    action.edit = workspaceEdit(action.document, edits);
                }
                return action;
            },
        }, { providedCodeActionKinds: [vscode.CodeActionKind.QuickFix, vscode.CodeActionKind.RefactorRewrite] }),
        vscode.languages.registerDocumentFormattingEditProvider(selector, {
            async provideDocumentFormattingEdits(document, options) {
                return (await server.request('textDocument/formatting', { ...at(document), options }) || []).map(edit);
            },
        }),
        vscode.languages.registerDocumentSymbolProvider(selector, {
            async provideDocumentSymbols(document) {
                return (await server.request('textDocument/documentSymbol', at(document))).map(symbol);
            },
        }),
    );
}

module.exports = { activate };
