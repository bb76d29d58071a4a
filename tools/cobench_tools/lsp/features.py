"""What can be asked of the server, by the methods of the protocol, and what it says of that at the start."""
from . import actions, completion, folding, formatting, hover, inlays, names, symbols, tokens

FEATURES = {
    "textDocument/hover": hover.hover,
    "textDocument/completion": completion.completion,
    "textDocument/definition": names.definition,
    "textDocument/references": names.references,
    "textDocument/documentHighlight": names.highlights,
    "textDocument/prepareRename": names.prepare_rename,
    "textDocument/rename": names.rename,
    "textDocument/documentSymbol": symbols.document_symbols,
    "workspace/symbol": symbols.workspace_symbols,
    "textDocument/codeAction": actions.actions,
    "textDocument/inlayHint": inlays.inlay_hints,
    "textDocument/semanticTokens/full": tokens.semantic_tokens,
    "textDocument/foldingRange": folding.folding_ranges,
    "textDocument/formatting": formatting.formatting,
}
CAPABILITIES = {
    "hoverProvider": True,
    "completionProvider": {"triggerCharacters": completion.TRIGGERS},
    "definitionProvider": True,
    "referencesProvider": True,
    "documentHighlightProvider": True,
    "renameProvider": {"prepareProvider": True},
    "documentSymbolProvider": True,
    "workspaceSymbolProvider": True,
    "codeActionProvider": {"codeActionKinds": [actions.QUICK]},
    "inlayHintProvider": True,
    "semanticTokensProvider": {"legend": {"tokenTypes": tokens.TYPES, "tokenModifiers": []}, "full": True},
    "foldingRangeProvider": True,
    "documentFormattingProvider": True,
}
