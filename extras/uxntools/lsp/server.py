"""The server: messages in, answers and diagnostics out."""
from __future__ import annotations

import sys
from collections.abc import Callable
from typing import Any

from uxntools import facts
from uxntools.analysis import rows
from uxntools.cli import shown
from uxntools.layout import laid_out
from uxntools.lsp import actions, completion, names, outline
from uxntools.lsp.checks import Checker
from uxntools.lsp.documents import Document, path_of, units
from uxntools.lsp.hover import hover
from uxntools.lsp.protocol import (
    INTERNAL_ERROR,
    END,
    INVALID_PARAMS,
    INVALID_REQUEST,
    METHOD_NOT_FOUND,
    NOT_INITIALIZED,
    Broken,
    Channel,
    Json,
    Refusal,
)
from uxntools.lsp.workspace import Workspace

CAPABILITIES = {
    "textDocumentSync": {"openClose": True, "change": 2, "save": True},
    "hoverProvider": True,
    "definitionProvider": True,
    "referencesProvider": True,
    "documentHighlightProvider": True,
    "documentSymbolProvider": True,
    "foldingRangeProvider": True,
    "documentFormattingProvider": True,
    "documentRangeFormattingProvider": True,
    "workspaceSymbolProvider": True,
    "inlayHintProvider": True,
    "codeActionProvider": {"codeActionKinds": ["quickfix"]},
    "completionProvider": {"triggerCharacters": [*facts.RUNES, *"&/~|"]},
    "renameProvider": {"prepareProvider": True},
    "semanticTokensProvider": {
        "legend": {"tokenTypes": outline.TOKEN_TYPES, "tokenModifiers": outline.TOKEN_MODIFIERS},
        "full": True,
        "range": True,
    },
}


class Server:
    def __init__(self, channel: Channel) -> None:
        self.channel = channel
        self.workspace = Workspace()
        self.checker = Checker(self._publish, self._complain)
        self.is_initialized = self.is_shut_down = self.has_inner_symbols = self.has_hints = False
        self.complaints: set[str] = set()
        self.requests: dict[str, Callable[[Json], Any]] = {
            "initialize": self._initialize,
            "shutdown": self._shutdown,
            "textDocument/hover": lambda given: hover(self.workspace.spot(given)),
            "textDocument/definition": lambda given: names.definition(self.workspace.spot(given)),
            "textDocument/references": self._references,
            "textDocument/documentHighlight": lambda given: names.highlights(self.workspace.spot(given)),
            "textDocument/prepareRename": lambda given: names.prepare_rename(self.workspace.spot(given)),
            "textDocument/rename": lambda given: names.rename(self.workspace.spot(given), given["newName"]),
            "textDocument/completion": lambda given: completion.complete(self.workspace.spot(given)),
            "textDocument/documentSymbol": self._symbols,
            "textDocument/foldingRange": lambda given: outline.folds(*self.workspace.file(given)),
            "textDocument/semanticTokens/full": lambda given: {
                "data": outline.semantic_tokens(*self.workspace.file(given))
            },
            "textDocument/semanticTokens/range": self._tokens_of_range,
            "textDocument/formatting": self._format,
            "textDocument/rangeFormatting": self._format_range,
            "textDocument/inlayHint": self._hints,
            "textDocument/codeAction": self._actions,
            "workspace/symbol": lambda given: actions.workspace_symbols(self.workspace, given["query"]),
        }
        self.notifications: dict[str, Callable[[Json], None]] = {
            "textDocument/didOpen": self._open,
            "textDocument/didChange": self._change,
            "textDocument/didSave": self._save,
            "textDocument/didClose": self._close,
            "workspace/didChangeWatchedFiles": self._files_changed,
            "workspace/didChangeConfiguration": lambda given: self._configure(
                (given.get("settings") or {}).get("uxn") or {}
            ),
        }

    def run(self) -> int:
        """Answers until the editor says `exit`, or goes away: 0 where it said `shutdown` before."""
        self.checker.start()
        try:
            while True:
                try:
                    message = self.channel.read()
                except Refusal as refusal:
                    self.channel.refuse(None, refusal)
                    continue
                if message is END or isinstance(message, dict) and message.get("method") == "exit":
                    return 0 if self.is_shut_down else 1
                self._take(message)
        except Broken as broken:
            print(f"uxn-lsp: {broken}", file=sys.stderr)
            return 1
        finally:
            self.checker.stop()

    def _take(self, message: Any) -> None:
        if not isinstance(message, dict) or not isinstance(message.get("method"), str):
            if not isinstance(message, dict) or "result" not in message and "error" not in message:
                self.channel.refuse(None, Refusal(INVALID_REQUEST, "this is no request"))
            return
        method, number = message["method"], message.get("id")
        try:
            result = self._handle(method, message.get("params") or {}, number is not None)
        except Refusal as refusal:
            if number is not None:
                self.channel.refuse(number, refusal)
            return
        if number is not None:
            self.channel.answer(number, result)

    def _handle(self, method: str, params: Json, is_request: bool) -> Any:
        handler = (self.requests if is_request else self.notifications).get(method)
        if not self.is_initialized and method != "initialize":
            raise Refusal(NOT_INITIALIZED, "initialize has to come first")
        if self.is_shut_down:
            raise Refusal(INVALID_REQUEST, "the server was shut down")
        if handler is None:
            raise Refusal(METHOD_NOT_FOUND, shown(f"there is no {method}"))
        try:
            return handler(params)
        except (KeyError, TypeError, AttributeError) as error:
            print(shown(f"uxn-lsp: {method}: {error!r}"), file=sys.stderr)
            raise Refusal(INVALID_PARAMS, shown(f"{method}: {error!r}")) from None
        except Refusal:
            raise
        except Exception as error:
            print(shown(f"uxn-lsp: {method}: {error!r}"), file=sys.stderr)
            raise Refusal(INTERNAL_ERROR, shown(f"{method}: {error!r}")) from None

    def _initialize(self, params: Json) -> Json:
        roots = [folder["uri"] for folder in params.get("workspaceFolders") or []] or [params.get("rootUri")]
        self.workspace.top = self.checker.top = path_of(roots[0]) if roots[0] else params.get("rootPath")
        symbols = params.get("capabilities", {}).get("textDocument", {}).get("documentSymbol", {})
        self.has_inner_symbols = bool(symbols.get("hierarchicalDocumentSymbolSupport"))
        self._configure(params.get("initializationOptions") or {})
        self.is_initialized = True
        return {"capabilities": CAPABILITIES, "serverInfo": {"name": "uxn-lsp"}}

    def _configure(self, settings: Json) -> None:
        """Takes the settings of the editor: whether effects are shown beside calls."""
        if isinstance(settings.get("inlayHints"), bool):
            self.has_hints = settings["inlayHints"]

    def _shutdown(self, _params: Json) -> None:
        self.is_shut_down = True

    def _references(self, params: Json) -> list[Json]:
        return names.references(self.workspace.spot(params), bool(params.get("context", {}).get("includeDeclaration")))

    def _symbols(self, params: Json) -> list[Json]:
        found, path = self.workspace.file(params)
        return outline.symbols(found, path) if self.has_inner_symbols else outline.flat_symbols(found, path)

    def _tokens_of_range(self, params: Json) -> Json:
        found, path = self.workspace.file(params)
        where = params["range"]
        return {"data": outline.semantic_tokens(found, path, where["start"]["line"], where["end"]["line"] + 1)}

    def _format(self, params: Json) -> list[Json]:
        """The lines that the layout changes, as one edit; none while a comment is not closed."""
        old, new = self._layout(params)
        first = next((at for at, (one, other) in enumerate(zip(old, new)) if one != other), min(len(old), len(new)))
        if first == len(old) == len(new):
            return []
        same = 0
        while same < min(len(old), len(new)) - first and old[-1 - same] == new[-1 - same]:
            same += 1
        return [_edit(old, new, first, same)]

    def _layout(self, params: Json) -> tuple[list[bytes], list[bytes]]:
        """The lines of a file, and those of its layout: the same while a comment is not closed."""
        data = self.workspace.files.read(path_of(params["textDocument"]["uri"]))
        old = data.split(b"\n")
        if rows(old)[-1].depth:
            return old, old
        options = params.get("options", {})
        indent = b" " * min(max(int(options.get("tabSize", 4)), 1), 8) if options.get("insertSpaces") else b"\t"
        return old, laid_out(data, indent).split(b"\n")

    def _format_range(self, params: Json) -> list[Json]:
        return actions.edits_of_range(*self._layout(params), params["range"])

    def _hints(self, params: Json) -> list[Json]:
        if not self.has_hints:
            return []
        found, path = self.workspace.file(params)
        where = params["range"]
        return actions.inlay_hints(found, path, where["start"]["line"], where["end"]["line"] + 1)

    def _actions(self, params: Json) -> list[Json]:
        faults = [one for one in params["context"]["diagnostics"] if one.get("source") == "uxn"]
        return actions.code_actions(self.workspace, *self.workspace.file(params), faults) if faults else []

    def _open(self, params: Json) -> None:
        given = params["textDocument"]
        path = path_of(given["uri"])
        self.workspace.files.open[path] = Document(given["uri"], given["text"], given.get("version", 0))
        self.workspace.forget_mains()
        self._changed(path)

    def _change(self, params: Json) -> None:
        path = path_of(params["textDocument"]["uri"])
        document = self.workspace.files.open[path]
        for change in params["contentChanges"]:
            document.change(change)
        document.version = params["textDocument"].get("version") or 0
        self._changed(path)

    def _save(self, params: Json) -> None:
        self.workspace.forget_mains()
        self._changed(path_of(params["textDocument"]["uri"]))

    def _close(self, params: Json) -> None:
        path = path_of(params["textDocument"]["uri"])
        self.workspace.files.open.pop(path, None)
        mains = self.workspace.mains_of(path)
        self.workspace.forget_mains()
        in_use = {main for other in self.workspace.files.open for main in self.workspace.mains_of(other)}
        for main in mains:
            if main in in_use:
                self._check([main])
            else:
                self.checker.forget(main, self.workspace.files.snapshot())

    def _files_changed(self, _params: Json) -> None:
        self.workspace.forget_mains()
        self.workspace.files.generation += 1
        self._check(list({main for path in self.workspace.files.open for main in self.workspace.mains_of(path)}))

    def _changed(self, path: str) -> None:
        self._check(self.workspace.mains_of(path))

    def _check(self, mains: list[str]) -> None:
        files = self.workspace.files
        self.checker.ask(mains, files.snapshot(), {path: document.version for path, document in files.open.items()})

    def _publish(self, uri: str, found: list[Json], version: int | None) -> None:
        document = self.workspace.files.open.get(path_of(uri))
        said: Json = {"uri": document.uri if document else uri, "diagnostics": found}
        self.channel.notify(
            "textDocument/publishDiagnostics", said if version is None else {**said, "version": version}
        )

    def _complain(self, message: str) -> None:
        """Shows a message once, as that there is no `uxn`."""
        if message not in self.complaints:
            self.complaints.add(message)
            self.channel.notify("window/showMessage", {"type": 1, "message": f"uxn-lsp: {message}"})


def _edit(old: list[bytes], new: list[bytes], first: int, same: int) -> Json:
    """The edit that takes new lines in the place of old ones, between equal ones at the start and at the end."""
    last = len(old) - same
    text = b"\n".join(new[first : len(new) - same])
    if same:
        end = {"line": last, "character": 0}
        text += b"\n" if len(new) - same > first else b""
    else:
        end = {"line": last - 1, "character": units(old[last - 1])}
    start = {"line": first, "character": 0}
    return {"range": {"start": start, "end": end}, "newText": text.decode("utf-8", "replace")}
