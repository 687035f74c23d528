"""The messages of the two protocols of editors as tables, and whether a message is as its table says.

A row has the section of the specification, then what a message is known by or the name of a type, then its fields:
name:type, or name?:type if it may be missing. A type is int, str, bool, any, null, a 'text', a number, a type of the
tables, a list in brackets, or several of these with bars between. Other fields are allowed only by a field `..`. A
message without a row is refused, from either side.
"""
from __future__ import annotations

import re
from typing import Any

DAP = """
Base Protocol: Request | Request | seq:int type:'request' command:str arguments?:any
Base Protocol: Event | Event | seq:int type:'event' event:str body?:any
Base Protocol: Response | Response | seq:int type:'response' request_seq:int success:bool command:str message?:str
    body?:any
Base Protocol: ErrorResponse | error | error?:Message
Types: Message | Message | id:int format:str showUser?:bool
Types: Source | Source | name?:str path?:str sourceReference?:int ..
Types: Breakpoint | Breakpoint | id?:int verified:bool message?:str source?:Source line?:int endLine?:int
Types: StackFrame | StackFrame | id:int name:str source?:Source line:int column:int endLine?:int
    presentationHint?:'normal'|'label'|'subtle'
Types: Thread | Thread | id:int name:str
Types: Scope | Scope | name:str presentationHint?:str variablesReference:int indexedVariables?:int expensive:bool
Types: Variable | Variable | name:str value:str type?:str evaluateName?:str variablesReference:int
    indexedVariables?:int memoryReference?:str
Types: SourceBreakpoint | SourceBreakpoint | line:int column?:int condition?:str|null hitCondition?:str|null
    logMessage?:str|null
Types: DataBreakpoint | DataBreakpoint | dataId:str accessType?:'read'|'write'|'readWrite' condition?:str
    hitCondition?:str
Types: BreakpointLocation | BreakpointLocation | line:int column?:int endLine?:int endColumn?:int
Types: ExceptionBreakpointsFilter | Filter | filter:str label:str default?:bool
Types: Capabilities | response initialize | supportsConfigurationDoneRequest?:bool
    supportsConditionalBreakpoints?:bool supportsLogPoints?:bool supportsStepBack?:bool supportsRestartRequest?:bool
    supportsTerminateRequest?:bool supportsEvaluateForHovers?:bool supportsReadMemoryRequest?:bool
    supportsWriteMemoryRequest?:bool supportsDataBreakpoints?:bool supportsDataBreakpointBytes?:bool
    supportsExceptionInfoRequest?:bool supportsBreakpointLocationsRequest?:bool supportTerminateDebuggee?:bool
    exceptionBreakpointFilters?:[Filter]
Events: Initialized Event | event initialized |
Events: Stopped Event | event stopped | reason:str description?:str threadId?:int text?:str allThreadsStopped?:bool
    hitBreakpointIds?:[int]
Events: Exited Event | event exited | exitCode:int
Events: Terminated Event | event terminated | restart?:any
Events: Thread Event | event thread | reason:'started'|'exited' threadId:int
Events: Output Event | event output | category?:'console'|'stdout'|'stderr' output:str source?:Source line?:int
Events: Memory Event | event memory | memoryReference:str offset:int count:int
Events: Invalidated Event | event invalidated | areas?:[str] threadId?:int
Requests: SetBreakpoints Request | response setBreakpoints | breakpoints:[Breakpoint]
Requests: SetExceptionBreakpoints Request | response setExceptionBreakpoints | breakpoints?:[Breakpoint]
Requests: SetDataBreakpoints Request | response setDataBreakpoints | breakpoints:[Breakpoint]
Requests: BreakpointLocations Request | response breakpointLocations | breakpoints:[BreakpointLocation]
Requests: DataBreakpointInfo Request | response dataBreakpointInfo | dataId:str|null description:str
    accessTypes?:['read'|'write'|'readWrite'] canPersist?:bool
Requests: Continue Request | response continue | allThreadsContinued?:bool
Requests: ReverseContinue Request | response reverseContinue |
Requests: Threads Request | response threads | threads:[Thread]
Requests: StackTrace Request | response stackTrace | stackFrames:[StackFrame] totalFrames?:int
Requests: Scopes Request | response scopes | scopes:[Scope]
Requests: Variables Request | response variables | variables:[Variable]
Requests: Evaluate Request | response evaluate | result:str type?:str variablesReference:int indexedVariables?:int
    memoryReference?:str
Requests: ReadMemory Request | response readMemory | address:str unreadableBytes?:int data?:str
Requests: WriteMemory Request | response writeMemory | offset?:int bytesWritten?:int
Requests: ExceptionInfo Request | response exceptionInfo | exceptionId:str description?:str
    breakMode:'never'|'always'|'unhandled'|'userUnhandled'
Requests: Launch Request | response launch |
Requests: ConfigurationDone Request | response configurationDone |
Requests: Restart Request | response restart |
Requests: Disconnect Request | response disconnect |
Requests: Terminate Request | response terminate |
Requests: Next Request | response next |
Requests: StepIn Request | response stepIn |
Requests: StepOut Request | response stepOut |
Requests: StepBack Request | response stepBack |
Requests: Pause Request | response pause |
Requests: SetVariable Request | response setVariable | value:str ..
Requests: Initialize Request | request initialize | adapterID:str clientID?:str clientName?:str pathFormat?:str
    linesStartAt1?:bool columnsStartAt1?:bool ..
Requests: Launch Request | request launch | noDebug?:bool ..
Requests: ConfigurationDone Request | request configurationDone | ..
Requests: Restart Request | request restart | arguments?:any
Requests: Disconnect Request | request disconnect | restart?:bool terminateDebuggee?:bool suspendDebuggee?:bool
Requests: Terminate Request | request terminate | restart?:bool
Requests: BreakpointLocations Request | request breakpointLocations | source:Source line:int column?:int endLine?:int
    endColumn?:int
Requests: SetBreakpoints Request | request setBreakpoints | source:Source breakpoints?:[SourceBreakpoint] lines?:[int]
    sourceModified?:bool
Requests: SetExceptionBreakpoints Request | request setExceptionBreakpoints | filters:[str] filterOptions?:[any]
Requests: DataBreakpointInfo Request | request dataBreakpointInfo | variablesReference?:int name:str frameId?:int
    bytes?:int asAddress?:bool mode?:str
Requests: SetDataBreakpoints Request | request setDataBreakpoints | breakpoints:[DataBreakpoint]
Requests: Continue Request | request continue | threadId:int singleThread?:bool
Requests: Next Request | request next | threadId:int singleThread?:bool granularity?:str
Requests: StepIn Request | request stepIn | threadId:int singleThread?:bool targetId?:int granularity?:str
Requests: StepOut Request | request stepOut | threadId:int singleThread?:bool granularity?:str
Requests: StepBack Request | request stepBack | threadId:int singleThread?:bool granularity?:str
Requests: ReverseContinue Request | request reverseContinue | threadId:int singleThread?:bool
Requests: Pause Request | request pause | threadId:int
Requests: Threads Request | request threads |
Requests: StackTrace Request | request stackTrace | threadId:int startFrame?:int levels?:int format?:any
Requests: Scopes Request | request scopes | frameId:int
Requests: Variables Request | request variables | variablesReference:int filter?:'indexed'|'named' start?:int
    count?:int format?:any
Requests: SetVariable Request | request setVariable | variablesReference:int name:str value:str format?:any
Requests: Evaluate Request | request evaluate | expression:str frameId?:int line?:int column?:int source?:Source
    context?:str format?:any
Requests: ReadMemory Request | request readMemory | memoryReference:str offset?:int count:int
Requests: WriteMemory Request | request writeMemory | memoryReference:str offset?:int allowPartial?:bool data:str
Requests: ExceptionInfo Request | request exceptionInfo | threadId:int
"""

LSP = """
Base Protocol: Request Message | Request | jsonrpc:'2.0' id:int|str method:str params?:any
Base Protocol: Notification Message | Notification | jsonrpc:'2.0' method:str params?:any
Base Protocol: Response Message | Response | jsonrpc:'2.0' id:int|str|null result:any
Base Protocol: Response Message | ErrorResponse | jsonrpc:'2.0' id:int|str|null error:ResponseError
Base Protocol: Response Message | ResponseError | code:Code message:str data?:any
Base Protocol: Response Message | Code | -32700|-32600|-32601|-32602|-32603|-32002|-32803|-32801|-32800
Basic JSON Structures: Position | Position | line:int character:int
Basic JSON Structures: Range | Range | start:Position end:Position
Basic JSON Structures: Location | Location | uri:str range:Range
Basic JSON Structures: Text Edit | TextEdit | range:Range newText:str
Basic JSON Structures: Workspace Edit | WorkspaceEdit | changes?:Changes
Basic JSON Structures: Workspace Edit | Changes | ..
Basic JSON Structures: Command | Command | title:str command:str
Basic JSON Structures: MarkupContent | Markup | kind:'plaintext'|'markdown' value:str
Basic JSON Structures: Diagnostic | Diagnostic | range:Range severity?:1|2|3|4 code?:int|str source?:str message:str
    tags?:[1|2]
Basic JSON Structures: Text Document Identifier | Identifier | uri:str version?:int|null
Basic JSON Structures: Text Document Item | Item | uri:str languageId:str version:int text:str
Lifecycle Messages: Initialize Request | response initialize | capabilities:Capabilities serverInfo?:ServerInfo
Lifecycle Messages: Initialize Request | ServerInfo | name:str version?:str
Lifecycle Messages: Initialize Request | Capabilities | positionEncoding?:'utf-8'|'utf-16' textDocumentSync?:Sync
    hoverProvider?:bool completionProvider?:Completions definitionProvider?:bool referencesProvider?:bool
    documentHighlightProvider?:bool documentSymbolProvider?:bool codeActionProvider?:Actions
    codeLensProvider?:Resolving renameProvider?:Renames foldingRangeProvider?:bool inlayHintProvider?:bool
Lifecycle Messages: Initialize Request | Sync | openClose?:bool change?:int save?:Saves
Lifecycle Messages: Initialize Request | Saves | includeText?:bool
Language Features: Completion Request | Completions | triggerCharacters?:[str]
Language Features: Code Action Request | Actions | codeActionKinds?:[str]
Language Features: Code Lens Request | Resolving | resolveProvider?:bool
Language Features: Rename Request | Renames | prepareProvider?:bool
Lifecycle Messages: Shutdown Request | response shutdown | null
Language Features: PublishDiagnostics Notification | notification textDocument/publishDiagnostics | uri:str
    version?:int diagnostics:[Diagnostic]
Language Features: Hover Request | response textDocument/hover | Hover|null
Language Features: Hover Request | Hover | contents:Markup range?:Range
Language Features: Completion Request | response textDocument/completion | [CompletionItem]
Language Features: Completion Request | CompletionItem | label:str kind?:int detail?:str sortText?:str filterText?:str
    textEdit?:TextEdit
Language Features: Goto Definition Request | response textDocument/definition | Location|null
Language Features: Find References Request | response textDocument/references | [Location]
Language Features: Document Highlights Request | response textDocument/documentHighlight | [Highlight]
Language Features: Document Highlights Request | Highlight | range:Range kind?:1|2|3
Language Features: Document Symbols Request | response textDocument/documentSymbol | [DocumentSymbol]
Language Features: Document Symbols Request | DocumentSymbol | name:str detail?:str kind:int range:Range
    selectionRange:Range
Language Features: Folding Range Request | response textDocument/foldingRange | [Fold]
Language Features: Folding Range Request | Fold | startLine:int endLine:int kind?:'comment'|'imports'|'region'
Language Features: Code Action Request | response textDocument/codeAction | [CodeAction]
Language Features: Code Action Request | CodeAction | title:str kind?:str diagnostics?:[Diagnostic] isPreferred?:bool
    edit?:WorkspaceEdit
Language Features: Code Lens Request | response textDocument/codeLens | [Lens]
Language Features: Code Lens Request | Lens | range:Range command?:Command
Language Features: Inlay Hint Request | response textDocument/inlayHint | [Hint]
Language Features: Inlay Hint Request | Hint | position:Position label:str paddingLeft?:bool
Language Features: Rename Request | response textDocument/rename | WorkspaceEdit|null
Language Features: Prepare Rename Request | response textDocument/prepareRename | Prepared|null
Language Features: Prepare Rename Request | Prepared | range:Range placeholder:str
Language Features: Code Lens Refresh Request | request workspace/codeLens/refresh |
Language Features: Inlay Hint Refresh Request | request workspace/inlayHint/refresh |
Workspace Features: Configuration Request | request workspace/configuration | items:[Asked]
Workspace Features: Configuration Request | Asked | scopeUri?:str section?:str
Window Features: ShowMessage Notification | notification window/showMessage | type:1|2|3|4 message:str
Lifecycle Messages: Initialize Request | request initialize | processId:int|null capabilities:any rootUri?:str|null ..
Lifecycle Messages: Initialized Notification | notification initialized |
Lifecycle Messages: SetTrace Notification | notification $/setTrace | value:'off'|'messages'|'verbose'
Lifecycle Messages: Shutdown Request | request shutdown |
Lifecycle Messages: Exit Notification | notification exit |
Base Protocol: Cancellation Support | notification $/cancelRequest | id:int|str
Workspace Features: DidChangeConfiguration Notification | notification workspace/didChangeConfiguration | settings:any
Text Document Synchronization: DidOpenTextDocument Notification | notification textDocument/didOpen |
    textDocument:Item
Text Document Synchronization: DidChangeTextDocument Notification | notification textDocument/didChange |
    textDocument:Identifier contentChanges:[Change]
Text Document Synchronization: DidChangeTextDocument Notification | Change | range?:Range rangeLength?:int text:str
Text Document Synchronization: DidSaveTextDocument Notification | notification textDocument/didSave |
    textDocument:Identifier text?:str
Text Document Synchronization: DidCloseTextDocument Notification | notification textDocument/didClose |
    textDocument:Identifier
Language Features: Hover Request | request textDocument/hover | textDocument:Identifier position:Position
Language Features: Goto Definition Request | request textDocument/definition | textDocument:Identifier
    position:Position
Language Features: Find References Request | request textDocument/references | textDocument:Identifier
    position:Position context:ReferenceContext
Language Features: Find References Request | ReferenceContext | includeDeclaration:bool
Language Features: Document Highlights Request | request textDocument/documentHighlight | textDocument:Identifier
    position:Position
Language Features: Completion Request | request textDocument/completion | textDocument:Identifier position:Position
    context?:any
Language Features: Document Symbols Request | request textDocument/documentSymbol | textDocument:Identifier
Language Features: Folding Range Request | request textDocument/foldingRange | textDocument:Identifier
Language Features: Code Action Request | request textDocument/codeAction | textDocument:Identifier range:Range
    context:ActionContext
Language Features: Code Action Request | ActionContext | diagnostics:[Diagnostic] only?:[str] triggerKind?:1|2
Language Features: Code Lens Request | request textDocument/codeLens | textDocument:Identifier
Language Features: Inlay Hint Request | request textDocument/inlayHint | textDocument:Identifier range:Range
Language Features: Rename Request | request textDocument/rename | textDocument:Identifier position:Position newName:str
Language Features: Prepare Rename Request | request textDocument/prepareRename | textDocument:Identifier
    position:Position
"""


NUMBER = re.compile("-?[0-9]+")
PROGRESS = ("workDoneToken", "partialResultToken")    # "Base Protocol: Work Done Progress" allows them in each request


class Tables:
    """The types and messages of one protocol."""

    def __init__(self, text: str) -> None:
        lines = re.sub(r"\n +", " ", text.strip()).split("\n")
        rows = [[cell.strip() for cell in (line + " ").split(" | ", 2)] for line in lines]
        self.rows = {key: (section, fields) for section, key, fields in rows}
        assert len(self.rows) == len(rows)

    def check(self, key: str, value: Any) -> None:
        """An assertion that names the section of the specification, if a value isn't what a row says."""
        assert key in self.rows, "%s: no table has it: %s" % (key, value)
        section, fields = self.rows[key]
        if fields and ":" not in fields and fields != "..":
            assert self.fits(fields, value), "%s: %s isn't %s" % (section, value, fields)
            return
        assert isinstance(value, dict), "%s: %r is no object" % (section, value)
        known = {}
        for it in fields.split():
            name, _, kind = it.partition(":")
            known[name.rstrip("?")] = kind
            if name != ".." and not name.endswith("?"):
                assert name in value, "%s: %s lacks %s" % (section, value, name)
        for name, it in value.items():
            assert name in known or ".." in known, "%s has no %s: %s" % (section, name, value)
            if known.get(name):
                assert self.fits(known[name], it), "%s: %s is %r, not %s" % (section, name, it, known[name])

    def fits(self, kind: str, value: Any) -> bool:
        if kind.startswith("[") and kind.endswith("]"):
            return isinstance(value, list) and all(self.fits(kind[1:-1], it) for it in value)
        if "|" in kind:
            return any(self.fits(it, value) for it in kind.split("|"))
        if kind.startswith("'"):
            return value == kind[1:-1]
        if NUMBER.fullmatch(kind):
            return type(value) is int and value == int(kind)
        plain = {"str": str, "bool": bool, "any": object, "null": type(None)}
        if kind == "int":
            return type(value) is int
        if kind in plain:
            return isinstance(value, plain[kind])
        if value is not None:
            self.check(kind, value)
        return value is not None


DAP_TABLES, LSP_TABLES = Tables(DAP), Tables(LSP)


def check_dap(message: dict[str, Any]) -> None:
    """A message of the Debug Adapter Protocol, from either side."""
    kind = str(message.get("type"))
    DAP_TABLES.check(kind.capitalize(), message)
    if kind == "response" and not message["success"]:
        assert message["message"] and "\n" not in message["message"]
        DAP_TABLES.check("error", message["body"])
        return
    body = message.get("arguments" if kind == "request" else "body")
    DAP_TABLES.check("%s %s" % (kind, message["event"] if kind == "event" else message["command"]),
                     {} if body is None else body)


def check_lsp(message: dict[str, Any], method: str = "") -> None:
    """A message of the Language Server Protocol, from either side; an answer with the method that it is to."""
    if "method" in message:
        kind = "Request" if "id" in message else "Notification"
        LSP_TABLES.check(kind, message)
        params = message.get("params")
        LSP_TABLES.check("%s %s" % (kind.lower(), message["method"]), {} if params is None else
                         {name: it for name, it in params.items() if name not in PROGRESS})
        return
    LSP_TABLES.check("ErrorResponse" if "error" in message else "Response", message)
    if "error" not in message:
        LSP_TABLES.check("response " + method, message["result"])
