"""The messages that a debug adapter sends, as the Debug Adapter Protocol gives them: for each command the body of its response, for each event its
body, and the types of both, with each member that the protocol knows, in the words of this file.

A member whose name ends with `?` may be left out. A type is one of the names below, of TYPES or of SCALARS; `X[]` is a list of these, `X|Y`
is one of both, and a word in quotes is that text alone. Where the protocol lets an adapter add words of its own to a list, only those of
the list stand here.
"""

# What a response or an event is, beside its body.
RESPONSE = {"seq": "ordinal", "type": "'response'", "request_seq": "index", "success": "boolean", "command": "string", "message?": "string", "body?": "any"}
EVENT = {"seq": "ordinal", "type": "'event'", "event": "string", "body?": "any"}

# The body of the response to each command that succeeds. One that is only acknowledged needs none.
RESPONSES = {
    "initialize": "Capabilities",
    "launch": "Nothing",
    "configurationDone": "Nothing",
    "setBreakpoints": "Breakpoints",
    "setFunctionBreakpoints": "Breakpoints",
    "setDataBreakpoints": "Breakpoints",
    "setExceptionBreakpoints": "FilterBreakpoints",
    "breakpointLocations": "BreakpointLocations",
    "dataBreakpointInfo": "DataBreakpointInfo",
    "exceptionInfo": "ExceptionInfo",
    "threads": "Threads",
    "stackTrace": "StackTrace",
    "scopes": "Scopes",
    "variables": "Variables",
    "setVariable": "NewValue",
    "setExpression": "NewExpression",
    "evaluate": "Evaluated",
    "completions": "Completions",
    "gotoTargets": "GotoTargets",
    # Of the moves the protocol gives `continue` alone a body.
    "continue": "Resumed",
    "goto": "Nothing",
    "next": "Nothing",
    "stepIn": "Nothing",
    "stepOut": "Nothing",
    "stepBack": "Nothing",
    "reverseContinue": "Nothing",
    "restart": "Nothing",
    "terminate": "Nothing",
    "disconnect": "Nothing",
}
# The body of a response that refuses.
REFUSAL = "Refusal"

EVENTS = {
    "initialized": "Nothing",
    "stopped": "Stopped",
    "continued": "Continued",
    "terminated": "Terminated",
    "exited": "Exited",
    "thread": "ThreadChange",
    "output": "Output",
    "breakpoint": "BreakpointChange",
    "capabilities": "CapabilitiesChange",
    "invalidated": "Invalidated",
    "process": "Process",
}

GREATEST = 2**31 - 1


def is_integer(value):
    return isinstance(value, int) and not isinstance(value, bool)


# What stands for no type of TYPES. Lines, columns and messages count from 1: an ordinal; a reference fits 31 bits.
SCALARS = {
    "string": lambda value: isinstance(value, str),
    "boolean": lambda value: isinstance(value, bool),
    "integer": is_integer,
    "index": lambda value: is_integer(value) and value >= 0,
    "ordinal": lambda value: is_integer(value) and value >= 1,
    "reference": lambda value: is_integer(value) and 0 <= value <= GREATEST,
    "texts": lambda value: isinstance(value, dict) and all(isinstance(it, str) for it in value.values()),
    "null": lambda value: value is None,
    "any": lambda value: True,
}

# What several types have.
SPAN = {"line?": "ordinal", "column?": "ordinal", "endLine?": "ordinal", "endColumn?": "ordinal"}
CHILDREN = {"namedVariables?": "index", "indexedVariables?": "index", "memoryReference?": "string"}
SHOWN = {"type?": "string", "presentationHint?": "VariableHint", **CHILDREN, "valueLocationReference?": "reference"}
CAPABLE = (
    "BreakpointLocationsRequest CancelRequest ClipboardContext CompletionsRequest ConditionalBreakpoints ConfigurationDoneRequest"
    " DataBreakpointBytes DataBreakpoints DelayedStackTraceLoading DisassembleRequest EvaluateForHovers ExceptionFilterOptions"
    " ExceptionInfoRequest ExceptionOptions FunctionBreakpoints GotoTargetsRequest HitConditionalBreakpoints InstructionBreakpoints"
    " LoadedSourcesRequest LogPoints ModulesRequest ReadMemoryRequest RestartFrame RestartRequest SetExpression SetVariable"
    " SingleThreadExecutionRequests StepBack StepInTargetsRequest SteppingGranularity TerminateRequest TerminateThreadsRequest"
    " ValueFormattingOptions WriteMemoryRequest ANSIStyling"
).split()

TYPES = {
    "Nothing": {},
    "Refusal": {"error?": "Message"},
    "Message": {
        "id": "integer", "format": "string", "variables?": "texts", "sendTelemetry?": "boolean", "showUser?": "boolean", "url?": "string",
        "urlLabel?": "string",
    },
    "Capabilities": {
        **{f"supports{it}?": "boolean" for it in CAPABLE},
        "supportTerminateDebuggee?": "boolean", "supportSuspendDebuggee?": "boolean", "exceptionBreakpointFilters?": "Filter[]",
        "completionTriggerCharacters?": "string[]", "supportedChecksumAlgorithms?": "Algorithm[]", "breakpointModes?": "BreakpointMode[]",
        "additionalModuleColumns?": "ColumnDescriptor[]",
    },
    "ColumnDescriptor": {"attributeName": "string", "label": "string", "format?": "string", "type?": "string", "width?": "index"},
    "Filter": {
        "filter": "string", "label": "string", "description?": "string", "default?": "boolean", "supportsCondition?": "boolean",
        "conditionDescription?": "string",
    },
    "BreakpointMode": {"mode": "string", "label": "string", "description?": "string", "appliesTo": "string[]"},
    "Breakpoints": {"breakpoints": "Breakpoint[]"},
    "FilterBreakpoints": {"breakpoints?": "Breakpoint[]"},
    "Breakpoint": {
        "id?": "reference", "verified": "boolean", "message?": "string", "source?": "Source", **SPAN, "instructionReference?": "string",
        "offset?": "integer", "reason?": "'pending'|'failed'",
    },
    "BreakpointLocations": {"breakpoints": "BreakpointLocation[]"},
    "BreakpointLocation": {**SPAN, "line": "ordinal"},
    "DataBreakpointInfo": {
        "dataId": "string|null", "description": "string", "accessTypes?": "Access[]", "canPersist?": "boolean",
    },
    "ExceptionInfo": {
        "exceptionId": "string", "description?": "string", "breakMode": "'never'|'always'|'unhandled'|'userUnhandled'",
        "details?": "ExceptionDetails",
    },
    "ExceptionDetails": {
        "message?": "string", "typeName?": "string", "fullTypeName?": "string", "evaluateName?": "string", "stackTrace?": "string",
        "innerException?": "ExceptionDetails[]",
    },
    "Threads": {"threads": "Thread[]"},
    "Thread": {"id": "reference", "name": "string"},
    "StackTrace": {"stackFrames": "StackFrame[]", "totalFrames?": "index"},
    "StackFrame": {
        **SPAN, "id": "reference", "name": "string", "source?": "Source", "line": "ordinal", "column": "ordinal", "canRestart?": "boolean",
        "instructionPointerReference?": "string", "moduleId?": "integer|string", "presentationHint?": "'normal'|'label'|'subtle'",
    },
    "Source": {
        "name?": "string", "path?": "string", "sourceReference?": "reference", "presentationHint?": "'normal'|'emphasize'|'deemphasize'",
        "origin?": "string", "sources?": "Source[]", "adapterData?": "any", "checksums?": "Checksum[]",
    },
    "Checksum": {"algorithm": "Algorithm", "checksum": "string"},
    "Scopes": {"scopes": "Scope[]"},
    "Scope": {
        **SPAN, "name": "string", "presentationHint?": "'arguments'|'locals'|'registers'|'returnValue'", "variablesReference": "reference",
        "namedVariables?": "index", "indexedVariables?": "index", "expensive": "boolean", "source?": "Source",
    },
    "Variables": {"variables": "Variable[]"},
    "Variable": {
        **SHOWN, "name": "string", "value": "string", "evaluateName?": "string", "variablesReference": "reference",
        "declarationLocationReference?": "reference",
    },
    "VariableHint": {
        "kind?": "Kind", "attributes?": "Attribute[]", "visibility?": "'public'|'private'|'protected'|'internal'|'final'", "lazy?": "boolean",
    },
    "NewValue": {"value": "string", "type?": "string", "variablesReference?": "reference", **CHILDREN, "valueLocationReference?": "reference"},
    "NewExpression": {"value": "string", "variablesReference?": "reference", **SHOWN},
    "Evaluated": {"result": "string", "variablesReference": "reference", **SHOWN},
    "Completions": {"targets": "Completion[]"},
    "Completion": {
        "label": "string", "text?": "string", "sortText?": "string", "detail?": "string", "type?": "CompletionType", "start?": "ordinal",
        "length?": "index", "selectionStart?": "index", "selectionLength?": "index",
    },
    "GotoTargets": {"targets": "GotoTarget[]"},
    "GotoTarget": {**SPAN, "id": "reference", "label": "string", "line": "ordinal", "instructionPointerReference?": "string"},
    "Resumed": {"allThreadsContinued?": "boolean"},
    "Stopped": {
        "reason": "Reason", "description?": "string", "threadId?": "reference", "preserveFocusHint?": "boolean", "text?": "string",
        "allThreadsStopped?": "boolean", "hitBreakpointIds?": "reference[]",
    },
    "Continued": {"threadId": "reference", "allThreadsContinued?": "boolean"},
    "Terminated": {"restart?": "any"},
    "Exited": {"exitCode": "integer"},
    "ThreadChange": {"reason": "'started'|'exited'", "threadId": "reference"},
    "Output": {
        "category?": "'console'|'important'|'stdout'|'stderr'|'telemetry'", "output": "string", "group?": "'start'|'startCollapsed'|'end'",
        "variablesReference?": "reference", "source?": "Source", "line?": "ordinal", "column?": "ordinal", "data?": "any",
        "locationReference?": "reference",
    },
    "BreakpointChange": {"reason": "'changed'|'new'|'removed'", "breakpoint": "Breakpoint"},
    "CapabilitiesChange": {"capabilities": "Capabilities"},
    "Invalidated": {"areas?": "Area[]", "threadId?": "reference", "stackFrameId?": "reference"},
    "Process": {
        "name": "string", "systemProcessId?": "integer", "isLocalProcess?": "boolean", "startMethod?": "'launch'|'attach'|'attachForSuspendedLaunch'",
        "pointerSize?": "index",
    },
}

# Words that several members or lists have: each is one of these.
WORDS = {
    "Access": "read write readWrite".split(),
    "Algorithm": "MD5 SHA1 SHA256 timestamp".split(),
    "Area": "all stacks threads variables".split(),
    "Attribute": "static constant readOnly rawString hasObjectId canHaveObjectId hasSideEffects hasDataBreakpoint".split(),
    "CompletionType": (
        "method function constructor field variable class interface module property unit value enum keyword snippet text color file reference"
        " customcolor"
    ).split(),
    "Kind": "property method class data event baseClass innerClass interface mostDerivedClass virtual dataBreakpoint".split(),
    "Reason": ("step", "breakpoint", "exception", "pause", "entry", "goto", "function breakpoint", "data breakpoint", "instruction breakpoint"),
}
