"""A debug adapter: the Debug Adapter Protocol's requests, over a script that vsm carries out statement by statement."""
from __future__ import annotations

import base64
import os
import re
from functools import partial
from typing import Any, Callable, Optional

from . import command, rpc, showing
from .bench import LAUNCHER, Answer, Session, find_program, not_compiled
from .command import Fault, one_line
from .console import SECONDS, Console
from .lines import LAST_COLUMN, options_for
from .rpc import WRONG, encoded
from .running import FILTERS, Break, Course, Going, Stop, condition_of
from .runs import Runs
from .showing import Variable
from .walking import Lost, Script, Step, Walk

Arguments = dict[str, Any]
PAGED_FROM = 100    # longer lists are shown in parts
SLICE = 64          # statements between two looks at what the client sends
SHOWN = '{"seq":%d,"type":"event","event":"output","body":{"category":"stdout","output":%s,"source":%s,"line":%d}}'
SUPPORTED = (
    "ConfigurationDoneRequest", "ConditionalBreakpoints", "LogPoints", "StepBack", "RestartRequest", "TerminateRequest",
    "EvaluateForHovers", "ReadMemoryRequest", "WriteMemoryRequest", "DataBreakpoints", "DataBreakpointBytes",
    "ExceptionInfoRequest", "BreakpointLocationsRequest")
CAPABILITIES = {
    **{"supports" + it: True for it in SUPPORTED}, "supportTerminateDebuggee": True, "exceptionBreakpointFilters": [
        {"filter": it, "label": "answers " + it, "default": it == "FAULT"} for it in FILTERS]}


class Adapter:
    """Answers the requests of one client."""

    def __init__(self, stream: rpc.Stream, vsm: Optional[str]) -> None:
        self.stream, self.named = stream, vsm           # the program that is named,
        self.vsm: Optional[str] = None                  # and the one that is taken
        self.sequence = 0
        self.answered: Optional[rpc.Message] = None     # the request that was answered last
        self.client: Optional[Arguments] = None         # what initialize says of it
        self.launched: Arguments = {}
        self.launch_request: Optional[rpc.Message] = None
        self.program = ""
        self.course: Optional[Course] = None
        self.console: Optional[Console] = None
        self.going: Optional[Going] = None
        self.stop = Stop("")
        self.tasks: set[int] = set()                    # that the client knows
        self.opened: dict[int, showing.Children] = {}
        self.numbers = 0                                # of breakpoints, and of variables that open
        self.is_over = self.is_ended = self.is_compiled = False
        self.runs = Runs()                              # a compile

    # Messages.

    def send(self, message: rpc.Message) -> None:
        self.sequence += 1
        self.stream.write({"seq": self.sequence, **message})

    def event(self, name: str, /, **body: Any) -> None:
        self.send({"type": "event", "event": name, **({"body": body} if body else {})})

    def respond(self, request: rpc.Message, is_good: bool, **more: Any) -> None:
        self.answered = request
        number = request.get("seq")
        self.send({"type": "response", "request_seq": number if type(number) is int else 0, "success": is_good,
                   "command": str(request.get("command", "")), **more})

    def answer(self, request: rpc.Message, body: Optional[dict[str, Any]] = None) -> None:
        self.respond(request, True, **({} if body is None else {"body": body}))

    def refuse(self, request: rpc.Message, text: str, is_shown: bool = False) -> None:
        text = one_line(text)
        if request is self.answered:    # it went wrong after its answer
            self.say(text, "stderr")
            return
        error = {"id": 1, "format": text.replace("{", "(").replace("}", ")"), "showUser": is_shown}
        self.respond(request, False, message=text, body={"error": error})

    def say(self, text: str, category: str = "stdout", statement: Optional[int] = None) -> None:
        more = {} if statement is None else {
            "source": self.source, "line": self.line(self.script.extents[statement].first)}
        self.event("output", category=category, output=text + "\n", **more)

    def serve(self) -> None:
        try:
            while not self.is_ended:
                self.hear()
                if self.going and not self.is_ended:
                    self.go_on()
            self.stream.flush()
        finally:
            self.runs.end_all()
            if self.course:
                self.course.walk.close()

    def hear(self) -> None:
        """Handles what has come, and waits for more if nothing runs."""
        while not self.is_ended:
            try:
                message = self.stream.take()
            except rpc.Unreadable as fault:
                self.say(one_line(str(fault)), "stderr")
                continue
            if message is not None:
                self.handle(message)
            elif self.stream.is_ended:
                self.is_ended = True
            else:
                ready = self.stream.read(0 if self.going else None, self.runs.sources)
                self.runs.gather(ready)
                if not ready:
                    return

    def handle(self, request: rpc.Message) -> None:
        name, arguments = request.get("command"), request.get("arguments")
        if request.get("type") != "request" or not isinstance(name, str):
            return
        try:
            if name not in REQUESTS:
                raise Fault("there is no request %s here" % name)
            if self.client is None and name not in ("initialize", "disconnect"):
                raise Fault("initialize comes first")
            REQUESTS[name](self, request, {} if arguments is None else arguments)
        except Lost as fault:
            self.refuse(request, str(fault), True)
            self.lose(fault)
        except Fault as fault:
            self.refuse(request, str(fault), name == "launch")
        except WRONG as fault:
            self.refuse(request, "not the arguments of %s: %s %s" % (name, type(fault).__name__, fault))

    def lose(self, fault: Lost) -> None:
        """Ends a script whose vsm is gone."""
        self.going = None
        self.say(str(fault), "stderr")
        if not self.is_over:
            self.event("terminated")
        self.is_over = True

    # Begin and end.

    def initialize(self, request: rpc.Message, arguments: Arguments) -> None:
        if self.client is not None:
            raise Fault("initialize comes once")
        self.client = dict(arguments)
        self.answer(request, CAPABILITIES)

    def has(self, capability: str, otherwise: bool = False) -> bool:
        return bool((self.client or {}).get(capability, otherwise))

    def line(self, line: int) -> int:
        return line if self.has("linesStartAt1", True) else line - 1

    def from_line(self, line: Any) -> int:
        return int(line) + (not self.has("linesStartAt1", True))

    def launch(self, request: rpc.Message, arguments: Arguments) -> None:
        if self.launch_request or self.runs.runs:
            raise Fault("a script is launched already")
        path = arguments.get("program")
        if not isinstance(path, str) or not path:
            raise Fault("launch needs 'program', the script's path")
        self.program = os.path.abspath(os.path.join(arguments.get("cwd") or "", path))
        self.source = {"name": os.path.basename(self.program), "path": self.program}
        self.source_json = encoded(self.source)
        self.vsm = find_program(arguments.get("vsm") or self.named, is_needed=False)
        if self.vsm == LAUNCHER and not self.is_compiled:
            self.runs.compile(self.vsm, (), partial(self.compiled, request))
            return
        self.load(arguments)
        self.launch_request = request
        self.event("initialized")

    def compiled(self, request: rpc.Message, _output: bytes, status: int) -> None:
        """Goes on with a launch that has waited for the compile."""
        self.is_compiled = status == 0
        if status:
            self.refuse(request, str(not_compiled(LAUNCHER, status)), True)
        else:
            self.handle(request)

    def load(self, launched: Arguments) -> None:
        """Reads the script, and begins a walk over it."""
        if os.path.exists(self.program) and not os.path.isfile(self.program):
            raise Fault("it's no regular file", self.program)
        data = command.read_input(self.program)[1]
        options = options_for(self.program, data, settings=launched)
        vsm = self.vsm or ""
        # The library is asked, if it's built; but a program that is named, itself.
        partner = vsm if launched.get("vsm") or self.named else None
        course = Course(Walk(Script(self.program, data), lambda: Session(partner, options, SECONDS)))
        if self.course:
            course.breaks, course.filters = self.course.breaks, self.course.filters
            self.course.walk.close()
        self.course, self.console = course, Console(course, vsm, options)
        self.launched, self.is_over, self.opened = launched, False, {}

    def configuration_done(self, request: rpc.Message, _arguments: Arguments) -> None:
        self.answer(request)
        if self.launch_request and self.stop.reason == "":
            self.answer(self.launch_request)
            self.start()

    def start(self) -> None:
        if self.launched.get("stopOnEntry") and not self.launched.get("noDebug"):
            self.stopped(Stop("entry"))
        else:
            self.stop, self.going = Stop("start"), Going(is_first=False, is_plain=bool(self.launched.get("noDebug")))

    def restart(self, request: rpc.Message, arguments: Arguments) -> None:
        self.need()
        self.going = None
        given = arguments.get("arguments")
        self.load(given if isinstance(given, dict) else self.launched)
        self.answer(request)
        self.start()

    def terminate(self, request: rpc.Message, _arguments: Arguments) -> None:
        self.need()
        self.answer(request)
        self.finish()

    def disconnect(self, request: rpc.Message, _arguments: Arguments) -> None:
        self.answer(request)
        self.is_ended = True

    def finish(self) -> None:
        """The script is over: nothing more is asked of it."""
        self.going = None
        if not self.is_over:
            self.event("exited", exitCode=4 if any(it.answer.is_refused for it in self.need().walk.steps) else 0)
            self.event("terminated")
        self.is_over = True

    def need(self) -> Course:
        if self.course is None:
            raise Fault("no script is launched")
        return self.course

    def still(self) -> Course:
        """The course of a script that has stopped."""
        course = self.need()
        if self.is_over:
            raise Fault("the script has ended")
        if self.going:
            raise Fault("the script is running")
        return course

    @property
    def script(self) -> Script:
        return self.need().walk.script

    # Breakpoints.

    def set_breakpoints(self, request: rpc.Message, arguments: Arguments) -> None:
        course = self.need()
        is_ours = os.path.realpath(arguments["source"].get("path") or "") == os.path.realpath(self.program)
        if is_ours:
            course.breaks = {}
        given = arguments.get("breakpoints") or [{"line": line} for line in arguments.get("lines") or []]
        other = {"verified": False, "message": "another script runs"}
        found = [self.set_one(course, it) if is_ours else other for it in given]
        self.answer(request, {"breakpoints": found})

    def set_one(self, course: Course, given: Arguments) -> dict[str, Any]:
        self.numbers += 1
        place = self.script.at_or_after(self.from_line(given["line"]))
        condition = given.get("condition")
        text = condition_of(condition) if condition else None
        wrong = "there is no statement on this line or after it" if place is None else \
            "a condition is written: answer contains TEXT" if condition and not text else \
            "each statement is reached once: there is nothing to count" if given.get("hitCondition") else ""
        if place is None or wrong:
            return {"verified": False, "message": wrong}
        log = given.get("logMessage")
        course.breaks.setdefault(place, []).append(Break(self.numbers, text, None if log is None else str(log)))
        extent = self.script.extents[place]
        return {"verified": True, "id": self.numbers, "line": self.line(extent.first),
                "endLine": self.line(extent.last), "source": self.source}

    def breakpoint_locations(self, request: rpc.Message, arguments: Arguments) -> None:
        first = self.from_line(arguments["line"])
        last = self.from_line(arguments.get("endLine", arguments["line"]))
        self.answer(request, {"breakpoints": [{"line": self.line(it.first), "endLine": self.line(it.last)}
                                              for it in self.script.extents if first <= it.first <= last]})

    def set_filters(self, request: rpc.Message, arguments: Arguments) -> None:
        given = [*(arguments.get("filters") or []), *(it["filterId"] for it in arguments.get("filterOptions") or [])]
        self.need().filters = {it for it in given if it in FILTERS}
        self.answer(request, {"breakpoints": [{"verified": it in FILTERS} for it in given]})

    def data_info(self, request: rpc.Message, arguments: Arguments) -> None:
        course, name = self.still(), str(arguments["name"])
        reference, count = arguments.get("variablesReference"), int(arguments.get("bytes") or 4)
        if reference:
            found = next((it.watched for it in self.children(reference) if it.name == name), None)
        elif arguments.get("asAddress"):
            found = "bytes:%X,%d" % (int(name, 0), count)
        else:
            found = showing.watch_of(name, count, course.map)
        is_good = found is not None and course.value(found) is not None
        self.answer(request, {"dataId": found if is_good else None, "accessTypes": ["write"],
                              "description": str(found) if is_good else "%s can't be watched" % one_line(name)})

    def set_data(self, request: rpc.Message, arguments: Arguments) -> None:
        found = self.still().watch([str(it["dataId"]) for it in arguments["breakpoints"]])
        self.answer(request, {"breakpoints": [{"verified": it} for it in found]})

    # Running.

    def go(self, request: rpc.Message, going: Going) -> None:
        course = self.still()
        self.answer(request, {"allThreadsContinued": True} if request["command"] == "continue" else None)
        if not going.is_back and course.walk.is_at_end and self.stop.reason == "end":
            self.finish()
        else:
            self.opened, self.going = {}, going

    def go_on(self) -> None:
        """Continues the run for a slice of statements."""
        going, course, left = self.going, self.need(), SLICE
        assert going
        try:
            while left > 0 and self.going:
                place = course.walk.place
                steps, stop = ([], course.back(going)) if going.is_back else course.on(going, left)
                self.show(place, steps)
                left -= len(steps) or 1
                going.is_first = False
                if stop and stop.reason == "end" and going.is_plain:
                    self.finish()
                elif stop and not going.is_plain:
                    self.stopped(stop)
            if self.going and going.is_paused:
                self.stopped(Stop("pause"))
        except Lost as fault:
            self.lose(fault)

    def show(self, place: int, steps: list[Step]) -> None:
        """Shows the answers of statements from a place on, of which only the first may have a breakpoint. Their JSON is
        formed here, since it's most of a run."""
        course, other, shown = self.need(), self.line(0), []
        for step, extent in zip(steps, self.script.extents[place:place + len(steps)]):
            answer = step.answer
            text = "\n".join([answer.text, *answer.rest]) if answer.rest else answer.text
            self.sequence += 1
            shown.append(SHOWN % (self.sequence, encoded("%07d %s\n" % (extent.first, text)), self.source_json,
                                  extent.first + other))
        self.stream.put(shown)
        for it in course.breaks.get(place, ()):
            if it.log is not None and steps:
                self.say(self.logged(it.log, steps[0].answer), "console", place)

    def logged(self, text: str, answer: Answer) -> str:
        assert self.console
        console = self.console

        def put(found: re.Match[str]) -> str:
            try:
                return answer.text if found[1].strip().lower() == "answer" else console.evaluated(found[1]).value
            except Fault as fault:
                return str(fault)
        return re.sub(r"\{([^{}]*)\}", put, text)

    def stopped(self, stop: Stop) -> None:
        self.going, self.stop, self.opened = None, stop, {}
        shown = self.need().map
        tasks = {it.number for it in shown.tasks}
        for task in sorted(tasks ^ self.tasks):
            self.event("thread", reason="started" if task in tasks else "exited", threadId=task)
        self.tasks = tasks
        more: dict[str, Any] = {"description": stop.text, "text": stop.text} if stop.text else {}
        if stop.breaks:
            more["hitBreakpointIds"] = list(stop.breaks)
        current = showing.current_of(shown).number
        self.event("stopped", reason=stop.reason, threadId=current, allThreadsStopped=True, **more)

    def pause(self, request: rpc.Message, _arguments: Arguments) -> None:
        self.need()
        if self.going:
            self.going.is_paused = True
        self.answer(request)

    # What is shown at a stop.

    def threads(self, request: rpc.Message, _arguments: Arguments) -> None:
        tasks = self.need().map.tasks if not self.is_over else []
        self.answer(request, {"threads": [
            {"id": it.number, "name": "task %d%s%s" % (it.number, " of task %d" % it.parent if it.parent else "",
                                                       ", current" if it.is_current else "")} for it in tasks]})

    def stack(self, request: rpc.Message, arguments: Arguments) -> None:
        course, task, levels = self.still(), int(arguments["threadId"]), int(arguments.get("levels") or 1)
        if showing.task_of(course.map, task) is None:
            raise Fault("task %d doesn't exist" % task)
        refused, extents = self.stop.refused, self.script.extents
        place = course.walk.place if refused is None or refused.statement is None else refused.statement
        first = last = max(1, len(self.script.lines))
        name = "the script's end"
        if place < len(extents):
            first, last = extents[place].first, extents[place].last
            name = one_line(self.script.lines[first - 1][:LAST_COLUMN].strip())
        frame = {"id": task, "name": "%s: %s" % (refused.answer.text, name) if refused else name,
                 "line": self.line(first), "column": int(self.has("columnsStartAt1", True)),
                 "endLine": self.line(last), "source": self.source}
        if task != showing.current_of(course.map).number:
            frame["presentationHint"] = "subtle"
        start = int(arguments.get("startFrame") or 0)
        self.answer(request, {"stackFrames": [frame][start:start + levels], "totalFrames": 1})

    def scopes(self, request: rpc.Message, arguments: Arguments) -> None:
        course, task = self.still(), int(arguments["frameId"])
        shown, undone = course.map, course.walk.here.undone
        found: list[tuple[str, showing.Children, int, Optional[str]]] = [
            ("Names", lambda: showing.names(shown), len(shown.names), "locals"),
            ("Subpools", lambda: showing.subpools(shown), len(shown.subpools), None),
            ("Cell pools", lambda: showing.cell_pools(shown), len(shown.cell_pools), None),
            ("Registers of task %d" % task, lambda: showing.registers(showing.task_of(shown, task)), 16, "registers"),
            ("Pages and bytes", lambda: showing.totals(shown, undone.count if undone else 0), 6, None),
            ("Last statement", self.last_statement, 3, None)]
        self.answer(request, {"scopes": [
            {"name": name, "variablesReference": self.open(children), "expensive": name == "Last statement",
             **({"indexedVariables": count} if count > PAGED_FROM else {}),
             **({"presentationHint": hint} if hint else {})}
            for name, children, count, hint in found]})

    def last_statement(self) -> list[Variable]:
        """What was carried out last, its answer, and what it changed."""
        walk = self.need().walk
        if not walk.steps:
            return []
        after, step = walk.map(), walk.back()
        try:
            before = walk.map()
        finally:
            walk.steps.append(step)
        return [Variable("statement", one_line(step.lines[0].strip())), Variable("answer", step.answer.text),
                showing.changed(before, after)]

    def open(self, children: showing.Children) -> int:
        self.numbers += 1
        self.opened[self.numbers] = children
        return self.numbers

    def children(self, reference: Any) -> list[Variable]:
        if reference not in self.opened:
            raise Fault("what was shown at an earlier stop isn't kept")
        return self.opened[reference]()

    def variables(self, request: rpc.Message, arguments: Arguments) -> None:
        self.still()
        found = self.children(arguments["variablesReference"])
        start, count = int(arguments.get("start") or 0), int(arguments.get("count") or 0)
        self.answer(request, {"variables": [{"name": it.name, "value": it.value, **self.more(it, "evaluateName")}
                                            for it in (found[start:start + count] if count > 0 else found[start:])]})

    def more(self, it: Variable, expression: str = "") -> dict[str, Any]:
        """What a variable and a result have in addition to their text."""
        return {"variablesReference": self.open(it.children) if it.children else 0,
                **({"indexedVariables": it.count} if it.count > PAGED_FROM else {}),
                **({} if it.memory is None else {"memoryReference": "0x%08X" % it.memory}),
                **({expression: it.expression} if expression and it.expression else {})}

    def set_variable(self, _request: rpc.Message, _arguments: Arguments) -> None:
        raise Fault("no statement of the bench sets only a register or a name")

    @staticmethod
    def start_of(arguments: Arguments) -> int:
        return int(str(arguments["memoryReference"]), 0) + int(arguments.get("offset") or 0)

    def read_memory(self, request: rpc.Message, arguments: Arguments) -> None:
        start = self.start_of(arguments)
        start, end = max(start, 0), min(start + int(arguments["count"]), 1 << 32)
        data, unreadable = self.still().read(start, end)
        self.answer(request, {"address": "0x%08X" % start, "data": base64.b64encode(data).decode(),
                              **({"unreadableBytes": unreadable} if unreadable else {})})

    def write_memory(self, request: rpc.Message, arguments: Arguments) -> None:
        start, data = self.start_of(arguments), base64.b64decode(arguments["data"], validate=True)
        written = self.still().write(start, data, bool(arguments.get("allowPartial")))
        self.answer(request, {"offset": 0, "bytesWritten": written})
        if self.has("supportsMemoryEvent"):
            self.event("memory", memoryReference=str(arguments["memoryReference"]),
                       offset=int(arguments.get("offset") or 0), count=written)
        self.renew()

    def renew(self) -> None:
        """Something has changed though the script hasn't gone on."""
        course = self.need()
        course.watch(list(course.watched))
        if self.has("supportsInvalidatedEvent"):
            self.event("invalidated", areas=["variables", "threads", "stacks"])

    def exception(self, request: rpc.Message, _arguments: Arguments) -> None:
        self.still()
        if self.stop.refused is None or self.console is None:
            raise Fault("no statement was refused here")
        text = self.stop.refused.answer.text
        self.answer(request, {"exceptionId": text, "description": self.console.explained(["why", text]) or text,
                              "breakMode": "always"})

    def evaluate(self, request: rpc.Message, arguments: Arguments) -> None:
        self.still()
        assert self.console
        text, is_typed = str(arguments["expression"]), arguments.get("context", "repl") == "repl"
        found = self.console.say(text) if is_typed else self.console.evaluated(text)
        self.answer(request, {"result": found.value, **self.more(found)})
        if found.is_change:
            self.renew()


Request = Callable[[Adapter, rpc.Message, Arguments], None]


def running(**how: bool) -> Request:
    return lambda adapter, request, _arguments: adapter.go(request, Going(**how))


REQUESTS: dict[str, Request] = {
    "initialize": Adapter.initialize, "launch": Adapter.launch, "configurationDone": Adapter.configuration_done,
    "restart": Adapter.restart, "terminate": Adapter.terminate, "disconnect": Adapter.disconnect,
    "setBreakpoints": Adapter.set_breakpoints, "breakpointLocations": Adapter.breakpoint_locations,
    "setExceptionBreakpoints": Adapter.set_filters, "dataBreakpointInfo": Adapter.data_info,
    "setDataBreakpoints": Adapter.set_data, "continue": running(), "next": running(is_step=True),
    "stepIn": running(is_step=True), "stepOut": running(), "stepBack": running(is_back=True, is_step=True),
    "reverseContinue": running(is_back=True), "pause": Adapter.pause, "threads": Adapter.threads,
    "stackTrace": Adapter.stack, "scopes": Adapter.scopes, "variables": Adapter.variables,
    "setVariable": Adapter.set_variable, "readMemory": Adapter.read_memory, "writeMemory": Adapter.write_memory,
    "exceptionInfo": Adapter.exception, "evaluate": Adapter.evaluate}
