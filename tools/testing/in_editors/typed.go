// A client whose messages have the types of Debian's package golang-github-google-go-dap-dev: go run typed.go EXAMPLES PROGRAM
// It steps forwards and back, and finds a statement by a data breakpoint. Each message of the adapter is read as the type of its command or event,
// which must know each of its members. The status is 0 where all of this came.
package main

import (
	"bufio"
	"bytes"
	"encoding/json"
	"fmt"
	"io"
	"os"
	"os/exec"
	"path/filepath"
	"reflect"
	"strings"

	"github.com/google/go-dap"
)

func need(holds bool, what string, given ...interface{}) {
	text := fmt.Sprintf(what, given...)
	if !holds {
		fmt.Println("did not come:", text)
		os.Exit(1)
	}
	fmt.Println("came:", text)
}

// The text of a refusal, as an editor spells it: each {name} of its format is the variable of the name.
func spelled(told dap.ErrorMessage) string {
	text := told.Format
	for name, value := range told.Variables {
		text = strings.ReplaceAll(text, "{"+name+"}", value)
	}
	return text
}

func must(fault error, what string) {
	if fault != nil {
		need(false, "%s: %v", what, fault)
	}
}

// ---- the client

type client struct {
	process *exec.Cmd
	input   io.WriteCloser
	output  *bufio.Reader
	sent    int
	told    int
}

func started(program string) *client {
	process := exec.Command(program, "adapter")
	process.Stderr = os.Stderr
	input, fault := process.StdinPipe()
	must(fault, "the adapter's input")
	output, fault := process.StdoutPipe()
	must(fault, "the adapter's output")
	must(process.Start(), "the adapter")
	return &client{process: process, input: input, output: bufio.NewReader(output)}
}

// The next message, as the type of its command or event.
func (c *client) read() dap.Message {
	content, fault := dap.ReadBaseMessage(c.output)
	must(fault, "a message")
	message, fault := dap.DecodeProtocolMessage(content)
	must(fault, string(content))
	c.told++
	if message.GetSeq() != c.told {
		need(false, "message %d: %s", c.told, content)
	}
	must(unknownMember(content, message), string(content))
	return message
}

// Whether a message has a member that its type has not. What is only acknowledged has a type without a body.
func unknownMember(content []byte, message dap.Message) error {
	kind := reflect.TypeOf(message).Elem()
	if _, hasBody := kind.FieldByName("Body"); !hasBody {
		var members map[string]json.RawMessage
		if fault := json.Unmarshal(content, &members); fault != nil {
			return fault
		}
		delete(members, "body")
		content, _ = json.Marshal(members)
	}
	decoder := json.NewDecoder(bytes.NewReader(content))
	decoder.DisallowUnknownFields()
	return decoder.Decode(reflect.New(kind).Interface())
}

// Sends a request, and gives its response.
func (c *client) answer(command string, request dap.RequestMessage) dap.ResponseMessage {
	c.sent++
	head := request.GetRequest()
	head.Seq, head.Type, head.Command = c.sent, "request", command
	must(dap.WriteProtocolMessage(c.input, request), command)
	response, isResponse := c.read().(dap.ResponseMessage)
	if !isResponse || response.GetResponse().RequestSeq != c.sent || response.GetResponse().Command != command {
		need(false, "the response to %s: %#v", command, response)
	}
	return response
}

// The response to a request that succeeds, of this type.
func ask[R dap.ResponseMessage](c *client, command string, request dap.RequestMessage) R {
	response := c.answer(command, request)
	typed, isTyped := response.(R)
	if !isTyped || !response.GetResponse().Success {
		need(false, "%s is answered by %#v", command, response)
	}
	return typed
}

// The next message, which is an event of this type.
func event[E dap.EventMessage](c *client) E {
	message := c.read()
	typed, isTyped := message.(E)
	if !isTyped {
		need(false, "an event: %#v", message)
	}
	return typed
}

func (c *client) stop(reason string, line int) *dap.StoppedEvent {
	stopped := event[*dap.StoppedEvent](c)
	frames := ask[*dap.StackTraceResponse](c, "stackTrace", &dap.StackTraceRequest{Arguments: dap.StackTraceArguments{ThreadId: stopped.Body.ThreadId}})
	at := 0
	if len(frames.Body.StackFrames) > 0 {
		at = frames.Body.StackFrames[0].Line
	}
	need(stopped.Body.Reason == reason && at == line, "a stop by %s on line %d, and %s on line %d", reason, line, stopped.Body.Reason, at)
	return stopped
}

func (c *client) value(expression, wanted string) {
	arguments := dap.EvaluateArguments{Expression: expression, Context: "watch"}
	found := ask[*dap.EvaluateResponse](c, "evaluate", &dap.EvaluateRequest{Arguments: arguments}).Body.Result
	need(found == wanted, "%s is %s", expression, found)
}

func (c *client) begin(source string, lines ...int) {
	initialize := dap.InitializeRequestArguments{AdapterID: "rinddecade", LinesStartAt1: true, ColumnsStartAt1: true, SupportsVariablePaging: true}
	able := ask[*dap.InitializeResponse](c, "initialize", &dap.InitializeRequest{Arguments: initialize}).Body
	need(able.SupportsStepBack && able.SupportsDataBreakpoints, "an adapter that goes back")
	launch, _ := json.Marshal(map[string]interface{}{"program": source, "width": 4})
	ask[*dap.LaunchResponse](c, "launch", &dap.LaunchRequest{Arguments: launch})
	event[*dap.InitializedEvent](c)
	points := make([]dap.SourceBreakpoint, len(lines))
	for number, line := range lines {
		points[number].Line = line
	}
	place := dap.SetBreakpointsArguments{Source: dap.Source{Path: source}, Breakpoints: points}
	made := ask[*dap.SetBreakpointsResponse](c, "setBreakpoints", &dap.SetBreakpointsRequest{Arguments: place}).Body.Breakpoints
	for number, line := range lines {
		need(made[number].Verified && made[number].Line == line, "a breakpoint on line %d", line)
	}
	ask[*dap.ConfigurationDoneResponse](c, "configurationDone", &dap.ConfigurationDoneRequest{})
}

func (c *client) end() {
	ask[*dap.DisconnectResponse](c, "disconnect", &dap.DisconnectRequest{})
	must(c.process.Wait(), "the end of the adapter")
}

// ---- what is tried

var thread = 1

// The scopes of a frame, and the variables of the first one.
func (c *client) locals(frame int) []dap.Variable {
	scopes := ask[*dap.ScopesResponse](c, "scopes", &dap.ScopesRequest{Arguments: dap.ScopesArguments{FrameId: frame}}).Body.Scopes
	need(len(scopes) == 3 && scopes[0].PresentationHint == "locals", "the scopes of frame %d", frame)
	return c.variables(scopes[0].VariablesReference)
}

func (c *client) variables(reference int) []dap.Variable {
	arguments := dap.VariablesArguments{VariablesReference: reference}
	return ask[*dap.VariablesResponse](c, "variables", &dap.VariablesRequest{Arguments: arguments}).Body.Variables
}

func stepsForwardsAndBack(c *client, source string) {
	c.begin(source, 3)
	c.stop("entry", 2)
	threads := ask[*dap.ThreadsResponse](c, "threads", &dap.ThreadsRequest{}).Body.Threads
	need(len(threads) == 1 && threads[0].Id == thread, "one thread")
	ask[*dap.ContinueResponse](c, "continue", &dap.ContinueRequest{Arguments: dap.ContinueArguments{ThreadId: thread}})
	need(len(c.stop("breakpoint", 3).Body.HitBreakpointIds) == 1, "the breakpoint")
	local := c.locals(1)
	need(len(local) == 1 && local[0].Name == "x" && local[0].Value == "0 3 6 9" && local[0].Type == "varying int32", "x before its step")
	lanes := c.variables(local[0].VariablesReference)
	need(len(lanes) == 4 && lanes[3].Name == "x[3]" && lanes[3].Value == "9", "the lanes of x")
	ask[*dap.NextResponse](c, "next", &dap.NextRequest{Arguments: dap.NextArguments{ThreadId: thread}})
	c.stop("step", 4)
	c.value("x", "1 4 7 10")
	ask[*dap.StepBackResponse](c, "stepBack", &dap.StepBackRequest{Arguments: dap.StepBackArguments{ThreadId: thread}})
	c.stop("step", 3)
	c.value("x", "0 3 6 9")
	ask[*dap.ReverseContinueResponse](c, "reverseContinue", &dap.ReverseContinueRequest{Arguments: dap.ReverseContinueArguments{ThreadId: thread}})
	c.stop("step", 2)
	set := dap.EvaluateArguments{Expression: "no_such", Context: "watch"}
	refused, isRefused := c.answer("evaluate", &dap.EvaluateRequest{Arguments: set}).(*dap.ErrorResponse)
	need(isRefused && strings.HasPrefix(spelled(refused.Body.Error), "S5 UnknownName"), "a refusal with its reason")
	c.end()
}

// The statement that spoiled a value, found from the end.
func findsWhatSpoils(c *client, source string) {
	c.begin(source)
	c.stop("entry", 4)
	ask[*dap.ContinueResponse](c, "continue", &dap.ContinueRequest{Arguments: dap.ContinueArguments{ThreadId: thread}})
	c.stop("step", 9)
	c.value("total", "-15")
	asked := dap.DataBreakpointInfoArguments{Name: "total"}
	info := ask[*dap.DataBreakpointInfoResponse](c, "dataBreakpointInfo", &dap.DataBreakpointInfoRequest{Arguments: asked}).Body
	target, isText := info.DataId.(string)
	need(isText, "a data breakpoint of %s", target)
	watch := dap.SetDataBreakpointsArguments{Breakpoints: []dap.DataBreakpoint{{DataId: target, AccessType: "write"}}}
	made := ask[*dap.SetDataBreakpointsResponse](c, "setDataBreakpoints", &dap.SetDataBreakpointsRequest{Arguments: watch}).Body.Breakpoints
	need(len(made) == 1 && made[0].Verified, "it is there")
	ask[*dap.ReverseContinueResponse](c, "reverseContinue", &dap.ReverseContinueRequest{Arguments: dap.ReverseContinueArguments{ThreadId: thread}})
	stopped := c.stop("data breakpoint", 7)
	need(reflect.DeepEqual(stopped.Body.HitBreakpointIds, []int{made[0].Id}), "a stop at it")
	c.value("total", "10")
	c.end()
}

func main() {
	examples, program := os.Args[1], os.Args[2]
	examples, fault := filepath.Abs(examples)
	must(fault, "the examples")
	stepsForwardsAndBack(started(program), filepath.Join(examples, "first.ispc"))
	findsWhatSpoils(started(program), filepath.Join(examples, "total.ispc"))
	fmt.Println("came: all")
}
