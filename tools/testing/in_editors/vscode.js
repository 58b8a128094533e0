// The extension of VS Code, with a few calls in the place of the editor: node tools/testing/in_editors/vscode.js EXTENSION EXAMPLES PROGRAM
// It is activated, and says which program serves and what is run; that program steps forwards and back. It tells of a program that is not there,
// and shows where a source is refused. The status is 0 where all of this came.
"use strict";

const assert = require("assert");
const { spawn } = require("child_process");
const fs = require("fs");
const Module = require("module");
const os = require("os");
const path = require("path");

const [extension, examples, program] = process.argv.slice(2);
const source = path.resolve(examples, "first.ispc");
const package_ = require(path.resolve(extension, "package.json"));
const given = package_.contributes;

const registered = {};
const shown = { problems: new Map(), errors: [], places: [], commands: [], press: () => {} };
let setting = program;
let editor = { document: { languageId: "ispc" } };
let changed;

class Position {
  constructor(line, character) {
    Object.assign(this, { line, character });
  }

  translate(lines, characters) {
    return new Position(this.line + lines, this.character + characters);
  }
}

class Range {
  constructor(start, end) {
    Object.assign(this, { start, end });
  }
}

/** A document that is opened: the word at a place, as the language's pattern of words has it. */
function opened(file) {
  const lines = fs.readFileSync(file, "utf8").split("\n");
  const pattern = JSON.parse(fs.readFileSync(path.resolve(extension, given.languages[0].configuration), "utf8")).wordPattern;
  const getWordRangeAtPosition = ({ line, character }) => {
    const at = (it) => it.index <= character && character < it.index + it[0].length;
    const word = [...lines[line].matchAll(new RegExp(pattern, "g"))].find(at);
    return word && new Range(new Position(line, word.index), new Position(line, word.index + word[0].length));
  };
  return { uri: file, lines, getWordRangeAtPosition };
}

const vscode = {
  Position,
  Range,
  DiagnosticSeverity: { Error: 0 },
  Diagnostic: class {
    constructor(range, message, severity) {
      Object.assign(this, { range, message, severity });
    }
  },
  commands: { executeCommand: async (...words) => shown.commands.push(words) },
  languages: { createDiagnosticCollection: () => shown.problems },
  DebugAdapterExecutable: class {
    constructor(command, args) {
      Object.assign(this, { command, args });
    }
  },
  debug: {
    registerDebugAdapterDescriptorFactory: (type, factory) => (registered[type] = { ...registered[type], factory }),
    registerDebugConfigurationProvider: (type, provider) => (registered[type] = { ...registered[type], provider }),
    registerDebugAdapterTrackerFactory: (type, trackers) => (registered[type] = { ...registered[type], trackers }),
  },
  window: {
    showErrorMessage(text, button) {
      shown.errors.push(text);
      return new Promise((resolve) => (shown.press = () => resolve(button)));
    },
    showTextDocument: async (document, { selection }) => shown.places.push([document.uri, selection.start.line, selection.start.character]),
    get activeTextEditor() {
      return editor;
    },
  },
  workspace: {
    openTextDocument: async (file) => opened(file),
    onDidChangeTextDocument: (take) => (changed = take),
    getConfiguration: (section) => ({
      get(name) {
        assert(`${section}.${name}` in given.configuration.properties, `no setting ${section}.${name}`);
        return setting;
      },
    }),
  },
};

/** A client of a program that serves. */
class Client {
  constructor({ command, args }) {
    this.process = spawn(command, args, { stdio: ["pipe", "pipe", "inherit"] });
    this.tracker = registered[given.debuggers[0].type].trackers.createDebugAdapterTracker();
    Object.assign(this, { sent: 0, rest: Buffer.alloc(0), waiting: [], events: [] });
    this.process.stdout.on("data", (bytes) => this.take(bytes));
  }

  take(bytes) {
    this.rest = Buffer.concat([this.rest, bytes]);
    for (;;) {
      const head = /^Content-Length: (\d+)\r\n\r\n/.exec(this.rest.toString("latin1"));
      if (!head || this.rest.length < head[0].length + Number(head[1])) return;
      const end = head[0].length + Number(head[1]);
      this.tell(JSON.parse(this.rest.subarray(head[0].length, end)));
      this.rest = this.rest.subarray(end);
    }
  }

  tell(message) {
    if (message.type === "event") this.events.push(message);
    else this.waiting[message.request_seq](message);
  }

  /** The answer to a request; the extension has looked at it, as at each message. */
  async answer(command, args = {}) {
    const text = JSON.stringify({ seq: ++this.sent, type: "request", command, arguments: args });
    const answer = new Promise((resolve) => (this.waiting[this.sent] = resolve));
    this.process.stdin.write(`Content-Length: ${Buffer.byteLength(text)}\r\n\r\n${text}`);
    const message = await answer;
    await this.tracker.onDidSendMessage(message);
    return message;
  }

  async ask(command, args) {
    const { success, body, message } = await this.answer(command, args);
    assert(success, `${command}: ${message}`);
    return body;
  }

  async end() {
    await this.ask("disconnect");
    this.process.stdin.end();
  }

  async line() {
    return (await this.ask("stackTrace", { threadId: 1 })).stackFrames[0].line;
  }

  async value(expression) {
    return (await this.ask("evaluate", { expression, context: "hover" })).result;
  }
}

/** A launch as VS Code makes it of one that is given: by the extension before its variables are put in and behind that; or none. */
async function resolved(provider, configuration, file) {
  const launch = provider.resolveDebugConfiguration(undefined, configuration);
  if (!launch) return launch;
  const program = launch.program.replace("${file}", file);
  return provider.resolveDebugConfigurationWithSubstitutedVariables(undefined, { ...launch, program });
}

async function steps(descriptor, launch) {
  const client = new Client(descriptor);
  await client.ask("initialize", { adapterID: launch.type });
  await client.ask(launch.request, launch);
  await client.ask("configurationDone");
  assert.strictEqual(await client.line(), 2);
  await client.ask("next", { threadId: 1 });
  await client.ask("next", { threadId: 1 });
  assert.deepStrictEqual([await client.line(), await client.value("x[3]")], [4, "10"]);
  assert.deepStrictEqual((await client.value("x + 1")).split(" ").slice(0, 4), ["2", "5", "8", "11"]);
  await client.ask("stepBack", { threadId: 1 });
  assert.deepStrictEqual([await client.line(), await client.value("x[3]")], [3, "9"]);
  await client.ask("reverseContinue", { threadId: 1 });
  assert.strictEqual(await client.line(), 2);
  assert.strictEqual(await client.value("programIndex"), "0 1 2 3 4 5 6 7");
  await client.end();
}

/** A launch without debugging runs to the end. */
async function undebugged(descriptor, provider, given) {
  const launch = await resolved(provider, { ...given, noDebug: true }, source);
  assert.deepStrictEqual([launch.program, launch.noDebug, launch.stopOnEntry], [source, true, false]);
  const client = new Client(descriptor);
  await client.ask("initialize", { adapterID: launch.type });
  await client.ask(launch.request, launch);
  await client.ask("configurationDone");
  await client.ask("threads");
  assert.deepStrictEqual(client.events.filter((it) => it.event === "stopped").map((it) => it.body.text), ["ended"]);
  await client.end();
}

/** A source that is refused: its place is shown and among the problems, until the source is changed or a launch or a restart is not refused. */
async function refusals(descriptor, provider) {
  const file = path.resolve(examples, "refused.ispc");
  const refused = "export void go() {\n    uniform int y = programIndex;\n}\n";
  fs.writeFileSync(file, refused);
  const launch = await resolved(provider, {}, file);
  const client = new Client(descriptor);
  await client.ask("initialize", { adapterID: launch.type });
  const { success, message } = await client.answer("launch", launch);
  assert.deepStrictEqual([success, message.startsWith(`${file}:2:21: S7 Rate`)], [false, true]);
  const [problem] = shown.problems.get(file);
  assert.deepStrictEqual(problem.range, new Range(new Position(1, 20), new Position(1, 32)));
  assert.deepStrictEqual([problem.message, problem.source], [message.slice(`${file}:2:21: `.length), "rinddecade"]);
  assert.deepStrictEqual(shown.places, [[file, 1, 20]]);
  changed({ document: { uri: source } });
  assert(shown.problems.has(file));
  changed({ document: { uri: file } });
  assert(!shown.problems.has(file));

  await client.answer("launch", launch);
  await client.answer("threads");
  assert(shown.problems.has(file));
  fs.writeFileSync(file, refused.replace("uniform ", ""));
  await client.ask("launch", launch);
  assert.strictEqual(shown.problems.size, 0);
  fs.writeFileSync(file, refused);
  assert.strictEqual((await client.answer("restart")).success, false);
  assert(shown.problems.has(file));
  fs.unlinkSync(file);
  assert.strictEqual((await client.answer("restart")).success, false);
  assert.deepStrictEqual([shown.problems.size, shown.places.length], [0, 3]);
  await client.end();
}

/** A program that is not there: the user is told so and led to the setting, and nothing is started. */
async function missing(provider) {
  const folder = path.resolve(examples);
  for (const [path_, told] of [
    [path.join(folder, "gone"), `There is no program ${path.join(folder, "gone")}`],
    [folder, `There is no program ${folder}`],
    [source, `There is no program ${source}`],
    ["no-such-rinddecade", "No program no-such-rinddecade is on PATH"],
  ]) {
    setting = path_;
    assert.strictEqual(await resolved(provider, {}, source), undefined);
    assert.strictEqual(shown.errors.pop(), `${told}: the setting rinddecade.path says where it is.`);
    assert.deepStrictEqual(shown.commands, []);
    shown.press();
    await new Promise(setImmediate);
    assert.deepStrictEqual(shown.commands.pop(), ["workbench.action.openSettings", "rinddecade.path"]);
  }
  setting = "node";
  assert.strictEqual((await resolved(provider, {}, source)).program, source);
  setting = program;
  assert.deepStrictEqual([shown.errors, shown.commands], [[], []]);
}

async function main() {
  const load = Module._load;
  Module._load = (name, ...rest) => (name === "vscode" ? vscode : load(name, ...rest));
  const context = { subscriptions: [] };
  require(path.resolve(extension, package_.main)).activate(context);
  assert.strictEqual(context.subscriptions.length, 5);
  const { factory, provider } = registered[given.debuggers[0].type];

  const descriptor = factory.createDebugAdapterDescriptor();
  assert.deepStrictEqual({ ...descriptor }, { command: program, args: ["adapter"] });
  setting = "~/bin/rinddecade";
  assert.strictEqual(factory.createDebugAdapterDescriptor().command, path.join(os.homedir(), "bin/rinddecade"));
  setting = given.configuration.properties["rinddecade.path"].default;
  assert.strictEqual(factory.createDebugAdapterDescriptor().command, "rinddecade");

  setting = program;
  const initial = given.debuggers[0].initialConfigurations[0];
  assert.deepStrictEqual(provider.resolveDebugConfiguration(undefined, initial), initial);
  for (const it of [initial, {}]) {
    await steps(descriptor, await resolved(provider, it, source));
    await undebugged(descriptor, provider, it);
    console.log(`came: ${it.name || "a launch without launch.json"}`);
  }
  await refusals(descriptor, provider);
  console.log("came: a source that is refused");
  await missing(provider);
  console.log("came: a program that is not there");
  editor = { document: { languageId: "c" } };
  assert.strictEqual(await resolved(provider, {}, source), null);
  editor = undefined;
  assert.strictEqual(await resolved(provider, {}, source), null);
}

main().catch((fault) => {
  console.error(fault);
  process.exit(1);
});
