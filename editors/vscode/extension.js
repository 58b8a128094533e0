// Tells VS Code which program serves the Debug Adapter Protocol, what is run where no launch.json says it, and where a source is refused.
"use strict";

const fs = require("fs");
const os = require("os");
const path = require("path");
const vscode = require("vscode");

const HOME = "~/";
const TO_SETTING = "Open the Setting";
// How a launch or a restart tells where it refuses a source: the path, the line, the column, and why.
const REFUSED = /^(.+?):(\d+):(\d+): (.+)$/s;

/** The path or name of the program, as the setting gives it. */
function programPath() {
  const setting = vscode.workspace.getConfiguration("rinddecade").get("path");
  return setting.startsWith(HOME) ? path.join(os.homedir(), setting.slice(HOME.length)) : setting;
}

function isProgram(file) {
  try {
    fs.accessSync(file, fs.constants.X_OK);
    return fs.statSync(file).isFile();
  } catch {
    return false;
  }
}

/** Whether a program of this path is there, or one of this name on PATH. */
function isThere(program) {
  if (program.includes(path.sep)) return isProgram(program);
  return (process.env.PATH || "").split(path.delimiter).some((folder) => isProgram(path.join(folder, program)));
}

/** Tells which program is not there, and leads to the setting. */
async function tellMissing(program) {
  const where = program.includes(path.sep) ? `There is no program ${program}` : `No program ${program} is on PATH`;
  const chosen = await vscode.window.showErrorMessage(`${where}: the setting rinddecade.path says where it is.`, TO_SETTING);
  if (chosen === TO_SETTING) await vscode.commands.executeCommand("workbench.action.openSettings", "rinddecade.path");
}

const adapters = {
  createDebugAdapterDescriptor() {
    return new vscode.DebugAdapterExecutable(programPath(), ["adapter"]);
  },
};

const launches = {
  /** A launch as it is given; without a launch.json, that of the source in the editor. */
  resolveDebugConfiguration(_folder, configuration) {
    const editor = vscode.window.activeTextEditor;
    if (configuration.type) return configuration;
    if (!editor || editor.document.languageId !== "ispc") return null;
    return { ...configuration, type: "rinddecade", request: "launch", name: "This source", program: "${file}", width: 8 };
  },

  /**
   * The launch, if the program is there; else none. VS Code waits for it, so it does not wait for the user. One without debugging does not stop on
   * entry: VS Code sets no breakpoints for it, so it runs to a fault or to the end.
   */
  resolveDebugConfigurationWithSubstitutedVariables(_folder, configuration) {
    const program = programPath();
    if (isThere(program)) return configuration.noDebug ? { ...configuration, stopOnEntry: false } : configuration;
    tellMissing(program);
    return undefined;
  },
};

/** Lists where a source is refused among the problems, and shows the place. */
async function showRefusal(refusals, told) {
  const [, file, line, column, why] = REFUSED.exec(told) || [];
  if (!file) return;
  const document = await vscode.workspace.openTextDocument(file);
  const place = new vscode.Position(line - 1, column - 1);
  const range = document.getWordRangeAtPosition(place) || new vscode.Range(place, place.translate(0, 1));
  const problem = new vscode.Diagnostic(range, why, vscode.DiagnosticSeverity.Error);
  problem.source = "rinddecade";
  refusals.set(document.uri, [problem]);
  await vscode.window.showTextDocument(document, { selection: new vscode.Range(place, place) });
}

/** Looks at what a launch or a restart is answered. */
function trackers(refusals) {
  const onDidSendMessage = ({ type, command, success, message }) => {
    if (type !== "response" || !["launch", "restart"].includes(command)) return undefined;
    refusals.clear();
    return success ? undefined : showRefusal(refusals, message);
  };
  return { createDebugAdapterTracker: () => ({ onDidSendMessage }) };
}

function activate(context) {
  const refusals = vscode.languages.createDiagnosticCollection("rinddecade");
  context.subscriptions.push(
    refusals,
    vscode.debug.registerDebugAdapterDescriptorFactory("rinddecade", adapters),
    vscode.debug.registerDebugConfigurationProvider("rinddecade", launches),
    vscode.debug.registerDebugAdapterTrackerFactory("rinddecade", trackers(refusals)),
    vscode.workspace.onDidChangeTextDocument(({ document }) => refusals.delete(document.uri)),
  );
}

module.exports = { activate };
