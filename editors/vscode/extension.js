"use strict";
// Starts the server of the Debug Adapter Protocol, and shows the page of a session in a panel.
const childProcess = require("child_process");
const fs = require("fs");
const os = require("os");
const path = require("path");
const vscode = require("vscode");

// The folder of Taskback: as it is set, else the one that this extension lies in, a folder that is open, or where Debian's package puts it.
function folderOfTaskback() {
  const set = vscode.workspace.getConfiguration("taskback").get("folder");
  const open = (vscode.workspace.workspaceFolders || []).map((folder) => folder.uri.fsPath);
  return [set, path.resolve(__dirname, "..", ".."), ...open, "/usr/lib/taskback"].find((folder) => folder && fs.existsSync(path.join(folder, "taskback-dap")));
}

function refuse() {
  throw new Error("Taskback isn't found: set taskback.folder to the folder that has taskback-dap in it");
}

class Adapters {
  createDebugAdapterDescriptor() {
    const folder = folderOfTaskback() || refuse();
    return new vscode.DebugAdapterExecutable(path.join(folder, "taskback-dap"), []);
  }
}

class Configurations {
  // Without a launch.json the file that is open is launched.
  resolveDebugConfiguration(folder, config) {
    const editor = vscode.window.activeTextEditor;
    if (!config.type && editor && editor.document.languageId === "taskback") {
      Object.assign(config, { type: "taskback", request: "launch", name: "Taskback: this file", program: editor.document.uri.fsPath, stopOnEntry: true });
    }
    return config.program ? config : undefined;
  }
}

// The page of a session; what the script says where there is none.
function pageOf(file, callback) {
  const folder = folderOfTaskback() || refuse();
  const there = path.join(fs.mkdtempSync(path.join(os.tmpdir(), "taskback-")), "page.html");
  const python = vscode.workspace.getConfiguration("taskback").get("python") || "python3";
  childProcess.execFile(python, [path.join(folder, "taskback-shell"), "--page", file, there], (fault, out, told) => {
    callback(fault ? told || String(fault) : null, fault ? "" : fs.readFileSync(there, "utf8"));
    fs.rmSync(path.dirname(there), { recursive: true, force: true });
  });
}

function showPage(uri) {
  const editor = vscode.window.activeTextEditor, file = (uri && uri.fsPath) || (editor && editor.document.uri.fsPath);
  if (!file) return;
  pageOf(file, (fault, page) => {
    if (fault) { vscode.window.showErrorMessage("Taskback: " + fault); return; }
    const panel = vscode.window.createWebviewPanel("taskback.page", path.basename(file), vscode.ViewColumn.Beside, { enableScripts: true });
    panel.webview.html = page;
  });
}

function activate(context) {
  context.subscriptions.push(
    vscode.debug.registerDebugAdapterDescriptorFactory("taskback", new Adapters()),
    vscode.debug.registerDebugConfigurationProvider("taskback", new Configurations()),
    vscode.commands.registerCommand("taskback.showPage", showPage));
}

module.exports = { activate, deactivate: () => undefined, pageOf };
