"""The editors: Emacs as a client of the server, the extension for VS Code, and the grammars."""

import json
import os
import re
import shutil
import subprocess
import sys
import tempfile
import unittest
import zipfile
import xml.etree.ElementTree as tree
from typing import Any

from support import EXAMPLES, PROGRAM, TOP, example, needs_program, write_file
from test_dap import RECORDED
from shell import help_texts

EDITORS = os.path.join(TOP, "editors")
CLIENT = os.path.join(TOP, "shell", "tests", "emacs_client.el")
NODE = shutil.which("node")
VIM = shutil.which("vim")
# A stand-in for the editor, in which the extension is activated; it prints what was registered.
STUB = """
const Module = require("module"), path = require("path"), registered = {}, shown = [];
class DebugAdapterExecutable { constructor(command, args) { this.command = command; this.args = args; } }
const vscode = {
  DebugAdapterExecutable, ViewColumn: { Beside: 2 },
  workspace: { getConfiguration: () => ({ get: (name) => ({ folder: process.env.FOLDER, python: process.env.PYTHON })[name] }), workspaceFolders: undefined },
  window: { activeTextEditor: { document: { languageId: "taskback", uri: { fsPath: process.env.SESSION } } },
    showErrorMessage: (text) => shown.push(text),
    createWebviewPanel: (kind, title, column, how) => { const panel = { webview: {}, kind, title, how }; shown.push(panel); return panel; } },
  debug: { registerDebugAdapterDescriptorFactory: (type, made) => { registered.adapter = made; }, registerDebugConfigurationProvider: (type, made) => { registered.config = made; } },
  commands: { registerCommand: (name, act) => { registered[name] = act; } },
};
const load = Module._load;
Module._load = (name, ...more) => name === "vscode" ? vscode : load(name, ...more);
const extension = require(process.env.EXTENSION);
extension.activate({ subscriptions: [] });
const config = registered.config.resolveDebugConfiguration(undefined, {});
registered["taskback.showPage"]();
const timer = setInterval(() => { if (shown.length) { clearInterval(timer); process.stdout.write(JSON.stringify({ command: registered.adapter.createDebugAdapterDescriptor().command, config,
  page: (shown[0].webview || {}).html || shown[0], title: shown[0].title, scripts: (shown[0].how || {}).enableScripts })); } }, 20);
"""


def has_dap_mode() -> bool:
    """Whether Emacs has dap-mode."""
    if not shutil.which("emacs"):
        return False
    done = subprocess.run(["emacs", "--batch", "--eval", "(require 'dap-mode)"], capture_output=True, timeout=120, check=False)
    return done.returncode == 0


def recorded(folder: str) -> tuple[str, str] | None:
    """A C program recorded in a folder: its session and its C file; None where it can't be."""
    for name in ("sum.c", "sum.session"):
        if os.path.exists(os.path.join(folder, name)):
            os.unlink(os.path.join(folder, name))
    c_file = os.path.join(folder, "inout_race.c")
    shutil.copy(os.path.join(TOP, "openmp", "examples", "inout_race.c"), c_file)
    for words in (["record", "cc", c_file, "-o", "sum", "-lm"], ["record", "run", "-o", "sum.trace", "./sum"], ["session", "sum.trace", "-o", "sum.session"]):
        done = subprocess.run([os.path.join(TOP, "openmp", words[0]), *words[1:]], cwd=folder, capture_output=True, timeout=120, check=False,
                              env={**os.environ, "TASKBACK_PROGRAM": PROGRAM})
        if done.returncode:
            return None
    return os.path.join(folder, "sum.session"), c_file


@needs_program
@unittest.skipUnless(has_dap_mode(), "left out: no Emacs with dap-mode (elpa-dap-mode) is here")
class Emacs(unittest.TestCase):
    def seen(self, file: str, program: str, line: int) -> dict[str, str]:
        """What Emacs sees, as its client script says it."""
        with tempfile.TemporaryDirectory() as home:
            done = subprocess.run(["emacs", "--batch", "-l", CLIENT, os.path.join(EDITORS, "emacs", "taskback.el"), file, program, str(line)],
                                  capture_output=True, text=True, timeout=120, check=False, env={**os.environ, "HOME": home, "TASKBACK_PROGRAM": PROGRAM})
        self.assertEqual(done.returncode, 0, done.stderr)
        return dict(line.split(" ", 1) for line in done.stdout.split("\n") if " " in line)

    def test_the_mode(self) -> None:
        """The mark of a comment begins a word; that of a step is in one."""
        path = write_file(self, "cells 1 # why\n---\nroll 0.1#4 # back\n# roll\n", "a.session")
        look = "(dolist (word '(\"cells\" \"why\" \"0.1#4\" \"back\" \"# roll\")) (goto-char (point-min)) (search-forward word) " \
               "(princ (format \"%s %s \" (get-text-property (1- (point)) 'face) (and (nth 4 (syntax-ppss (1- (point)))) t))))"
        done = subprocess.run(["emacs", "--batch", "-l", os.path.join(EDITORS, "emacs", "taskback.el"), path, "--eval", f"(progn (font-lock-ensure) {look})"],
                              capture_output=True, text=True, timeout=120, check=False)
        comment = "font-lock-comment-face t"
        self.assertEqual(done.stdout.strip(), f"font-lock-keyword-face nil {comment} nil nil {comment} {comment}", done.stderr)

    def test_a_program_forwards_and_backwards(self) -> None:
        path = write_file(self, example("right_sum.task"), "right_sum.task")
        self.assertEqual(self.seen(path, path, 13), {
            "mode": "taskback-mode", "keys": "t taskback-step-back taskback-reverse-continue dap-next", "entry": "main:3", "breakpoint": "add:14 (r0=1 r1=1)", "threads": "(0 main 0.1 add 0.2 add)", "back": "add:13",
            "again": "add:14 (r0=1 r1=1)", "second": "add:14", "reverse": "add:14", "races": "0", "evaluate": "2", "console": "ran 1 limit", "after": "add:14"})

    def test_a_recorded_run_by_lines_of_its_c_file(self) -> None:
        path = write_file(self, RECORDED, "sum.session")
        c_file = os.path.join(os.path.dirname(path), "sum.c")
        with open(c_file, "w", encoding="ascii") as file:
            file.write("// a line\n" * 9)
        seen = self.seen(c_file, path, 5)
        self.assertEqual((seen["entry"], seen["breakpoint"], seen["back"], seen["again"]), ("main:4", "task4:5 (r0=0 r1=0)", "task4:5", "task4:5 (r0=0 r1=0)"))

    def test_a_c_program_that_is_recorded_now(self) -> None:
        made = recorded(os.path.dirname(write_file(self, "", "sum.c")))
        if made is None:
            self.skipTest("left out: no clang with its OpenMP runtime is here")
        session, c_file = made
        with open(session, encoding="utf-8") as file:
            line = max(int(number) for number in re.findall(r"^  store .*# inout_race\.c:(\d+) writes ", file.read(), re.M))
        seen = self.seen(c_file, session, line)
        self.assertRegex(seen["breakpoint"], rf"^task\w+:{line} ")
        self.assertEqual((seen["back"].split(":")[0], seen["again"]), (seen["breakpoint"].split(":")[0], seen["breakpoint"]))


class VsCode(unittest.TestCase):
    def package(self) -> Any:
        with open(os.path.join(EDITORS, "vscode", "package.json"), encoding="utf-8") as file:
            return json.load(file)

    def test_the_extension_is_built_without_a_network(self) -> None:
        with open(os.path.join(TOP, "VERSION"), encoding="ascii") as file:
            version = file.read().strip()
        with tempfile.TemporaryDirectory() as folder:
            build = [sys.executable, os.path.join(EDITORS, "vscode", "build.py"), folder]
            path = subprocess.run(build, capture_output=True, text=True, timeout=60, check=True).stdout.strip()
            self.assertEqual(os.path.basename(path), f"taskback-{version}.vsix")
            with open(path, "rb") as file:
                first = file.read()
            subprocess.run(build, capture_output=True, timeout=60, check=True)
            with open(path, "rb") as file:
                self.assertEqual(file.read(), first)
            with zipfile.ZipFile(path) as made:
                self.assertIsNone(made.testzip())
                names = set(made.namelist())
                self.assertEqual(json.loads(made.read("extension/package.json"))["version"], version)
                manifest, types = (tree.fromstring(made.read(name)) for name in ("extension.vsixmanifest", "[Content_Types].xml"))
        self.assertLessEqual({"extension/package.json", "extension/extension.js", "extension/LICENSE.txt", "extension/syntaxes/taskback.tmLanguage.json"}, names)
        space = "{http://schemas.microsoft.com/developer/vsx-schema/2011}"
        identity = manifest.find(f"{space}Metadata/{space}Identity")
        self.assertEqual((identity.get("Id"), identity.get("Version")), ("taskback", version))
        for asset in manifest.iter(f"{space}Asset"):
            self.assertIn(asset.get("Path"), names)
        endings = {os.path.splitext(name)[1] for name in names if name != "[Content_Types].xml"}
        self.assertLessEqual(endings, {part.get("Extension") for part in types})

    def test_what_it_says_it_has_is_there(self) -> None:
        contributes = self.package()["contributes"]
        for path in (contributes["languages"][0]["configuration"], contributes["grammars"][0]["path"], self.package()["main"]):
            self.assertTrue(os.path.exists(os.path.join(EDITORS, "vscode", path)), path)
        self.assertEqual(contributes["debuggers"][0]["type"], "taskback")

    @needs_program
    @unittest.skipUnless(NODE, "left out: no node is here")
    def test_the_extension_starts_the_server_and_shows_the_page(self) -> None:
        session = os.path.join(EXAMPLES, "race.session")
        done = subprocess.run([NODE, "-e", STUB], capture_output=True, text=True, timeout=60, check=False, env={
            **os.environ, "FOLDER": TOP, "PYTHON": sys.executable, "SESSION": session, "TASKBACK_PROGRAM": PROGRAM,
            "EXTENSION": os.path.join(EDITORS, "vscode", "extension.js")})
        self.assertEqual((done.stderr, done.returncode), ("", 0))
        told = json.loads(done.stdout)
        self.assertEqual(told["command"], os.path.join(TOP, "taskback-dap"))
        self.assertEqual((told["config"]["program"], told["config"]["type"]), (session, "taskback"))
        self.assertTrue(told["page"].startswith("<!DOCTYPE html>"))
        self.assertEqual((told["title"], told["scripts"]), ("race.session", True))

    def test_the_grammar(self) -> None:
        """Each word of a line has the scope that it should have; the patterns are tried in order, as the editor does."""
        with open(os.path.join(EDITORS, "vscode", "syntaxes", "taskback.tmLanguage.json"), encoding="utf-8") as file:
            grammar = json.load(file)
        patterns = [grammar["repository"]["comment"], *grammar["patterns"][1:]]
        for line, word, scope in (("  task add r1 depend inout 0  # why", "task", "keyword.control"), ("  task add r1 depend inout 0", "add", "entity.name.function"),
                                  ("  task add r1 depend inout 0", "inout", "storage.modifier"), ("  let r1 r1 + r0", "r1", "variable.language"),
                                  ("roll 0.1#4", "0.1#4", "constant.other.step"), ("  print r0 # 0#3", "# 0#3", "comment.line"), ("---", "---", "markup.heading"),
                                  ("  if r0 <= -3", "-3", "constant.numeric"), ("cells 2", "cells", "storage.type"), ("why 0#4", "why", "keyword.other")):
            self.assertIn(scope, self.scope_of(patterns, line, word), (line, word))

    def test_each_line_of_the_examples_has_its_words_scoped(self) -> None:
        """The first word of each line, each number, register, type and step; and each command of a session."""
        with open(os.path.join(EDITORS, "vscode", "syntaxes", "taskback.tmLanguage.json"), encoding="utf-8") as file:
            grammar = json.load(file)
        patterns = [grammar["repository"]["comment"], *grammar["patterns"][1:]]
        lines = {line for name in os.listdir(EXAMPLES) if name.endswith((".task", ".session")) for line in example(name).split("\n")}
        lines |= {f"{command} 0.1#4" for command in help_texts.OF_THE_PROGRAM} | {"  task add 1 depend inout all", "  taskwait depend out all if 1 == 2"}
        bare = []
        for line in sorted(lines):
            words = re.split(r"(?:^|(?<=\s))#", line)[0].split()
            wanted = words[:1] + [word for word in words[1:] if re.fullmatch(r"-?[0-9.]+(#[0-9]+)?|r[0-9]+|in|out|\w*inout\w*|all|depend", word)]
            bare += [(line, word) for word in wanted if f" {word}" in f" {line}" and words.count(word) == 1 and line.count(word) == 1 and not self.scope_of(patterns, line, word)]
        self.assertEqual(bare, [])

    @staticmethod
    def scope_of(patterns: Any, line: str, word: str) -> Any:
        """The scope of a word of a line."""
        wanted, at = line.index(word), 0
        while at < len(line):
            found = min(((match.start(), order, match, pattern) for order, pattern in enumerate(patterns)
                         if (match := re.compile(pattern["match"]).search(line, at)) and match.end() > match.start()), default=None, key=lambda told: told[:2])
            if found is None:
                return ""
            _, _, match, pattern = found
            for group in range(len(match.groups()) + 1):
                if match.start(group) == wanted and match.group(group).strip() == word:
                    name = pattern.get("name") if group == 0 else pattern.get("captures", {}).get(str(group), {}).get("name")
                    if name:
                        return name
            at = match.end()
        return ""


@unittest.skipUnless(VIM, "left out: no vim is here")
class Vim(unittest.TestCase):
    def test_the_grammar(self) -> None:
        path = write_file(self, "cells 1\nbody main 0\n  task add 1 depend inout 0 # why\n  let r1 r1 + 2\nend\n---\nroll 0.1#4\n", "a.task")
        with open(os.path.join(EDITORS, "vim", "syntax", "taskback.vim"), encoding="ascii") as file:
            commands = re.search(r"taskbackCommand /(.*)/", file.read())[1]
        self.assertLessEqual(set(help_texts.OF_THE_PROGRAM) - {"task", "cells"}, set(re.findall(r"\w+", commands)))
        wanted = [(1, 1, "taskbackCells"), (2, 6, "taskbackName"), (3, 3, "taskbackBlock"), (3, 14, "taskbackDepend"), (3, 21, "taskbackType"),
                  (3, 29, "taskbackComment"), (4, 3, "taskbackStatement"), (4, 7, "taskbackRegister"), (4, 15, "taskbackNumber"), (6, 1, "taskbackLine"),
                  (7, 1, "taskbackCommand"), (7, 6, "taskbackStep")]
        out = write_file(self, "", "out")
        script = write_file(self, "".join([
            f"set nocompatible\nset runtimepath^={os.path.join(EDITORS, 'vim')}\nfiletype plugin on\nsyntax on\nedit {path}\nlet told = [&filetype]\n",
            *(f"call add(told, synIDattr(synID({line}, {column}, 1), 'name'))\n" for line, column, _ in wanted),
            f"call writefile(told, '{out}')\nquit!\n"]), "script.vim")
        subprocess.run([VIM, "-u", "NONE", "-es", "-S", script], stdin=subprocess.DEVNULL, capture_output=True, timeout=60, check=False)
        with open(out, encoding="ascii") as file:
            self.assertEqual(file.read().split("\n")[:-1], ["taskback"] + [name for _, _, name in wanted])


if __name__ == "__main__":
    unittest.main()
