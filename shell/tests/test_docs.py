"""The README, the pages and the man page: their links, and their commands."""

import os
import re
import shutil
import subprocess
import unittest

from support import TOP
from shell import help_texts

PAGES = ["README.md", "CHANGELOG.md"] + [os.path.join("docs", name) for name in sorted(os.listdir(os.path.join(TOP, "docs"))) if name.endswith(".md")]


def text_of(name: str) -> str:
    """The text of a file of the repository."""
    with open(os.path.join(TOP, name), encoding="utf-8") as file:
        return file.read()


def anchors(name: str) -> set[str]:
    """The names that a page's headings can be linked by."""
    heads = re.findall(r"^#+ (.*)$", text_of(name), re.M)
    return {re.sub(r"[^\w\- ]", "", re.sub(r"\]\([^)]*\)", "]", head).lower()).replace(" ", "-") for head in heads}


def commands_of_sessions() -> list[str]:
    """The commands that COMMANDS.md has in its tables."""
    text = text_of("docs/COMMANDS.md").split("## Refusals")[0]
    return sorted({words.split(" ")[0] for words in re.findall(r"^`([a-z]+(?: [^`]*)?)` \|", text, re.M)
                   if words.split(" ")[0] not in ("start", "let", "spawn", "wait", "open", "close", "test", "end")})


class Pages(unittest.TestCase):
    def test_the_readme_is_short(self) -> None:
        self.assertLessEqual(len(text_of("README.md").split()), 700)

    def test_links_lead_somewhere(self) -> None:
        for page in PAGES:
            for link in re.findall(r"\]\(([^)\s]+)\)", text_of(page)):
                path, _, anchor = link.partition("#")
                with self.subTest(page=page, link=link):
                    self.assertNotRegex(link, r"^\w+:")
                    aim = os.path.normpath(os.path.join(os.path.dirname(page), path)) if path else page
                    self.assertTrue(os.path.exists(os.path.join(TOP, aim)))
                    if anchor:
                        self.assertIn(anchor, anchors(aim))

    def test_each_command_is_in_the_man_page(self) -> None:
        there = re.findall(r"[a-z]+", text_of("docs/taskback.1"))
        wanted = commands_of_sessions()
        self.assertGreater(len(wanted), 20)
        self.assertEqual([word for word in wanted if word not in there], [])

    def test_each_command_of_the_shell_is_in_the_man_page_as_it_is_written(self) -> None:
        page = text_of("docs/taskback.1").replace("\\-", "-")
        for name, entry in help_texts.HELP.items():
            if name not in help_texts.OF_THE_PROGRAM:
                self.assertIn(f".TP\n.B {entry.usage}\n", page, name)
        self.assertIn("man docs/taskback.1", text_of("README.md"))
        for option in ("--check", "--json", "-x"):
            self.assertIn(option, page)

    def test_each_command_of_the_shell_is_in_its_page(self) -> None:
        there = text_of("docs/SHELL.md")
        for name in help_texts.HELP:
            if name not in help_texts.OF_THE_PROGRAM:
                self.assertRegex(there, rf"`{name}\b", name)

    @unittest.skipUnless(shutil.which("groff"), "left out: no groff is here")
    def test_the_man_pages_are_well_formed(self) -> None:
        for page in ("taskback.1", "taskcheck.1"):
            done = subprocess.run(["groff", "-man", "-Tutf8", "-ww", os.path.join(TOP, "docs", page)], capture_output=True, text=True, check=False)
            self.assertEqual((done.returncode, done.stderr), (0, ""), page)


if __name__ == "__main__":
    unittest.main()
