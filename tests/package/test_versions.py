"""One name, one version: the program, the gateway, the client and the CHANGELOG agree."""
import os
import re
import subprocess
import unittest

from tests.support.running import PROGRAM, ROOT, Cases
from tests.support.wire import oaut


@unittest.skipUnless(os.path.exists(PROGRAM), "the program is not there")
class Versions(Cases):
    def test_the_client_has_the_programs_version(self):
        said = subprocess.run([PROGRAM, "--version"], capture_output=True, text=True).stdout
        self.tell("the client's version", said == f"oaut {oaut.__version__}\n", said)

    def test_the_changelog_begins_with_it(self):
        with open(f"{ROOT}/CHANGELOG.md") as file:
            newest = re.search(r"^## ([0-9.]+)", file.read(), re.MULTILINE)
        self.tell(
            "the newest section of CHANGELOG.md", newest and newest[1] == oaut.__version__, newest
        )

    def test_each_version_has_one_screen(self):
        """The headings of Keep a Changelog, each once, in at most 60 lines for each version."""
        with open(f"{ROOT}/CHANGELOG.md") as file:
            versions = file.read().split("\n## ")[1:]
        for it in versions:
            headings = re.findall(r"^#+ (.*)", it, re.MULTILINE)
            known = ["Added", "Changed", "Deprecated", "Removed", "Fixed", "Security"]
            self.tell(
                f"headings of {it[:5]}",
                headings and headings == [name for name in known if name in headings],
                headings,
            )
            self.tell(f"lines of {it[:5]}", len(it.splitlines()) < 60, len(it.splitlines()))

    def test_readme_names_it(self):
        with open(f"{ROOT}/README.md") as file:
            self.tell("README's status", f"**Status**: {oaut.__version__}" in file.read())

    def test_the_list_of_packages_can_be_installed(self):
        """`.ci/packages` has three columns, and its command prints names of Debian packages."""
        with open(f"{ROOT}/.ci/packages") as file:
            rows = [line.split("|") for line in file if not line.startswith("#")]
        self.tell(
            "each row has a package, a command and a purpose",
            all(len(it) == 3 and all(cell.strip(" !\n") for cell in it) for it in rows),
            rows,
        )
        names = subprocess.run(
            ["sed", "-n", r"s/^!\?\([a-z0-9.+-]*\) |.*/\1/p", f"{ROOT}/.ci/packages"],
            capture_output=True,
            text=True,
        ).stdout.split()
        self.tell(
            "the command prints each package", names == [it[0].strip(" !") for it in rows], names
        )
