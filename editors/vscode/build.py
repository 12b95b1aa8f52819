#!/usr/bin/env python3
"""Makes the extension for VS Code, a .vsix, without a network: a zip file with a manifest. Its version is the one of the file VERSION.

    editors/vscode/build.py [FOLDER]     the file goes into FOLDER (none: the current one), and its name is printed
"""

import json
import os
import sys
import zipfile
from xml.sax.saxutils import escape, quoteattr

HERE = os.path.dirname(os.path.abspath(__file__))
TOP = os.path.dirname(os.path.dirname(HERE))
FILES = ("extension.js", "language-configuration.json", "README.md", "syntaxes/taskback.tmLanguage.json")
# The time of each file in it, so that the same files give the same bytes.
MOMENT = (1980, 1, 1, 0, 0, 0)
TYPES = ('<?xml version="1.0" encoding="utf-8"?>\n<Types xmlns="http://schemas.openxmlformats.org/package/2006/content-types">'
         '<Default Extension=".json" ContentType="application/json"/><Default Extension=".js" ContentType="application/javascript"/>'
         '<Default Extension=".md" ContentType="text/markdown"/><Default Extension=".txt" ContentType="text/plain"/>'
         '<Default Extension=".vsixmanifest" ContentType="text/xml"/></Types>\n')
MANIFEST = """<?xml version="1.0" encoding="utf-8"?>
<PackageManifest Version="2.0.0" xmlns="http://schemas.microsoft.com/developer/vsx-schema/2011">
  <Metadata>
    <Identity Language="en-US" Id={name} Version={version} Publisher={publisher}/>
    <DisplayName>{title}</DisplayName>
    <Description xml:space="preserve">{description}</Description>
    <Categories>{categories}</Categories>
    <Properties><Property Id="Microsoft.VisualStudio.Code.Engine" Value={engine}/></Properties>
    <License>extension/LICENSE.txt</License>
  </Metadata>
  <Installation><InstallationTarget Id="Microsoft.VisualStudio.Code"/></Installation>
  <Dependencies/>
  <Assets>
    <Asset Type="Microsoft.VisualStudio.Code.Manifest" Path="extension/package.json" Addressable="true"/>
    <Asset Type="Microsoft.VisualStudio.Services.Content.Details" Path="extension/README.md" Addressable="true"/>
    <Asset Type="Microsoft.VisualStudio.Services.Content.License" Path="extension/LICENSE.txt" Addressable="true"/>
  </Assets>
</PackageManifest>
"""


def manifest_of(package: dict[str, object]) -> str:
    """The manifest of a package."""
    engines, categories = package["engines"], package["categories"]
    assert isinstance(engines, dict) and isinstance(categories, list)
    return MANIFEST.format(name=quoteattr(str(package["name"])), version=quoteattr(str(package["version"])), publisher=quoteattr(str(package["publisher"])),
                           title=escape(str(package["displayName"])), description=escape(str(package["description"])),
                           categories=escape(",".join(categories)), engine=quoteattr(str(engines["vscode"])))


def build(folder: str) -> str:
    """Writes the extension; returns its path."""
    with open(os.path.join(HERE, "package.json"), encoding="utf-8") as file, open(os.path.join(TOP, "VERSION"), encoding="ascii") as version:
        package: dict[str, object] = {**json.load(file), "version": version.read().strip()}
    path = os.path.join(folder, f"{package['name']}-{package['version']}.vsix")
    with zipfile.ZipFile(path, "w", zipfile.ZIP_DEFLATED) as made:
        def add(name: str, data: bytes) -> None:
            made.writestr(zipfile.ZipInfo(name, MOMENT), data, zipfile.ZIP_DEFLATED)
        add("extension.vsixmanifest", manifest_of(package).encode())
        add("[Content_Types].xml", TYPES.encode())
        add("extension/package.json", (json.dumps(package, indent=2) + "\n").encode())
        for name, source in [(f"extension/{name}", os.path.join(HERE, name)) for name in FILES] + [("extension/LICENSE.txt", os.path.join(TOP, "LICENSE"))]:
            with open(source, "rb") as part:
                add(name, part.read())
    return path


if __name__ == "__main__":
    if len(sys.argv) > 2:
        sys.exit(print(__doc__, file=sys.stderr) or 2)
    print(build(sys.argv[1] if len(sys.argv) == 2 else "."))
