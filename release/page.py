"""Puts the page of clients/python/wokureti/page, the engine in WebAssembly and its worker together as one file, which a
browser opens from the disk.

From the disk a browser starts no module script of another file and no worker of one. So the modules are joined in the
order of their imports, each as a function that returns what it exports; the worker's text and the module are data in
the page. The policy in the file lets it ask for nothing, from anywhere.
"""

import base64
import gzip
import hashlib
import html
import posixpath
import re

from .sources import TOP, Failed, sum_of

FOLDER = TOP / "clients/python/wokureti/page"
NAME = "wokureti.html"
PAGE, WORKER = "alone.js", "engines/worker.js"
# Bytes of the file, at most.
MOST = 2 << 20

IMPORT = re.compile(r'^import (?:(\{[^}]*\}|\* as \w+) from )?"(\.[^"]+)";\n', re.M)
EXPORTED = re.compile(r"^export (?=(?:async )?(?:function|class|const|let) )", re.M)
NAMES = re.compile(r"^export (?:async )?(?:function\*? (\w+)|class (\w+)|(?:const|let) (\w+|[\[{][^=]*[\]}]) =)", re.M)
POLICY = (
    "default-src 'none'; script-src '{script}' 'wasm-unsafe-eval'; worker-src blob:; style-src 'unsafe-inline'; img-src"
    " data: blob:; media-src blob:; base-uri 'none'; form-action 'none'"
)


def sources():
    """A text that changes with each file that the page is made of, the library's own crates apart."""
    found = hashlib.sha256()
    own = [path for path in FOLDER.rglob("*") if path.suffix in (".js", ".css", ".html", ".svg")]
    for path in sorted(
        [
            *own,
            *(TOP / "release/wasm").iterdir(),
            *(TOP / "release" / name for name in ("page.py", "retarget.py", "web.py")),
        ]
    ):
        found.update(f"{path.relative_to(TOP)} {sum_of(path)}\n".encode())
    return found.hexdigest()


def module_of(name):
    """The name of the constant that has what a module exports."""
    return "$" + re.sub(r"\W", "_", name.removesuffix(".js"))


def names_in(text):
    """The names that a module exports."""
    found = []
    for one in NAMES.finditer(text):
        name = next(group for group in one.groups() if group)
        found += re.findall(r"\w+", name)
    return found


def import_line(what, name):
    """The line of a module in the place of an import."""
    if what is None:
        return ""
    if what.startswith("*"):
        return f"const {what.split()[-1]} = {module_of(name)};\n"
    names = re.sub(r"(\w+) as (\w+)", r"\1: \2", what)
    return f"const {names} = {module_of(name)};\n"


def as_function(name, text):
    """A module as a constant: a function that was called, of which nothing but its exports is seen outside."""
    inside = IMPORT.sub(lambda found: import_line(found.group(1), resolved(name, found.group(2))), text)
    inside = EXPORTED.sub("", inside)
    left = re.search(r"^(?:import|export)\b.*", inside, re.M)
    if left or "import(" in inside or "import.meta" in inside:
        raise Failed(
            f"{name} has an import or an export of a form that release/page.py does not know:"
            f" {left.group(0) if left else 'import( or import.meta'}"
        )
    return (
        f"// {name}\nconst {module_of(name)} = (() => {{\n{inside}return {{ {', '.join(names_in(text))} }};\n}})();\n"
    )


def resolved(name, other):
    return posixpath.normpath(posixpath.join(posixpath.dirname(name), other))


def joined(entry):
    """The modules that a module needs, and itself, in the order in which a browser runs them, as one script."""
    done, found = {}, []

    def add(name, above):
        if name in above:
            raise Failed(f"modules import each other: {' '.join((*above, name))}")
        if name in done:
            return
        text = (FOLDER / name).read_text(encoding="utf-8")
        for one in IMPORT.finditer(text):
            add(resolved(name, one.group(2)), (*above, name))
        done[name] = True
        found.append(as_function(name, text))

    add(entry, ())
    return '"use strict";\n' + "".join(found)


def data_script(name, text):
    """A text that the page reads and no browser runs."""
    if "</script" in text.lower() or "<!--" in text:
        raise Failed(f"{name} has a text that would end its script")
    return f'<script type="text/plain" id="{name}">{text}</script>\n'


def replaced(text, old, new):
    if text.count(old) != 1:
        raise Failed(f"index.html has {text.count(old)} times {old}")
    return text.replace(old, new)


def made(module, version):
    """The bytes of the file, over those of the module in WebAssembly."""
    script = joined(PAGE)
    if "</script" in script.lower() or "<!--" in script:
        raise Failed("the script has a text that would end it")
    digest = base64.b64encode(hashlib.sha256(script.encode()).digest()).decode()
    packed = base64.b64encode(gzip.compress(module, 9, mtime=0)).decode()
    icon = base64.b64encode((FOLDER / "icon.svg").read_bytes()).decode()
    text = (
        (FOLDER / "index.html").read_text(encoding="utf-8").replace('"icon.svg"', f'"data:image/svg+xml;base64,{icon}"')
    )
    policy = html.escape(POLICY.format(script=f"sha256-{digest}"), quote=False)
    text = replaced(
        text,
        '<meta charset="utf-8">\n',
        (
            f'<meta charset="utf-8">\n<meta http-equiv="Content-Security-Policy" content="{policy}">\n<meta'
            f' name="version" content="{version}">\n'
        ),
    )
    text = replaced(
        text,
        '<link rel="stylesheet" href="page.css">\n',
        f"<style>\n{(FOLDER / 'page.css').read_text(encoding='utf-8')}</style>\n",
    )
    text = replaced(text, '<script type="module" src="served.js"></script>\n', "")
    end = (
        data_script("module-text", packed) + data_script("worker-text", joined(WORKER)) + f"<script>{script}</script>\n"
    )
    data = replaced(text, "</body>\n", f"{end}</body>\n").encode()
    if len(data) > MOST:
        raise Failed(f"{NAME} has {len(data):,} bytes, and must have {MOST:,} at most")
    return data
