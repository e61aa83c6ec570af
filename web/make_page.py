#!/usr/bin/env python3
"""make_page.py MODULE IMAGE OUT [WORDS [EXERCISES]]: writes the page as one file, which holds its style, its code, its texts, the module and the
image. WORDS is another language's words.json, EXERCISES what course/pack.py wrote."""
import base64
import gzip
import html
import json
import pathlib
import re
import sys

HERE = pathlib.Path(__file__).resolve().parent
IMPORT = re.compile(r'^import \{ (.*) \} from "\./(\w+)\.js";\n', re.MULTILINE)
EXPORT = re.compile(r"^export ((?:async )?(?:function|class|const) (\w+))", re.MULTILINE)
WORD = re.compile(r"\{\{([\w-]+)\}\}")
PLACE_OF_WORDS = "const WORDS = {}; // words.json\n"
ENGLISH = HERE / "words.json"

# The page's own function, by which it reads what is packed in it.
UNPACK = re.search(r"^async function unpack.*?^}\n", (HERE / "page.js").read_text(), re.MULTILINE | re.DOTALL)[0].replace("byId(", "document.getElementById(")


# What the page begins with: it puts its code in, which is packed, too.
BEGIN = f"""{UNPACK}
const code = document.createElement("script");
code.type = "module";
code.textContent = new TextDecoder().decode(await unpack("packed-code"));
document.head.append(code);
"""


def packed(data):
    """Bytes as text, made small. The same bytes give the same text."""
    return base64.b64encode(gzip.compress(data, 9, mtime=0)).decode()


def packed_file(name):
    return packed(pathlib.Path(name).read_bytes())


def words_of(name):
    """The texts of a language. It has those of the English one, no more and no fewer."""
    words, english = (json.loads(pathlib.Path(it).read_text()) for it in (name, ENGLISH))
    if words.keys() != english.keys():
        raise SystemExit(f"{name}: other names than {ENGLISH}: {sorted(words.keys() ^ english.keys())}")
    return words


def as_function(name, text):
    """A module as the constant NAME, which has what the module exports."""
    names = ", ".join(match[2] for match in EXPORT.finditer(text))
    body = IMPORT.sub(r"const { \1 } = \2;\n", EXPORT.sub(r"\1", text))
    return f"const {name} = (() => {{\n{body}return {{ {names} }};\n}})();\n"


def joined(name, done, words=None):
    """A module after those that it imports, each once."""
    if name in done:
        return ""
    done.add(name)
    text = (HERE / f"{name}.js").read_text()
    below = "".join(joined(match[2], done, words) for match in IMPORT.finditer(text))
    if name == "words":
        assert text.count(PLACE_OF_WORDS) == 1
        text = text.replace(PLACE_OF_WORDS, f"const WORDS = {json.dumps(words or words_of(ENGLISH), ensure_ascii=False)};\n")
    return below + as_function(name, text)


def main():
    module, image, out = sys.argv[1:4]
    words = words_of(sys.argv[4] if len(sys.argv) > 4 else ENGLISH)
    page = WORD.sub(lambda match: html.escape(words[match[1]]), (HERE / "index.html").read_text())
    for position, text in {
        "/* style.css */\n": (HERE / "style.css").read_text(),
        "// page.js\n": BEGIN,
        'id="packed-code">': f'id="packed-code">{packed(joined("page", set(), words).encode())}',
        'id="packed-module">': f'id="packed-module">{packed_file(module)}',
        'id="packed-image">': f'id="packed-image">{packed_file(image)}',
        'id="packed-exercises">': f'id="packed-exercises">{packed_file(sys.argv[5]) if len(sys.argv) > 5 else ""}',
    }.items():
        assert page.count(position) == 1, position
        page = page.replace(position, text)
    pathlib.Path(out).parent.mkdir(parents=True, exist_ok=True)
    pathlib.Path(out).write_text(page)


if __name__ == "__main__":
    main()
