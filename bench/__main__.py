"""The one way to call the scripts of bench/, from anywhere:

    python3 bench NAME WORDS..

Without a name it prints each script and what it does; `python3 bench NAME --help` prints how one is called.
"""
import ast
import importlib
import os
import sys

HERE = os.path.dirname(os.path.abspath(__file__))
FOLDERS = ("", "second", "measure", "hostile")
sys.dont_write_bytecode = True
sys.path[:0] = [HERE, os.path.dirname(HERE)]


def scripts(folder):
    """The scripts of a folder that can be called: the name and the text of each."""
    for file in sorted(os.listdir(os.path.join(HERE, folder))):
        if file.endswith(".py") and file != "__main__.py":
            with open(os.path.join(HERE, folder, file), encoding="utf-8") as opened:
                tree = ast.parse(opened.read())
            if any(isinstance(item, ast.FunctionDef) and item.name == "main" for item in tree.body):
                yield file.removesuffix(".py"), ast.get_docstring(tree)


def main(words):
    for folder in FOLDERS:
        if words and os.path.exists(os.path.join(HERE, folder, words[0] + ".py")):
            script = importlib.import_module(f"{folder}.{words[0]}" if folder else words[0])
            if words[1:] in (["--help"], ["-h"]) or len(words) < 2 and not getattr(script, "WORDLESS", False):
                print(script.__doc__.strip())
                return 0 if len(words) > 1 else 1
            return script.main(words[1:])
    print(__doc__)
    for folder in FOLDERS:
        print(f"{folder or 'the repository'}:")
        for name, text in scripts(folder):
            print(f"  {name:12} {text.split(chr(10))[0]}")
    return 0 if not words else 1


if __name__ == "__main__":
    sys.exit(main(sys.argv[1:]))
