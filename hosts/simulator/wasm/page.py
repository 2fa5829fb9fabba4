#!/usr/bin/env python3
"""Prints the examples and a module as a script for docs/playground, so that the page needs no server.

    page.py MODULE.wasm
"""
import base64
import gzip
import json
import pathlib
import sys

examples = pathlib.Path(__file__).resolve().parents[3] / "examples"
texts = {path.stem: path.read_text() for path in sorted(examples.glob("*.krl"))}
module = gzip.compress(pathlib.Path(sys.argv[1]).read_bytes(), 9, mtime=0)
print(f"""// Made by hosts/simulator/wasm/make.
const EXAMPLES = {json.dumps(texts, indent=2)};
// The module, compressed by gzip, in base64.
const MODULE = "{base64.b64encode(module).decode()}";""")
