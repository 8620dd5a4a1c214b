#!/usr/bin/env bash
# Gives each text of a JSON test collection to replay as the body of a request, and looks whether it is
# taken for JSON: a folder named by JSON_COLLECTION whose files begin with y_ (JSON) or n_ (not), and the
# texts that Python's own tests of its json module have. Skipped where there is no Python, or where the
# program wasn't built in its folder by `rt run`.
cd "$(dirname "$0")/.." || exit 2
[ -x crates/replay/out/replay ] || { echo "JSON collection: skipped, crates/replay/out/replay isn't built"; exit 0; }
command -v python3 >/dev/null || { echo "JSON collection: skipped, there is no python3"; exit 0; }
exec python3 - "${JSON_COLLECTION:-}" <<'PYTHON'
import pathlib
import subprocess
import sys

texts = []
if sys.argv[1]:
    for path in sorted(pathlib.Path(sys.argv[1]).glob("[yn]_*.json")):
        texts.append((path.name, path.read_bytes(), path.name.startswith("y_")))
try:
    from test.test_json import test_fail, test_pass1, test_pass2, test_pass3
except ImportError:
    pass
else:
    for number, text in enumerate(test_fail.JSONDOCS, 1):
        texts.append((f"fail {number}", text.encode(), number in test_fail.SKIPS))
    for number, module in enumerate((test_pass1, test_pass2, test_pass3), 1):
        texts.append((f"pass {number}", module.JSON.encode(), True))
if not texts:
    print("JSON collection: skipped, none was found")
    sys.exit(0)

faults = 0
for name, text, is_json in texts:
    # A line feed would end the script's line. A carriage return stands where it stands, and nowhere else.
    line = b"0 EVENTS " + text.replace(b"\n", b"\r") + b"\n"
    run = subprocess.run(["crates/replay/out/replay"], input=line, capture_output=True)
    was_json = b'"not json"' not in run.stdout
    if run.returncode != 0 or was_json != is_json:
        print(f"JSON collection: {name}: status {run.returncode}, {run.stdout.decode()}")
        faults += 1
print(f"JSON collection: {len(texts)} texts, {faults} taken wrongly")
sys.exit(1 if faults else 0)
PYTHON
