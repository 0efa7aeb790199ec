"""What vim makes of files: the type that it finds, and the syntax group of each byte."""
import json
import os
import pathlib
import shutil
import subprocess
import tempfile

DUMP = """
let &runtimepath = $EDITORS_VIM . ',' . &runtimepath
filetype on
syntax on
for s:path in argv()
  execute 'edit!' fnameescape(s:path)
  let s:lines = []
  for s:line in range(1, line('$'))
    let s:columns = range(1, col([s:line, '$']) - 1)
    call add(s:lines, map(s:columns, {_, column -> synIDattr(synID(s:line, column, 1), 'name')}))
  endfor
  call writefile([json_encode({'type': &filetype, 'lines': s:lines, 'error': v:errmsg})], $EDITORS_GROUPS, 'a')
endfor
qall!
"""


def is_there():
    """Whether a vim is on PATH that has syntax."""
    if not shutil.which("vim"):
        return False
    version = subprocess.run(["vim", "--version"], capture_output=True, text=True, timeout=60).stdout.split()
    return "+syntax" in version and "+eval" in version


def dumps(runtime, paths):
    """For each file its type, and the groups of each line's bytes. Fails where vim does."""
    with tempfile.TemporaryDirectory() as folder:
        script, groups = pathlib.Path(folder, "dump.vim"), pathlib.Path(folder, "groups")
        script.write_text(DUMP)
        words = "vim -es -N -n -u NONE -i NONE --cmd".split() + ["set encoding=utf-8", "-S", script, "--"]
        names = {"EDITORS_VIM": str(runtime), "EDITORS_GROUPS": str(groups)}
        run = subprocess.run([*words, *paths], env={**os.environ, **names}, capture_output=True, timeout=300)
        found = [json.loads(line) for line in groups.read_text().splitlines()] if groups.exists() else []
    errors = sorted({dump["error"] for dump in found} - {""})
    if run.returncode != 0 or errors or len(found) != len(paths):
        raise SystemExit(f"editors: vim failed, with status {run.returncode}: {' '.join(errors)}")
    return found
