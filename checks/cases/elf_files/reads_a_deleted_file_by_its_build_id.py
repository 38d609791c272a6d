"""A file whose path says that it was deleted is read at its path where the process has its first page, and so its build id, but not where
no build id is known, and not where it is another file; then a file that is not there."""

import json
from pathlib import Path

from one_module import CORE, OF_CORE, in_core

SMALL = (Path(__file__).parents[2] / "stacks/small").read_bytes()
OTHER = SMALL.replace(SMALL[0xF8:0x10C], bytes([7] * 20))
IS_READ = "inner+0x0 ({path})"
# the path, the first page of the process, the function, and what is said of the file
ROWS = {
    "without a build id": ("/bin/small", b"\0", IS_READ, None),
    "by its build id": ("/bin/small", SMALL, IS_READ, None),
    "deleted": ("/bin/small (deleted)", SMALL, IS_READ, None),
    "deleted, without a build id": ("/bin/small (deleted)", b"\0", "[unknown] ({path}+0x10c)", "it was deleted, and no build id tells its copies"),
    "not there": ("/bin/other", SMALL, "[unknown] ({path}+0x40010c)", "there is no such file"),
    "another build id": ("/bin/small (deleted)", OTHER, "[unknown] ({path}+0x40010c)", "its build id is not the core file's"),
}
INPUT = json.dumps({
    "arguments": ["--root", ".", "--limit", "1"],
    "file": CORE,
    "files": {name: in_core(path, 0x40010C, page=page) for name, (path, page, _, _) in ROWS.items()},
    "beside": {"bin/small": {"file": "checks/stacks/small"}},
})
EXPECTED = "".join(f"{OF_CORE}\n#0 40010c {function.format(path=path)}\n[limit]\n\n" for path, _, function, _ in ROWS.values())
ERRORS = "".join(f"{path}: {problem}\n" for path, _, _, problem in ROWS.values() if problem)
