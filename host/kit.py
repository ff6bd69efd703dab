"""rt as a module: what host/ asks of the kit, and no command of it gives.

rt ci leaves the libraries of crates/ as it proved them, and no static library; `rt lib` and `rt must-fail` would prove all those libraries
again first. And rt says one line of what the prover said of an edit. So rt's own functions are called here, over what rt ci left.

    kit.py library NAME     proves the static library NAME and writes crates/NAME/out/libNAME.a, as `rt lib` does
"""

import importlib.machinery
import importlib.util
import os
import shutil
import sys
from pathlib import Path

sys.dont_write_bytecode = True
ROOT = Path(__file__).resolve().parents[1]


def load():
    path = os.path.realpath(shutil.which("rt") or sys.exit("there is no rt on the PATH"))
    loader = importlib.machinery.SourceFileLoader("rt_of_the_kit", path)
    module = importlib.util.module_from_spec(importlib.util.spec_from_loader(loader.name, loader))
    loader.exec_module(module)
    return module


class Kit:
    """rt, and the crates of this repository by their names."""

    def __init__(self):
        os.chdir(ROOT)
        self.rt = load()
        # The first call sets a signal's handler, which only the main thread may.
        self.rt.rtlib.guarded()
        self.rt.share_work(False)
        self.rt.Crate.allowed = self.rt.handles_of(str(ROOT))
        self.crates = {crate.name: crate for crate in self.rt.rtlib.crates_below(str(ROOT))}

    def sources(self, crate):
        """When a source of the crate, or its line, was changed last."""
        tops = [Path(crate.folder) / part for part in self.rt.rtlib.PARTS]
        files = [path for top in tops if top.is_dir() for path in (top, *top.rglob("*"))]
        return max(path.stat().st_mtime for path in [ROOT / "crates.txt", *files])

    def stands(self, crate):
        """Whether the crate's library stands as it now is: by whom it was built, ci or check, or None."""
        rlib = Path(crate.rlib)
        if (rlib.parent / "stamp").is_file():
            return "check" if crate.is_built() else None
        # What rt ci leaves has no stamp. Its files may be an earlier run's, linked into a folder of this one: the folder's time counts.
        if (rlib / "format").is_file() and rlib.stat().st_mtime > self.sources(crate):
            return "ci"
        return None

    def libraries(self, crates, out=sys.stdout):
        """Sees that the libraries below these crates stand: as rt ci left all of them, or else as rt check builds them."""
        below = {dep.name: dep for crate in crates for dep in crate.below()}.values()
        if {self.stands(dep) for dep in below} not in ({"ci"}, {"check"}, set()):
            for dep in below:
                dep.out = out
                if dep.build_rlib([], anew=False) != 0:
                    return False
        return True


def main():
    if len(sys.argv) != 3 or sys.argv[1] != "library":
        print(__doc__)
        return 2
    kit = Kit()
    crate = kit.crates.get(sys.argv[2])
    if crate is None or not crate.is_static:
        print(f"{sys.argv[2]} is no static library of crates.txt")
        return 2
    held = kit.rt.rtlib.lock([*crate.below(), crate])
    if not kit.libraries([crate]):
        return 1
    os.makedirs(f"{crate.folder}/out", exist_ok=True)
    status = crate.build_static([])
    for one in held:
        os.close(one)
    return status


if __name__ == "__main__":
    sys.exit(main())
