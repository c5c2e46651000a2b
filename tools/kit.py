"""The Rattle kit with another clang: for tools/archive and tests/compiled."""
import pathlib
import shutil
import sys

# What clang leaves out as it compiles the engine: shrink wrapping, which moves the entry of a function behind an early return. In a function with a large frame
# clang 22 then overwrites a register that is in use, r11, as it touches the stack page by page: with it, `dating_apply_all` adds 4,096 times a byte of the
# stack's address to the register's. tests/compiled/probes looks for that in what was compiled.
LEFT_OUT = ["-mllvm", "-enable-shrink-wrap=false"]


def home():
    """The kit's folder."""
    return pathlib.Path(shutil.which("rt") or sys.exit("rt is missing")).resolve().parents[1]


def with_clang(folder, script):
    """A folder that is the kit, but for a clang that is this script, where {clang} stands for the kit's own. Its `rt`."""
    real, here = home(), pathlib.Path(folder)
    own = real / "toolchain/bin/clang"
    parted = (real / "bin", real / "toolchain", real / "toolchain/bin")
    for part in parted:
        (here / part.relative_to(real)).mkdir(parents=True)
    for path in [one for part in (real, *parted) for one in part.iterdir()]:
        to = here / path.relative_to(real)
        # rt finds its kit by where its own files stand.
        if path.parent == real / "bin" and path.name.startswith("rt"):
            shutil.copy(path, to)
        elif path not in parted and path != own:
            to.symlink_to(path)
    clang = here / "toolchain/bin/clang"
    clang.write_text(script.format(clang=own))
    clang.chmod(0o755)
    return here / "bin/rt"
