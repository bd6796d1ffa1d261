"""The Python package as a wheel: what pyproject.toml names as its builder, and what ./release calls for each processor."""

from __future__ import annotations

import base64
import hashlib
import platform
import subprocess
import sys
import tomllib
from pathlib import Path

# As a builder it is loaded from its own folder.
sys.path.insert(0, str(Path(__file__).resolve().parent))
from archives import TOP, VERSION, File, Files, below, run_library, zipped  # noqa: E402

#: The library needs memcpy and memset of a C library and nothing else, so any Linux of the last ten years will do.
PLATFORM = "manylinux_2_17_{processor}.manylinux2014_{processor}"


def _metadata(project: dict[str, str]) -> str:
    said = {"Metadata-Version": "2.1", "Name": project["name"], "Version": VERSION, "Summary": project["description"]}
    said |= {"Requires-Python": project["requires-python"], "Description-Content-Type": "text/markdown"}
    return "".join(f"{key}: {value}\n" for key, value in said.items()) + "\n" + (TOP / "CHANGELOG.md").read_text()


def _record(files: Files, name: str) -> bytes:
    sums = {each: base64.urlsafe_b64encode(hashlib.sha256(file.data).digest()).rstrip(b"=").decode() for each, file in files.items()}
    rows = [f"{each},sha256={sums[each]},{len(file.data)}\n" for each, file in files.items()]
    return "".join([*rows, f"{name},,\n"]).encode()


def page() -> bytes:
    """The screen, which `gearcard page` writes; web/build says by itself what fails."""
    status = subprocess.run([sys.executable, TOP / "web/build"]).returncode
    if status != 0:
        raise SystemExit(status)
    return (TOP / "target/web/gearcard.html").read_bytes()


#: What Windows calls its processors.
WINDOWS = {"x86_64": "win_amd64", "aarch64": "win_arm64"}


def wheel(folder: Path, processor: str, library: Path) -> str:
    """Writes the wheel of a processor, with its shared library, for Windows gearcard.dll; answers its name."""
    project = tomllib.loads((TOP / "pyproject.toml").read_text())["project"]
    files = {f"gearcard/{name}": file for name, file in sorted(below(TOP / "python/gearcard").items())}
    files["gearcard/VERSION"] = File(f"{VERSION}\n".encode())
    files["gearcard/page.html"] = File(page())
    files[f"gearcard/{library.name}"] = File(library.read_bytes(), program=True)
    tags = WINDOWS[processor] if library.suffix == ".dll" else PLATFORM.format(processor=processor)
    info = f"gearcard-{VERSION}.dist-info"
    lines = ["Wheel-Version: 1.0", "Generator: gearcard", "Root-Is-Purelib: false", *(f"Tag: py3-none-{tag}" for tag in tags.split("."))]
    files[f"{info}/METADATA"] = File(_metadata(project).encode())
    files[f"{info}/WHEEL"] = File("".join(f"{line}\n" for line in lines).encode())
    files[f"{info}/entry_points.txt"] = File(("[console_scripts]\n" + "".join(f"{name} = {place}\n" for name, place in project["scripts"].items())).encode())
    files[f"{info}/RECORD"] = File(_record(files, f"{info}/RECORD"))
    name = f"gearcard-{VERSION}-py3-none-{tags}.whl"
    zipped(folder / name, files)
    return name


def build_wheel(wheel_directory: str, config_settings: object = None, metadata_directory: object = None) -> str:
    """What pip asks of a builder: the wheel for this machine."""
    run_library()
    return wheel(Path(wheel_directory), platform.machine(), TOP / "target/lib/libgearcard.so")
