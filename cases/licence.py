"""Whether the licence is whole, the help of programs ends with the version, and NOTICE names each crate of the kit that crates.txt does."""
from pathlib import Path

# Where Debian keeps the text.
COMMON = Path("/usr/share/common-licenses/Apache-2.0")
LICENCE = "Apache-2.0"


def missing(root):
    """What the files about the licence lack."""
    if COMMON.exists() and COMMON.read_bytes() != (root / "LICENSE").read_bytes():
        yield f"FAILED LICENSE: it is not {COMMON}, byte for byte"
    if LICENCE not in (root / "README.md").read_text():
        yield f"FAILED README.md: it does not name {LICENCE}"
    version = (root / "VERSION").read_text().strip()
    if f"\n## {version}, " not in (root / "CHANGELOG.md").read_text():
        yield f"FAILED CHANGELOG.md: there is no section of the version {version}"
    texts = (root / "crates/snc_args/src/commands.rt").read_text()
    for program in ("snc", "snlrun"):
        if f'\n{program} {version}";' not in texts:
            yield f"FAILED {program} --help: it does not end with {program} {version}"
    named = {line.split()[0] for line in (root / "NOTICE").read_text().splitlines() if line.strip()}
    for crate in sorted(crates_of_the_kit(root) - named):
        yield f"FAILED NOTICE: it does not name the crate {crate}"


def crates_of_the_kit(root):
    """What our crates stand on and is none of them."""
    lines = [it.split(":") for it in (root / "crates.txt").read_text().splitlines() if it and it[0] != "#"]
    return {below for _, row in lines for below in row.split()} - {name for name, _ in lines}
