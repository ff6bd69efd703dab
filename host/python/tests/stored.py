"""The stored files that the tests read."""

from pathlib import Path

HOST = Path(__file__).resolve().parents[2]
SAMPLES = HOST / "samples"
OPENSLIDE = HOST / "openslide"


def sample(name):
    return (SAMPLES / f"{name}.czi").read_bytes()


def listings():
    """Each sample's name, bytes and expected lines, as a dict of numbers and the box's text."""
    for path in sorted(SAMPLES.glob("*.czi")):
        text = path.with_suffix(".txt").read_text("ascii")
        yield path.stem, path.read_bytes(), text, dict(line.split("=") for line in text.splitlines())
