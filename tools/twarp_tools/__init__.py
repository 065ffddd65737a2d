"""The modules of the programs in tools/, over the package twarp: command has what all of them share."""
import sys
from pathlib import Path

HERE = Path(__file__).resolve().parent
# The package stands in the clone's folder python, or, installed, beside this folder.
sys.path[:0] = [str(folder) for folder in (HERE.parents[1] / "python", HERE.parent) if (folder / "twarp").is_dir()]
