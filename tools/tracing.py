"""The settings of a run, for tools that import them from here: homatrace has them."""
from homatrace import RANGES  # noqa: F401
