"""Campaigns: drawn cases, in each of which the program is set beside something else."""
from .campaign import run

__all__ = ["run"]
