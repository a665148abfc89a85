"""Explains why a model is refused, and what a rule, a status, a fault or a note is."""
from .refusals import Advice, advice

__all__ = ["Advice", "advice"]
