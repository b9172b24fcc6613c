"""A workbench for authors of abstract transformers, around the verified synthesiser Amurth."""

__version__ = "1.1"
