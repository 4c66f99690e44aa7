"""`report`: one self-contained page on a host, for a bug report. It needs no script and fetches nothing."""

from .page import page_of

__all__ = ["page_of"]
