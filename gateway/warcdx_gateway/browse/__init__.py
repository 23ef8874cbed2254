"""Pages by which anybody sees in a browser what archives hold."""
from .routes import rules

__all__ = ["rules"]
