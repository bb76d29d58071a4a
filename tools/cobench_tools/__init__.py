"""cobtool: the tools beside cobench, one command each, and the texts that they share as records."""

VERSION = "0.1.0"
