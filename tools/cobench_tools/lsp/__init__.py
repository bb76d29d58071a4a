"""The language server: what an editor shows of a script while it is typed (Language Server Protocol 3.17)."""
