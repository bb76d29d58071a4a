"""The rules of docs/rules: a module for each page, and the same names as the definitions in crates/*/specs."""
