"""The actions of `cobtool bus`, one a module: each has SUMMARY, AFTER, `arguments` and `run`."""
