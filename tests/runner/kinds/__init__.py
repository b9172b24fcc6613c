"""The kinds of cases, each in a module of its own: what they run, and how they judge it."""
