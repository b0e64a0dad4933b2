"""What `./judge` is made of: random terms, questions to `ask`, programs for rustc, and what both say compared."""
