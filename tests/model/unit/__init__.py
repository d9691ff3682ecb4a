"""The model's own tests, which need no program; and programs that are made of it, right ones and wrong ones."""
