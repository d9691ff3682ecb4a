"""The cases, each a function of its seed alone; and where the program and the model differ on one."""
