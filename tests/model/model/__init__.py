"""The model: what a disk holds, what events and calls do, what a drive does next, and what `ckrt` tells of all that."""
