"""Wrong models of which words are refused for their names."""

WRONG = {
    "cases/images.py": [
        ('if any(own[name] != number for name, number in given.sizes) else {}', "if given.sizes else {}"),
        ("given.image is None or note_of(disk) is None:", "given.image is None:"),
        ("if differs(disk, image) else found", "if image != case.image else found"),
        ("shown.status != 1 or shown.fault not in faults:", "shown.status != 1:"),
        ("else driven.difference_of_files()\n", "else None\n"),
        ("[note_of(disk)[0].hex(), sha256(image).hexdigest()]", "[sha256(image).hexdigest()]"),
    ],
    "cases/many.py": [
        ('return text is None or text.startswith("outcome 1: ")', "return True"),
        ('return text is None or text.startswith("outcome 1: ")', "return not text"),
        ("len(done.stderr.splitlines()) != (not is_written)", "done.stderr and is_written"),
        ("return None if there == wanted else f\"the table", "return None if True else f\"the table"),
        ("is_written = all(map(is_replaced, before.values()))", "is_written = is_replaced(TAKEN[case.taken])"),
        ("        if not is_chosen(seed, folded.switches, among, seeds):\n", "        if False:\n"),
        ("alone[seed].drawn, among):", "read[2], among):"),
        (" or text != row.text or", " or"),
        ("if run.outcome == row.text}", "}"),
    ],
    "cases/words.py": [
        ("self.names in NO_NAMES or", "self.names == NO_NAMES[0] or"),
        ("self.names in NO_NAMES or", "self.names is not None or"),
        (' or (self.names is not None and self.command == "hunt")', ""),
        ('(self.names is not None and self.command == "hunt")', 'self.command == "hunt"'),
        ('return self.words[1:] == ["--help"]', "return False"),
        ('["disk"], "races": ["disk"], "check"', '["disk"], "check"'),
        ('"check": ["disk"], ', ""),
    ],
}
