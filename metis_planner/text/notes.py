"""Notes that say where they stand in their source."""


class Note(str):
    """A note of one line that begins with its place, `FILE:LINE: `, and has the parts of that for another program."""

    file: str
    line: int | None
    reason: str
    component: str = ""
    needed: str = ""
    is_fault: bool = False  # whether what it is about never comes up, or is refused

    @classmethod
    def at(cls, file: str, line: int | None, reason: str) -> "Note":
        place = f"{file}:{line}" if line is not None else file
        note = cls(f"{place}: {reason}")
        note.file, note.line, note.reason = file, line, reason
        return note

    @classmethod
    def about(cls, component: str, needed: str, reason: str) -> "Note":
        """A note on a component of the source, at the line that names something of it, as far as that is looked for later."""
        note = cls(reason)
        note.file, note.line, note.reason = "", None, reason
        note.component, note.needed = component, needed
        return note
