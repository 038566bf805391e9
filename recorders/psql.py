"""A connection to a PostgreSQL server, through its own client psql."""
from client import Client
from recording import Refused

SUCCESS = "00000"


class Psql(Client):
    PROGRAM = "psql", "-X", "-A", "-t", "-F", "|", "-w", "-v", "VERBOSITY=terse"
    # Prints the SQL state, and the message of an error.
    END = r"\echo ! :SQLSTATE" "\n" r"\echo :LAST_ERROR_MESSAGE" "\n" r"\echo ." "\n"
    DONE = b"\n.\n"

    def answered(self, text):
        lines = text.splitlines()[1:]
        end = max(place for place, line in enumerate(lines) if line.startswith("! "))
        state = lines[end][2:].strip()
        if state != SUCCESS:
            raise Refused(f"{state} {' '.join(lines[end + 1:-1])}")
        return lines[:end]
