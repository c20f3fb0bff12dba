"""Tables with known values, a server on them, and one request with its reply: what the tests of the server share."""
import os
import tempfile

from serving import QUIET, Server, asked, check, same, words

PRESET = """dalonjang tables
# values that no client can write, and some that it can
discretes 0 1 0 1 1
discretes 997 1 0 1
inputs 0 17 0x1234
inputs 999 65535
holdings 0 258 772 0 65535
holdings 999 4711
coils 8 1 1

end
"""
READ = asked(3, 0, 2)
READ_REPLY = bytes([1, 3, 4]) + words(258, 772)


class Preset(Server):
    """On tables with the values above, which are kept in an image."""

    def __init__(self, program, *options, **how):
        self.folder = tempfile.TemporaryDirectory()
        text = os.path.join(self.folder.name, "text")
        with open(text, "w", encoding="utf-8") as file:
            file.write(PRESET)
        super().__init__(program, "--import", text, "--image", os.path.join(self.folder.name, "image"),
                         "--coils", "2000", *options, **how)

    def __exit__(self, *how):
        super().__exit__(*how)
        self.folder.cleanup()


def exchange(end, wrap, body, wanted, spelt=bytes):
    """One request over a client or a line, as it is spelt there, and its reply, b"" for none."""
    end.send(spelt(wrap(body)))
    if wanted:
        same(end.receive(len(wrap(wanted))), wrap(wanted), f"the reply to {body[:7].hex()}")
    check(end.is_quiet(0.01 if wanted else QUIET), f"more comes than the reply to {body[:7].hex()}")
