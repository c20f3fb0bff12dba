"""What the server keeps: its image, and the text that goes in and out."""
import contextlib
import os
import random
import resource
import sqlite3
import stat
import tempfile
import threading

from preset import PRESET
from serving import PATIENCE, Client, Server, Wrong, asked, check, exchanged, masked, run, same, tcp, values_of, words


@contextlib.contextmanager
def room_with(**files):
    """A folder with these texts, and its path."""
    with tempfile.TemporaryDirectory() as room:
        for name, text in files.items():
            with open(os.path.join(room, name), "w", encoding="utf-8", newline="") as file:
                file.write(text)
        yield room


def refused(program, *options, words_said, **how):
    """A server that does not start says so in one line."""
    status, text, said = run(program, "--port", "0", *options, **how)
    same((status, text, len(said)), (1, "", 1), f"status, output and lines after {' '.join(options)}")
    check(words_said in said[0], f"what is said after {' '.join(options)}: {said[0]} in place of {words_said}")


def exported(program, *options):
    status, text, said = run(program, *options, "--export")
    same((status, said), (0, []), "status and errors of --export")
    return text.splitlines()


def test_image_comes_back(program):
    with room_with() as room:
        path = os.path.join(room, "image")
        with Server(program, "--image", path) as server, Client(server.port) as client:
            client.ask(asked(16, 5, 3, words(1, 2, 65535)))
            client.ask(asked(15, 30, 4, b"\x0b"))
            client.ask(exchanged(0, 1, 8, words(0x12, 52)))
            client.ask(masked(8, 0xF2, 0x25))
            for last in (127, 895):  # the last of a block of the image, each alone in its round
                client.ask(asked(6, last, last))
        same(os.listdir(room), ["image"], "the files beside the image after the end")
        text = exported(program, "--image", path)
        check("# written by --export" in text[1], "the text does not say who wrote it")
        same(text[:1] + text[2:], [
            "dalonjang tables", "coils 16 " + " ".join("0" * 14 + "11"), "coils 32 " + " ".join("01" + "0" * 14),
            "holdings 0 0 0 0 0 0 1 2 65535 23 52 0 0 0 0 0 0", "holdings 112 " + "0 " * 15 + "127",
            "holdings 880 " + "0 " * 15 + "895", "end"], "the text")
        with Server(program, "--image", path) as server, Client(server.port) as client:
            same(values_of(client.ask(asked(3, 4, 7))), [0, 1, 2, 65535, 23, 52, 0], "the registers that come back")
            same(client.ask(asked(1, 28, 8)), bytes([1, 1, 1, 0b00101100]), "the coils that come back")


def test_names_of_images(program):
    """A name that SQLite has another use for is a file as well."""
    with room_with() as room:
        for name in (":memory:", "file:image?mode=memory", "image"):
            with Server(program, "--image", name, cwd=room) as server, Client(server.port) as client:
                client.ask(asked(6, 0, 7))
            with Server(program, "--image", name, cwd=room) as server, Client(server.port) as client:
                same(values_of(client.ask(asked(3, 0, 1))), [7], f"the register in the image {name}")
        same(sorted(os.listdir(room)), [":memory:", "file:image?mode=memory", "image"], "the images")


def test_text_and_image(program):
    """The text is laid over the image, stays as it is, and is in the image from then on; all four tables come back."""
    with room_with(text=PRESET) as room:
        path, text = os.path.join(room, "image"), os.path.join(room, "text")
        sizes = ("--coils", "2000", "--image", path)
        with Server(program, *sizes) as server, Client(server.port) as client:
            client.ask(asked(16, 1, 3, words(7, 8, 9)))
        with Server(program, *sizes, "--import", text) as server, Client(server.port) as client:
            same(values_of(client.ask(asked(3, 0, 5))), [258, 772, 0, 65535, 0], "registers under the text")
            client.ask(asked(6, 4, 99))
        with open(text, encoding="utf-8") as file:
            same(file.read(), PRESET, "the text after a write")
        other = ("--coils", "2000", "--image", path + "2")
        laid = exported(program, *other, "--import", text)
        same(exported(program, *other), laid, "an image that has only the text")
        with Server(program, *sizes) as server, Client(server.port) as client:
            same(values_of(client.ask(asked(3, 0, 5))), [258, 772, 0, 65535, 99], "registers after the text")
            same(values_of(client.ask(asked(4, 999, 1))), [65535], "an input after the text")
            same(client.ask(asked(2, 997, 3)), bytes([1, 2, 1, 0b101]), "discretes after the text")
        out = exported(program, *sizes)
        with open(text, "w", encoding="utf-8") as file:
            file.write("\n".join(out) + "\n")
        same(exported(program, "--coils", "2000", "--import", text), out, "what was exported, imported and exported")


def test_wrong_texts(program):
    for text, line, words_said in (
            ("", 1, "not whole"), ("dalonjang tables\n", 2, "not whole"), ("tables\nend\n", 1, "not 'dalonjang"),
            ("dalonjang tables\nend", 2, "cut short"), ("dalonjang tables\nholdings 0 1\nhold", 3, "cut short"),
            ("dalonjang tables\nmarks 0 1\nend\n", 2, "neither coils"), ("dalonjang tables\ncoils 0 2\nend\n", 2, "value"),
            ("dalonjang tables\nholdings 0 65536\nend\n", 2, "value"),
            ("dalonjang tables\nholdings 999 1 1\nend\n", 2, "does not have"),
            ("dalonjang tables\ncoils x 1\nend\n", 2, "no cell"), ("dalonjang tables\ncoils\nend\n", 2, "no cell"),
            ("dalonjang tables\ninputs 0 -1\nend\n", 2, "value"),
            ("dalonjang tables\nend\n# a remark\n\ncoils 0 1\n", 5, "after the line 'end'"),
            ("dalonjang tables\r\ncoils 0 1\r\nend\r\n", 1, "CR LF"),
            ("dalonjang tables\ncoils 0 1\r\nend\n", 2, "CR LF")):
        with room_with(text=text) as room:
            path = os.path.join(room, "text")
            refused(program, "--import", path, words_said=f"{path}, line {line}: ")
            refused(program, "--import", path, words_said=words_said)
    with room_with() as room:
        refused(program, "--import", room, words_said="Is a directory")
        refused(program, "--import", os.path.join(room, "none"), words_said="No such file")
        refused(program, "--import", "/proc/self/mem", words_said="Input/output error")


def test_wrong_images(program):
    """What is no image is named as what it is, and stays as it was."""
    with room_with(text=PRESET, noise="noise\n") as room:
        path = {name: os.path.join(room, name) for name in ("text", "noise", "pipe", "other", "image", "torn")}
        os.mkfifo(path["pipe"])
        with contextlib.closing(sqlite3.connect(path["other"])) as other:
            other.execute("CREATE TABLE things (name)")
            other.commit()
        with Server(program, "--image", path["image"]) as server, Client(server.port) as client:
            client.ask(asked(6, 700, 1))
            client.ask(asked(5, 803, 0xFF00))
        with open(path["image"], "rb") as image, open(path["torn"], "wb") as torn:
            torn.write(image.read()[:5000])
        for name, words_said in (("text", "it is text; --import takes it"), ("noise", "it is no image"),
                                 ("pipe", "it is no file"), ("other", "a database of another program"), ("torn", "")):
            refused(program, "--image", path[name], words_said=f"the image {path[name]} cannot be")
            refused(program, "--image", path[name], words_said=words_said)
        refused(program, "--import", path["image"], words_said="line 1: a database: --image takes it")
        refused(program, "--image", room, words_said="it is a directory")
        refused(program, "--image", "/dev/null/image", words_said="Not a directory")
        refused(program, "--image", path["image"], "--holdings", "700", words_said="holdings from 700 on")
        refused(program, "--image", path["image"], "--coils", "803", words_said="coils from 803 on")
        with open(path["text"], encoding="utf-8") as file:
            same(file.read(), PRESET, "the text that is no image")
        with contextlib.closing(sqlite3.connect(path["other"])) as other:
            same(other.execute("SELECT name FROM sqlite_master").fetchall(), [("things",)], "another program's tables")
        with Server(program, "--image", path["image"], "--holdings", "701", "--coils", "804") as server, \
                Client(server.port) as client:
            same(values_of(client.ask(asked(3, 700, 1))), [1], "the register after all that")


def test_image_alone(program):
    """A second server on an image refuses, and the first goes on; after its end, or a kill, the image can be had."""
    with room_with() as room:
        path = os.path.join(room, "image")
        with Server(program, "--image", path) as server, Client(server.port) as client:
            client.ask(asked(6, 0, 1))
            for more in ((), ("--export",)):
                refused(program, "--image", path, *more, words_said="another server has it in use")
            client.ask(asked(6, 1, 2))
            server.kill()
        with Server(program, "--image", path) as server, Client(server.port) as client:
            same(values_of(client.ask(asked(3, 0, 2))), [1, 2], "the registers after two servers")


def test_image_cannot_be_written(program):
    """It is noticed at the start. For root, who may write everything, by somebody else."""
    with room_with() as room:
        path, copy = os.path.join(room, "image"), os.path.join(room, "server")
        with Server(program, "--image", path), open(program, "rb") as here, open(copy, "wb") as there:
            there.write(here.read())
        for name, mode in ((path, 0o444), (copy, 0o755), (room, 0o555)):
            os.chmod(name, mode)
        how = {"user": 65534, "group": 65534, "extra_groups": []} if os.getuid() == 0 else {}
        for image in (path, os.path.join(room, "new")):
            refused(copy, "--image", image, words_said=f"the image {image} cannot be", **how)
        os.chmod(path, 0o000)
        refused(copy, "--image", path, words_said="Permission denied", **how)
        os.chmod(room, 0o755)


def test_image_stays_a_file(program):
    """Its mode and a link to it stay as they are through writes, an end and a kill, and nothing new stands beside it."""
    with room_with() as room:
        path, link = os.path.join(room, "image"), os.path.join(room, "link")
        with Server(program, "--image", path):
            pass
        os.chmod(path, 0o640)
        os.symlink("image", link)
        for n in range(4):
            with Server(program, "--image", link) as server, Client(server.port) as client:
                same(values_of(client.ask(asked(3, 0, 1))), [n], "the register through the link")
                client.ask(asked(6, 0, n + 1))
                if n % 2:
                    server.kill()
        with Server(program, "--image", link):
            pass
        same((os.readlink(link), stat.S_IMODE(os.stat(path).st_mode)), ("image", 0o640), "the link and the mode")
        same(sorted(os.listdir(room)), ["image", "link"], "the files beside the image")


def written(server):
    """Bytes that the server has handed over to be written so far."""
    with open(f"/proc/{server.process.pid}/io", encoding="ascii") as file:
        return int(dict(line.split(": ") for line in file)["wchar"])


def test_cost_of_a_write(program):
    """A write costs what it changes, on the largest image as on a small one: some pages of it, and never the whole."""
    costs = []
    for cells in (200, 65536):
        rows = "".join(f"{table} {first} {' '.join(n * ['1'])}\n" for table in ("coils", "discretes", "holdings", "inputs")
                       for first in range(0, cells, 1000) for n in [min(1000, cells - first)])
        with room_with(text=f"dalonjang tables\n{rows}end\n") as room:
            with Server(program, "--image", os.path.join(room, "image"), "--import", os.path.join(room, "text"),
                        "--cells", str(cells)) as server, Client(server.port) as client:
                before = written(server)
                for n in range(300):
                    client.ask(asked(6, n * 397 % cells, n + 2))
                costs.append((written(server) - before) // 300)
                before = written(server)
                client.ask(asked(3, 0, 100))
                check(written(server) - before < 1500, "a read writes the image")
                client.ask(asked(6, 5, 7))
                before = written(server)
                client.ask(asked(6, 5, 7))
                check(written(server) - before < 1500, "a write of the value that is there writes the image")
    check(costs[1] < 20000, f"a write of one register writes {costs[1]} bytes")


def write_until_killed(server, client, value, killer):
    """Writes 100 registers again and again, each time one more in all of them; the last value that was confirmed."""
    try:
        while True:
            client.ask(asked(16, 0, 100, words(*100 * [value + 1])))
            value += 1
            killer(value)
    except (Wrong, OSError):
        server.process.wait()
    return value


def test_killed(program):
    """Killed at any moment, or right after a reply, the server has all that it confirmed in its image, whole."""
    chance, value = random.Random(1), 0
    with room_with() as room:
        options = ("--image", os.path.join(room, "image"), "--holdings", "65536")
        for n in range(int(os.environ.get("KILLS", "14"))):
            with Server(program, *options) as server, Client(server.port) as client:
                got = values_of(client.ask(asked(3, 0, 100)))
                check(got in (100 * [value], 100 * [value + 1]), f"after {value} was confirmed there is {set(got)}")
                last = got[0] + n
                if n % 2 == 0:
                    threading.Timer(chance.uniform(0.02, 0.3), server.process.kill).start()
                value = write_until_killed(server, client, got[0],
                                           lambda now: server.process.kill() if n % 2 and now >= last else None)
        with contextlib.closing(sqlite3.connect(os.path.join(room, "image"))) as image:
            same(image.execute("PRAGMA integrity_check").fetchall(), [("ok",)], "SQLite's own check of the image")
    check(value > 40, f"only {value} writes in all")


def test_image_not_saved(program):
    """No reply where a write is not kept: the image was taken away, or the disk is full."""
    with room_with() as room:
        path = os.path.join(room, "image")
        with Server(program, "--image", path) as server, Client(server.port) as client:
            client.ask(asked(6, 0, 1))
            os.rename(path, path + ".gone")
            client.send(tcp(asked(6, 0, 2)))
            same(client.closed(), b"", "the reply to a write that is not kept")
            same(server.process.wait(PATIENCE), 1, "the status")
            check("cannot be saved: the file has been taken away" in server.output(), "no word of it")
    with room_with() as room:
        path = os.path.join(room, "image")
        full = {"preexec_fn": lambda: resource.setrlimit(resource.RLIMIT_FSIZE, (200000, 200000))}
        with Server(program, "--image", path, **full) as server, Client(server.port) as client:
            value = write_until_killed(server, client, 0, lambda now: check(now < 10000, "the disk does not get full"))
            same(server.process.returncode, 1, "the status on a full disk")
            check("cannot be saved" in server.output(), "no word of a full disk")
        check(value > 3, f"only {value} writes before the disk is full")
        with Server(program, "--image", path) as server, Client(server.port) as client:
            got = values_of(client.ask(asked(3, 0, 100)))
            check(got in (100 * [value], 100 * [value + 1]), f"after {value} was confirmed there is {set(got)}")
