#!/usr/bin/env python3
"""Tries over sockets what a save keeps of a file: python3 bench/try_saving.py [PROGRAM]

It starts the server that stands in crates/mgd/out/mgd (or PROGRAM) over files in a folder of its own, types a character, saves, and looks
at what the folder holds then. It is started by hand and ends with status 0 if all is as it should be. As root it also tries owners, a
full disk, and a server that is not root; otherwise it says that it leaves them out.
"""
import os, resource, shutil, socket, stat, subprocess, sys, tempfile, time

TOP = os.path.dirname(os.path.dirname(os.path.abspath(__file__)))
PROGRAM = sys.argv[1] if len(sys.argv) > 1 else os.path.join(TOP, "crates", "mgd", "out", "mgd")
IS_ROOT = os.geteuid() == 0
NOBODY = 65534
failures = []


def expect(what, is_so, seen=""):
    print(("ok    " if is_so else "FAILED ") + what + ("" if is_so else f": {seen!r}"))
    if not is_so:
        failures.append(what)


def write(path, text="old\n", mode=0o644, owner=None):
    with open(path, "w") as file:
        file.write(text)
    if owner is not None:
        os.chown(path, *owner)
    os.chmod(path, mode)


def read(path):
    with open(path) as file:
        return file.read()


def mode_of(path):
    return stat.S_IMODE(os.lstat(path).st_mode)


class Server:
    """A server whose one buffer has a file."""

    def __init__(self, folder, file, before=None, **how):
        config = os.path.join(folder, "served.toml")
        if not os.path.exists(config):
            write(config, '[[user]]\nname = "ann"\nticket = "t"\n[[buffer]]\nname = "b"\nowner = "ann"\n'
                          f'list = ["ALLOW ann rwat"]\nfile = "{file}"\n')
        self.process = subprocess.Popen([PROGRAM, "serve", config, "0"], stdout=subprocess.PIPE, stderr=subprocess.PIPE,
                                        preexec_fn=before, **how)
        line = self.process.stdout.readline().decode()
        self.port = int(line.rpartition(":")[2]) if line else None

    def told(self):
        """What the server says at its end, and its status, where it does not listen."""
        return self.process.stderr.read().decode(), self.process.wait()

    def save(self):
        """Types a character at the text's start, and saves. Answers what the echo row says."""
        if self.port is None:
            return f"not served: {self.told()}"
        with socket.create_connection(("127.0.0.1", self.port)) as ann:
            ann.sendall(b"login ann t 6 40\nx\x18\x13")
            ann.settimeout(60)
            got = b""
            while b"Wrote b" not in got and b"Save failed" not in got:
                data = ann.recv(65536)
                if not data:
                    return "the connection ended"
                got += data
        return "Save failed" if b"Save failed" in got else "Wrote b"

    def end(self):
        self.process.kill()
        self.process.wait()
        self.process.stdout.close()
        self.process.stderr.close()


class Folder:
    def __enter__(self):
        self.path = os.path.realpath(tempfile.mkdtemp(prefix="mgd-saving-"))
        os.chmod(self.path, 0o755)
        return self

    def __exit__(self, *_):
        shutil.rmtree(self.path, ignore_errors=True)

    def at(self, name):
        return os.path.join(self.path, name)

    def left(self):
        """Files that a save has left behind."""
        return [name for name in os.listdir(self.path) if name.startswith(".mgd-") or name.endswith(".mgd-new")]


def try_kept(mode, owner=None):
    with Folder() as folder:
        write(folder.at("a"), mode=mode, owner=owner)
        server = Server(folder.path, folder.at("a"))
        got = server.save()
        about = os.lstat(folder.at("a"))
        seen = (got, read(folder.at("a")), mode_of(folder.at("a")), folder.left())
        whose = (about.st_uid, about.st_gid)
        server.end()
    expect(f"a file of mode {mode:o} stays one", seen == ("Wrote b", "xold\n", mode, []), seen)
    if owner is not None:
        expect(f"its owner and group {owner} stay", whose == owner, whose)


def try_links():
    with Folder() as folder:
        write(folder.at("a"), mode=0o640)
        write(folder.at("other"), "other\n")
        os.symlink("a", folder.at("link"))
        server = Server(folder.path, folder.at("link"))
        os.symlink(folder.at("other"), folder.at("link.mgd-new"))
        os.symlink(folder.at("other"), folder.at("a.mgd-new"))
        got = server.save()
        seen = (got, os.path.islink(folder.at("link")), read(folder.at("a")), mode_of(folder.at("a")), read(folder.at("other")))
        expect("a link stays a link, and its file has the text", seen == ("Wrote b", True, "xold\n", 0o640, "other\n"), seen)
        os.remove(folder.at("a"))
        os.symlink("other", folder.at("a"))
        seen = (server.save(), os.path.islink(folder.at("a")), read(folder.at("other")))
        expect("a link put in the file's place leads nowhere", seen == ("Save failed", True, "other\n"), seen)
        os.remove(folder.at("a"))
        os.mkfifo(folder.at("a"))
        seen = (server.save(), stat.S_ISFIFO(os.lstat(folder.at("a")).st_mode))
        expect("nor does a pipe, and nobody waits", seen == ("Save failed", True), seen)
        os.remove(folder.at("a"))
        seen = (server.save(), mode_of(folder.at("a")))
        expect("a file that is gone is made again for its owner", seen == ("Wrote b", 0o600), seen)
        server.end()


def try_refused():
    with Folder() as folder:
        write(folder.at("a"), mode=0o444)
        server = Server(folder.path, folder.at("a"))
        seen = (server.save(), read(folder.at("a")), mode_of(folder.at("a")), folder.left())
        expect("a file that its owner may not write is left", seen == ("Save failed", "old\n", 0o444, []), seen)
        os.chmod(folder.at("a"), 0o644)
        seen = (server.save(), read(folder.at("a")))
        expect("and is written once he may", seen == ("Wrote b", "xxold\n"), seen)
        server.end()


def try_limit():
    def limit():
        resource.setrlimit(resource.RLIMIT_FSIZE, (1000, 1000))

    with Folder() as folder:
        for length, wanted in [(998, "Wrote b"), (999, "Wrote b"), (1000, "Save failed")]:
            write(folder.at("a"), "y" * length)
            server = Server(folder.path, folder.at("a"), before=limit)
            got = server.save()
            text = "x" * (got == "Wrote b") + "y" * length
            seen = (got, read(folder.at("a")) == text, folder.left(), server.process.poll())
            expect(f"{length + 1} bytes where a file may have 1,000", seen == (wanted, True, [], None), seen)
            server.end()


def try_read():
    with Folder() as folder:
        os.mkfifo(folder.at("pipe"))
        for file in [folder.at("pipe"), "/dev/zero", folder.path]:
            server = Server(folder.path, file)
            seen = server.told()
            expect(f"{os.path.basename(file)} is no file to read", seen == ("buffer 1: File\n", 1), seen)
            server.end()
            os.remove(folder.at("served.toml"))
        # All that a text can have is 4,194,304 bytes.
        times = []
        for name, length in [("4 MB", 4_194_305), ("3 GB", 3_000_000_000)]:
            with open(folder.at("huge"), "wb") as file:
                file.truncate(length)
            start = time.time()
            server = Server(folder.path, folder.at("huge"))
            seen = server.told()
            times.append(time.time() - start)
            expect(f"{name} are too long", seen == ("buffer 1: Long\n", 1), seen)
            server.end()
        expect("and no more is read of the longer one", times[1] < 2 + 5 * times[0], times)
        server.end()


def try_closed_streams():
    def close():
        for number in range(3):
            os.close(number)

    with Folder() as folder:
        write(folder.at("a"))
        with socket.socket() as free:
            free.bind(("127.0.0.1", 0))
            port = free.getsockname()[1]
        config = folder.at("served.toml")
        write(config, f'[[user]]\nname = "ann"\nticket = "t"\n[[buffer]]\nname = "b"\nowner = "ann"\nlist = ["ALLOW ann rwat"]\nfile = "{folder.at("a")}"\n')
        process = subprocess.Popen([PROGRAM, "serve", config, str(port)], preexec_fn=close)
        time.sleep(1)
        at = f"/proc/{process.pid}/fd"
        seen = [os.readlink(f"{at}/{number}") for number in range(3)]
        expect("standard streams that are closed become the null device", seen == ["/dev/null"] * 3, seen)
        with socket.create_connection(("127.0.0.1", port)) as ann:
            ann.sendall(b"login ann t 6 40\n")
            got = ann.recv(65536)
        expect("and it serves", got.startswith(b"\x1b"), got)
        process.kill()
        process.wait()


def try_full_disk():
    with Folder() as folder:
        small = folder.at("small")
        os.mkdir(small)
        if subprocess.run(["mount", "-t", "tmpfs", "-o", "size=64k", "tmpfs", small], stderr=subprocess.DEVNULL).returncode:
            print("left out: no small file system can be mounted here")
            return
        try:
            path = os.path.join(small, "a")
            text = "y\n" * 20_000
            write(path, text)
            server = Server(folder.path, path)
            seen = (server.save(), read(path) == text, os.listdir(small))
            expect("a full disk leaves the old text and no new file", seen == ("Save failed", True, ["a"]), seen)
            server.end()
        finally:
            subprocess.run(["umount", small])


def try_nobody():
    """A server that is not root, over a file of root in a folder that it may write."""
    def become():
        os.setgroups([])
        os.setgid(NOBODY)
        os.setuid(NOBODY)

    with Folder() as folder:
        os.chown(folder.path, NOBODY, NOBODY)
        write(folder.at("a"), mode=0o644)
        server = Server(folder.path, folder.at("a"), before=become)
        seen = (server.save(), read(folder.at("a")), mode_of(folder.at("a")), os.lstat(folder.at("a")).st_uid, folder.left())
        expect("a file of another stays of its mode, and becomes its own", seen == ("Wrote b", "xold\n", 0o644, NOBODY, []), seen)
        os.chmod(folder.path, 0o555)
        seen = (server.save(), read(folder.at("a")), folder.left())
        expect("a folder that it may not write", seen == ("Save failed", "xold\n", []), seen)
        server.end()


def seen_of(stream, *words):
    """What a session is sent until one of these words is among it."""
    got = b""
    while not any(word in got for word in words):
        data = stream.recv(65536)
        if not data:
            break
        got += data
    return got


def try_full_memory():
    """Another user fills the memory that the server may have with undo items of a buffer of her own, until less is left than the text takes."""
    with Folder() as folder:
        text = "old\n" * 250_000
        write(folder.at("a"), text)
        write(folder.at("served.toml"), '[[user]]\nname = "ann"\nticket = "t"\n[[user]]\nname = "eve"\nticket = "e"\n'
              f'[[buffer]]\nname = "b"\nowner = "ann"\nlist = ["ALLOW ann rwat"]\nfile = "{folder.at("a")}"\n'
              '[[buffer]]\nname = "hers"\nowner = "eve"\nlist = ["ALLOW eve rwat"]\n')
        server = Server(folder.path, folder.at("a"), before=lambda: resource.setrlimit(resource.RLIMIT_AS, (100 << 20, 100 << 20)))
        with socket.create_connection(("127.0.0.1", server.port)) as ann, socket.create_connection(("127.0.0.1", server.port)) as eve:
            ann.settimeout(60)
            eve.settimeout(60)
            ann.sendall(b"login ann t 6 40\nx")
            seen_of(ann, b"**")
            # Killed and yanked twice, a line becomes twice as long; killed and yanked once, it leaves an undo item.
            eve.sendall(b"login eve e 6 40\n" + b"a" * 100 + b"\x01\x0b\x19\x19" * 13 + b"\x01\x0b\x19" * 100)
            full = b"No memory" in seen_of(eve, b"No memory")
            ann.sendall(b"\x18\x13")
            got = seen_of(ann, b"Wrote b", b"No memory", b"Save failed")
        seen = (full, b"Wrote b" in got, read(folder.at("a")) == "x" + text, folder.left())
        server.end()
    expect("with the memory full of another's undo items, a text is saved", seen == (True, True, True, []), seen)


def main():
    for mode in (0o600, 0o640, 0o644, 0o666, 0o755):
        try_kept(mode)
    try_links()
    try_refused()
    try_limit()
    try_read()
    try_closed_streams()
    try_full_memory()
    if IS_ROOT:
        try_kept(0o640, (1234, 4321))
        try_full_disk()
        try_nobody()
    else:
        print("left out: owners, a full disk, and a server that is not root")
    print(f"{len(failures)} failed")
    sys.exit(1 if failures else 0)


if __name__ == "__main__":
    main()
