"""What controller_settings and member_settings share.

One sentence for each thing that can be wrong, questions to Samba and to DNS that come to an end, and a settings text
that is written whole or not at all.
"""
import argparse
import importlib
import ipaddress
import os
import pickle
import re
import signal
import subprocess
import sys
import tempfile
from contextlib import suppress

NTP_PORT = 123
DNS_SECONDS = 20
DNS_TRY_SECONDS = 6
LOCK_SECONDS = 60
PROGRAM = "/usr/local/sbin/w32tm"


class Refusal(Exception):
    """What is wrong, as a sentence for the administrator."""


class Words(argparse.ArgumentParser):
    def error(self, message):
        raise Refusal(f"{message}; --help has the words")


def words(description):
    """The words that both scripts take."""
    parser = Words(description=description, allow_abbrev=False)
    parser.add_argument("path", metavar="PATH", help="the settings text that is written")
    parser.add_argument("--configfile", metavar="SMB.CONF", help="Samba's own settings, where they aren't the usual ones")
    parser.add_argument("--with", dest="own_lines", metavar="FILE",
                        help="lines of your own, which are put at the end (PATH.own, where there is such a file)")
    parser.add_argument("--program", default=PROGRAM, metavar="PATH", help=f"the program that checks the text ({PROGRAM})")
    parser.add_argument("--wait", type=int, default=LOCK_SECONDS, metavar="N",
                        help=f"the seconds that a locked database is waited for ({LOCK_SECONDS})")
    parser.add_argument("--restart", metavar="UNIT", help="a unit of systemd that is restarted where the text changed")
    return parser


def run(parser, work):
    """Does the work, and ends with 0; or says what is wrong, and ends with 1."""
    # A signal from outside ends it by an exception, so that nothing is left beside the text.
    signal.signal(signal.SIGTERM, lambda *_: sys.exit(1))
    os.umask(0o077)
    try:
        given = parser.parse_args()
        if os.geteuid() != 0:
            raise Refusal("only root may read the keys of accounts")
        if not os.path.isdir(folder_of(given.path)):
            raise Refusal(f"there is no folder {printable(folder_of(given.path))}")
        work(given)
    except Refusal as refusal:
        end(str(refusal))
    except OSError as error:
        end(f"{error.strerror}: {printable(error.filename or 'standard output')}")
    except KeyboardInterrupt:
        end("interrupted")


def folder_of(path):
    return os.path.dirname(os.path.abspath(path))


def end(sentence):
    # What couldn't be printed isn't tried once more.
    os.dup2(os.open(os.devnull, os.O_WRONLY), 1)
    print(f"{os.path.basename(sys.argv[0])}: {sentence}", file=sys.stderr)
    sys.exit(1)


def printable(text):
    """A name as one line of letters that every terminal takes."""
    text = str(text)
    return text if re.fullmatch(r"[!-~]+", text) else ascii(text)


def within(seconds, sentence, question):
    """The answer to a question. A process of its own asks it, since Samba's code may wait for a lock without end."""
    reader, writer = os.pipe()
    child = os.fork()
    if child == 0:
        answer(seconds, question, writer)
    os.close(writer)
    try:
        with os.fdopen(reader, "rb") as pipe:
            answered = pipe.read()
    except BaseException:
        os.kill(child, signal.SIGKILL)
        raise
    finally:
        status = os.waitpid(child, 0)[1]
    if os.WIFSIGNALED(status) and os.WTERMSIG(status) == signal.SIGALRM:
        raise Refusal(sentence)
    if not answered:
        raise Refusal(f"Samba's library ended before it answered (status {status})")
    is_answer, value = pickle.loads(answered)
    if not is_answer:
        raise Refusal(value)
    return value


def no_answer(name, seconds):
    return f"Samba's {name} gave no answer in {seconds} seconds: another process has locked it, or the machine is busy"


def answer(seconds, question, writer):
    # Samba's libraries write lines of their own, which would hide the one that counts.
    silence = os.open(os.devnull, os.O_WRONLY)
    os.dup2(silence, 1)
    os.dup2(silence, 2)
    signal.signal(signal.SIGTERM, signal.SIG_DFL)
    signal.alarm(seconds)
    try:
        found = (True, question())
    except Refusal as refusal:
        found = (False, str(refusal))
    except Exception as error:
        found = (False, f"Samba answered: {type(error).__name__}, {printable(error)}")
    with os.fdopen(writer, "wb") as pipe:
        pickle.dump(found, pipe)
    os._exit(0)


def want_modules(*names):
    """Says which of Samba's Python modules are missing, with the packages that have them."""
    for name in names:
        try:
            importlib.import_module(name)
        except ImportError as missing:
            raise Refusal(f"the Python module {missing.name} is missing: apt-get install samba python3-samba "
                          "python3-dnspython") from None


def samba_settings(configfile):
    from samba.param import LoadParm

    settings = LoadParm()
    try:
        if configfile:
            settings.load(configfile)
        else:
            settings.load_default()
    except RuntimeError:
        raise Refusal(f"Samba's settings can't be read: {printable(configfile or 'smb.conf')}") from None
    return settings


def settings_name(host):
    """The name under which a computer stands in the text: its name in DNS, or the front of one that is too long."""
    name = host.lower() if len(host) <= 63 else host.lower().split(".")[0]
    if not re.fullmatch(r"[a-z0-9.-]{1,63}", name):
        raise Refusal(f"the name {printable(host)} can't stand in a settings text, which takes letters, digits, - and .")
    return name


def records(name, kind):
    """The records of a name in DNS, none where it has none. Without an answer there is no text."""
    import dns.exception
    import dns.resolver

    resolver = dns.resolver.Resolver()
    resolver.timeout = DNS_TRY_SECONDS
    try:
        return list(resolver.resolve(name + ".", kind, lifetime=DNS_SECONDS))
    except (dns.resolver.NXDOMAIN, dns.resolver.NoAnswer):
        return []
    except dns.exception.DNSException as error:
        raise Refusal(f"DNS gave no answer on {printable(name)}: {type(error).__name__}") from None


def address_of(host):
    """The lowest of a host's IPv4 addresses, so that two runs find the same one; None where it has none."""
    found = [ipaddress.IPv4Address(record.address) for record in records(host, "A")]
    return min(found, default=None)


def computer_line(name, address, site, reliable, parent, emulator):
    has = (("S", site), ("R", reliable), ("P", parent), ("E", emulator))
    flags = "".join(letter if flag else "-" for letter, flag in has)
    return f"computer {name} {address}:{NTP_PORT} {flags}"


def account_line(rid, key, previous):
    return " ".join(["account", str(rid), key.hex(), *([previous.hex()] if previous else [])])


def refuse_twice(names):
    twice = next((name for name in names if names.count(name) > 1), None)
    if twice:
        raise Refusal(f"two controllers would have the name {twice} in the text")


def text_of(given, head, computers, accounts):
    lines = [*head, "", *computers, "", *accounts]
    text = "\n".join(lines).encode("ascii") + b"\n"
    own_lines = given.own_lines or f"{given.path}.own"
    if given.own_lines or os.path.exists(own_lines):
        with open(own_lines, "rb") as file:
            text += b"\n" + file.read()
    return text


def check(program, path, codes):
    """Has the program read the text, by the replay of a capture in which nothing is."""
    try:
        done = subprocess.run([program, "/replay", f"/config:{path}"], stdin=subprocess.DEVNULL, capture_output=True)
    except OSError as error:
        raise Refusal(f"the text can't be checked, {printable(program)}: {error.strerror}") from None
    if done.returncode not in codes:
        said = done.stderr.decode("ascii", "replace").strip()
        raise Refusal(f"the text isn't good, /replay ended with code {done.returncode} ({printable(said)})")


def put(path, text, program, codes):
    """Puts the text in place of another one, whole or not at all, and says whether it changed."""
    try:
        return replace(path, text, program, codes)
    except OSError as error:
        raise Refusal(f"{printable(path)} can't be written: {error.strerror}") from None


def replace(path, text, program, codes):
    old = None
    with suppress(FileNotFoundError), open(path, "rb") as file:
        old = file.read()
    if old == text:
        os.chmod(path, 0o600)
        return False
    descriptor, beside = tempfile.mkstemp(prefix=f".{os.path.basename(path)}-", dir=folder_of(path))
    try:
        with os.fdopen(descriptor, "wb") as file:
            file.write(text)
            file.flush()
            os.fsync(file.fileno())
        check(program, beside, codes)
        os.replace(beside, path)
    except BaseException:
        with suppress(FileNotFoundError):
            os.unlink(beside)
        raise
    handle = os.open(folder_of(path), os.O_RDONLY)
    os.fsync(handle)
    os.close(handle)
    return True


def finish(given, text, codes, report):
    """Writes the text, says what is in it, and restarts the service where it changed."""
    changed = put(given.path, text, given.program, codes)
    restarted = not (changed and given.restart) or try_restart(given.restart)
    for line in report:
        print(line)
    print(f"{printable(given.path)}: {'written' if changed else 'unchanged'}", flush=True)
    if not restarted:
        raise Refusal(f"the text is written, but {printable(given.restart)} wasn't restarted")


def try_restart(unit):
    with suppress(OSError):
        return subprocess.run(["systemctl", "try-restart", unit], stdin=subprocess.DEVNULL).returncode == 0
    return False
