"""The settings of r53d, from a TOML file and from words; a word counts more than the file."""
import os
import tomllib
from types import SimpleNamespace

PLACE = "/etc/r53d.toml"

# key: (kind, what it is without a word of the file, what it means)
KEYS = {
    "folder": (str, ".", "folder of the two journals and the tables"),
    "program": (str, None, "path of the program r53; else that of the environment's R53, then r53 on the path"),
    "socket": (str, None, "path of the control socket; else r53d.socket in the folder"),
    "query_port": (int, 5300, "UDP port of this host for queries; 0 leaves the choice to the system"),
    "tcp_address": (str, "127.0.0.1", "address on which queries over TCP are taken"),
    "tcp_port": (int, 0, "TCP port for queries; 0 for none"),
    "report_address": (str, "127.0.0.1", "address on which reports are taken"),
    "report_port": (int, 5301, "UDP port for reports; 0 leaves the choice to the system"),
    "metrics_port": (int, 0, "TCP port of this host for the metrics page; 0 for none"),
    "log": (str, "-", "file of the log, - for standard output"),
    "log_most": (int, 4096, "bytes of a line or a reply that the log holds"),
    "compact_factor": (float, 2.0, "how many times its snapshot a journal is when it is compacted, above 1; 0 for never"),
    "compact_least": (int, 1048576, "bytes below which a journal isn't compacted"),
    "lock_wait": (float, 10.0, "seconds for which a lock that another process holds is waited for"),
    "stop_within": (float, 10.0, "seconds after which a program that doesn't end is killed when r53d stops"),
    "restart_most": (float, 30.0, "seconds that r53d waits at most before it starts a program again that ended by a fault"),
    "patience": (float, 60.0, "seconds after which a program that doesn't reply is killed; 0 for never"),
}


class BadSettings(Exception):
    """A file or a word that can't be a setting; its text says which."""


def read_file(path):
    """The settings of a TOML file as a dict. Raises BadSettings."""
    try:
        with open(path, "rb") as file:
            return tomllib.load(file)
    except OSError as fault:
        raise BadSettings("%s: %s" % (path, (fault.strerror or str(fault)).lower())) from None
    except (tomllib.TOMLDecodeError, UnicodeDecodeError) as fault:
        raise BadSettings("%s: bad TOML: %s" % (path, fault)) from None


def check(key, value):
    """The value as its kind has it. Raises BadSettings."""
    if key not in KEYS:
        raise BadSettings("unknown setting %s" % key)
    kind = KEYS[key][0]
    if kind is float and isinstance(value, int) and not isinstance(value, bool):
        value = float(value)
    if not isinstance(value, kind) or isinstance(value, bool):
        raise BadSettings("%s is no %s" % (key, {str: "text", int: "whole number", float: "number"}[kind]))
    if kind is not str and not value >= 0:
        raise BadSettings("%s is below 0" % key)
    if key == "compact_factor" and 0 < value <= 1:
        raise BadSettings("compact_factor is neither 0 nor above 1")
    if key.endswith("_port") and value > 65535:
        raise BadSettings("%s is above 65535" % key)
    return value


def load(path=None, given=None):
    """The settings, `given` over those of the file over the defaults. Raises BadSettings.

    Where `given` names a folder and no socket, the socket is in that folder: the file's is that of the file's folder.
    """
    if path is None and os.path.exists(PLACE):
        path = PLACE
    found = read_file(path) if path else {}
    out = {key: default for key, (_, default, _) in KEYS.items()}
    for source, things in ((path, found), ("words", given or {})):
        for key, value in things.items():
            if value is not None:
                try:
                    out[key] = check(key, value)
                except BadSettings as fault:
                    raise BadSettings("%s: %s" % (source, fault)) from None
    if path and "folder" in found and not (given or {}).get("folder"):
        out["folder"] = os.path.join(os.path.dirname(os.path.abspath(path)), out["folder"])
    if (given or {}).get("folder") and not (given or {}).get("socket"):
        out["socket"] = None
    if out["socket"] is None:
        out["socket"] = os.path.join(out["folder"], "r53d.socket")
    return SimpleNamespace(**out)
