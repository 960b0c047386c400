"""The runs of tests/real/run: scripts, arguments, devices; and what exprun doesn't have yet."""

from typing import NamedTuple

# the folder of each package's scripts, and a file of the package
PLACES = {
    "rancid": ("usr/lib/rancid/bin", "usr/lib/rancid/bin/clogin"),
    "conman": ("usr/lib/conman", "usr/lib/conman/conman.exp"),
    "conmux": ("usr/share/conmux", "usr/share/conmux/drivers/hmc"),
    "expect": ("usr/bin", "usr/bin/expect_unbuffer"),
}
# the programs that scripts start, which device.py plays
NAMES = ("telnet", "ssh", "rsh", "rlogin", "ipmitool", "ipmiconsole", "kermit", "ftp", "conman", "powerman", "passwd", "crypt")
# files in the folder of each run, and in its home
FILES = {
    ".cloginrc": "add user * ada\nadd password nokey*\nadd password * s3same en4ble\n"
    "add method ssh* ssh\nadd method key* ssh\nadd method rsh* rsh\nadd autoenable key* 1\nadd noenable plain* 1\n",
    "commands": "show version\nshow clock",
    "dialogue.exp": 'send "show version\\r"\nexpect -re $prompt {}\nsend_user "\\nscripted\\n"\n',
}


class Run(NamedTuple):
    """A run of a script."""

    script: str
    name: str
    words: tuple = ()
    # the dialogue in device.py
    device: str = "refused"
    # standard input; whether it stays open after these bytes; whether it is a terminal, which stays open
    typed: bytes = b""
    stays: bool = False
    terminal: bool = False
    environment: dict = {}
    # whether the script sets PATH, or reads /usr/lib/conman
    mounts: bool = False
    # a pattern for output that differs from run to run
    varies: bytes = b""


BY_KEY = ("flogin", "mrvlogin")
# these answer before each prompt, or type all commands slowly: one command is enough
BRIEF = ("brlogin", "dllogin")
LOGINS = (
    *("a10login", "alogin", "anlogin", "avologin", "blogin", "clogin", "csblogin", "elogin", "fnlogin", "fxlogin", "hlogin", "htlogin"),
    *("jlogin", "mtlogin", "nlogin", "noklogin", "nslogin", "panlogin", "rblogin", "rivlogin", "tlogin", "ulogin", "wlogin", "xilogin"),
    "xlogin",
)
ALL_LOGINS = sorted((*BY_KEY, *BRIEF, *LOGINS))
LIMIT = ("-t", "20")
BOTH = ("-c", "show version;show clock")
# options and hosts other than r1; .cloginrc says how to reach a host
OPTIONS = {"blogin": ("-e", "en4ble")}
HOSTS = {"nslogin": "ssh1", "ulogin": "plain1"}


def of_rancid(script, name, *words, device=None, host=None):
    """A run of a login of rancid, by default on its own device."""
    words = (*LIMIT, *OPTIONS.get(script, ()), *words, host or HOSTS.get(script, "r1"))
    return Run(f"rancid/{script}", name, words, device or script)


RANCID = (
    # the slow ones begin first
    *(of_rancid(it, "a login", "-c", "show clock", host="key1") for it in BY_KEY),
    *(of_rancid(it, "a login", "-c", "show clock") for it in BRIEF),
    *(of_rancid(it, "a login", *BOTH) for it in LOGINS),
    *(of_rancid(it, "a refused connection", *BOTH, device="refused", host="plain1") for it in ALL_LOGINS),
    of_rancid("clogin", "pages", "-c", "show config;show nothing"),
    Run("rancid/clogin", "a file of commands, two routers", (*LIMIT, "-x", "commands", "plain1", "nokey2"), "clogin"),
    of_rancid("clogin", "a wrong password", *BOTH, "-p", "wrong"),
    of_rancid("clogin", "a wrong privileged password", *BOTH, "-e", "wrong"),
    of_rancid("clogin", "an unknown host key", *BOTH, device="hostkey", host="key1"),
    of_rancid("clogin", "rsh", *BOTH, device="rsh", host="rsh1"),
    of_rancid("clogin", "a script", "-s", "dialogue.exp"),
    of_rancid("clogin", "which passwords", "-m"),
    of_rancid("clogin", "no file of commands", "-x", "nothing"),
    of_rancid("clogin", "no file of passwords", "-f", "nothing"),
    Run("rancid/clogin", "help", ("-h",)),
    Run("rancid/clogin", "version", ("-V",)),
    of_rancid("jlogin", "a wrong password", *BOTH, "-p", "wrong"),
    *(Run(f"rancid/{it}", "an unknown option", ("-Q", "r1")) for it in ALL_LOGINS),
)


def of_conman(script, words, wrong, *more):
    """A login over a console server, a wrong password, wrong arguments, and more runs: a name, arguments and a device."""
    name = f"conman/exec/{script}.exp"
    yield Run(name, "a login", words, script, b"hello\n", True, mounts=True)
    yield Run(name, "a wrong password", wrong, script, mounts=True)
    yield Run(name, "no password", words[: words.index("ada") + 1], script, mounts=True)
    yield Run(name, "usage")
    for what, given, device in more:
        yield Run(name, what, given, device, mounts=True)


ADA, WRONG = ("ada", "s3same"), ("ada", "wrong")
UNKNOWN = "an unknown host"
TTY, WRONG_TTY = ("h1", "7007", *ADA), ("h1", "7007", *WRONG)
PORT, WRONG_PORT = ("h1", "23", *ADA), ("h1", "23", *WRONG)
HOST, WRONG_HOST = ("h1", *ADA), ("h1", *WRONG)
CONMAN = (
    # a login at a Cyclades ends with a time-out of the script, of 10 s
    *of_conman("cyclades-ssh", TTY, WRONG_TTY, (UNKNOWN, TTY, "nossh"), ("closed", TTY, "closed by host")),
    *of_conman("cyclades-telnet", TTY, WRONG_TTY, ("in use", TTY, "in use"), ("refused", TTY, "refused")),
    *of_conman("hp-ilo", PORT, WRONG_PORT, ("refused", PORT, "refused")),
    *of_conman("hp-lo100", PORT, WRONG_PORT, ("refused", PORT, "refused")),
    *of_conman("ibm-bc", ("h1", "4", *ADA), ("h1", "4", *WRONG), ("no such blade", ("h1", "15", *ADA), "ibm-bc")),
    *of_conman("ipmiconsole", (*HOST, "kg"), (*WRONG_HOST, "kg"), ("a wrong key", (*HOST, "x"), "ipmiconsole")),
    *of_conman("ipmitool", HOST, WRONG_HOST),
    *of_conman("ssh", PORT, WRONG_PORT, (UNKNOWN, PORT, "nossh"), ("denied", PORT, "denied")),
    *of_conman("sun-elom", HOST, WRONG_HOST, (UNKNOWN, HOST, "nossh")),
    *of_conman("sun-ilom", HOST, WRONG_HOST, (UNKNOWN, HOST, "nossh")),
    *of_conman("sun-v20z-v40z", HOST, WRONG_HOST, (UNKNOWN, HOST, "nossh")),
    Run("conman/conman.exp", "the library"),
    Run("conman/alpha.exp", "the library"),
    Run("conman/examples/shell_cmd_1.exp", "a command", ("c1", "uname"), "shell", mounts=True),
    Run("conman/examples/shell_cmd_1.exp", "two consoles", ("c*", "uname"), "two consoles", mounts=True),
    Run("conman/examples/shell_cmd_1.exp", "no console", ("c9", "uname"), "no console", mounts=True),
    Run("conman/examples/shell_cmd_n.exp", "a command", ("c1", "uname"), "shell", terminal=True, mounts=True),
    Run("conman/examples/wtf.exp", "a console", ("c1",), "shell", terminal=True, mounts=True),
    Run("conman/examples/mac.exp", "a console", ("c1",), "srm", terminal=True, mounts=True),
    Run("conman/examples/srm.exp", "a command", ("set eib0_mode Auto-Negotiate", "c1"), "srm", terminal=True, mounts=True),
    Run("conman/examples/rmc.exp", "a command", ("status", "c1"), "rmc", terminal=True, mounts=True),
    Run("conman/examples/boot_alpha.exp", "a console", ("c1",), "srm", terminal=True, mounts=True),
    Run("conman/examples/boot_alpha.exp", "no console", ("c9",), "no console", mounts=True),
)
TO_BLADE = (*ADA, "telnet", "h1")
HMC = ("-h", "h1", "-m", "sys1", "-p", "lpar1", "-V", "2.6")
SSH = {"SSH_OPTIONS": "-x"}
CONMUX = (
    Run("conmux/drivers/blade", "a restart", ("reboot", "blade[4]", *TO_BLADE), "blade"),
    Run("conmux/drivers/blade", "no such blade", ("reboot", "blade[5]", *TO_BLADE), "blade"),
    Run("conmux/drivers/blade", "a wrong password", ("reboot", "blade[4]", *WRONG, "telnet", "h1"), "blade"),
    Run("conmux/drivers/blade", "a refused connection", ("reboot", "blade[4]", *TO_BLADE), "refused"),
    Run("conmux/drivers/blade", "a command that it doesn't know", ("boot", "blade[4]", *TO_BLADE)),
    Run("conmux/drivers/blade", "usage"),
    Run("conmux/drivers/reboot-acs48", "a restart", ("7", "h1"), "acs48"),
    Run("conmux/drivers/reboot-apc", "a restart", ("h1", "7"), "apc"),
    Run("conmux/drivers/reboot-apc", "usage"),
    Run("conmux/drivers/reboot-laurel", "on", ("/dev/ttyS7", "on"), "kermit"),
    Run("conmux/drivers/reboot-laurel", "a value", ("/dev/ttyS7", "value"), "kermit"),
    Run("conmux/drivers/reboot-laurel", "usage"),
    Run("conmux/drivers/reboot-netfinity", "a restart", (*ADA, "telnet", "h1"), "netfinity"),
    Run("conmux/drivers/reboot-netfinity", "usage"),
    Run("conmux/drivers/reboot-newisys", "a restart", (*ADA, "ssh", "h1"), "newisys"),
    Run("conmux/drivers/reboot-newisys", "usage"),
    Run("conmux/drivers/reboot-numaq", "a restart", ("vcs", "h1", "hummer", "12346", *ADA), "numaq"),
    Run("conmux/drivers/reboot-numaq", "no such system", ("vcs", "h1", "hammer", "12346", *ADA), "numaq"),
    Run("conmux/drivers/reboot-numaq", "a refused connection", ("vcs", "h1", "hummer", "12346", *ADA), "refused"),
    Run("conmux/drivers/reboot-numaq", "usage"),
    Run("conmux/drivers/reboot-rsa", "a restart", (*ADA, "telnet", "h1"), "rsa"),
    Run("conmux/drivers/reboot-rsa", "a refused connection", (*ADA, "telnet", "h1"), "refused"),
    Run("conmux/drivers/reboot-rsa", "usage"),
    Run("conmux/drivers/reboot-rsa2", "a restart", (*ADA, "telnet", "h1"), "rsa2"),
    Run("conmux/drivers/reboot-rsa2", "a wrong password", (*WRONG, "telnet", "h1"), "rsa2"),
    Run("conmux/drivers/reboot-rsa2", "usage"),
    Run("conmux/drivers/hmc", "a restart", ("reboot", *HMC), "hmc", environment=SSH),
    Run("conmux/drivers/hmc", "no such partition", ("reboot", *HMC, "-p", "lpar9"), "hmc", environment=SSH),
    Run("conmux/drivers/hmc", "a console", ("open-term", *HMC), "hmc", stays=True, environment=SSH),
    Run("conmux/drivers/hmc", "an unknown host", ("reboot", *HMC), "nossh", environment=SSH),
    Run("conmux/drivers/hmc", "usage"),
    Run("conmux/drivers/x3270_glue.expect", "the library"),
    Run("conmux/drivers/zseries-console", "usage"),
    Run("conmux/helpers/autoboot-helper", "a restart", typed=b"up\nUnmounting file systems\nRestarting system.\n"),
    Run("conmux/helpers/autoboot-helper", "usage", ("x",)),
    Run("conmux/helpers/tickle-helper", "a restart", typed=b"up\nHARDBOOT INITIATED\nblade: ERROR: console lost\nup\n"),
    Run("conmux/helpers/tickle-helper", "usage", ("x",)),
)
OLD = b"old\nn3w\nn3w\n"
EXAMPLES = (
    Run("expect/expect_autopasswd", "a password", ("ada", "n3w"), "passwd"),
    Run("expect/expect_cryptdir", "a folder", (), "crypt", b"key\nkey\n", terminal=True, mounts=True),
    Run("expect/expect_decryptdir", "a folder", (), "crypt", b"key\nkey\n", terminal=True, mounts=True),
    Run("expect/expect_ftp-rfc", "no such file", ("1",), "ftp"),
    Run("expect/expect_ftp-rfc", "usage"),
    Run("expect/expect_lpunlock", "a printer", ("lw-isg", "durer"), "printer"),
    Run("expect/expect_lpunlock", "a password", ("lw-isg", "durer"), "host"),
    Run("expect/expect_lpunlock", "usage"),
    Run("expect/expect_mkpasswd", "a password", ("-p", "passwd", "-l", "12", "ada"), "passwd", varies=rb"(?m)^\S{12}$"),
    Run("expect/expect_mkpasswd", "none for a user", (), varies=rb"(?m)^\S{9}$"),
    Run("expect/expect_mkpasswd", "too short", ("-l", "3")),
    Run("expect/expect_mkpasswd", "usage", ("ada", "bob")),
    Run("expect/expect_passmass", "a host", ("-user", "ada", "h1"), "host", OLD, terminal=True),
    Run("expect/expect_passmass", "usage"),
    Run("expect/expect_rftp", "a folder", ("h1",), "ftp", b"anonymous\nx\n~gquit\n", True),
    Run("expect/expect_rftp", "usage", ("h1", "h2")),
    Run("expect/expect_rlogin-cwd", "a login", ("h1",), "rlogin", b"exit\n", True),
    Run("expect/expect_timed-read", "a line", ("20",), typed=b"a line\n"),
    Run("expect/expect_timed-run", "a program", ("20", "echo", "a", "b")),
    Run("expect/expect_timed-run", "a program that goes on", ("1", "sleep", "100")),
    Run("expect/expect_unbuffer", "a program", ("sh", "-c", "echo a; echo b >&2; exit 7")),
    Run("expect/expect_unbuffer", "a program that isn't there", ("./nothing",)),
    Run("expect/expect_unbuffer", "a pipe", ("-p", "sort"), typed=b"b\na\n"),
    Run("expect/expect_weather", "a city", ("WBC",), "weather"),
    Run("expect/expect_weather", "a refused connection", ("WBC",), "refused"),
)
RUNS = (*RANCID, *CONMUX, *CONMAN, *EXAMPLES)

BY_CONMAN = ("cyclades-ssh", "cyclades-telnet", "hp-ilo", "hp-lo100", "ibm-bc", "ipmiconsole", "ipmitool", "ssh", "sun-elom", "sun-ilom")
# what exprun doesn't have yet, and the runs that need it; most need more
MISSING = {
    "fork, spawn -pty": (
        ("conman/examples/shell_cmd_n.exp", "a command"),
        ("conman/examples/wtf.exp", "a console"),
        ("conman/examples/mac.exp", "a console"),
        ("conman/examples/srm.exp", "a command"),
        ("conman/examples/rmc.exp", "a command"),
        ("conman/examples/boot_alpha.exp", "a console"),
    ),
    "interact": (
        *((f"conman/exec/{it}.exp", "a login") for it in (*BY_CONMAN, "sun-v20z-v40z")),
        ("expect/expect_rlogin-cwd", "a login"),
    ),
    "user_spawn_id": (("conman/examples/shell_cmd_1.exp", "a command"), ("expect/expect_unbuffer", "a pipe")),
    "spawn_id of the user": (("expect/expect_timed-read", "a line"),),
    "expect_user": (("conmux/helpers/autoboot-helper", "a restart"), ("conmux/helpers/tickle-helper", "a restart")),
    "stty": (("expect/expect_cryptdir", "a folder"), ("expect/expect_decryptdir", "a folder")),
    "exp_version -exit": (
        *(("expect/expect_ftp-rfc", it) for it in ("no such file", "usage")),
        *(("expect/expect_passmass", it) for it in ("a host", "usage")),
        *(("expect/expect_rftp", it) for it in ("a folder", "usage")),
        *(("expect/expect_weather", it) for it in ("a city", "a refused connection")),
    ),
    "switch -re, short for -regexp": (
        *(("conmux/drivers/blade", it) for it in ("a restart", "no such blade", "a wrong password", "a refused connection")),
    ),
    "comparison with 4.0": (*(("conmux/drivers/hmc", it) for it in ("a restart", "no such partition", "a console")),),
    "int(), rand()": (("expect/expect_mkpasswd", "a password"), ("expect/expect_mkpasswd", "none for a user")),
    "namespace": (("conmux/drivers/x3270_glue.expect", "the library"),),
    "file dirname, namespace": (("conmux/drivers/zseries-console", "usage"),),
    "the error of a closed spawn id": tuple((f"rancid/{it}", "a refused connection") for it in ("elogin", "htlogin", "mtlogin")),
    "causes of errors are words": (
        ("rancid/clogin", "no file of commands"),
        ("expect/expect_unbuffer", "a program that isn't there"),
    ),
    "the error of send with three words": (("expect/expect_lpunlock", "a printer"),),
}
NOT_YET = {run: reason for reason, runs in MISSING.items() for run in runs}
