"""Plays what is at the other end of telnet, ssh and such: DEVICE=KIND telnet HOST..

tests/real/run puts this program on the PATH under the names that scripts of operators spawn. The variable DEVICE names a dialogue: a
table of states. Each state shows a text, reads an answer, and names the reply and the next state.
"""

import os
import sys
import termios
import time
from typing import NamedTuple

USER, PASSWORD, ENABLE = "ada", "s3same", "en4ble"


class State(NamedTuple):
    """What a device shows, and what it does with each answer: a reply, and the next state or an exit status."""

    # "@N" stands for the number of the command, after a user and a password; "@P" for a prompt that the first answer sets, as PS1=TEXT
    shows: str
    answers: dict = {}
    # the reply to any other answer; the next state `None` is this one
    other: tuple = ("% Unknown command\n", None)
    # how an answer is read: "line", "secret" for a line without echo, "key" for a byte without echo, "raw key" for one with it, "raw" as
    # `Line.raw` says, or "nothing"
    reads: str = "line"


VERSION = "Version 4.2, uptime is 3 weeks\n"
CLOCK = "12:34:56.789 UTC Tue Jan 2 2024\n"
# a form feed in a reply ends a page
CONFIG = "hostname r1\ninterface e0\n address 10.0.0.1\n\finterface e1\n shutdown\n\fend\n"
SHOWN = {"show version": VERSION, "show clock": CLOCK, "show config": CONFIG, "show nothing": ""}
LEAVING = ("exit", "quit", "logout")
# what switches off the pages of routers
ROUTER = ("terminal length 0", "terminal width 132", "terminal width 0", "term length 0", "terminal datadump", "no cli-paging")


def shell(prompt, silent=(), more=(), said=(), leaving=LEAVING, reads="line"):
    """A state that reads commands. Silent ones have no reply, `said` are replies, and `more` are replies and next states."""
    answers = {it: ("", None) for it in ("", *silent)}
    answers.update({it: (text, None) for it, text in {**SHOWN, **dict(said)}.items()})
    answers.update({it: ("", 0) for it in leaving})
    answers.update(more)
    return State(prompt, answers, reads=reads)


def login(user="Username: ", password="Password: ", banner="", refusal="% Authentication failed\n", name=USER, then="shell"):
    """The states that ask for a user and a password."""
    return {
        "start": State(banner + user, {name: ("", "password")}, ("", "wrong")),
        "password": State(password, {PASSWORD: ("\n", then)}, (f"\n{refusal}", "start"), "secret"),
        "wrong": State(password, {}, (f"\n{refusal}", "start"), "secret"),
    }


def device(prompt, silent=(), asked=(), **how):
    """A device without privileged commands; `asked` says how it asks for a user and a password."""
    return {**login(**dict(asked)), "shell": shell(prompt, silent, **how)}


def enabling(plain, privileged, silent=(), asked=(), command="enable"):
    """A device with a command that asks for another password."""
    return {
        **device(plain, silent, asked, more={command: ("", "enable")}),
        "enable": State("Password: ", {ENABLE: ("\n", "enabled")}, ("\n% Access denied\n", "shell"), "secret"),
        "enabled": shell(privileged, silent),
    }


def by_key(prompt, silent=(), **how):
    """A device that needs no password, as ssh with a key."""
    return {"start": shell(prompt, silent, **how)}


def by_password(question, then, refusal="Permission denied, please try again.\n"):
    """A device that asks for a password alone: the states below `then`."""
    return {"start": State(question, {PASSWORD: ("\n", "shell")}, (f"\n{refusal}", None), "secret"), **then}


def says(text, status=1):
    """A program that says something and ends."""
    return {"start": State("", {}, (text, status), "nothing")}


# a console that answers a user and hangs up, and says nothing else
GREETED = {"hello": ("h1 is up\n", 0)}
CONSOLE = State("", GREETED, ("", None))


LOGIN = {"user": "login: "}
LOGINS = {
    "a10login": enabling("a10>", "a10#", ROUTER, LOGIN),
    "alogin": device(">> Main# ", ("lines 0",)),
    "anlogin": device("arbor@r1:/# ", ("system lines set 0",), LOGIN),
    "avologin": enabling("[ada@acs]$ ", "[root@acs]# ", ("stty rows 1024",), LOGIN, "/bin/su"),
    "blogin": enabling("bay>", "bay#", ("more off",), LOGIN),
    "brlogin": enabling("br1>", "br1#", ROUTER),
    "clogin": enabling("r1>", "r1#", ROUTER, {"banner": "\nUser Access Verification\n\n"}),
    "csblogin": enabling("sw1>", "sw1#", ROUTER, {"user": "User Name:"}),
    "dllogin": device("DES-3526:5#", ("disable clipaging",), {"user": "UserName:", "password": "PassWord:"}),
    "elogin": device("ezt3(Active) > ", ("screen 0",), {"user": "  Login:"}),
    # scripts that type slowly get in without a password
    "flogin": by_key("f1#", ("skip-page-display", *ROUTER)),
    "fnlogin": device("fw1 # ", ("config global", "config system console", "set output standard", "end"), {"user": "fw1 login: "}),
    "fxlogin": enabling("fx1>", "fx1#"),
    "hlogin": enabling("hp1> ", "hp1# ", ("no page", "system shell session set more off")),
    "htlogin": device("command: ", (), LOGIN),
    "jlogin": device(
        "ada@j1> ",
        ("set cli complete-on-space off", "set cli screen-length 0", "set cli screen-width 0"),
        {"user": "\nj1 (ttyp0)\n\nlogin: ", "refusal": "Login incorrect\n"},
    ),
    "mrvlogin": by_key("mrv# ", ROUTER),
    "mtlogin": device("[ada@mt1] > ", (), {"user": "Login: ", "name": f"{USER}+ct200w"}),
    "nlogin": device("ns1-> ", ("set console page 0",), LOGIN),
    "noklogin": device("A:nok1# ", ("environment no more", "//environment no more", "environment more false"), {"user": "Login: "}),
    "nslogin": by_password(f"{USER}@ns1's password: ", {"shell": shell("> ")}),
    "panlogin": by_password("Password: ", {"shell": shell("ada@pan1> ", ("set cli scripting-mode on", "set cli pager off"))}),
    "rblogin": enabling("rb1 > ", "rb1 # ", ROUTER, LOGIN),
    "rivlogin": enabling("riv1> ", "riv1# "),
    "tlogin": enabling("net1>", "net1#", ROUTER),
    "ulogin": device("ada@u1:~$ ", (), {"user": "u1 login: "}),
    "wlogin": device(
        "(wlc1) >", ("config paging disable", "\x1a"), {"user": "User: ", "password": "Password:"}, leaving=("logout",), reads="raw"
    ),
    "xilogin": device("xi1# ", ("screen-length 0 temporary", "more off", "auto-complete off "), {"user": "Username: "}),
    "xlogin": device("x.@N # ", ("disable clipaging",), LOGIN),
}
# logins that end in other ways than those above
CONNECTIONS = {
    "refused": says("Trying 10.0.0.1...\ntelnet: Unable to connect to remote host: Connection refused\n"),
    "nossh": says("ssh: Could not resolve hostname h1: Name or service not known\n", 255),
    "denied": says(f"{USER}@h1: Permission denied (publickey,password).\n", 255),
    "hostkey": {
        "start": State(
            "The authenticity of host 'r1 (10.0.0.1)' can't be established.\nRSA key fingerprint is 11:22.\n"
            "Are you sure you want to continue connecting (yes/no)? ",
            {"yes": ("Warning: Permanently added 'r1' (RSA) to the list of known hosts.\n", "shell")},
            ("", 1),
        ),
        "shell": shell("r1#", ROUTER),
    },
    "rsh": says("line one\nline two\n", 0),
}
SOL = "[SOL Session operational.  Use &? for help]\n"
CONSOLES = {
    "cyclades-ssh": by_password("password: ", {"shell": CONSOLE}),
    "cyclades-telnet": {**login("ts login: "), "shell": CONSOLE},
    "in use": login("ts login: ") | {"shell": State("", {}, ("*\n* ttyS7 is being used by (bob) !!!\n*\n", 1), "nothing")},
    "closed by host": says("Connection to h1 closed by remote host.\n"),
    "hp-ilo": {
        **login("Login Name: ", banner="Connected to h1.\n\n", refusal="Invalid login\n"),
        "shell": shell("</>hpiLO-> ", more={"vsp": ("\nStarting virtual serial port\nVirtual Serial Port active: IO=0x02F8\n", "console")}),
        "console": CONSOLE,
    },
    "hp-lo100": {
        **login("h1 login: ", banner="Connected to h1.\n\n", refusal="Login incorrect\n"),
        "shell": State("/./-> ", {"\x1bQ": ("Starting console redirection\n", "console")}),
        "console": CONSOLE,
    },
    "ibm-bc": {
        **login("username: ", "password: ", refusal="Invalid login!\n"),
        "shell": shell(
            "system> ",
            more={
                "telnetcfg -T system:mm[1] -t 0": ("OK\n", None),
                "telnetcfg -T system:mm[2] -t 0": ("The target bay is empty.\n", None),
                "console -T system:blade[4] -o": ("\x1b[2J", "console"),
                "console -T system:blade[15] -o": ("The target bay is out of range\n", None),
            },
        ),
        "console": CONSOLE,
    },
    "ipmiconsole": {
        "start": State("Password: ", {PASSWORD: ("\n", "key")}, ("\n[error received]: password invalid\n", 1), "secret"),
        "key": State("K_g: ", {"kg": ("\n[SOL established]\n", "console")}, ("\n[error received]: k_g invalid\n", 1), "secret"),
        "console": CONSOLE,
    },
    "ipmitool": {
        "deactivate": State("Password: ", {PASSWORD: ("\n", 0)}, ("\nError: Unable to establish session\n", 1), "secret"),
        "activate": State("Password: ", {PASSWORD: (f"\n{SOL}", "console")}, ("\nError: Unable to establish session\n", 1), "secret"),
        "console": CONSOLE,
    },
    "ssh": by_password(f"{USER}@h1's password: ", {"shell": shell("h1$ ", more=GREETED)}),
    "sun-elom": {
        **by_password("Password: ", {"shell": shell("-> ", more={"start /SP/AgentInfo/console": ("console activate successful.\n", "console")})}),
        "console": CONSOLE,
    },
    "sun-ilom": {
        **by_password("Password: ", {"shell": shell("-> ", more={"start -script /SP/console": ("Serial console started.\n", "console")})}),
        "console": CONSOLE,
    },
    "sun-v20z-v40z": {
        **by_password("Password: ", {"shell": State("[Enter `^Ec?' for help]\n", {}, ("", "attached"), "nothing")}),
        "attached": CONSOLE,
    },
}
CONMAN = "<ConMan> Connection to console [c1]"
ALPHA = {
    "set eib0_mode Auto-Negotiate": "",
    "show dev": "dka0.0.0.7.1  DKA0  RZ2DD-LS  0306\neia0.0.0.2004.0  EIA0  00-02-56-00-03-29\n",
    "boot": "(boot eib0)\njumping to bootstrap code\n",
}
# conman(1), by its words: a query of names, or a console
CONSOLE_OF_CONMAN = {
    "conman -q": State("", {}, ("c1\n", 0), "nothing"),
    "powerman": State("", {}, ("Command completed successfully\n", 0), "nothing"),
    "conman": State(f"\n{CONMAN} opened.\n", {}, ("", "quiet"), "nothing"),
}


def console(prompt, said, more=()):
    """A console that conman(1) opens. It has no prompt before a first line."""
    more = {"&.": (f"\n{CONMAN} closed.\n", 0), **dict(more)}
    quiet = State("", {**more, "": ("", "shell")}, ("", None), "raw")
    return {**CONSOLE_OF_CONMAN, "quiet": quiet, "shell": shell(prompt, more=more, said=said, leaving=(), reads="raw")}


CONMEN = {
    "shell": console("c1# ", {"uname": "Linux\n"}),
    "srm": console("P00>>>", ALPHA),
    "rmc": {
        **console("P00>>>", {}, {"\x1b\x1brmc": ("", "rmc")}),
        "rmc": shell("RMC>", more={"quit": ("Returning to COM port\n", "shell"), "status": ("Firmware Rev: V1.0\n", None)}, reads="raw"),
    },
    "two consoles": {"conman -q": State("", {}, ("c1\nc2\n", 0), "nothing")},
    "no console": {"conman -q": State("", {}, ("ERROR: Found no matching consoles.\n", 1), "nothing")},
}
HMC = {
    "lssyscfg -r sys --all -F name": "sys1\nsys2\n",
    "lssyscfg -r sys -n sys1 -F state": "Ready\n",
    "lssyscfg -r lpar -m sys1 --all -F name": "lpar1\n",
    "lssyscfg -r lpar -m sys1 -n lpar1 -F state": "Error\n",
    "chsysstate -r lpar -m sys1 -n lpar1 -b norm -o on": "",
    "rmvterm -m sys1 -p lpar1": "",
    "echo $?": "0\n",
}
NUMAQ = {"cd hummer": "", "cd hammer": "cd: path 'hammer' not found\n", "sysdef -l": "\vhummer\nhomer\n\v", "power on": "", "boot": ""}
# the menus of a Netfinity: a key, and what it shows
ESCAPE = "\x1b"
NETFINITY = (
    *((ESCAPE, ""),) * 5,
    *((ESCAPE, "\nUSER ID:"), *((it, "") for it in USER), ("\n", "PASSWORD:"), *((it, "") for it in PASSWORD)),
    *(("\n", "\nZ - Start Remote Video\n"), ("6", "4 - Power On\n"), ("3", "2 - Power Off Immediately\n"), ("2", "0 - Write\n")),
    *(("0", "6.3.2: Write\n"), *((ESCAPE, ""),) * 4, (ESCAPE, "\nZ - Start Remote Video\n"), ("6", "4 - Power On\n")),
    *(("4", "2 - Power On Release CPU's Reset\n"), ("2", "0 - Write\n"), ("0", "6.4.2: Write\n"), *((ESCAPE, ""),) * 4),
    *((ESCAPE, "\nZ - Start Remote Video\n"), ("7", "4 - Restart SP\n"), ("2", "0 - Write\n"), ("0", "7.2: Write\n")),
)
CONMUX = {
    "blade": {
        **login("username: ", "password: ", refusal="Invalid login!\n"),
        "shell": shell(
            "system> ",
            more={"env -T system:blade[4]": ("OK\n", "blade")},
            said={"list -l 2": "\vsystem\n\tmm[1]\n\tblade[4]\n\v"},
        ),
        "blade": shell("system:blade[4]> ", said={"power -cycle": "OK\n", "power -state": "On\n"}),
    },
    "acs48": {
        "start": State("1 - Initiate\n4 - Kill sessions\nEnter your option : ", {"4": ("", "kill")}),
        "kill": State("Enter session PID or 'all': ", {"all": ("All sessions killed.\n", "port")}),
        "port": State("", {"\x10": ("5 - Cycle\nPlease choose an option:", "power")}, reads="raw key"),
        "power": State("", {"5": ("Outlet turned on.\n", "port")}, ("", 0)),
    },
    "apc": {
        "start": State("\nUser Name : ", {}, ("", "password")),
        "password": State("Password  : ", {"apc": ("\n", "control")}, ("\nAccess denied\n", 1), "secret"),
        "control": State("------- Control Console -------\n\n     1- Device Manager\n     2- Network\n\n> ", {"1": ("", "manager")}),
        "manager": State("------- Device Manager -------\n\n     1- Phase Monitor\n     2- Outlet Control\n\n> ", {"2": ("", "outlets")}),
        "outlets": State(
            "------- Outlet Control -------\n\n     1- web1  ON\n     7- web7  ON\n\n> ", {"7": ("", "outlet"), "": ("\v", None)}
        ),
        "outlet": State("     1- Control Outlet\n     2- Configure Outlet\n\n> ", {"1": ("", "seven")}),
        "seven": State("     1- Immediate On\n     2- Immediate Off\n     3- Immediate Reboot\n\n> ", {"3": ("", "sure")}),
        "sure": State(
            "     Immediate Reboot\n\n     Enter 'YES' to continue or <ENTER> to cancel : ",
            {"YES": ("     Command successfully issued.\n\n     Press <ENTER> to continue...", "sure")},
            ("", 0),
        ),
    },
    "kermit": {
        "start": shell(
            "C-Kermit>",
            ("set line /dev/ttyS7", "set flow none", "set carrier-watch off"),
            {"c": ("Connecting to /dev/ttyS7\n" + "-" * 60 + "\n", "meter")},
            {"set speed 9600": "/dev/ttyS7, 9600 bps\n"},
        ),
        "meter": State("", {"*1B1": ("  12.345\n", None)}, ("", None)),
    },
    "netfinity": {
        "start": State("", {}, ("", "0"), "nothing"),
        **{str(n): State("", {key: (text, str(n + 1))}, ("", None), "raw key") for n, (key, text) in enumerate(NETFINITY)},
        str(len(NETFINITY)): CONSOLE,
    },
    "newisys": by_password(
        f"{USER}@h1's password: ",
        {"shell": shell("localhost $ ", ("platform set power state cycle -f",), said={"platform get power state": "On\n"})},
    ),
    "numaq": {
        **login("login: ", "password: ", refusal="Authentication Failed\n"),
        "shell": shell("-> ", ("power -f -t 60000 off",), said=NUMAQ),
    },
    "rsa": {
        "start": State("Login ID:", {"ada\ts3same": ("Log Off\n", "menu")}, ("", 1)),
        "menu": State("", {"\t\t\t\t": ("Restart Server Immediately\n", "restart")}, ("", 1)),
        "restart": State("", {"\t\t\t\t\t": ("Restarting the system immediately\n", "sure")}, ("", 1)),
        "sure": State("", {"": ("The system is performing a Restart Server Immediately\n", None)}, ("", 1)),
    },
    "rsa2": {**login("username: ", "password: ", refusal="Invalid login!\n"), "shell": shell("> ", said={"reset": "ok\n"})},
    "hmc": {
        "start": State("Last login: Tue Jan  2\nhscroot@hmc:~> ", {}, ("", "shell")),
        # any other command opens a console
        "shell": State("@P", {it: (text, None) for it, text in HMC.items()}, ("NVTS\n", "console")),
        "console": State("", {}, (" Connection has closed\n", None), "nothing"),
    },
}
PRINTER = "durer 1# "
EXAMPLES = {
    "passwd": {
        "start": State("New password: ", {}, ("\n", "again"), "secret"),
        "again": State("Retype new password: ", {}, ("\npasswd: password updated successfully\n", 0), "secret"),
    },
    "ftp": {
        "start": State("Connected to ftp.uu.net.\nName (ftp.uu.net:ada): ", {"anonymous": ("", "password")}),
        "password": State("Password:", {}, ("\n230 Login successful.\n", "shell"), "secret"),
        "shell": shell(
            "ftp> ",
            said={
                "binary": "200 Switching to Binary mode.\n",
                "cd inet/rfc": "250 Directory successfully changed.\n",
                "get rfc1.Z": "550 Failed to open file.\n",
                "type binary": "200 Switching to Binary mode.\n",
                "dir": "200 PORT command successful.\n150 Here comes the directory listing.\ntotal 4\n226 Directory send OK.\n",
            },
        ),
    },
    "rlogin": by_key(PRINTER),
    "printer": {
        "start": shell(
            PRINTER,
            ("cd /dev", "rm /var/spool/lw-isg/lock /dev/lw-isg", "mknod lw-isg c 12 3"),
            {"lpc": ("", "lpc")},
            {"ls -l /dev/lw-isg": "crw-rw-rw- 1 root 12, 3 Jan  2 12:34 /dev/lw-isg\n"},
        ),
        "lpc": shell(
            "lpc> ",
            more={"quit": ("", "start")},
            said={"stop lw-isg": "lw-isg:\n\tprinting disabled\n", "start lw-isg": "lw-isg:\n\tprinting enabled\n\tdaemon started\n"},
        ),
    },
    "host": {
        "start": State("Password:", {"old": ("\n", "shell")}, ("\nLogin incorrect\n", 1), "secret"),
        "shell": shell("h1$ ", more={"passwd": ("", "old")}),
        "old": State("Old password: ", {"old": ("\n", "new")}, ("\nSorry.\n", "shell"), "secret"),
        "new": State("New password: ", {}, ("\n", "again"), "secret"),
        "again": State("Retype new password: ", {}, ("\n", "shell"), "secret"),
    },
    "weather": {
        "start": State("Weather Underground\nPress Return to continue:", {"": ("", "menu")}),
        "menu": State("C) Change scrolling to screen\nX) Exit\nSelection:", {"C": ("", "first"), "X": ("bye\n", 0)}),
        "first": State("4) Canadian\nSelection:", {"4": ("", "second")}),
        "second": State("1) Forecasts\nSelection:", {"1": ("", "third")}),
        "third": State("1) Cities\nSelection:", {"1": ("", "city")}),
        "city": State("Enter 3-letter city code: ", {"WBC": ("WASHINGTON: sunny, 20 C\n", "more")}),
        "more": State("Press Return to continue, M to return to menu: ", {"": ("CITY FORECAST MENU\n", "menu")}),
    },
    "crypt": {"start": State("Enter key:", {}, ("\n", 0), "secret")},
}
KINDS = {**LOGINS, **CONNECTIONS, **CONSOLES, **CONMEN, **CONMUX, **EXAMPLES}
PAGER = " --More-- "
# seconds: until a reply, so that the echo comes before it; for a vertical tab in a reply
THINKING, PAUSE = 0.03, 0.2


class Line:
    """The line to a script: a terminal, or pipes. A program that asks for a secret looks for the terminal itself."""

    def __init__(self, is_secret):
        self.in_, self.out, self.modes, self.held = 0, 1, None, ""
        if not os.isatty(0) and is_secret:
            self.in_ = self.out = os.open("/dev/tty", os.O_RDWR)
        if not os.isatty(self.in_):
            return
        self.modes = termios.tcgetattr(self.in_)
        self.modes[0] |= termios.ICRNL
        self.modes[1] |= termios.OPOST | termios.ONLCR
        self.modes[3] |= termios.ICANON | termios.ECHO | termios.ISIG | termios.IEXTEN

    def show(self, text):
        """Shows a text, at the latest when an answer is awaited. A vertical tab in it is a pause, in which a script sees what is before."""
        first, *others = text.split("\v")
        self.held += first
        for other in others:
            self.flush()
            time.sleep(PAUSE)
            self.held += other

    def flush(self):
        data, self.held = self.held.encode("latin-1"), ""
        while data:
            data = data[os.write(self.out, data) :]

    def set(self, reads):
        """Sets the modes in which an answer is read."""
        if self.modes is None:
            return
        modes = [*self.modes[:6], list(self.modes[6])]
        if reads in ("secret", "key"):
            modes[3] &= ~termios.ECHO
        if reads in ("key", "raw", "raw key"):
            modes[3] &= ~(termios.ICANON | termios.ISIG | termios.IEXTEN)
            modes[6][termios.VMIN], modes[6][termios.VTIME] = 1, 0
        termios.tcsetattr(self.in_, termios.TCSANOW, modes)

    def byte(self):
        self.flush()
        byte = os.read(self.in_, 1).decode("latin-1")
        if not byte:
            # the line is down
            raise EOFError
        return byte

    def raw(self):
        """Reads up to Return, or to what a console or a controller takes without Return."""
        line = ""
        while not line.endswith(("\n", "&.", "\x1a", "\x1b\x1brmc")):
            line += self.byte()
        return line.rstrip("\n")

    def read(self, reads):
        if reads == "nothing":
            self.flush()
            return ""
        if reads in ("key", "raw key"):
            return self.byte()
        if reads == "raw":
            return self.raw()
        line = self.byte()
        while not line.endswith("\n"):
            line += self.byte()
        return line.rstrip("\n")

    def reply(self, text):
        """Shows a reply page by page."""
        first, *pages = text.split("\f")
        self.show(first)
        for page in pages:
            self.set("key")
            self.show(PAGER)
            self.byte()
            width = len(PAGER)
            self.show("\b" * width + " " * width + "\b" * width + page)


def beginning(states, words):
    """The first state: that of the program and its first word, of its last word, of the program, or `start`."""
    program = os.path.basename(words[0])
    return next(it for it in (" ".join([program, *words[1:2]]), words[-1], program, "start") if it in states)


def play(states, words):
    """Plays a dialogue, and returns the exit status."""
    now, number, first = beginning(states, words), 0, ""
    line = Line(states[now].reads == "secret")
    while True:
        state = states[now]
        line.set(state.reads)
        line.show(state.shows.replace("@N", str(number - 1)).replace("@P", first.partition("=")[2]))
        answer = line.read(state.reads)
        time.sleep(THINKING)
        number, first = number + bool(answer), first or answer
        text, then = state.answers.get(answer, state.other)
        if isinstance(then, int):
            line.reply(text)
            line.flush()
            return then
        # a script may answer a reply at once
        now = then or now
        line.set(states[now].reads)
        line.reply(text)


if __name__ == "__main__":
    try:
        sys.exit(play(KINDS[os.environ["DEVICE"]], sys.argv))
    except (EOFError, OSError):
        # the line is down
        sys.exit(1)
