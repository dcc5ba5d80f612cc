"""Cases of direct calls, for what the floor program has no letters for, with their answers written by hand: `call inputs > refusal and what is
answered`. Bytes are in hex behind an x; an install asks for two timers, two entries, texts of 15 and priority 5."""

INSTALLED = (5, 2, 2, 15, [(0, 0)] * 4)
UNRECOGNIZED = "envelope xC100"
CHOICE, HELP = "envelope xD30782028281900180", "envelope xD309820282819001809500"
EXPIRY = "envelope xD70782028281A40101"
DISPLAY_TEXT = "xD009810301210082028182"


def read_calls(script):
    """Name, inputs and expected words of each call."""
    for line in filter(None, map(str.strip, script.splitlines())):
        asked, _, wanted = line.partition(" > ")
        name, *words = asked.split()
        inputs = [bytes.fromhex(word[1:]) if word[0] == "x" else int(word) for word in words]
        yield name, (*inputs, *INSTALLED) if name == "install" else tuple(inputs), wanted


def said(answer):
    """The refusal and what is answered, in words."""
    words = [f"number {answer.number}"] * bool(answer.number) + ["yes"] * answer.yes + [f"applet {answer.called}"] * bool(answer.called)
    return " ".join([str(int(answer.refusal)), *words, *(name for name, there in answer.marks._asdict().items() if there)])


def with_row(help_mark):
    return f"""
        install 1 > 0
        new_entry 1 {help_mark} x41 > 0 number 128"""


POLLED = """
        install 1 > 0
        install 2 > 0
        install 3 > 0
        request_poll 1 20 > 0
        request_poll 3 300 > 0"""
TIMED = """
        install 1 > 0
        install 2 > 0
        allocate 1 > 0 number 1"""

CALL_CASES = {
    "a STATUS opens a round": """
        next > 21
        status > 0 proactive
        settled > 22
        next > 0
        next > 21
        settled > 0 proactive
        status > 0 proactive
        next > 0""",
    "a STATUS calls those who request": f"""
        {POLLED}
        lock 3 > 0
        status > 0 proactive
        next > 0 applet 1
        unlock 3 > 0
        next > 0 applet 3
        next > 0""",
    "a request made late, lost, or changed": f"""
        {POLLED}
        status > 0 proactive
        request_poll 2 20 > 0
        request_poll 3 1 > 0
        request_poll 1 -1 > 0
        next > 0 applet 3
        next > 0
        status > 0 proactive
        next > 0 applet 3
        next > 0 applet 2
        next > 0""",
    "a request lost and regained": f"""
        {POLLED}
        status > 0 proactive
        request_poll 3 0 > 0
        next > 0 applet 1
        request_poll 3 15300 > 0
        next > 0 applet 3
        next > 0""",
    "a request of one that was deleted": f"""
        {POLLED}
        status > 0 proactive
        delete 3 > 0
        install 3 > 0
        request_poll 3 300 > 0
        next > 0 applet 1
        next > 0
        status > 0 proactive
        next > 0 applet 3
        next > 0 applet 1
        next > 0""",
    "a row disabled and enabled again": f"""
        {with_row(0)}
        {CHOICE} > 0 proactive envelope
        disable_entry 1 128 > 0
        enable_entry 1 128 > 0
        next > 0 applet 1
        next > 0""",
    "a row not enabled on arrival, or not at its turn": f"""
        {with_row(0)}
        {CHOICE} > 0 proactive envelope
        disable_entry 1 128 > 0
        next > 0
        {CHOICE} > 0 proactive envelope
        enable_entry 1 128 > 0
        next > 0
        {CHOICE} > 0 proactive envelope
        next > 0 applet 1""",
    "a help mark lost and regained": f"""
        {with_row(1)}
        {HELP} > 0 proactive envelope
        change_entry 1 128 0 x42 > 0
        change_entry 1 128 1 x43 > 0
        next > 0 applet 1
        next > 0""",
    "no help mark on arrival, or not at its turn": f"""
        {with_row(1)}
        {HELP} > 0 proactive envelope
        change_entry 1 128 0 x41 > 0
        next > 0
        {HELP} > 0 proactive envelope
        change_entry 1 128 1 x41 > 0
        next > 0
        {HELP} > 0 proactive envelope
        disable_entry 1 128 > 0
        next > 0""",
    "a choice does not ask for the help mark": f"""
        {with_row(1)}
        {CHOICE} > 0 proactive envelope
        change_entry 1 128 0 x41 > 0
        next > 0 applet 1""",
    "a timer released and given to the same again": f"""
        {TIMED}
        {EXPIRY} > 0 proactive envelope
        release 1 1 > 0
        allocate 1 > 0 number 1
        next > 0 applet 1
        next > 0""",
    "a timer released, or given to another": f"""
        {TIMED}
        {EXPIRY} > 0 proactive envelope
        release 1 1 > 0
        next > 0
        allocate 1 > 0 number 1
        {EXPIRY} > 0 proactive envelope
        release 1 1 > 0
        allocate 2 > 0 number 1
        next > 0
        {EXPIRY} > 0 proactive envelope
        next > 0 applet 2""",
    "a timer given late": f"""
        install 1 > 0
        {EXPIRY} > 0 proactive envelope
        allocate 1 > 0 number 1
        next > 0""",
    "next answers no marks, and the arrival's stay": f"""
        install 1 > 0
        install 2 > 0
        set_event 1 -1 > 0
        set_event 2 -1 > 0
        {UNRECOGNIZED} > 0 proactive envelope response
        next > 0 applet 2
        send 2 {DISPLAY_TEXT} > 0
        next > 0 applet 1
        next > 0
        {UNRECOGNIZED} > 0 envelope response
        status > 0
        settled > 16
        response > 0
        settled > 22
        next > 0
        settled > 0 proactive""",
    "a one-shot is used up at its turn in settled's round": """
        install 1 > 0
        set_event 1 123 > 0
        set_event 1 1 > 0
        request_poll 1 20 > 0
        settled > 0 proactive
        ask_event 1 123 > 0 yes
        profile xFF > 0 proactive
        next > 0 applet 1
        status > 0 proactive
        next > 0 applet 1
        next > 0
        ask_event 1 123 > 0 yes
        settled > 0 proactive
        next > 0 applet 1
        ask_event 1 123 > 0
        set_event 1 123 > 0
        next > 0
        ask_event 1 123 > 0 yes""",
    "commands by three-byte tags": f"""
        {TIMED}
        send 1 xD0077F000103012100 > 0
        response > 0
        send 1 xD0077F800103012500 > 17
        send 1 xD0077F010103012100 > 1
        send 1 xD00A81030127007F00240101 > 0
        response > 0
        send 1 xD00A81030127007F80240102 > 15
        send 1 xD00D81030127007F00240101240102 > 0
        response > 0
        send 1 xD00A81030127007F01240101 > 1
        send 1 xD00B7F00010201218103012100 > 1""",
    "a one-shot cleared before its turn": """
        install 1 > 0
        set_event 1 123 > 0
        settled > 0 proactive
        clear_event 1 123 > 0
        next > 0
        ask_event 1 123 > 0
        settled > 0 proactive
        set_event 1 123 > 0
        next > 0
        ask_event 1 123 > 0 yes""",
}
