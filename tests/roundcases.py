"""Cases of rounds, written by hand: floor cases, and cases of direct calls for what the floor program has no letters for."""

UNRECOGNIZED = "S 0 C100"
CALL_CONTROL = "S 0 D40482028281"
CHOICE_5, HELP_5 = "S 0 D30782028281900105", "S 0 D309820282819001059500"
EXPIRY_1 = "S 0 D70782028281A40101"
CODE_5, UNSUPPORTED_CODE = "S 0 D60782028281990105", "S 0 D6078202828199010D"
INSTALL = "0502010F0005000000000000"


def plain(*applets):
    """Applets of one priority, each with two timers and no entries."""
    return "\n".join(f"I {applet} 0502000F{'00' * 8} > 0 -" for applet in applets)


def registered(*applets):
    """Plain ones registered for an unrecognized envelope: the later installed is called first."""
    return "\n".join([plain(*applets), *(f"E {applet} FFFF > 0 -" for applet in applets)])


def each_opens():
    """Every accepted arrival on an empty card opens a round, which nobody but next ends."""
    arrivals = [UNRECOGNIZED, CALL_CONTROL, CHOICE_5, HELP_5, EXPIRY_1, CODE_5, UNSUPPORTED_CODE, "S 0 D607820282819901FF", "P 0 FF", "O 0"]
    return "\n".join(f"N 0 > 21 -\n{arrival} > 0 -\nO 0 > 22 -\nN 0 > 0 -" for arrival in arrivals)


ROUNDS = {
    "each arrival opens a round": each_opens(),
    "a round to its end": f"""
        {registered(1, 2, 3)}
        N 0 > 21 -
        {UNRECOGNIZED} > 0 - turns 03 02 01 -
        N 0 > 21 -
        O 0 > 0 -""",
    "the last name is not the end": f"""
        {registered(1)}
        {UNRECOGNIZED} > 0 - turns 01
        O 0 > 22 -
        N 0 > 0 -
        O 0 > 0 -""",
    "neither a delete nor a lock of the last one left is the end": f"""
        {registered(1, 2)}
        {UNRECOGNIZED} > 0 - turns 02
        L 1 > 0 -
        O 0 > 22 -
        N 0 > 0 -
        U 1 > 0 -
        {UNRECOGNIZED} > 0 - turns 02
        D 1 > 0 -
        O 0 > 22 -
        N 0 > 0 -
        O 0 > 0 -""",
    "locked while waiting": f"""
        {registered(1, 2, 3)}
        {UNRECOGNIZED} > 0 - turns 03
        L 2 > 0 - turns 01 -
        U 2 > 0 -
        N 0 > 21 -""",
    "locked on arrival, unlocked in time": f"""
        {registered(1, 2, 3)}
        L 3 > 0 -
        {UNRECOGNIZED} > 0 -
        U 3 > 0 - turns 03 02 01 -""",
    "unlocked late, behind a later one": f"""
        {registered(1, 2, 3)}
        L 3 > 0 -
        {UNRECOGNIZED} > 0 - turns 02
        U 3 > 0 - turns 03 01 -
        L 3 > 0 -
        {UNRECOGNIZED} > 0 - turns 02 01
        U 3 > 0 - turns 03 -""",
    "locked and unlocked after its turn": f"""
        {registered(1, 2)}
        {UNRECOGNIZED} > 0 - turns 02
        L 2 > 0 -
        U 2 > 0 - turns 01 -""",
    "registered late": f"""
        {registered(1, 2)}
        {plain(3)}
        {UNRECOGNIZED} > 0 -
        E 3 FFFF > 0 - turns 02 01 -
        {UNRECOGNIZED} > 0 - turns 03 02 01 -""",
    "lost, and regained": f"""
        {registered(1, 2, 3)}
        {UNRECOGNIZED} > 0 -
        C 3 FFFF > 0 - turns 02
        E 3 FFFF > 0 - turns 03 01 -
        {UNRECOGNIZED} > 0 -
        C 3 FFFF > 0 -
        C 2 FFFF > 0 -
        E 2 FFFF > 0 - turns 02 01 -""",
    "deleted and installed again": f"""
        {registered(1, 2, 3)}
        {UNRECOGNIZED} > 0 -
        D 3 > 0 -
        {registered(3)} turns 02
        D 2 > 0 -
        {registered(2)} turns 01 -
        {UNRECOGNIZED} > 0 - turns 02 03 01 -""",
    "call control that changes hands": f"""
        {plain(1, 2)}
        E 1 0009 > 0 -
        {CALL_CONTROL} > 0 -
        C 1 0009 > 0 -
        E 2 0009 > 0 - turns -
        {CALL_CONTROL} > 0 -
        C 2 0009 > 0 -
        E 1 0009 > 0 -
        C 1 0009 > 0 -
        E 2 0009 > 0 - turns 02 -""",
    "a row whose applet is locked, or deleted and installed again": f"""
        I 1 {INSTALL} > 0 -
        M 1 0141 > 0 05
        L 1 > 0 -
        {CHOICE_5} > 0 -
        U 1 > 0 - turns 01 -
        {HELP_5} > 0 -
        L 1 > 0 - turns -
        U 1 > 0 -
        {CHOICE_5} > 0 -
        D 1 > 0 -
        I 1 {INSTALL} > 0 -
        M 1 0041 > 0 05
        N 0 > 0 -
        {HELP_5} > 0 - turns -
        {CHOICE_5} > 0 - turns 01
        {CHOICE_5} > 0 -
        D 1 > 0 -
        I 2 {INSTALL} > 0 -
        M 2 0041 > 0 05
        N 0 > 0 -""",
    "a row made late": f"""
        I 1 {INSTALL} > 0 -
        {CHOICE_5} > 0 -
        M 1 0041 > 0 05
        N 0 > 0 -""",
    "a timer whose owner is locked, deleted, or another": f"""
        {plain(1, 2)}
        T 1 > 0 01
        {EXPIRY_1} > 0 -
        L 1 > 0 -
        U 1 > 0 - turns 01 -
        {EXPIRY_1} > 0 -
        D 1 > 0 -
        T 2 > 0 01
        N 0 > 0 -
        {EXPIRY_1} > 0 -
        D 2 > 0 -
        {plain(2)}
        T 2 > 0 01
        N 0 > 0 -
        {EXPIRY_1} > 0 - turns 02 -""",
    "any accepted arrival replaces the round": f"""
        {registered(1, 2, 3)}
        E 1 0001 > 0 -
        E 2 0011 > 0 -
        {UNRECOGNIZED} > 0 - turns 03
        {UNRECOGNIZED} > 0 - turns 03 02
        P 0 FF > 0 - turns 01
        {UNRECOGNIZED} > 0 - turns 03
        {CODE_5} > 0 - turns 02
        {UNRECOGNIZED} > 0 - turns 03
        {UNSUPPORTED_CODE} > 0 - turns -
        N 0 > 21 -""",
    "a refused arrival leaves the round": f"""
        {registered(1, 2, 3)}
        {UNRECOGNIZED} > 0 - turns 03
        S 0 C10100 > 1 -
        P 0 > 1 -
        O 0 > 22 - turns 02 01 -""",
    "16 before 22, and next with a command outstanding": f"""
        {registered(1, 2)}
        E 1 000C > 0 -
        P 0 FF > 0 -
        W 0 > 0 D00C810301050082028182990100
        O 0 > 16 - turns -
        O 0 > 16 -
        N 0 > 21 -
        {UNRECOGNIZED} > 0 - turns 02
        O 0 > 16 -
        R 0 > 0 -
        O 0 > 22 - turns 01 -
        O 0 > 0 -""",
    "a one-shot whose round is replaced": f"""
        {plain(1, 2)}
        E 1 007B > 0 -
        E 2 007B > 0 -
        O 0 > 0 - turns 02
        {UNRECOGNIZED} > 0 - turns -
        O 0 > 0 - turns 01 -
        O 0 > 0 - turns -""",
    "a one-shot at a turn of another round": f"""
        {registered(1)}
        E 1 0001 > 0 -
        E 1 007B > 0 -
        {UNRECOGNIZED} > 0 - turns 01 -
        P 0 FF > 0 - turns 01 -
        O 0 > 0 - turns 01 -
        O 0 > 0 - turns -""",
    "a one-shot set again after its turn": f"""
        {plain(1)}
        E 1 007B > 0 -
        O 0 > 0 - turns 01
        E 1 007B > 0 - turns -
        O 0 > 0 - turns 01 -
        O 0 > 0 - turns -""",
    "a one-shot cleared, set again, set late": f"""
        {plain(1, 2, 3)}
        E 1 007B > 0 -
        E 2 007B > 0 -
        O 0 > 0 -
        C 1 007B > 0 -
        E 3 007B > 0 - turns 02 -
        O 0 > 0 -
        C 3 007B > 0 -
        E 3 007B > 0 - turns 03 -
        O 0 > 0 - turns -""",
    "a one-shot of one that is locked, unlocked, deleted": f"""
        {plain(1, 2, 3)}
        E 1 007B > 0 -
        E 2 007B > 0 -
        E 3 007B > 0 -
        L 1 > 0 -
        O 0 > 0 - turns 03
        D 2 > 0 -
        {plain(2)}
        E 2 007B > 0 - turns -
        U 1 > 0 -
        O 0 > 0 - turns 02 01 -
        O 0 > 0 - turns -""",
}
